//! Channels (lines): lists of vertices of which each reaches the next (3).

use crate::descent::Reachability;
use crate::record::Record;

/// The largest number of channels of a chart.
pub const MAX_CHANNELS: usize = 31;

/// Where a vertex stands among the channels.
#[derive(Clone, Copy, Debug, Default, PartialEq, Eq)]
pub struct Slot {
    /// The number of the channel.
    pub channel: usize,
    /// The position in the channel, from 0.
    pub position: usize,
}

/// All channels of a chart.
#[derive(Clone, Debug, PartialEq, Eq)]
pub struct Channels {
    lists: Vec<Vec<usize>>,
    slots: Vec<Slot>,
}

impl Channels {
    /// The given channels of a checked record, and then planned ones of the vertices left.
    pub fn of(record: &Record, reach: &Reachability) -> Channels {
        let lists = [record.given(), &plan(reach, &record.left())].concat();
        let mut slots = vec![Slot::default(); record.vertex_count];
        for (channel, list) in lists.iter().enumerate() {
            for (position, &vertex) in list.iter().enumerate() {
                slots[vertex] = Slot { channel, position };
            }
        }
        Channels { lists, slots }
    }

    /// The channels in their order.
    pub fn lists(&self) -> &[Vec<usize>] {
        &self.lists
    }

    /// Where `vertex` stands.
    pub fn slot(&self, vertex: usize) -> Slot {
        self.slots[vertex]
    }
}

/// Plans channels (3.3) of the vertices in `left`, which ascend: each asks for a successor, in
/// ascending order. The others neither ask nor are asked for, but routes go through them.
pub fn plan(reach: &Reachability, left: &[usize]) -> Vec<Vec<usize>> {
    let mut planner = Planner {
        reach,
        left,
        predecessors: vec![None; reach.vertex_count()],
    };
    for &vertex in left {
        planner.ask(vertex, &mut vec![false; reach.vertex_count()]);
    }
    planner.channels()
}

/// The state between two asks (3.3).
struct Planner<'a> {
    reach: &'a Reachability,
    left: &'a [usize],
    predecessors: Vec<Option<usize>>,
}

impl Planner<'_> {
    /// Looks for a successor of `asker` among the vertices not yet visited in this ask.
    ///
    /// A vertex with a predecessor is free if that one can be given another successor. Each call
    /// visits at least one more vertex before the next, so the search ends.
    fn ask(&mut self, asker: usize, visited: &mut [bool]) -> bool {
        for &vertex in self.left {
            if !self.reach.reaches(asker, vertex) || visited[vertex] {
                continue;
            }
            visited[vertex] = true;
            let free = match self.predecessors[vertex] {
                None => true,
                Some(holder) => self.ask(holder, visited),
            };
            if free {
                self.predecessors[vertex] = Some(asker);
                return true;
            }
        }
        false
    }

    /// Channels begin at the vertices without a predecessor, ascending.
    fn channels(&self) -> Vec<Vec<usize>> {
        let mut successors = vec![None; self.predecessors.len()];
        for (vertex, predecessor) in self.predecessors.iter().enumerate() {
            if let Some(holder) = predecessor {
                successors[*holder] = Some(vertex);
            }
        }
        let mut firsts = self.left.to_vec();
        firsts.retain(|&vertex| self.predecessors[vertex].is_none());
        let channel = |first| std::iter::successors(Some(first), |&last| successors[last]);
        let channels = firsts.into_iter().map(channel);
        channels.map(Iterator::collect).collect()
    }
}
