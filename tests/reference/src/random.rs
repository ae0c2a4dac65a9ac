//! Random records of all sizes and shapes. The same seed gives the same records everywhere.

use crate::breadth::near_limit;
use crate::damage;
use crate::descent::Reachability;
use crate::record::{Edge, Record, MAX_EDGES, MAX_FLOOR, MAX_VERTICES};
use crate::rows;
use crate::session::{Call, LentCall};

/// A source of numbers: xorshift64*, made ready from the seed by one step of another mixer.
#[derive(Clone, Debug)]
pub struct Generator {
    state: u64,
}

impl Generator {
    /// The source for a seed; every seed is good.
    pub fn new(seed: u64) -> Generator {
        let mixed = seed.wrapping_add(0x9E37_79B9_7F4A_7C15);
        let mixed = (mixed ^ (mixed >> 30)).wrapping_mul(0xBF58_476D_1CE4_E5B9);
        Generator {
            state: (mixed ^ (mixed >> 27)).max(1),
        }
    }

    /// The next 64 bits.
    pub fn bits(&mut self) -> u64 {
        self.state ^= self.state >> 12;
        self.state ^= self.state << 25;
        self.state ^= self.state >> 27;
        self.state.wrapping_mul(0x2545_F491_4F6C_DD1D)
    }

    /// A number below `bound`, or 0 for a bound of 0.
    pub fn below(&mut self, bound: usize) -> usize {
        let high = self.bits() >> 32;
        ((high * bound as u64) >> 32) as usize
    }

    /// A number from `low` to `high`, both included.
    pub fn between(&mut self, low: usize, high: usize) -> usize {
        low + self.below(high - low + 1)
    }

    /// True in so many of a hundred cases.
    pub fn percent(&mut self, share: usize) -> bool {
        self.below(100) < share
    }

    /// One of the items, if there are any.
    pub fn pick<T: Copy>(&mut self, items: &[T]) -> Option<T> {
        items.get(self.below(items.len())).copied()
    }

    /// Puts the items in any order.
    pub fn shuffle<T>(&mut self, items: &mut [T]) {
        for last in (1..items.len()).rev() {
            items.swap(last, self.below(last + 1));
        }
    }
}

/// What a random graph looks like.
#[derive(Clone, Copy, Debug, PartialEq, Eq)]
pub enum Shape {
    /// No edges.
    Empty,
    /// About as many edges as vertices.
    Sparse,
    /// Half of all edges that can be, or more.
    Dense,
    /// One after the other, with some longer edges.
    Chain,
    /// From a lower part to the rest.
    Bipartite,
    /// Small rows, edges from each to the next two.
    Layered,
    /// At most one edge into each vertex.
    Forest,
    /// As many vertices and edges as a record may have.
    Full,
}

/// Every shape.
pub const SHAPES: [Shape; 8] = [
    Shape::Empty,
    Shape::Sparse,
    Shape::Dense,
    Shape::Chain,
    Shape::Bipartite,
    Shape::Layered,
    Shape::Forest,
    Shape::Full,
];

/// A random record, sound or damaged.
pub fn record(generator: &mut Generator) -> Vec<u8> {
    let sound = sound_record(generator);
    if generator.percent(60) {
        sound.to_bytes()
    } else {
        damage::damaged(sound, generator)
    }
}

/// A random record that passes the checks 1, 2, 12 and 3 to 7, a third of them with given channels,
/// of all vertices or of some, and a third with floors. Some are broad, and some have just as many
/// channels as a chart may have.
pub fn sound_record(generator: &mut Generator) -> Record {
    let mut record = if generator.percent(3) {
        near_limit(generator)
    } else {
        shaped_record(generator)
    };
    if generator.percent(33) {
        give_floors(&mut record, generator);
    }
    record
}

/// A record of one of the shapes, without floors.
fn shaped_record(generator: &mut Generator) -> Record {
    let weighted = [
        Shape::Empty,
        Shape::Sparse,
        Shape::Sparse,
        Shape::Dense,
        Shape::Dense,
        Shape::Chain,
        Shape::Chain,
        Shape::Bipartite,
        Shape::Layered,
        Shape::Layered,
        Shape::Layered,
        Shape::Forest,
    ];
    let shape = if generator.percent(1) {
        Shape::Full
    } else {
        generator.pick(&weighted).unwrap_or(Shape::Sparse)
    };
    let size = size(generator);
    let mut record = graph(generator, shape, size);
    match generator.below(6) {
        0 => give_channels(&mut record, generator),
        1 => give_some_channels(&mut record, generator),
        _ => {}
    }
    record
}

/// A number of vertices: most are small, some as large as can be.
fn size(generator: &mut Generator) -> usize {
    match generator.below(100) {
        0..=39 => generator.between(1, 6),
        40..=74 => generator.between(7, 16),
        75..=91 => generator.between(17, 48),
        92..=98 => generator.between(49, MAX_VERTICES),
        _ => MAX_VERTICES,
    }
}

/// A graph of the given shape without a cycle. `Full` has its own number of vertices.
pub fn graph(generator: &mut Generator, shape: Shape, size: usize) -> Record {
    let size = if shape == Shape::Full {
        MAX_VERTICES
    } else {
        size
    };
    let mut pairs = rising_pairs(generator, shape, size);
    let mut names: Vec<usize> = (0..size).collect();
    if generator.percent(60) {
        generator.shuffle(&mut names);
    }
    generator.shuffle(&mut pairs);
    pairs.truncate(MAX_EDGES);
    if generator.percent(20) {
        pairs.sort_unstable();
    }
    let named = |(low, high): (usize, usize)| Edge::new(names[low], names[high]);
    Record::new(size, pairs.into_iter().map(named).collect())
}

/// Different pairs of a lower and a higher number below `size`.
fn rising_pairs(generator: &mut Generator, shape: Shape, size: usize) -> Vec<(usize, usize)> {
    let share = generator.between(50, 100);
    let lower = generator.between(1, size);
    let breadth = generator.between(1, 5);
    let few = 150 / size.max(1) + 1;
    let mut pairs = Vec::new();
    for high in 0..size {
        let parent = generator.below(high + 2);
        for low in 0..high {
            let layers = high / breadth - low / breadth;
            let wanted = match shape {
                Shape::Empty => false,
                Shape::Sparse => generator.percent(few),
                Shape::Dense => generator.percent(share),
                Shape::Chain => low + 1 == high || generator.percent(few),
                Shape::Bipartite => low < lower && lower <= high && generator.percent(share),
                Shape::Layered => (1..=2).contains(&layers) && generator.percent(share / 2),
                Shape::Forest => low == parent,
                Shape::Full => true,
            };
            if wanted {
                pairs.push((low, high));
            }
        }
    }
    pairs
}

/// Gives the record channels of all its vertices that follow its reachability, in any order.
pub fn give_channels(record: &mut Record, generator: &mut Generator) {
    record.channels = Some(covering_channels(record, generator));
}

/// Gives it such channels of some vertices: up to three whole ones, what stays of all where
/// vertices are taken out, or an empty field.
pub fn give_some_channels(record: &mut Record, generator: &mut Generator) {
    let mut channels = covering_channels(record, generator);
    match generator.below(8) {
        0 => channels.clear(),
        1..=3 => channels.truncate(generator.between(1, 3)),
        _ => {
            let share = generator.between(10, 90);
            for channel in &mut channels {
                channel.retain(|_| generator.percent(share));
            }
            channels.retain(|channel| !channel.is_empty());
        }
    }
    record.channels = Some(channels);
}

/// Channels that hold every vertex.
fn covering_channels(record: &Record, generator: &mut Generator) -> Vec<Vec<usize>> {
    let reach = Reachability::of(record.vertex_count, &record.edges);
    let rows = rows::compacted(&vec![0; record.vertex_count], &record.edges);
    let alone = generator.below(60);
    let mut order: Vec<usize> = (0..record.vertex_count).collect();
    generator.shuffle(&mut order);
    order.sort_by_key(|&vertex| rows[vertex]);
    let mut channels: Vec<Vec<usize>> = Vec::new();
    for vertex in order {
        let ends_before = |channel: &Vec<usize>| {
            let last = channel.last();
            last.is_some_and(|&last| reach.reaches(last, vertex))
        };
        let fitting: Vec<usize> = (0..channels.len())
            .filter(|&number| ends_before(&channels[number]))
            .collect();
        match generator.pick(&fitting) {
            Some(number) if !generator.percent(alone) => channels[number].push(vertex),
            _ => channels.push(vec![vertex]),
        }
    }
    generator.shuffle(&mut channels);
    channels
}

/// Gives the record floors: all zeros, all as high as can be, small ones, any, a few high ones among
/// zeros, or centuries, which rise about as the rows do.
pub fn give_floors(record: &mut Record, generator: &mut Generator) {
    let (kind, century) = (generator.below(8), generator.between(1, 9));
    let floor = |row: usize| match kind {
        0 => 0,
        1 => MAX_FLOOR,
        2 => generator.below(4),
        3 => generator.between(0, MAX_FLOOR),
        4 => generator
            .pick(&[0, 0, 0, 1, MAX_FLOOR - 1, MAX_FLOOR])
            .unwrap_or(0),
        _ => (century * (row + generator.below(3))).min(MAX_FLOOR),
    };
    let rows = rows::compacted(&vec![0; record.vertex_count], &record.edges);
    record.floors = Some(rows.into_iter().map(floor).collect());
}

/// A number of vertices for a session, now and then a wrong one, and calls on it.
pub fn calls(generator: &mut Generator) -> (usize, Vec<Call>) {
    let size = match generator.below(20) {
        0 => generator.between(0, 300),
        1 => MAX_VERTICES,
        _ => generator.between(1, 12),
    };
    let count = generator.below(4 * size + 2);
    let call = |_| {
        let beyond = usize::from(generator.percent(10)) * 3;
        let mut ends = [(); 2].map(|()| generator.below(size + beyond));
        if generator.percent(60) {
            ends.sort_unstable();
        }
        if generator.percent(70) {
            Call::Add(ends[0], ends[1])
        } else {
            Call::Leads(ends[0], ends[1])
        }
    };
    (size, (0..count).map(call).collect())
}

/// Calls on a lent list: one to three sessions, and between their calls starts that are refused.
pub fn lent_calls(generator: &mut Generator) -> Vec<LentCall> {
    let mut script = Vec::new();
    for _ in 0..generator.between(1, 3) {
        let (size, calls) = calls(generator);
        script.push(LentCall::Start(size));
        for call in calls {
            if generator.percent(4) {
                let wrong = [0, MAX_VERTICES + 1, usize::MAX];
                script.extend(generator.pick(&wrong).map(LentCall::Start));
            }
            script.push(LentCall::On(call));
        }
    }
    script
}
