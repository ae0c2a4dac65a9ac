//! Bundles of path-transitive edges (side arrows), chosen greedily (6).

use crate::lines::Channels;
use crate::record::Edge;
use crate::tracks;
use std::cmp::Reverse;
use std::collections::BTreeMap;

/// A bundle of one channel.
#[derive(Clone, Copy, Debug, Default, PartialEq, Eq)]
pub struct Bundle {
    /// The channel that the bundle belongs to.
    pub channel: usize,
    /// The lowest row of its vertices.
    pub first_row: usize,
    /// The highest row of its vertices.
    pub last_row: usize,
    /// The track.
    pub track: usize,
}

/// All bundles, and which edge is in which.
#[derive(Clone, Debug, PartialEq, Eq)]
pub struct Bundling {
    /// The bundles by number.
    pub bundles: Vec<Bundle>,
    /// The bundle of each path-transitive edge, by edge number.
    pub bundle_of: BTreeMap<usize, usize>,
    /// The number of tracks of each channel.
    pub track_counts: Vec<usize>,
}

/// On which end the edges of a bundle meet. Of equal counts the first of these wins.
#[derive(Clone, Copy, PartialEq, Eq, PartialOrd, Ord)]
enum Direction {
    Into,
    OutOf,
}

/// A vertex of the channel by its position, and a direction.
type Hub = (Direction, usize);

impl Bundling {
    /// Bundles channel by channel, ascending.
    pub fn of(edges: &[Edge], channels: &Channels, rows: &[usize]) -> Bundling {
        let mut bundling = Bundling {
            bundles: Vec::new(),
            bundle_of: BTreeMap::new(),
            track_counts: Vec::new(),
        };
        for channel in 0..channels.lists().len() {
            let first = bundling.bundles.len();
            bundling.bundle_channel(channel, edges, channels, rows);
            let count = tracks::assign(&mut bundling.bundles[first..]);
            bundling.track_counts.push(count);
        }
        bundling
    }

    /// Takes the fullest hub's edges as the next bundle until no edge is left.
    fn bundle_channel(
        &mut self,
        channel: usize,
        edges: &[Edge],
        channels: &Channels,
        rows: &[usize],
    ) {
        let ends = |edge: usize| positions(edges[edge], channels);
        let mut left: Vec<usize> = (0..edges.len())
            .filter(|&edge| is_path_transitive(edges[edge], channel, channels))
            .collect();
        while let Some(hub) = fullest_hub(left.iter().map(|&edge| ends(edge))) {
            let (taken, rest): (Vec<usize>, Vec<usize>) = left
                .into_iter()
                .partition(|&edge| hubs(ends(edge)).contains(&hub));
            for &edge in &taken {
                self.bundle_of.insert(edge, self.bundles.len());
            }
            let bundle = covering(channel, taken.iter().map(|&edge| edges[edge]), rows);
            self.bundles.push(bundle);
            left = rest;
        }
    }
}

/// The positions of an edge's tail and head in their channels.
fn positions(edge: Edge, channels: &Channels) -> (usize, usize) {
    let (tail, head) = (channels.slot(edge.tail), channels.slot(edge.head));
    (tail.position, head.position)
}

/// Whether the edge joins two vertices of `channel` that are not next to each other there.
fn is_path_transitive(edge: Edge, channel: usize, channels: &Channels) -> bool {
    let (tail, head) = (channels.slot(edge.tail), channels.slot(edge.head));
    tail.channel == channel && head.channel == channel && tail.position.abs_diff(head.position) != 1
}

/// The two hubs at which an edge between these positions counts.
fn hubs((tail, head): (usize, usize)) -> [Hub; 2] {
    [(Direction::Into, head), (Direction::OutOf, tail)]
}

/// The hub with most edges; of equal ones 'into' first, then the lower position.
fn fullest_hub(edges: impl Iterator<Item = (usize, usize)>) -> Option<Hub> {
    let mut counts: BTreeMap<Hub, usize> = BTreeMap::new();
    for hub in edges.flat_map(hubs) {
        *counts.entry(hub).or_insert(0) += 1;
    }
    counts
        .into_iter()
        .max_by_key(|&(hub, count)| (count, Reverse(hub)))
        .map(|(hub, _)| hub)
}

/// A bundle over every row from the lowest to the highest end of `edges`, on no track yet.
fn covering(channel: usize, edges: impl Iterator<Item = Edge>, rows: &[usize]) -> Bundle {
    let ends = edges.flat_map(|edge| [rows[edge.tail], rows[edge.head]]);
    let (first_row, last_row) = ends.fold((usize::MAX, 0), |(low, high), row| {
        (low.min(row), high.max(row))
    });
    Bundle {
        channel,
        first_row,
        last_row,
        track: 0,
    }
}
