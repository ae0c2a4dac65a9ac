//! The checks 2, 12 and 3 to 7 of a record, in their order (13).

use crate::descent::Reachability;
use crate::record::{Record, MAX_EDGES, MAX_FLOOR, MAX_VERTICES};
use crate::refusal::Refusal;
use std::collections::BTreeSet;

/// A check holds or fails for the whole record.
type Check = fn(&Record) -> bool;

/// Each check may rely on those before it.
const CHECKS: [(Refusal, Check); 7] = [
    (Refusal::Size, sizes_are_allowed),
    (Refusal::Floor, floors_are_allowed),
    (Refusal::UnknownVertex, vertices_are_known),
    (Refusal::DuplicateEdge, edges_are_distinct),
    (Refusal::Cycle, no_vertex_reaches_itself),
    (Refusal::Cover, channels_repeat_no_vertex),
    (Refusal::Broken, channels_follow_reachability),
];

/// The first check that fails, if one does.
pub fn first_failing(record: &Record) -> Option<Refusal> {
    CHECKS
        .iter()
        .find(|(_, holds)| !holds(record))
        .map(|&(refusal, _)| refusal)
}

fn sizes_are_allowed(record: &Record) -> bool {
    (1..=MAX_VERTICES).contains(&record.vertex_count) && record.edges.len() <= MAX_EDGES
}

fn floors_are_allowed(record: &Record) -> bool {
    record.floors.as_ref().is_none_or(|floors| {
        floors.len() == record.vertex_count && floors.iter().all(|&floor| floor <= MAX_FLOOR)
    })
}

fn vertices_are_known(record: &Record) -> bool {
    let in_edges = record.edges.iter().flat_map(|edge| [edge.tail, edge.head]);
    let in_channels = record.given().iter().flatten().copied();
    in_edges
        .chain(in_channels)
        .all(|vertex| vertex < record.vertex_count)
}

fn edges_are_distinct(record: &Record) -> bool {
    let mut met = BTreeSet::new();
    record.edges.iter().all(|edge| met.insert(edge))
}

fn no_vertex_reaches_itself(record: &Record) -> bool {
    !Reachability::of(record.vertex_count, &record.edges).has_cycle()
}

fn channels_repeat_no_vertex(record: &Record) -> bool {
    let mut held = BTreeSet::new();
    let mut in_channels = record.given().iter().flatten();
    in_channels.all(|vertex| held.insert(vertex))
}

fn channels_follow_reachability(record: &Record) -> bool {
    let reach = Reachability::of(record.vertex_count, &record.edges);
    let follows = |pair: &[usize]| reach.connection(pair[0], pair[1]).reaches();
    let mut given = record.given().iter();
    given.all(|channel| channel.windows(2).all(follows))
}
