//! Broad records, and random ones whose number of channels is known, about the largest of a chart.

use crate::chart::Chart;
use crate::lines::MAX_CHANNELS;
use crate::random::Generator;
use crate::record::{Edge, Record, MAX_EDGES, MAX_VERTICES};
use crate::refusal::Refusal;

/// Whether the chart of the record is refused for its channels.
pub fn is_broad(record: &Record) -> bool {
    Chart::draw(record).err() == Some(Refusal::Broad)
}

/// A sound record of 30 to 33 channels: none of them given, some, as many as a chart may have, all.
pub fn near_limit(generator: &mut Generator) -> Record {
    let count = generator.between(MAX_CHANNELS - 1, MAX_CHANNELS + 2);
    let some = generator.between(1, count - 1);
    let most = MAX_CHANNELS.min(count);
    let given = generator.pick(&[0, 0, some, most, count]).unwrap_or(0);
    of_channels(generator, given, count - given)
}

/// A sound record with so many given channels and so many planned ones, which no other plan of the
/// vertices left is below: one to 128 in all.
///
/// Every vertex has a level and every edge rises, so that vertices of one level are unrelated. All
/// planned channels have a vertex on one level; the given ones stand on any.
pub fn of_channels(generator: &mut Generator, given: usize, planned: usize) -> Record {
    let levels = (MAX_VERTICES / (given + planned)).min(6);
    let shared = generator.below(levels);
    let mut vertices: Vec<usize> = (0..MAX_VERTICES).collect();
    generator.shuffle(&mut vertices);
    // A level and a vertex for each place of each channel, planned channels first.
    let mut channels: Vec<Vec<(usize, usize)>> = Vec::new();
    let mut vertex_count = 0;
    for number in 0..given + planned {
        let own = generator.below(levels);
        let sure = if number < planned { shared } else { own };
        let chosen = (0..levels).filter(|&level| level == sure || generator.percent(40));
        let channel: Vec<usize> = chosen.collect();
        channels.push(channel.into_iter().zip(vertex_count..).collect());
        vertex_count += channels[number].len();
    }
    // The vertices' numbers say nothing of their channels.
    vertices.retain(|&vertex| vertex < vertex_count);
    for (_, vertex) in channels.iter_mut().flatten() {
        *vertex = vertices[*vertex];
    }
    let edges = rising_edges(generator, &channels);
    let lists = channels.split_off(planned).into_iter();
    let lists = lists.map(|channel| channel.into_iter().map(|(_, vertex)| vertex).collect());
    Record {
        channels: (given > 0).then(|| lists.collect()),
        ..Record::new(vertex_count, edges)
    }
}

/// The edges along the channels and some others, each to a higher level.
fn rising_edges(generator: &mut Generator, channels: &[Vec<(usize, usize)>]) -> Vec<Edge> {
    let edge = |pair: &[(usize, usize)]| Edge::new(pair[0].1, pair[1].1);
    let along = channels.iter().flat_map(|channel| channel.windows(2));
    let mut edges: Vec<Edge> = along.map(edge).collect();
    let all: Vec<(usize, usize)> = channels.iter().flatten().copied().collect();
    let share = generator.below(80);
    let mut others = Vec::new();
    for &low in &all {
        for &high in &all {
            let other = edge(&[low, high]);
            if low.0 < high.0 && generator.percent(share) && !edges.contains(&other) {
                others.push(other);
            }
        }
    }
    generator.shuffle(&mut others);
    others.truncate(MAX_EDGES - edges.len());
    edges.extend(others);
    generator.shuffle(&mut edges);
    edges
}
