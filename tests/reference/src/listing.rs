//! The listing that the program prints, byte for byte. Every line ends with a line feed.

use crate::bundles::Bundle;
use crate::chart::{Chart, Counts, EdgeEntry, VertexEntry};
use crate::kinds::Kind;
use crate::record::{Edge, Record};
use crate::refusal::Refusal;

/// What the program prints for a record: the chart, or `refused` and the number.
pub fn listing(bytes: &[u8]) -> String {
    drawn(bytes).unwrap_or_else(|refusal| format!("{refusal}\n"))
}

fn drawn(bytes: &[u8]) -> Result<String, Refusal> {
    let record = Record::parse(bytes)?;
    let chart = Chart::draw(&record)?;
    let mut lines = vec![header(&record, &chart.counts)];
    let has_floors = record.floors.is_some();
    let vertices = (0..).zip(&chart.vertices);
    lines.extend(vertices.map(|(vertex, entry)| vertex_line(vertex, entry, has_floors)));
    let edges = record.edges.iter().zip(&chart.edges);
    lines.extend(edges.map(|(edge, entry)| edge_line(*edge, entry)));
    lines.extend((0..).zip(&chart.bundles).map(bundle_line));
    Ok(lines.join("\n") + "\n")
}

fn header(record: &Record, counts: &Counts) -> String {
    format!(
        "chart {} {} rows {} lines {} firm {} bundles {} width {}",
        record.vertex_count,
        record.edges.len(),
        counts.rows,
        counts.channels,
        counts.reduced_edges,
        counts.bundles,
        counts.width
    )
}

/// The floor stands last, where the record has the field.
fn vertex_line(vertex: usize, entry: &VertexEntry, has_floors: bool) -> String {
    let VertexEntry {
        channel,
        position,
        column,
        row,
        descendants: _,
        floor,
    } = entry;
    let line = format!("w {vertex} {channel} {position} {column} {row}");
    match has_floors {
        true => format!("{line} {floor}"),
        false => line,
    }
}

fn edge_line(edge: Edge, entry: &EdgeEntry) -> String {
    let kind = match entry.kind {
        Kind::Path => "S".to_string(),
        Kind::PathTransitive { bundle } => format!("B {bundle}"),
        Kind::Straight => "D".to_string(),
        Kind::Bent { bend } => format!("K {} {}", bend.column, bend.row),
    };
    let mark = if entry.reduced { 'f' } else { 'i' };
    format!(
        "a {} {} {} {kind} {mark}",
        entry.number, edge.tail, edge.head
    )
}

fn bundle_line((number, bundle): (usize, &Bundle)) -> String {
    let Bundle {
        channel,
        first_row,
        last_row,
        track,
    } = bundle;
    format!("b {number} {channel} {first_row} {last_row} {track}")
}
