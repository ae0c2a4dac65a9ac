//! The chart: all that is handed over.

use crate::bundles::{Bundle, Bundling};
use crate::columns::{track_column, Columns};
use crate::descent::Reachability;
use crate::geometry::Place;
use crate::kinds::{kind, Kind};
use crate::lines::{Channels, MAX_CHANNELS};
use crate::marks::is_transitive;
use crate::record::{Edge, Record, MAX_EDGES, MAX_VERTICES};
use crate::refusal::Refusal;
use crate::rows;

/// The counts of a chart.
#[derive(Clone, Copy, Debug, PartialEq, Eq)]
pub struct Counts {
    /// The number of rows.
    pub rows: usize,
    /// The number of channels.
    pub channels: usize,
    /// The number of reduced (firm) edges.
    pub reduced_edges: usize,
    /// The number of bundles.
    pub bundles: usize,
    /// The number of columns.
    pub width: usize,
    /// The number of tracks of each channel, 0 past the last.
    pub tracks: [usize; MAX_VERTICES],
}

impl Counts {
    /// The counts that come with a refusal.
    pub const ZERO: Counts = Counts {
        rows: 0,
        channels: 0,
        reduced_edges: 0,
        bundles: 0,
        width: 0,
        tracks: [0; MAX_VERTICES],
    };
}

/// What is told of a vertex.
#[derive(Clone, Copy, Debug, Default, PartialEq, Eq)]
pub struct VertexEntry {
    /// The number of its channel.
    pub channel: usize,
    /// Its position in the channel.
    pub position: usize,
    /// Its column.
    pub column: usize,
    /// Its row.
    pub row: usize,
    /// The number of vertices that it reaches.
    pub descendants: usize,
    /// Its floor, 0 where the record has no floors.
    pub floor: usize,
}

/// What is told of an edge.
#[derive(Clone, Copy, Debug, Default, PartialEq, Eq)]
pub struct EdgeEntry {
    /// Its number.
    pub number: usize,
    /// How it is drawn.
    pub kind: Kind,
    /// Whether it is reduced (firm) and not transitive (implied).
    pub reduced: bool,
}

/// A whole chart.
#[derive(Clone, Debug, PartialEq, Eq)]
pub struct Chart {
    /// The counts.
    pub counts: Counts,
    /// An entry for each vertex.
    pub vertices: Vec<VertexEntry>,
    /// An entry for each edge.
    pub edges: Vec<EdgeEntry>,
    /// The bundles.
    pub bundles: Vec<Bundle>,
}

impl Chart {
    /// Reads the record in `bytes` and draws it.
    pub fn read(bytes: &[u8]) -> Result<Chart, Refusal> {
        Chart::draw(&Record::parse(bytes)?)
    }

    /// Draws a record that passes the checks 2, 12 and 3 to 7 and is not broad.
    pub fn draw(record: &Record) -> Result<Chart, Refusal> {
        record.check()?;
        let (vertex_count, edges) = (record.vertex_count, &record.edges);
        let reach = Reachability::of(vertex_count, edges);
        let channels = Channels::of(record, &reach);
        if channels.lists().len() > MAX_CHANNELS {
            return Err(Refusal::Broad);
        }
        let floors = record.lowest_rows();
        let rows = rows::compacted(&floors, edges);
        let bundling = Bundling::of(edges, &channels, &rows);
        let columns = Columns::of(&bundling.track_counts);
        let vertices: Vec<VertexEntry> = (0..vertex_count)
            .map(|vertex| vertex_entry(vertex, &reach, &channels, &floors, &rows, &columns))
            .collect();
        let edges = edge_entries(edges, &reach, &channels, &bundling, &vertices);
        Ok(Chart {
            counts: Counts {
                rows: rows::count(&rows),
                channels: channels.lists().len(),
                reduced_edges: edges.iter().filter(|edge| edge.reduced).count(),
                bundles: bundling.bundles.len(),
                width: columns.width,
                tracks: padded(&bundling.track_counts),
            },
            vertices,
            edges,
            bundles: bundling.bundles,
        })
    }

    /// The place of a vertex.
    pub fn place(&self, vertex: usize) -> Place {
        self.vertices[vertex].place()
    }

    /// The places at which the drawing of edge `number`, which is `edge`, begins, turns and ends.
    pub fn route(&self, number: usize, edge: Edge) -> Vec<Place> {
        let (from, to) = (self.place(edge.tail), self.place(edge.head));
        match self.edges[number].kind {
            Kind::Path | Kind::Straight => vec![from, to],
            Kind::Bent { bend } => vec![from, bend, to],
            Kind::PathTransitive { bundle } => {
                let column = track_column(from.column, self.bundles[bundle].track);
                let turns = [Place::new(column, from.row), Place::new(column, to.row)];
                vec![from, turns[0], turns[1], to]
            }
        }
    }
}

impl VertexEntry {
    /// The vertex's column and row.
    pub fn place(&self) -> Place {
        Place::new(self.column, self.row)
    }
}

fn vertex_entry(
    vertex: usize,
    reach: &Reachability,
    channels: &Channels,
    floors: &[usize],
    rows: &[usize],
    columns: &Columns,
) -> VertexEntry {
    let slot = channels.slot(vertex);
    VertexEntry {
        channel: slot.channel,
        position: slot.position,
        column: columns.own[slot.channel],
        row: rows[vertex],
        descendants: reach.descendant_count(vertex),
        floor: floors[vertex],
    }
}

fn edge_entries(
    edges: &[Edge],
    reach: &Reachability,
    channels: &Channels,
    bundling: &Bundling,
    vertices: &[VertexEntry],
) -> Vec<EdgeEntry> {
    let places: Vec<Place> = vertices.iter().map(VertexEntry::place).collect();
    let entry = |(number, &edge): (usize, &Edge)| EdgeEntry {
        number,
        kind: kind(number, edge, channels, bundling, &places),
        reduced: !is_transitive(edge, reach),
    };
    edges.iter().enumerate().map(entry).collect()
}

/// The track counts, with 0 past the last channel.
fn padded(track_counts: &[usize]) -> [usize; MAX_VERTICES] {
    let mut all = [0; MAX_VERTICES];
    all[..track_counts.len()].copy_from_slice(track_counts);
    all
}

/// The lists that a caller lends.
pub struct Lists<'a> {
    /// Takes an entry for each vertex.
    pub vertices: &'a mut [VertexEntry],
    /// Takes an entry for each edge.
    pub edges: &'a mut [EdgeEntry],
    /// Takes the bundles.
    pub bundles: &'a mut [Bundle],
}

/// Lists of one's own, long enough for every chart, to be lent again and again.
pub struct Room {
    /// An entry for each vertex.
    pub vertices: Vec<VertexEntry>,
    /// An entry for each edge.
    pub edges: Vec<EdgeEntry>,
    /// The bundles, at most two a vertex.
    pub bundles: Vec<Bundle>,
}

impl Room {
    /// Empty entries, as many as any chart needs.
    pub fn new() -> Room {
        Room {
            vertices: vec![VertexEntry::default(); MAX_VERTICES],
            edges: vec![EdgeEntry::default(); MAX_EDGES],
            bundles: vec![Bundle::default(); 2 * MAX_VERTICES],
        }
    }

    /// How many entries each list has.
    pub fn lengths(&self) -> [usize; 3] {
        [self.vertices.len(), self.edges.len(), self.bundles.len()]
    }

    /// Draws a record into the first entries of the lists, so many of each.
    pub fn draw(&mut self, record: &[u8], lengths: [usize; 3]) -> (Option<Refusal>, Counts) {
        let lists = Lists {
            vertices: &mut self.vertices[..lengths[0]],
            edges: &mut self.edges[..lengths[1]],
            bundles: &mut self.bundles[..lengths[2]],
        };
        draw_into(record, lists)
    }
}

impl Default for Room {
    fn default() -> Room {
        Room::new()
    }
}

/// Draws the record in `bytes` into lent lists; entries past the needed ones stay as they are.
///
/// On a refusal the lists stay as they are and the counts are [`Counts::ZERO`].
pub fn draw_into(bytes: &[u8], lists: Lists<'_>) -> (Option<Refusal>, Counts) {
    match Chart::read(bytes).and_then(|chart| fill(&chart, lists)) {
        Ok(counts) => (None, counts),
        Err(refusal) => (Some(refusal), Counts::ZERO),
    }
}

/// Writes all entries, or none where a list is too short.
fn fill(chart: &Chart, lists: Lists<'_>) -> Result<Counts, Refusal> {
    let vertices = lists.vertices.get_mut(..chart.vertices.len());
    let edges = lists.edges.get_mut(..chart.edges.len());
    let bundles = lists.bundles.get_mut(..chart.bundles.len());
    let (Some(vertices), Some(edges), Some(bundles)) = (vertices, edges, bundles) else {
        return Err(Refusal::Short);
    };
    vertices.copy_from_slice(&chart.vertices);
    edges.copy_from_slice(&chart.edges);
    bundles.copy_from_slice(&chart.bundles);
    Ok(chart.counts)
}
