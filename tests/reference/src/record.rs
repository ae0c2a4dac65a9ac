//! The record: its bytes, and what stands in them.
//!
//! Vertices are words, edges arrows, given channels house lines (1); floors have their own name.

use crate::checks;
use crate::refusal::Refusal;

/// The largest number of vertices.
pub const MAX_VERTICES: usize = 128;
/// The largest number of edges.
pub const MAX_EDGES: usize = 4096;
/// The highest floor.
pub const MAX_FLOOR: usize = 127;
/// The largest number of bytes of a record.
pub const MAX_BYTES: usize = 65_535;

/// The field that holds the number of vertices.
pub const TAG_VERTICES: u8 = 1;
/// The field that holds the edges.
pub const TAG_EDGES: u8 = 2;
/// The field that holds the given channels.
pub const TAG_CHANNELS: u8 = 3;
/// The field that holds the floors.
pub const TAG_FLOORS: u8 = 4;

/// An edge from its tail to its head.
#[derive(Clone, Copy, Debug, PartialEq, Eq, PartialOrd, Ord, Hash)]
pub struct Edge {
    /// The vertex at which the edge begins.
    pub tail: usize,
    /// The vertex at which the edge ends.
    pub head: usize,
}

impl Edge {
    /// The edge from `tail` to `head`.
    pub fn new(tail: usize, head: usize) -> Edge {
        Edge { tail, head }
    }
}

/// What a record says. Only its layout is sure; [`Record::check`] tells the rest.
#[derive(Clone, Debug, PartialEq, Eq)]
pub struct Record {
    /// The number of vertices.
    pub vertex_count: usize,
    /// The edges in their order; the place in this list is the edge's number.
    pub edges: Vec<Edge>,
    /// The given channels, where the record has that field; an empty one gives none.
    pub channels: Option<Vec<Vec<usize>>>,
    /// The floors, the lowest row of each vertex, where the record has that field.
    pub floors: Option<Vec<usize>>,
}

impl Record {
    /// A graph, without given channels and floors.
    pub fn new(vertex_count: usize, edges: Vec<Edge>) -> Record {
        Record {
            vertex_count,
            edges,
            channels: None,
            floors: None,
        }
    }

    /// Takes the bytes apart: check 1.
    pub fn parse(bytes: &[u8]) -> Result<Record, Refusal> {
        parse_layout(bytes).ok_or(Refusal::Layout)
    }

    /// The checks 2, 12 and 3 to 7, in this order: the first that fails.
    pub fn check(&self) -> Result<(), Refusal> {
        checks::first_failing(self).map_or(Ok(()), Err)
    }

    /// The checks 1, 2, 12 and 3 to 7.
    pub fn read(bytes: &[u8]) -> Result<Record, Refusal> {
        let record = Record::parse(bytes)?;
        record.check()?;
        Ok(record)
    }

    /// The given channels, of all vertices, of some or of none.
    pub fn given(&self) -> &[Vec<usize>] {
        self.channels.as_deref().unwrap_or_default()
    }

    /// The same graph with these given channels.
    pub fn with_given(&self, channels: Vec<Vec<usize>>) -> Record {
        Record {
            channels: Some(channels),
            ..self.clone()
        }
    }

    /// The same graph and channels with these floors.
    pub fn with_floors(&self, floors: Vec<usize>) -> Record {
        Record {
            floors: Some(floors),
            ..self.clone()
        }
    }

    /// The floor of each vertex of a checked record: 0 where the record has no such field.
    pub fn lowest_rows(&self) -> Vec<usize> {
        let none = || vec![0; self.vertex_count];
        self.floors.clone().unwrap_or_else(none)
    }

    /// The vertices that no given channel holds, ascending.
    pub fn left(&self) -> Vec<usize> {
        let held = |vertex: &usize| self.given().iter().flatten().any(|other| other == vertex);
        (0..self.vertex_count)
            .filter(|vertex| !held(vertex))
            .collect()
    }

    /// The bytes that say this record.
    ///
    /// Panics where a number or a length does not fit into its bytes; no parsed record does that.
    pub fn to_bytes(&self) -> Vec<u8> {
        let mut bytes = Vec::new();
        push_field(&mut bytes, TAG_VERTICES, &[byte(self.vertex_count)]);
        let ends = self.edges.iter().flat_map(|edge| [edge.tail, edge.head]);
        push_field(&mut bytes, TAG_EDGES, &ends.map(byte).collect::<Vec<_>>());
        if let Some(channels) = &self.channels {
            let mut content = Vec::new();
            for channel in channels {
                content.push(byte(channel.len()));
                content.extend(channel.iter().copied().map(byte));
            }
            push_field(&mut bytes, TAG_CHANNELS, &content);
        }
        if let Some(floors) = &self.floors {
            let content: Vec<u8> = floors.iter().copied().map(byte).collect();
            push_field(&mut bytes, TAG_FLOORS, &content);
        }
        bytes
    }
}

/// The record in `bytes`, or nothing where they are not well laid out (1.3).
fn parse_layout(bytes: &[u8]) -> Option<Record> {
    if bytes.len() > MAX_BYTES {
        return None;
    }
    let fields = split_fields(bytes)?;
    let [(TAG_VERTICES, [vertex_count]), (TAG_EDGES, edges), more @ ..] = fields.as_slice() else {
        return None;
    };
    let (channels, floors) = match *more {
        [] => (None, None),
        [(TAG_CHANNELS, channels)] => (Some(channels), None),
        [(TAG_FLOORS, floors)] => (None, Some(floors)),
        [(TAG_CHANNELS, channels), (TAG_FLOORS, floors)] => (Some(channels), Some(floors)),
        _ => return None,
    };
    Some(Record {
        vertex_count: usize::from(*vertex_count),
        edges: split_edges(edges)?,
        channels: match channels {
            Some(content) => Some(split_channels(content)?),
            None => None,
        },
        floors: floors.map(|content| content.iter().copied().map(usize::from).collect()),
    })
}

/// Tags and contents of all fields; nothing where one runs past the end.
pub fn split_fields(bytes: &[u8]) -> Option<Vec<(u8, &[u8])>> {
    let mut fields = Vec::new();
    let mut rest = bytes;
    while !rest.is_empty() {
        let (head, body) = rest.split_at_checked(3)?;
        let length = u16::from_be_bytes([head[1], head[2]]);
        let (content, after) = body.split_at_checked(usize::from(length))?;
        fields.push((head[0], content));
        rest = after;
    }
    Some(fields)
}

/// Pairs of bytes as edges; nothing where a byte is left over.
fn split_edges(content: &[u8]) -> Option<Vec<Edge>> {
    let pairs = content.chunks_exact(2);
    if !pairs.remainder().is_empty() {
        return None;
    }
    let edge = |pair: &[u8]| Edge::new(usize::from(pair[0]), usize::from(pair[1]));
    Some(pairs.map(edge).collect())
}

/// The given channels; nothing where one is empty or runs past the field.
fn split_channels(content: &[u8]) -> Option<Vec<Vec<usize>>> {
    let mut channels = Vec::new();
    let mut rest = content;
    while let Some((&length, body)) = rest.split_first() {
        if length == 0 {
            return None;
        }
        let (channel, after) = body.split_at_checked(usize::from(length))?;
        channels.push(channel.iter().copied().map(usize::from).collect());
        rest = after;
    }
    Some(channels)
}

/// Adds a field: its tag, its length with the high byte first, its content.
pub(crate) fn push_field(bytes: &mut Vec<u8>, tag: u8, content: &[u8]) {
    let length = u16::try_from(content.len()).expect("a field's length has two bytes");
    bytes.push(tag);
    bytes.extend(length.to_be_bytes());
    bytes.extend(content);
}

fn byte(number: usize) -> u8 {
    u8::try_from(number).expect("the number has one byte")
}
