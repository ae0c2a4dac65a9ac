//! Damaged records: one fault or several, in what a record says or in its bytes.

// All faults of the bytes have one type, also those that keep the length.
#![allow(clippy::ptr_arg)]

use crate::random::{give_channels, give_floors, give_some_channels, Generator};
use crate::record::{push_field, split_fields, Edge, Record, MAX_BYTES, MAX_EDGES, MAX_FLOOR};
use crate::record::{MAX_VERTICES, TAG_CHANNELS, TAG_FLOORS, TAG_VERTICES};

/// A fault in what the record says.
pub type Fault = fn(&mut Record, &mut Generator);
/// A fault in the bytes.
pub type ByteFault = fn(&mut Vec<u8>, &mut Generator);

/// Every fault in what a record says.
pub const FAULTS: [Fault; 19] = [
    no_vertex,
    too_many_vertices,
    fewer_vertices,
    unknown_end,
    duplicate_edge,
    way_back,
    edge_to_itself,
    too_many_edges,
    vertex_twice_in_a_channel,
    vertex_in_two_channels,
    break_before_a_repeat,
    channel_out_of_order,
    channels_joined,
    unknown_in_channel,
    empty_channel,
    floor_too_high,
    floors_too_few,
    floors_too_many,
    floors_none,
];

/// Every fault in the bytes.
pub const BYTE_FAULTS: [ByteFault; 14] = [
    truncated,
    extended,
    bit_flipped,
    byte_changed,
    byte_lost,
    byte_added,
    tag_changed,
    length_changed,
    field_lost,
    field_twice,
    fields_swapped,
    oversized,
    floors_too_early,
    floors_twice,
];

/// The bytes of `record` with one to four faults.
pub fn damaged(mut record: Record, generator: &mut Generator) -> Vec<u8> {
    let several = [1, 1, 1, 2, 3, 4];
    let count = generator.pick(&several).unwrap_or(1);
    let in_bytes = generator.below(count + 1);
    for _ in in_bytes..count {
        if let Some(fault) = generator.pick(&FAULTS) {
            fault(&mut record, generator);
        }
    }
    let mut bytes = record.to_bytes();
    for _ in 0..in_bytes {
        if let Some(fault) = generator.pick(&BYTE_FAULTS) {
            fault(&mut bytes, generator);
        }
    }
    bytes
}

fn no_vertex(record: &mut Record, _: &mut Generator) {
    record.vertex_count = 0;
}

fn too_many_vertices(record: &mut Record, generator: &mut Generator) {
    let far = generator.between(MAX_VERTICES + 1, 255);
    record.vertex_count = generator
        .pick(&[MAX_VERTICES + 1, far])
        .unwrap_or(MAX_VERTICES + 1);
}

fn fewer_vertices(record: &mut Record, generator: &mut Generator) {
    record.vertex_count = generator.below(record.vertex_count + 1);
}

fn unknown_end(record: &mut Record, generator: &mut Generator) {
    let unknown = generator.between(record.vertex_count, 255);
    let known = generator.below(record.vertex_count);
    let ends = generator.pick(&[(unknown, known), (known, unknown), (unknown, unknown)]);
    let (tail, head) = ends.unwrap_or((unknown, unknown));
    insert_edge(record, Edge::new(tail, head), generator);
}

fn duplicate_edge(record: &mut Record, generator: &mut Generator) {
    if let Some(edge) = generator.pick(&record.edges) {
        insert_edge(record, edge, generator);
    }
}

/// An edge against a walk of one or more edges.
fn way_back(record: &mut Record, generator: &mut Generator) {
    let Some(first) = generator.pick(&record.edges) else {
        return;
    };
    let mut end = first.head;
    for _ in 0..generator.below(4) {
        let next: Vec<Edge> = record
            .edges
            .iter()
            .copied()
            .filter(|edge| edge.tail == end)
            .collect();
        end = generator.pick(&next).map_or(end, |edge| edge.head);
    }
    insert_edge(record, Edge::new(end, first.tail), generator);
}

/// An edge from a vertex to itself, now and then twice.
fn edge_to_itself(record: &mut Record, generator: &mut Generator) {
    let vertex = generator.below(record.vertex_count);
    for _ in 0..generator.between(1, 2) {
        insert_edge(record, Edge::new(vertex, vertex), generator);
    }
}

fn too_many_edges(record: &mut Record, generator: &mut Generator) {
    let count = MAX_EDGES + generator.between(1, 3);
    while record.edges.len() < count {
        let edge = Edge::new(
            generator.below(record.vertex_count),
            generator.below(record.vertex_count),
        );
        record.edges.push(edge);
    }
}

fn insert_edge(record: &mut Record, edge: Edge, generator: &mut Generator) {
    let place = generator.below(record.edges.len() + 1);
    record.edges.insert(place, edge);
}

/// The record's channels; where it gives none, good ones or else a channel for each vertex.
fn channels<'a>(record: &'a mut Record, generator: &mut Generator) -> &'a mut Vec<Vec<usize>> {
    if record.given().is_empty() && record.check().is_ok() {
        let give = [give_channels, give_some_channels];
        give[generator.below(2)](record, generator);
    }
    let alone = || (0..record.vertex_count).map(|v| vec![v]).collect();
    record.channels.get_or_insert_with(alone)
}

/// A channel has one of its vertices again, anywhere.
fn vertex_twice_in_a_channel(record: &mut Record, generator: &mut Generator) {
    let lists = channels(record, generator);
    let place = generator.below(lists.len());
    let list = lists.get_mut(place);
    if let Some(list) = list.filter(|list| list.len() < MAX_VERTICES) {
        let again = generator.below(list.len() + 1);
        if let Some(vertex) = generator.pick(list) {
            list.insert(again, vertex);
        }
    }
}

/// A vertex of a channel is at the end of another one too, or alone in one.
fn vertex_in_two_channels(record: &mut Record, generator: &mut Generator) {
    let lists = channels(record, generator);
    let held: Vec<usize> = lists.iter().flatten().copied().collect();
    let Some(vertex) = generator.pick(&held) else {
        return;
    };
    let other = |list: &&mut Vec<usize>| list.len() < MAX_VERTICES && !list.contains(&vertex);
    let place = generator.below(lists.len() + 1);
    match lists.get_mut(place).filter(other) {
        Some(list) => list.push(vertex),
        None => lists.push(vec![vertex]),
    }
}

/// The longest channel comes first, the wrong way round, and the last vertex of all is repeated.
fn break_before_a_repeat(record: &mut Record, generator: &mut Generator) {
    let lists = channels(record, generator);
    lists.sort_by_key(|list| std::cmp::Reverse(list.len()));
    if let Some(longest) = lists.first_mut() {
        longest.reverse();
    }
    if let Some(&last) = lists.last().and_then(|list| list.last()) {
        lists.push(vec![last]);
    }
}

/// Two neighbours of a channel change places.
fn channel_out_of_order(record: &mut Record, generator: &mut Generator) {
    let lists = channels(record, generator);
    let long: Vec<usize> = (0..lists.len()).filter(|&i| lists[i].len() > 1).collect();
    if let Some(place) = generator.pick(&long) {
        let list = &mut lists[place];
        let lower = generator.below(list.len() - 1);
        list.swap(lower, lower + 1);
    }
}

fn channels_joined(record: &mut Record, generator: &mut Generator) {
    let lists = channels(record, generator);
    generator.shuffle(lists);
    if let [.., one, other] = lists.as_mut_slice() {
        if one.len() + other.len() <= MAX_VERTICES {
            one.append(other);
            lists.pop();
        }
    }
}

fn unknown_in_channel(record: &mut Record, generator: &mut Generator) {
    let unknown = generator.between(record.vertex_count, 255);
    let lists = channels(record, generator);
    let place = generator.below(lists.len());
    match lists.get_mut(place).and_then(|list| list.last_mut()) {
        Some(vertex) => *vertex = unknown,
        None => lists.push(vec![unknown]),
    }
}

fn empty_channel(record: &mut Record, generator: &mut Generator) {
    let lists = channels(record, generator);
    lists.insert(generator.below(lists.len() + 1), Vec::new());
}

/// The record's floors; where it has none, good ones or else zeros.
fn floors<'a>(record: &'a mut Record, generator: &mut Generator) -> &'a mut Vec<usize> {
    if record.floors.is_none() && record.check().is_ok() {
        give_floors(record, generator);
    }
    let zeros = || vec![0; record.vertex_count];
    record.floors.get_or_insert_with(zeros)
}

fn floor_too_high(record: &mut Record, generator: &mut Generator) {
    let far = generator.between(MAX_FLOOR + 1, 255);
    let high = generator.pick(&[MAX_FLOOR + 1, far, 255]).unwrap_or(far);
    let floors = floors(record, generator);
    let place = generator.below(floors.len());
    match floors.get_mut(place) {
        Some(floor) => *floor = high,
        None => floors.push(high),
    }
}

fn floors_too_few(record: &mut Record, generator: &mut Generator) {
    let floors = floors(record, generator);
    let lost = generator.between(1, 3);
    floors.truncate(floors.len().saturating_sub(lost));
}

fn floors_too_many(record: &mut Record, generator: &mut Generator) {
    let floors = floors(record, generator);
    for _ in 0..generator.between(1, 3) {
        floors.push(generator.below(MAX_FLOOR + 1));
    }
}

/// An empty field, which is none of house lines alone.
fn floors_none(record: &mut Record, _: &mut Generator) {
    record.floors = Some(Vec::new());
}

fn truncated(bytes: &mut Vec<u8>, generator: &mut Generator) {
    bytes.truncate(generator.below(bytes.len()));
}

fn extended(bytes: &mut Vec<u8>, generator: &mut Generator) {
    for _ in 0..generator.between(1, 6) {
        let value = generator.pick(&[0, 0, 1, 2, 3, 255]);
        bytes.push(value.unwrap_or(0));
    }
}

fn bit_flipped(bytes: &mut Vec<u8>, generator: &mut Generator) {
    let bit = 1 << generator.below(8);
    change(bytes, generator, |byte, _| byte ^ bit);
}

fn byte_changed(bytes: &mut Vec<u8>, generator: &mut Generator) {
    change(bytes, generator, |_, generator| generator.below(256) as u8);
}

/// Changes one byte, as often in the first twelve as anywhere.
fn change(bytes: &mut [u8], generator: &mut Generator, to: impl FnOnce(u8, &mut Generator) -> u8) {
    let range = if generator.percent(50) {
        bytes.len().min(12)
    } else {
        bytes.len()
    };
    if let Some(byte) = bytes.get_mut(generator.below(range)) {
        *byte = to(*byte, generator);
    }
}

fn byte_lost(bytes: &mut Vec<u8>, generator: &mut Generator) {
    if !bytes.is_empty() {
        bytes.remove(generator.below(bytes.len()));
    }
}

fn byte_added(bytes: &mut Vec<u8>, generator: &mut Generator) {
    let place = generator.below(bytes.len() + 1);
    bytes.insert(place, generator.below(256) as u8);
}

/// Where the heads of the fields stand, as far as they can be told.
fn heads(bytes: &[u8]) -> Vec<usize> {
    let next = |&head: &usize| {
        let length = u16::from_be_bytes([*bytes.get(head + 1)?, *bytes.get(head + 2)?]);
        Some(head + 3 + usize::from(length)).filter(|&next| next < bytes.len())
    };
    let first = (!bytes.is_empty()).then_some(0);
    std::iter::successors(first, next).collect()
}

fn tag_changed(bytes: &mut Vec<u8>, generator: &mut Generator) {
    if let Some(head) = generator.pick(&heads(bytes)) {
        let any = generator.below(256) as u8;
        bytes[head] = generator.pick(&[0, 1, 2, 3, 4, 5, any]).unwrap_or(any);
    }
}

/// Adds a little to a length, or takes it away.
fn length_changed(bytes: &mut Vec<u8>, generator: &mut Generator) {
    let Some(head) = generator.pick(&heads(bytes)) else {
        return;
    };
    if let Some([high, low]) = bytes.get_mut(head + 1..head + 3) {
        let length = u16::from_be_bytes([*high, *low]);
        let step = generator.pick(&[1, 2, 256, u16::MAX, u16::MAX - 1]);
        [*high, *low] = length.wrapping_add(step.unwrap_or(1)).to_be_bytes();
    }
}

/// The fields as they can be told, joined again after `change`.
fn change_fields(bytes: &mut Vec<u8>, change: impl FnOnce(&mut Vec<(u8, &[u8])>)) {
    let mut joined = Vec::new();
    if let Some(mut fields) = split_fields(bytes) {
        change(&mut fields);
        for (tag, content) in fields {
            push_field(&mut joined, tag, content);
        }
        *bytes = joined;
    }
}

fn field_lost(bytes: &mut Vec<u8>, generator: &mut Generator) {
    change_fields(bytes, |fields| {
        if !fields.is_empty() {
            fields.remove(generator.below(fields.len()));
        }
    });
}

fn field_twice(bytes: &mut Vec<u8>, generator: &mut Generator) {
    change_fields(bytes, |fields| {
        if let Some(field) = generator.pick(fields) {
            fields.insert(generator.below(fields.len() + 1), field);
        }
    });
}

fn fields_swapped(bytes: &mut Vec<u8>, generator: &mut Generator) {
    change_fields(bytes, |fields| generator.shuffle(fields));
}

/// A field of good channels or of floors so long that the record is one byte too long, or just not.
fn oversized(bytes: &mut Vec<u8>, generator: &mut Generator) {
    let over = generator.below(2);
    change_fields(bytes, |fields| {
        fields.retain(|&(tag, _)| tag != TAG_CHANNELS && tag != TAG_FLOORS);
    });
    let left = (MAX_BYTES + over).saturating_sub(bytes.len() + 3);
    let (tag, content) = match generator.percent(50) {
        true => (TAG_CHANNELS, long_channels(bytes, left, generator)),
        false => (TAG_FLOORS, vec![0; left]),
    };
    if content.len() <= MAX_BYTES {
        push_field(bytes, tag, &content);
    }
}

/// So many bytes of channels, all of one vertex.
fn long_channels(bytes: &[u8], mut left: usize, generator: &mut Generator) -> Vec<u8> {
    let vertices = bytes.get(3).copied().filter(|_| bytes[0] == TAG_VERTICES);
    let vertex = generator.below(usize::from(vertices.unwrap_or(1))) as u8;
    let mut content = Vec::new();
    while left >= 2 {
        // A last byte alone would be no channel, so the one before leaves two.
        let length = if left == 257 { 254 } else { left.min(256) - 1 };
        content.push(length as u8);
        content.extend(std::iter::repeat_n(vertex, length));
        left -= length + 1;
    }
    content
}

/// The field of floors: the record's own, or one of a zero for each vertex.
fn floors_field<'a>(fields: &[(u8, &'a [u8])]) -> (u8, &'a [u8]) {
    const ZEROS: [u8; 255] = [0; 255];
    let vertices = fields.first().and_then(|(_, content)| content.first());
    let zeros = &ZEROS[..usize::from(vertices.copied().unwrap_or(1))];
    let mut own = fields.iter().filter(|(tag, _)| *tag == TAG_FLOORS);
    own.next().copied().unwrap_or((TAG_FLOORS, zeros))
}

/// Floors stand before the last of the other fields: before the channels, if there are any.
fn floors_too_early(bytes: &mut Vec<u8>, _: &mut Generator) {
    change_fields(bytes, |fields| {
        let floors = floors_field(fields);
        fields.retain(|&(tag, _)| tag != TAG_FLOORS);
        fields.insert(fields.len().saturating_sub(1), floors);
    });
}

/// Floors stand twice at the end.
fn floors_twice(bytes: &mut Vec<u8>, _: &mut Generator) {
    change_fields(bytes, |fields| {
        let floors = floors_field(fields);
        fields.retain(|&(tag, _)| tag != TAG_FLOORS);
        fields.extend([floors; 2]);
    });
}
