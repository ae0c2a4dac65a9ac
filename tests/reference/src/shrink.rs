//! Makes a record smaller for as long as something still holds of it.
//!
//! Smaller means fewer bytes, or as many and lower ones. Every step makes the record smaller, so
//! the search ends; then no single step of those below can be taken.

use crate::record::{Edge, Record};

/// The smallest record found for which `holds` is still true; `bytes` itself where it never was.
pub fn shrink(bytes: &[u8], mut holds: impl FnMut(&[u8]) -> bool) -> Vec<u8> {
    let mut smallest = bytes.to_vec();
    if !holds(bytes) {
        return smallest;
    }
    loop {
        let before = smallest.clone();
        shrink_record(&mut smallest, &mut holds);
        shrink_bytes(&mut smallest, &mut holds);
        if smallest == before {
            return smallest;
        }
    }
}

/// Takes the candidate if it is smaller and `holds` is true of it.
fn take(smallest: &mut Vec<u8>, candidate: Vec<u8>, holds: &mut impl FnMut(&[u8]) -> bool) -> bool {
    let size = |bytes: &[u8]| (bytes.len(), bytes.to_vec());
    let taken = size(&candidate) < size(smallest) && holds(&candidate);
    if taken {
        *smallest = candidate;
    }
    taken
}

/// Steps in what the record says: fewer vertices, fewer edges, shorter channels, fewer floors.
fn shrink_record(smallest: &mut Vec<u8>, holds: &mut impl FnMut(&[u8]) -> bool) {
    let Ok(mut record) = Record::parse(smallest) else {
        return;
    };
    let mut accept = |candidate: &Record| take(smallest, candidate.to_bytes(), holds);
    let fields: [fn(&mut Record); 2] = [
        |record| record.channels = None,
        |record| record.floors = None,
    ];
    for leave_out in fields {
        let mut bare = record.clone();
        leave_out(&mut bare);
        if accept(&bare) {
            record = bare;
        }
    }
    for vertex in (0..record.vertex_count).rev() {
        let fewer = without_vertex(&record, vertex);
        if accept(&fewer) {
            record = fewer;
        }
    }
    shrink_edges(&mut record, &mut accept);
    shrink_channels(&mut record, &mut accept);
    join_channels(&mut record, &mut accept);
    shrink_floors(&mut record, &mut accept);
}

/// Leaves out edges.
fn shrink_edges(record: &mut Record, accept: &mut impl FnMut(&Record) -> bool) {
    let mut candidate = record.clone();
    record.edges = without_pieces(record.edges.clone(), |edges| {
        candidate.edges = edges.to_vec();
        accept(&candidate)
    });
}

/// Leaves out channels, then vertices of single channels.
fn shrink_channels(record: &mut Record, accept: &mut impl FnMut(&Record) -> bool) {
    let mut candidate = record.clone();
    let Some(channels) = &mut record.channels else {
        return;
    };
    *channels = without_pieces(channels.clone(), |channels| {
        candidate.channels = Some(channels.to_vec());
        accept(&candidate)
    });
    for number in 0..channels.len() {
        let mut fewer = channels.clone();
        channels[number] = without_pieces(channels[number].clone(), |channel| {
            fewer[number] = channel.to_vec();
            candidate.channels = Some(fewer.clone());
            accept(&candidate)
        });
    }
}

/// Joins channels that stand next to each other, which saves a length byte.
fn join_channels(record: &mut Record, accept: &mut impl FnMut(&Record) -> bool) {
    for number in (1..record.given().len()).rev() {
        let mut channels = record.given().to_vec();
        let later = channels.remove(number);
        channels[number - 1].extend(later);
        let has_length_byte = channels[number - 1].len() <= usize::from(u8::MAX);
        let joined = record.with_given(channels);
        if has_length_byte && accept(&joined) {
            *record = joined;
        }
    }
}

/// Leaves out floors.
fn shrink_floors(record: &mut Record, accept: &mut impl FnMut(&Record) -> bool) {
    let mut candidate = record.clone();
    if let Some(floors) = &mut record.floors {
        *floors = without_pieces(floors.clone(), |floors| {
            candidate.floors = Some(floors.to_vec());
            accept(&candidate)
        });
    }
}

/// The record without one vertex and its floor; higher ones move down.
fn without_vertex(record: &Record, lost: usize) -> Record {
    let moved = |vertex: usize| vertex - usize::from(vertex > lost);
    let kept = |edge: &&Edge| edge.tail != lost && edge.head != lost;
    let rename = |edge: &Edge| Edge::new(moved(edge.tail), moved(edge.head));
    let shorter = |channel: &Vec<usize>| -> Vec<usize> {
        let kept = channel.iter().filter(|&&vertex| vertex != lost);
        kept.map(|&vertex| moved(vertex)).collect()
    };
    let channels = record.channels.as_ref().map(|channels| {
        let shorter = channels.iter().map(shorter);
        shorter.filter(|channel| !channel.is_empty()).collect()
    });
    let mut floors = record.floors.clone();
    if let Some(floors) = floors.as_mut().filter(|floors| lost < floors.len()) {
        floors.remove(lost);
    }
    Record {
        vertex_count: record.vertex_count - 1,
        edges: record.edges.iter().filter(kept).map(rename).collect(),
        channels,
        floors,
    }
}

/// Steps in the bytes: without pieces of them, then each as low as can be.
fn shrink_bytes(smallest: &mut Vec<u8>, holds: &mut impl FnMut(&[u8]) -> bool) {
    without_pieces(smallest.clone(), |bytes| {
        take(smallest, bytes.to_vec(), holds)
    });
    for place in 0..smallest.len() {
        for value in lower(smallest[place]) {
            let mut candidate = smallest.clone();
            candidate[place] = value;
            if take(smallest, candidate, holds) {
                break;
            }
        }
    }
}

/// Some lower values, the lowest first.
fn lower(value: u8) -> Vec<u8> {
    let mut values: Vec<u8> = vec![0, 1, 2, value / 2, value.saturating_sub(1)];
    values.retain(|&other| other < value);
    values.sort_unstable();
    values.dedup();
    values
}

/// Leaves out pieces of the list, large ones first, wherever `accept` takes the rest.
fn without_pieces<T: Clone>(mut items: Vec<T>, mut accept: impl FnMut(&[T]) -> bool) -> Vec<T> {
    let mut length = items.len();
    while length > 0 {
        let mut start = 0;
        while start < items.len() {
            let mut rest = items.clone();
            rest.drain(start..items.len().min(start + length));
            if accept(&rest) {
                items = rest;
            } else {
                start += length;
            }
        }
        length /= 2;
    }
    items
}
