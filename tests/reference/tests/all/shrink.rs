//! The shrinker ends at small records, and what held still holds.

use crate::support::{graph, refusal, rising, with_channels};
use reference::chart::Chart;
use reference::hex::from_hex;
use reference::kinds::Kind;
use reference::random::{record, Generator};
use reference::record::Record;
use reference::shrink::shrink;

fn smaller(one: &[u8], other: &[u8]) -> bool {
    (one.len(), one) <= (other.len(), other)
}

#[test]
fn each_refusal_ends_at_a_least_record() {
    // For 3, of an unknown vertex in an edge or in a channel; for 12, of an empty field.
    let lengths: [&[usize]; 9] = [&[7], &[0], &[7], &[9, 12], &[11], &[9], &[13], &[13], &[10]];
    let mut generator = Generator::new(31);
    let mut met = [0; 9];
    for _ in 0..500 {
        let bytes = record(&mut generator);
        let number = refusal(&bytes);
        let found = shrink(&bytes, |bytes| refusal(bytes) == number);
        assert_eq!(refusal(&found), number);
        let place = if number == 12 { 8 } else { usize::from(number) };
        let least = lengths[place];
        assert!(least.contains(&found.len()), "{number} {found:?}");
        met[place] += 1;
    }
    assert!(met.iter().all(|&count| count > 0), "{met:?}");
}

#[test]
fn a_ring_ends_at_one_word() {
    let ring: Vec<_> = (0..9).map(|u| (u, (u + 1) % 9)).collect();
    let found = shrink(&graph(9, &ring).to_bytes(), |bytes| refusal(bytes) == 5);
    assert_eq!(Some(found), from_hex("010001 01 020002 0000"));
}

#[test]
fn a_word_in_two_house_lines_ends_at_one_word_twice_in_one() {
    let lines: [&[usize]; 3] = [&[0, 3], &[4], &[1, 4, 5]];
    let record = with_channels(6, &rising(6, 15), &lines);
    let found = shrink(&record.to_bytes(), |bytes| refusal(bytes) == 6);
    assert_eq!(Some(found), from_hex("010001 01 020000 030003 02 00 00"));
}

#[test]
fn a_large_chart_with_a_bundle_becomes_a_triangle() {
    let has_bundle = |bytes: &[u8]| Chart::read(bytes).is_ok_and(|c| !c.bundles.is_empty());
    let large = graph(60, &rising(60, 1500)).to_bytes();
    let found = shrink(&large, has_bundle);
    assert!(has_bundle(&found));
    let record = Record::parse(&found).expect("a record");
    assert_eq!((record.vertex_count, record.edges.len()), (3, 3));
}

#[test]
fn a_floor_that_counts_stays_and_the_others_become_0() {
    let is_tall = |bytes: &[u8]| Chart::read(bytes).is_ok_and(|chart| chart.counts.rows > 40);
    let record = graph(9, &rising(9, 30)).with_floors(vec![3, 0, 70, 5, 0, 0, 99, 1, 0]);
    let found = shrink(&record.to_bytes(), is_tall);
    assert_eq!(Some(found), from_hex("010001 01 020000 040001 28"));
    let low = graph(9, &rising(9, 30)).with_floors(vec![0; 9]);
    let found = shrink(&low.to_bytes(), |bytes| Chart::read(bytes).is_ok());
    assert_eq!(Some(found), from_hex("010001 01 020000"));
}

#[test]
fn what_held_still_holds_and_nothing_grows() {
    let has_bend = |bytes: &[u8]| {
        let bent = |chart: Chart| {
            let mut kinds = chart.edges.iter().map(|edge| edge.kind);
            kinds.any(|kind| matches!(kind, Kind::Bent { .. }))
        };
        Chart::read(bytes).is_ok_and(bent)
    };
    let mut generator = Generator::new(32);
    let records = (0..600).map(|_| record(&mut generator));
    let bent: Vec<Vec<u8>> = records
        .filter(|bytes| bytes.len() < 200 && has_bend(bytes))
        .take(8)
        .collect();
    assert_eq!(bent.len(), 8);
    for bytes in bent {
        let found = shrink(&bytes, has_bend);
        assert!(has_bend(&found) && smaller(&found, &bytes));
        assert!(found.len() < 50, "{found:?}");
    }
}

#[test]
fn what_never_held_is_left_alone() {
    let bytes = graph(5, &rising(5, 7)).to_bytes();
    assert_eq!(shrink(&bytes, |_| false), bytes);
    assert_eq!(shrink(&bytes, |other| other.is_empty()), bytes);
}

#[test]
fn whatever_always_holds_becomes_nothing() {
    let bytes = graph(5, &rising(5, 7)).to_bytes();
    assert_eq!(shrink(&bytes, |_| true), Vec::<u8>::new());
}

#[test]
fn no_byte_can_be_left_out_or_lowered_by_one() {
    let sum = |bytes: &[u8]| bytes.iter().map(|&byte| usize::from(byte)).sum::<usize>();
    let holds = |bytes: &[u8]| sum(bytes) >= 300 && bytes.contains(&9);
    let found = shrink(&[9; 100], holds);
    assert!(holds(&found));
    for place in 0..found.len() {
        let mut shorter = found.clone();
        shorter.remove(place);
        let mut lower = found.clone();
        lower[place] -= 1;
        assert!(!holds(&shorter) && !holds(&lower), "{found:?}");
    }
}
