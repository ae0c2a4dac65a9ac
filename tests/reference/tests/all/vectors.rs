//! The 147 records whose listings are given, and the script whose answers are, byte for byte.

use reference::listing::listing;
use reference::record::Record;
use reference::script::answers;
use reference::vectors::{block, parse, parse_script, Vector};
use std::collections::BTreeSet;

const BASE: &str = include_str!("../../vectors/base.txt");
const HOUSE_LINES: &str = include_str!("../../vectors/a.txt");
const BREADTH: &str = include_str!("../../vectors/b.txt");
const FLOORS: &str = include_str!("../../vectors/e.txt");
const SCRIPT: &str = include_str!("../../vectors/d.txt");
const FILES: [&str; 4] = [BASE, HOUSE_LINES, BREADTH, FLOORS];

fn vectors(text: &str) -> Vec<Vector> {
    parse(text).expect("a file of vectors")
}

fn all() -> Vec<Vector> {
    FILES.map(vectors).concat()
}

#[test]
fn all_are_there() {
    let counts = FILES.map(|text| vectors(text).len());
    assert_eq!(counts, [67, 34, 9, 37]);
    let names: BTreeSet<String> = all().into_iter().map(|vector| vector.name).collect();
    assert_eq!(names.len(), 147);
}

#[test]
fn all_listings_agree() {
    for vector in all() {
        assert_eq!(listing(&vector.bytes), vector.listing, "{}", vector.name);
    }
}

#[test]
fn the_answers_to_the_script_agree() {
    let (script, expected) = parse_script(SCRIPT);
    assert_eq!((script.lines().count(), expected.lines().count()), (14, 14));
    assert_eq!(answers(script.as_bytes()), expected);
    let words: BTreeSet<&str> = expected.lines().collect();
    let all = ["arrow", "both", "longer", "no", "ok", "refused 3"];
    assert!(words.into_iter().eq(all));
}

#[test]
fn a_changed_answer_is_noticed() {
    let (script, changed) = parse_script(&SCRIPT.replacen("both", "longer", 1));
    assert_ne!(answers(script.as_bytes()), changed);
}

#[test]
fn a_changed_listing_is_noticed() {
    let first = &vectors(BASE)[0];
    let changed = vectors(&BASE.replacen("w 4 0 2 1 3", "w 4 0 2 1 2", 1));
    assert_eq!(changed[0].bytes, first.bytes);
    assert_ne!(changed[0].listing, listing(&first.bytes));
}

#[test]
fn a_changed_floor_is_noticed() {
    let changed = vectors(&FLOORS.replacen("w 1 0 1 1 5 5", "w 1 0 1 1 5 4", 1));
    assert_eq!(changed[0].bytes, vectors(FLOORS)[0].bytes);
    assert_ne!(changed[0].listing, listing(&changed[0].bytes));
}

#[test]
fn laid_out_records_are_written_as_they_were() {
    for vector in all() {
        let written = Record::parse(&vector.bytes).map(|record| record.to_bytes());
        let laid_out = vector.listing != "refused 1\n";
        assert_eq!(written.is_ok(), laid_out, "{}", vector.name);
        assert!(!laid_out || written == Ok(vector.bytes), "{}", vector.name);
    }
}

#[test]
fn a_written_block_is_read_again() {
    for vector in all() {
        let text = block(&vector.name, &vector.bytes) + "\n";
        assert_eq!(parse(&text), Ok(vec![vector]));
    }
    let nothing = parse(&format!("# a comment\n\n{}", block("nothing", &[])));
    assert!(nothing.is_ok_and(|vectors| vectors.len() == 1 && vectors[0].bytes.is_empty()));
}

#[test]
fn a_block_without_record_or_listing_is_an_error() {
    assert!(parse("# name\nzz\nchart\n").is_err());
    assert!(parse("# name\n0101\n").is_err());
    assert!(parse("0101\nchart\n").is_err());
}
