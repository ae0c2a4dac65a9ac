//! The limits of what is accepted (docs/SPECIFICATION.md, 16.2), and near them.

use crate::answers::Room;
use crate::questions::leads_of;
use crate::tester::{Outcome, Tester};
use reference::record::{Edge, Record, MAX_FLOOR, MAX_VERTICES};

/// As many words and arrows as a record may have, with as many lines as a chart may, and with one more.
const WIDE: &[u8] = include_bytes!("../../../samples/wide.record");
const BROAD: &[u8] = include_bytes!("../../../samples/broad.record");

/// The limits, each with its number, and questions of the same records.
pub fn edges(tester: &mut Tester) -> Outcome {
    for (name, bytes, expected) in cases() {
        let before = tester.seen[expected];
        tester.record(&bytes, Room([5, 3, 2]))?;
        if tester.seen[expected] != before + 1 {
            return Err(format!("{name}: all agree, but it must be {expected}"));
        }
        leads_of(tester, &bytes, MAX_VERTICES)?;
    }
    Ok(())
}

type Case = (&'static str, Vec<u8>, usize);

fn cases() -> Vec<Case> {
    let empty = |n: u8| fields(n, &[], &[]);
    let mut cases = vec![
        ("128 words, 4,096 arrows", rising(128, 4096).to_bytes(), 11),
        ("the same in 31 lines", WIDE.to_vec(), 0),
        ("the same in 32 lines", BROAD.to_vec(), 11),
        ("4,097 arrows", rising(128, 4097).to_bytes(), 2),
        ("129 words", empty(129), 2),
        ("no words", empty(0), 2),
        ("one word", empty(1), 0),
        ("31 words alone", empty(31), 0),
        ("32 words alone", empty(32), 11),
        ("128 words alone", empty(128), 11),
        ("a ring of 128", ring(128), 5),
        ("a ring of 65", ring(65), 5),
        ("an arrow to itself", ring(1), 5),
    ];
    cases.extend(layouts());
    cases.extend(floors());
    cases.extend(tall());
    cases.extend(lines());
    cases.extend(many_lines());
    cases
}

/// House lines of one word each, up to too many; a fault of the record goes before that.
fn many_lines() -> Vec<Case> {
    let given = |words: usize, alone: usize, last: &[usize]| {
        let mut channels: Vec<Vec<usize>> = (0..alone).map(|word| vec![word]).collect();
        channels.extend((!last.is_empty()).then(|| last.to_vec()));
        let rising = rising(words, words * (words - 1) / 2);
        rising.with_given(channels).to_bytes()
    };
    vec![
        ("30 house lines and a planned one", given(90, 30, &[]), 0),
        ("31 house lines of all words", given(31, 31, &[]), 0),
        ("31 house lines and a word", given(32, 31, &[]), 11),
        ("32 house lines", given(32, 32, &[]), 11),
        ("32 house lines and a repeat", given(32, 32, &[0]), 6),
        ("32 house lines and a break", given(40, 31, &[39, 38]), 7),
    ]
}

/// House lines of some words, of none, with a word twice, and broken.
fn lines() -> Vec<Case> {
    let given = |lines: &[&[usize]]| {
        let channels = lines.iter().map(|line| line.to_vec());
        rising(4, 6).with_given(channels.collect()).to_bytes()
    };
    let all_but_one = rising(91, 4095).with_given(vec![(0..90).collect()]);
    vec![
        ("a line of all words but one", all_but_one.to_bytes(), 0),
        ("no line in the field", given(&[]), 0),
        ("one line of some words", given(&[&[1, 3]]), 0),
        ("two lines of some words", given(&[&[2], &[1, 3]]), 0),
        ("a word in two lines", given(&[&[1, 3], &[3]]), 6),
        ("a word twice in a line", given(&[&[1, 2, 2]]), 6),
        ("a break before a repeat", given(&[&[1, 0], &[2], &[2]]), 6),
        ("a break behind a repeat", given(&[&[2, 2], &[1, 0]]), 6),
        ("a break", given(&[&[2], &[1, 0]]), 7),
        ("a stranger before a repeat", given(&[&[4], &[2, 2]]), 3),
    ]
}

fn layouts() -> Vec<Case> {
    let whole = fields(1, &[], &[]);
    vec![
        ("nothing", Vec::new(), 1),
        ("no tag 2", whole[..4].to_vec(), 1),
        ("a byte too many", fields(1, &[], &[0]), 1),
        ("an odd arrow byte", fields(2, &[0], &[]), 1),
        ("tag 3 of length 0", fields(1, &[], &[3, 0, 0]), 0),
        ("a line of no word", fields(1, &[], &[3, 0, 1, 0]), 1),
        ("a line past its field", fields(1, &[], &[3, 0, 2, 2, 0]), 1),
        ("65,535 bytes", house_lines(65_525).to_bytes(), 6),
        ("65,536 bytes", house_lines(65_526).to_bytes(), 1),
    ]
}

/// Floors of few words, right and wrong, and in and out of their place.
fn floors() -> Vec<Case> {
    let one = |rest: &[u8]| fields(1, &[], rest);
    vec![
        ("a floor of 127", one(&[4, 0, 1, 127]), 0),
        ("a floor of 128", one(&[4, 0, 1, 128]), 12),
        ("floors of length 0", one(&[4, 0, 0]), 12),
        ("a floor too many", one(&[4, 0, 2, 0, 0]), 12),
        ("a floor too few", fields(2, &[], &[4, 0, 1, 0]), 12),
        ("floors behind a line", one(&[3, 0, 2, 1, 0, 4, 0, 1, 9]), 0),
        ("behind an empty field", one(&[3, 0, 0, 4, 0, 1, 9]), 0),
        ("floors before a line", one(&[4, 0, 1, 9, 3, 0, 2, 1, 0]), 1),
        (
            "floors before an empty field",
            one(&[4, 0, 1, 9, 3, 0, 0]),
            1,
        ),
        ("floors twice", one(&[4, 0, 1, 9, 4, 0, 1, 9]), 1),
        ("a byte behind floors", one(&[4, 0, 1, 9, 0]), 1),
        ("floors past the end", one(&[4, 0, 2, 9]), 1),
        ("tag 5", one(&[5, 0, 1, 0]), 1),
        ("a bad line and bad floors", one(&[3, 0, 1, 2, 4, 0, 0]), 1),
        ("no words and a floor", fields(0, &[], &[4, 0, 1, 0]), 2),
        ("no words and no floor", fields(0, &[], &[4, 0, 0]), 2),
        (
            "a stranger and bad floors",
            fields(1, &[0, 1], &[4, 0, 0]),
            12,
        ),
        ("a ring and bad floors", fields(1, &[0, 0], &[4, 0, 0]), 12),
        (
            "a stranger and good floors",
            fields(1, &[0, 1], &[4, 0, 1, 9]),
            3,
        ),
        ("65,535 bytes by floors", many_floors(65_525), 12),
        ("65,536 bytes by floors", many_floors(65_526), 1),
    ]
}

/// One word and so many floors.
fn many_floors(count: usize) -> Vec<u8> {
    rising(1, 0).with_floors(vec![0; count]).to_bytes()
}

/// Charts with as many rows as there are, and such floors with a fault.
fn tall() -> Vec<Case> {
    let chain = Record::new(MAX_VERTICES, links(MAX_VERTICES));
    let floored = |record: &Record, first: usize| {
        let mut floors = vec![0; MAX_VERTICES];
        floors[0] = first;
        record.with_floors(floors).to_bytes()
    };
    let wide = Record::parse(WIDE).expect("a sample");
    let house_line = chain.with_given(vec![(0..MAX_VERTICES).collect()]);
    let short = chain.with_floors(vec![MAX_FLOOR; MAX_VERTICES - 1]);
    let level = chain.with_floors(vec![MAX_FLOOR; MAX_VERTICES]);
    vec![
        ("255 rows", floored(&chain, MAX_FLOOR), 0),
        ("254 rows", floored(&chain, MAX_FLOOR - 1), 0),
        (
            "255 rows of a house line",
            floored(&house_line, MAX_FLOOR),
            0,
        ),
        ("255 rows by equal floors", level.to_bytes(), 0),
        (
            "256 rows, if floors went so high",
            floored(&chain, MAX_FLOOR + 1),
            12,
        ),
        ("127 floors of 128 words", short.to_bytes(), 12),
        ("4,096 arrows from floor 127", floored(&wide, MAX_FLOOR), 0),
    ]
}

/// Arrows from each word to the next.
fn links(words: usize) -> Vec<Edge> {
    (1..words).map(|v| Edge::new(v - 1, v)).collect()
}

/// So many words, a few bytes of arrows, and what follows.
fn fields(words: u8, arrows: &[u8], rest: &[u8]) -> Vec<u8> {
    let head = [1, 0, 1, words, 2, 0, arrows.len() as u8];
    [&head, arrows, rest].concat()
}

/// The first so many arrows from lower to higher words.
fn rising(vertex_count: usize, count: usize) -> Record {
    let pairs = (0..vertex_count).flat_map(|v| (0..v).map(move |u| Edge::new(u, v)));
    Record::new(vertex_count, pairs.take(count).collect())
}

fn ring(length: usize) -> Vec<u8> {
    let mut edges = links(length);
    edges.push(Edge::new(length - 1, 0));
    Record::new(length, edges).to_bytes()
}

/// One word, in house lines of word 0 that fill a field of so many bytes.
fn house_lines(length: usize) -> Record {
    let mut channels = Vec::new();
    let mut left = length;
    while left > 0 {
        let words = left.min(256) - 1;
        channels.push(vec![0; words]);
        left -= words + 1;
    }
    rising(1, 0).with_given(channels)
}
