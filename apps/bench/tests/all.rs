//! The stack of the exported chart call, measured on the archive that is linked; and the picture.

use bench::growth::{sizes, Curve};
use bench::inputs::{alone, dictionary, scattered, Class, ROOM};
use bench::memory::peak_stack;
use bench::plot::svg;
use bench::sides::Side;
use ceviloneth::{chart_into, Refusal, MOST_LINES, MOST_ROWS};
use reference::random::{give_channels, give_floors, give_some_channels, graph, Generator, SHAPES};
use reference::record::{Edge, Record, MAX_VERTICES};
use std::collections::BTreeSet;

/// What a chart call may take, in bytes.
const STACK: usize = 48 * 1024;

/// Asserts that drawing the records takes no more stack than a call may.
fn assert_small(what: &str, records: &[Vec<u8>], room: [usize; 3]) {
    let mut side = Side::proved();
    let used = peak_stack(|| side.draw_each(records, room));
    println!("{what}: {used} bytes of stack");
    assert!(used > 0, "{what}: nothing was measured");
    assert!(used <= STACK, "{what}: {used} bytes of stack");
}

/// What is timed as a chart is drawn, and what is timed as a refusal is refused, where it says so as
/// broad. Of each shape that is broad a chart with as many lines as can be is timed too.
#[test]
fn timed_records_are_what_they_are_called() {
    let (mut broad, mut widest) = (BTreeSet::new(), BTreeSet::new());
    for input in alone().into_iter().chain(dictionary(5000)) {
        let (name, [mut words, mut arrows, mut bundles]) =
            (input.name, input.room.map(|length| vec![0; length]));
        let shape = name.split(", ").next().map(str::to_string);
        let broad_shape = name.strip_prefix("refused: broad, ");
        for record in &input.records {
            let drawn = chart_into(record, &mut words, &mut arrows, &mut bundles);
            assert_eq!(drawn.is_err(), input.class == Class::Refused, "{name}");
            let is_broad = drawn == Err(Refusal::Broad);
            assert_eq!(is_broad, broad_shape.is_some(), "{name}");
            if drawn.is_ok_and(|counts| counts.lines == MOST_LINES) {
                widest.extend(shape.clone());
            }
        }
        let broad_shape = broad_shape.and_then(|name| name.split(", ").next());
        broad.extend(broad_shape.map(str::to_string));
    }
    assert!(
        !broad.is_empty() && broad.is_subset(&widest),
        "{broad:?} {widest:?}"
    );
}

/// What is called by its floors has them, and nothing else does; from floor 127 charts are as tall as can be.
#[test]
fn timed_floors_are_what_they_are_called() {
    let mut tallest = 0;
    for input in alone().into_iter().chain(dictionary(200)) {
        for bytes in &input.records {
            let floors = Record::parse(bytes).is_ok_and(|record| record.floors.is_some());
            assert_eq!(floors, input.name.contains("floor"), "{}", input.name);
            if input.name.contains("from floor 127") {
                let rows = ceviloneth::chart(bytes).map(|chart| chart.counts.rows);
                assert_eq!(rows, Ok(MOST_ROWS), "{}", input.name);
                tallest += 1;
            }
        }
    }
    assert_eq!(tallest, 2);
}

#[test]
fn growing_charts_are_drawn() {
    for (words, arrows) in sizes().concat() {
        let drawn = ceviloneth::chart(&scattered(words, arrows).to_bytes());
        assert!(drawn.is_ok(), "{words} words, {arrows} arrows");
    }
}

/// Each largest record of a shape, and that whose search for lines is the deepest.
#[test]
fn every_timed_record_takes_little_stack() {
    for input in alone() {
        assert_small(&input.name, &input.records, input.room);
    }
}

#[test]
fn the_dictionary_takes_little_stack() {
    for input in dictionary(5000) {
        assert_small(&input.name, &input.records, input.room);
    }
}

#[test]
fn random_largest_records_take_little_stack() {
    let mut generator = Generator::new(6);
    let mut records = Vec::new();
    for shape in [SHAPES; 20].into_iter().flatten() {
        let mut record = graph(&mut generator, shape, MAX_VERTICES);
        records.push(record.to_bytes());
        for give in [give_channels, give_some_channels] {
            give(&mut record, &mut generator);
            records.push(record.to_bytes());
        }
        give_floors(&mut record, &mut generator);
        records.push(record.to_bytes());
    }
    assert_small("random largest records", &records, ROOM);
}

/// Lines through all words in any order: their searches are deep. Half of them are planned beside
/// house lines of some words, and a third have floors.
#[test]
fn random_lines_take_little_stack() {
    let mut generator = Generator::new(7);
    let mut order: Vec<usize> = (0..MAX_VERTICES).collect();
    let line = |number| {
        generator.shuffle(&mut order);
        let steps = order.windows(2).map(|pair| Edge::new(pair[0], pair[1]));
        let mut record = Record::new(MAX_VERTICES, steps.collect());
        if number % 2 == 1 {
            give_some_channels(&mut record, &mut generator);
        }
        if number % 3 == 1 {
            give_floors(&mut record, &mut generator);
        }
        record.to_bytes()
    };
    let records: Vec<Vec<u8>> = (0..2000).map(line).collect();
    assert_small("random lines", &records, ROOM);
}

#[test]
fn the_picture_has_a_line_for_each_side() {
    let curve = |title| Curve {
        title,
        axis: "words",
        points: vec![(1, [0.5, 1.0]), (64, [20.0, 30.0]), (128, [60.0, 50.0])],
    };
    let picture = svg(&[curve("one"), curve("two")]);
    assert_eq!(picture.matches("<polyline class=\"proved\"").count(), 2);
    assert_eq!(picture.matches("<polyline class=\"peer\"").count(), 2);
    assert!(picture.contains(">60</text>"), "the scale goes up to 60");
}
