//! Floors: the lowest rows that an editor gives, and how a record says them (4.1, 13.1).

use crate::support::{
    bundles, draw, fields, graph, refusal, rows, tallest, with_channels, with_floors,
};
use reference::chart::Chart;
use reference::connection::{leads, Connection};
use reference::geometry::Place;
use reference::kinds::Kind;
use reference::listing::listing;
use reference::record::{Record, MAX_FLOOR};
use reference::refusal::Refusal;

/// The path 0 1 2.
const PATH: [(usize, usize); 2] = [(0, 1), (1, 2)];

#[test]
fn a_floor_lifts_its_word_and_those_above_it() {
    for (floors, expected) in [
        ([0, 0, 0], [0, 1, 2]),
        ([0, 5, 0], [0, 5, 6]),
        ([0, 1, 2], [0, 1, 2]),
        ([3, 0, 0], [3, 4, 5]),
        ([0, 0, 9], [0, 1, 9]),
        ([4, 5, 5], [4, 5, 6]),
        ([7, 3, 0], [7, 8, 9]),
    ] {
        let chart = draw(&with_floors(3, &PATH, &floors));
        assert_eq!(rows(&chart), expected, "{floors:?}");
        let said: Vec<usize> = chart.vertices.iter().map(|entry| entry.floor).collect();
        assert_eq!(said, floors);
        assert_eq!(chart.counts.rows, expected[2] + 1);
    }
}

#[test]
fn the_highest_of_several_arrows_counts_and_not_the_number_of_steps() {
    // 0 → 1 → 3 has two steps, 2 → 3 one from a higher row.
    let chart = draw(&with_floors(4, &[(0, 1), (1, 3), (2, 3)], &[0, 0, 6, 0]));
    assert_eq!(rows(&chart), [0, 1, 6, 7]);
    let chart = draw(&with_floors(4, &[(0, 1), (1, 3), (2, 3)], &[6, 0, 6, 3]));
    assert_eq!(rows(&chart), [6, 7, 6, 8]);
}

#[test]
fn an_entry_without_the_field_has_floor_0() {
    let chart = draw(&graph(3, &PATH));
    assert!(chart.vertices.iter().all(|entry| entry.floor == 0));
}

#[test]
fn rows_reach_254() {
    let chart = draw(&tallest());
    assert!(rows(&chart).into_iter().eq(127..=254));
    assert_eq!(chart.counts.rows, MAX_FLOOR + 128);
    let last = chart.bundles.iter().map(|bundle| bundle.last_row).max();
    assert_eq!(last, Some(254));
}

#[test]
fn floors_stretch_bundles_and_leave_them_their_side_columns() {
    let edges = [(0, 1), (1, 2), (2, 3), (3, 4), (0, 2), (2, 4)];
    assert_eq!(bundles(&draw(&graph(5, &edges))), [(0, 2, 0), (2, 4, 1)]);
    let lifted = with_floors(5, &edges, &[0, 0, 9, 0, 20]);
    assert_eq!(bundles(&draw(&lifted)), [(0, 9, 0), (9, 20, 1)]);
}

#[test]
fn floors_bend_an_arrow_or_free_it() {
    let edges = [(1, 2), (3, 4), (4, 5), (0, 5)];
    let record = with_channels(6, &edges, &[&[0], &[1, 2], &[3, 4, 5]]);
    let bend = |row| Kind::Bent {
        bend: Place::new(2, row),
    };
    let kind = |floors: [usize; 6]| draw(&record.with_floors(floors.to_vec())).edges[3].kind;
    assert_eq!(kind([0; 6]), bend(1));
    assert_eq!(kind([0, 0, 0, 0, 0, 3]), Kind::Straight);
    // Word 2 midway between row 0 and row 8.
    assert_eq!(kind([0, 0, 4, 0, 0, 8]), bend(7));
    assert_eq!(kind([10, 0, 60, 0, 0, 110]), bend(109));
}

#[test]
fn the_field_comes_last_with_lines_or_without() {
    let [size, arrows, lines, floors]: [(u8, &[u8]); 4] =
        [(1, &[2]), (2, &[0, 1]), (3, &[1, 1]), (4, &[0, 9])];
    assert_eq!(refusal(&fields(&[size, arrows, floors])), 0);
    assert_eq!(refusal(&fields(&[size, arrows, lines, floors])), 0);
    assert_eq!(refusal(&fields(&[size, arrows, (3, &[]), floors])), 0);
    let wrong: [&[(u8, &[u8])]; 9] = [
        &[size, arrows, floors, lines],
        &[size, floors, arrows],
        &[floors, size, arrows],
        &[size, arrows, floors, floors],
        &[size, arrows, lines, floors, floors],
        &[size, arrows, floors, lines, floors],
        &[size, floors],
        &[size, arrows, floors, (5, &[0, 9])],
        &[size, arrows, floors, arrows],
    ];
    for order in wrong {
        assert_eq!(refusal(&fields(order)), 1, "{order:?}");
    }
    let mut longer = fields(&[size, arrows, floors]);
    longer.push(0);
    assert_eq!(refusal(&longer), 1);
    assert_eq!(refusal(&longer[..longer.len() - 2]), 1);
}

#[test]
fn every_other_length_and_every_floor_above_127_gives_12() {
    for length in [0, 1, 2, 4, 5, 128, 255, 256, 65_000] {
        let record = with_floors(3, &PATH, &vec![0; length]);
        assert_eq!(refusal(&record.to_bytes()), 12, "{length}");
    }
    for place in 0..3 {
        for (floor, expected) in [(0, 0), (126, 0), (127, 0), (128, 12), (200, 12), (255, 12)] {
            let mut floors = vec![1; 3];
            floors[place] = floor;
            let record = with_floors(3, &PATH, &floors);
            assert_eq!(refusal(&record.to_bytes()), expected, "{place} {floor}");
        }
    }
    // Not even where the floor would change nothing, and of 128 words too.
    assert_eq!(refusal(&with_floors(128, &[], &[127; 128]).to_bytes()), 0);
    assert_eq!(refusal(&with_floors(128, &[], &[127; 127]).to_bytes()), 12);
    assert_eq!(refusal(&with_floors(128, &[], &[0; 129]).to_bytes()), 12);
}

#[test]
fn wrong_floors_are_told_by_every_reader() {
    let bytes = with_floors(2, &[(0, 1)], &[0, 128]).to_bytes();
    assert_eq!(Record::read(&bytes), Err(Refusal::Floor));
    assert_eq!(Chart::read(&bytes), Err(Refusal::Floor));
    assert_eq!(listing(&bytes), "refused 12\n");
    assert_eq!(leads(&bytes, 0, 1), Err(Refusal::Floor));
    assert_eq!(leads(&bytes, 9, 9), Err(Refusal::Floor));
    let bytes = with_floors(2, &[(0, 1)], &[5, 0]).to_bytes();
    assert_eq!(leads(&bytes, 0, 1), Ok(Connection::EdgeOnly));
}

#[test]
fn a_record_with_the_most_words_has_a_floor_for_each() {
    let record = tallest();
    assert_eq!(Record::read(&record.to_bytes()), Ok(record.clone()));
    assert_eq!(Record::parse(&record.to_bytes()), Ok(record));
}

#[test]
fn the_listing_ends_a_word_s_line_with_its_floor_where_the_field_is() {
    let zeros = listing(&with_floors(2, &[(0, 1)], &[0, 0]).to_bytes());
    let without = listing(&graph(2, &[(0, 1)]).to_bytes());
    assert_eq!(without.lines().nth(2), Some("w 1 0 1 1 1"));
    assert_eq!(zeros.lines().nth(2), Some("w 1 0 1 1 1 0"));
    let others = |text: &str| -> Vec<String> {
        let lines = text.lines().filter(|line| !line.starts_with('w'));
        lines.map(str::to_string).collect()
    };
    assert_eq!(others(&zeros), others(&without));
    let lifted = listing(&with_floors(2, &[(0, 1)], &[3, 1]).to_bytes());
    assert_eq!(lifted.lines().nth(1), Some("w 0 0 0 1 3 3"));
    assert_eq!(lifted.lines().nth(2), Some("w 1 0 1 1 4 1"));
}
