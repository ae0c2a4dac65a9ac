//! All small graphs: no lawful chart is smaller than the one drawn (SPECIFICATION.md, 10.5).

use crate::support::{draw, graph, with_channels, with_floors};
use reference::bundles::Bundle;
use reference::chart::Chart;
use reference::lawful::{
    acyclic_graphs, choices, descent, least_links, least_parts, least_rows, least_tracks,
    sound_channels, LawfulChart, PartBundle, Relation,
};
use reference::record::Record;
use reference::tracks;
use std::collections::BTreeMap;

const SIZES: std::ops::RangeInclusive<usize> = 1..=4;

/// The chart drawn is lawful, and each of its counts is the number handed over.
fn assert_lawful(record: &Record, chart: &Chart) -> LawfulChart {
    let ours = LawfulChart::of(record, chart);
    assert!(ours.is_lawful(record), "{record:?}");
    assert!(ours.has_given_whole(record), "{record:?}");
    assert!(ours.keeps_floors(record), "{record:?}");
    let counts = &chart.counts;
    assert_eq!(ours.row_count(), counts.rows, "{record:?}");
    assert_eq!(ours.part_count(), counts.channels, "{record:?}");
    assert_eq!(ours.links.len(), counts.reduced_edges, "{record:?}");
    assert_eq!(ours.bundles.len(), counts.bundles, "{record:?}");
    for part in 0..counts.tracks.len() {
        assert_eq!(ours.track_count(part), counts.tracks[part], "{record:?}");
    }
    ours
}

/// No lawful chart has fewer links or, with the same bundles, fewer tracks; none that keeps the floors
/// has fewer rows, and none that has the given channels whole has fewer parts.
fn assert_least(record: &Record, chart: &Chart, links: &BTreeMap<Relation, usize>) {
    let ours = assert_lawful(record, chart);
    assert_eq!(Some(ours.row_count()), least_rows(record), "{record:?}");
    assert_eq!(Some(ours.part_count()), least_parts(record), "{record:?}");
    let least = links.get(&descent(record)).copied();
    assert_eq!(Some(ours.links.len()), least, "{record:?}");
    for part in 0..chart.counts.channels {
        let least = least_tracks(&ours.bundles_of(part));
        assert_eq!(Some(ours.track_count(part)), least, "{record:?}");
    }
}

#[test]
fn all_graphs_are_tried() {
    let counts: Vec<usize> = SIZES.map(|size| acyclic_graphs(size).count()).collect();
    assert_eq!(counts, [1, 3, 25, 543]);
}

#[test]
fn no_lawful_chart_is_smaller() {
    for size in SIZES {
        let links = least_links(size);
        for record in acyclic_graphs(size) {
            assert_least(&record, &draw(&record), &links);
        }
    }
}

#[test]
fn nor_with_given_channels() {
    let mut tried = 0;
    for size in SIZES {
        let links = least_links(size);
        for record in acyclic_graphs(size) {
            for channels in sound_channels(&record) {
                let given = record.with_given(channels);
                assert_least(&given, &draw(&given), &links);
                tried += 1;
            }
        }
    }
    assert!(tried > 10_000, "{tried}");
}

#[test]
fn nor_with_floors() {
    let mut tried = 0;
    for size in SIZES {
        let links = least_links(size);
        for record in acyclic_graphs(size) {
            for floors in choices(size, 3) {
                let record = record.with_floors(floors);
                assert_least(&record, &draw(&record), &links);
                tried += 1;
            }
        }
    }
    assert_eq!(tried, 3 + 9 * 3 + 27 * 25 + 81 * 543);
}

#[test]
fn nor_with_floors_and_given_channels() {
    for size in 1..=3 {
        let links = least_links(size);
        for record in acyclic_graphs(size) {
            for channels in sound_channels(&record) {
                for floors in choices(size, 4) {
                    let record = record.with_given(channels.clone()).with_floors(floors);
                    assert_least(&record, &draw(&record), &links);
                }
            }
        }
    }
}

#[test]
fn nor_with_the_highest_floors() {
    let high = [0, 126, 127];
    for record in acyclic_graphs(2) {
        for chosen in choices(2, high.len()) {
            let floors = chosen.iter().map(|&place| high[place]).collect();
            let record = record.with_floors(floors);
            assert_least(&record, &draw(&record), &least_links(2));
        }
    }
}

/// With floors that are not kept fewer rows would do; of lawful charts that keep them none has fewer.
#[test]
fn floors_are_asked_for_where_rows_are_counted() {
    let record = with_floors(3, &[(0, 1), (1, 2)], &[0, 4, 0]);
    let ours = LawfulChart::of(&record, &draw(&record));
    assert!(ours.is_lawful(&record) && ours.keeps_floors(&record));
    let low = LawfulChart {
        rows: vec![0, 1, 2],
        ..ours.clone()
    };
    assert!(low.is_lawful(&record) && !low.keeps_floors(&record));
    let high = LawfulChart {
        rows: vec![9, 10, 11],
        ..ours.clone()
    };
    assert!(high.is_lawful(&record) && high.keeps_floors(&record));
    assert_eq!((low.row_count(), ours.row_count()), (3, 6));
    assert_eq!(least_rows(&record), Some(6));
    let floors = None;
    assert_eq!(least_rows(&Record { floors, ..record }), Some(3));
}

#[test]
fn all_sound_channels_are_tried() {
    // Of two vertices with an edge: none, either alone, both alone in either order, the chain.
    let one_edge = sound_channels(&graph(2, &[(1, 0)])).collect::<Vec<_>>();
    let expected: [&[&[usize]]; 6] = [
        &[],
        &[&[1]],
        &[&[0]],
        &[&[1, 0]],
        &[&[0], &[1]],
        &[&[1], &[0]],
    ];
    assert_eq!(one_edge.len(), expected.len());
    assert!(expected
        .iter()
        .all(|lists| one_edge.iter().any(|other| other == lists)));
    // The lists of different vertices, and the ordered divisions of all sets of vertices.
    assert_eq!(sound_channels(&graph(4, &[])).count(), 65);
    let chain = graph(4, &[(0, 1), (1, 2), (2, 3)]);
    assert_eq!(sound_channels(&chain).count(), 150);
}

#[test]
fn tracks_are_fewest_for_any_bundles() {
    let intervals: Vec<(usize, usize)> = (0..4)
        .flat_map(|first| (first..4).map(move |last| (first, last)))
        .collect();
    let mut spread = [0; 5];
    for chosen in choices(4, intervals.len()) {
        let bundle = |&number: &usize| Bundle {
            first_row: intervals[number].0,
            last_row: intervals[number].1,
            ..Bundle::default()
        };
        let mut bundles: Vec<Bundle> = chosen.iter().map(bundle).collect();
        let count = tracks::assign(&mut bundles);
        let placed: Vec<PartBundle> = bundles.iter().map(part_bundle).collect();
        assert_eq!(Some(count), least_tracks(&placed), "{bundles:?}");
        let free = LawfulChart {
            bundles: placed,
            ..LawfulChart::of(&graph(1, &[]), &draw(&graph(1, &[])))
        };
        assert!(free.is_lawful(&graph(1, &[])), "{bundles:?}");
        assert_eq!(free.track_count(0), count);
        spread[count] += 1;
    }
    assert!(spread[1..].iter().all(|&met| met > 0), "{spread:?}");
}

fn part_bundle(bundle: &Bundle) -> PartBundle {
    PartBundle {
        part: bundle.channel,
        first_row: bundle.first_row,
        last_row: bundle.last_row,
        track: bundle.track,
    }
}

/// The complete graph of four vertices, drawn: one channel, two bundles.
fn complete() -> (Record, LawfulChart) {
    let record = graph(4, &[(0, 1), (0, 2), (0, 3), (1, 2), (1, 3), (2, 3)]);
    let chart = LawfulChart::of(&record, &draw(&record));
    (record, chart)
}

#[test]
fn unlawful_charts_are_told_apart() {
    let (record, ours) = complete();
    assert!(ours.is_lawful(&record));
    let mut level = ours.clone();
    level.rows[3] = level.rows[2];
    let mut less = ours.clone();
    less.links.remove(&(1, 2));
    let mut more = ours.clone();
    more.links.insert((3, 0));
    let mut beyond = ours.clone();
    beyond.links.insert((3, 4));
    let mut crowded = ours.clone();
    crowded.bundles[1].track = crowded.bundles[0].track;
    let mut lost = ours.clone();
    lost.bundles[1].part = 7;
    for chart in [level, less, more, beyond, crowded, lost] {
        assert!(!chart.is_lawful(&record), "{chart:?}");
    }
    let apart = graph(2, &[]);
    let together = LawfulChart {
        parts: vec![0, 0],
        ..LawfulChart::of(&apart, &draw(&apart))
    };
    assert!(!together.is_lawful(&apart));
}

#[test]
fn larger_lawful_charts_are_lawful_and_larger() {
    let (record, ours) = complete();
    let mut tall = ours.clone();
    tall.rows[3] += 1;
    let mut broad = ours.clone();
    broad.parts[2] = 5;
    let mut linked = ours.clone();
    linked.links.insert((0, 3));
    let mut spread = ours.clone();
    spread.bundles.push(spread.bundles[0]);
    spread.bundles[2].track = 9;
    for chart in [&tall, &broad, &linked, &spread] {
        assert!(chart.is_lawful(&record), "{chart:?}");
    }
    assert!(tall.row_count() > ours.row_count());
    assert!(broad.part_count() > ours.part_count());
    assert!(linked.links.len() > ours.links.len());
    assert!(spread.track_count(0) > ours.track_count(0));
}

#[test]
fn an_editor_s_lines_may_be_more_than_the_fewest() {
    let record = with_channels(2, &[(0, 1)], &[&[0]]);
    assert_eq!(draw(&record).counts.channels, 2);
    assert_eq!(least_parts(&record), Some(2));
    assert_eq!(least_parts(&graph(2, &[(0, 1)])), Some(1));
}

#[test]
fn a_part_is_whole_with_all_vertices_of_its_channel_and_no_other() {
    let record = with_channels(3, &[(0, 1), (1, 2)], &[&[0, 1]]);
    let ours = LawfulChart::of(&record, &draw(&record));
    let parts = |parts: [usize; 3]| LawfulChart {
        parts: parts.to_vec(),
        ..ours.clone()
    };
    assert!(parts([7, 7, 2]).has_given_whole(&record));
    for wrong in [[0, 0, 0], [0, 1, 1], [0, 1, 2]] {
        let chart = parts(wrong);
        assert!(chart.is_lawful(&record) && !chart.has_given_whole(&record));
    }
}

#[test]
fn choices_are_all_lists() {
    assert_eq!(choices(3, 4).count(), 64);
    assert_eq!(choices(0, 0).collect::<Vec<_>>(), [Vec::<usize>::new()]);
    assert_eq!(choices(2, 0).count(), 0);
    let pairs = [[0, 0], [0, 1], [1, 0], [1, 1]];
    assert_eq!(choices(2, 2).collect::<Vec<_>>(), pairs);
}
