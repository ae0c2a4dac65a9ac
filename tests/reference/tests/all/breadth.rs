//! Charts of 31 lines and of more, and that no division into lines saves a refused one.

use crate::support::{graph, refusal, rising, with_channels, with_floors};
use reference::breadth::{is_broad, near_limit, of_channels};
use reference::chart::Chart;
use reference::descent::Reachability;
use reference::lawful::{acyclic_graphs, fewest_parts, least_parts, sound_channels};
use reference::lines::{Channels, MAX_CHANNELS};
use reference::random::{give_some_channels, graph as random_graph, Generator, SHAPES};
use reference::record::Record;
use reference::refusal::Refusal;
use std::collections::BTreeMap;

/// The channels of a sound record, broad or not.
fn lists(record: &Record) -> Vec<Vec<usize>> {
    let reach = Reachability::of(record.vertex_count, &record.edges);
    Channels::of(record, &reach).lists().to_vec()
}

/// The fewest parts of any division that has the given channels whole.
fn fewest(record: &Record) -> usize {
    let shown = fewest_parts(record, &lists(record));
    shown.unwrap_or_else(|| panic!("not shown to be the fewest: {record:?}"))
}

/// The number of the chart's refusal, 0 for a chart.
fn chart_refusal(record: &Record) -> u8 {
    Chart::draw(record).err().map_or(0, Refusal::number)
}

/// Words without arrows, the first so many of them in house lines of their own.
fn alone(words: usize, house_lines: usize) -> Record {
    graph(words, &[]).with_given((0..house_lines).map(|word| vec![word]).collect())
}

#[test]
fn a_chart_has_at_most_31_lines() {
    for words in [1, 30, 31, 32, 33, 128] {
        for house_lines in [0, 1, words / 2, words] {
            let expected = if words > 31 { 11 } else { 0 };
            let record = alone(words, house_lines);
            assert_eq!(chart_refusal(&record), expected, "{words} {house_lines}");
        }
    }
}

#[test]
fn a_broad_record_is_read_all_the_same() {
    for words in [32, 128] {
        let record = alone(words, 3);
        assert_eq!(Record::read(&record.to_bytes()), Ok(record));
    }
    assert_eq!(refusal(&graph(128, &rising(128, 4096)).to_bytes()), 0);
    assert_eq!(chart_refusal(&graph(128, &rising(128, 4096))), 11);
}

#[test]
fn every_refusal_of_the_record_goes_before_11() {
    let mut broken = alone(40, 40);
    broken.channels.as_mut().expect("lines")[7].push(39);
    assert_eq!(chart_refusal(&broken), 6);
    broken.channels.as_mut().expect("lines").pop();
    assert_eq!(chart_refusal(&broken), 7);
    assert_eq!(chart_refusal(&graph(40, &[(3, 3)])), 5);
    assert_eq!(chart_refusal(&with_floors(40, &[], &[0; 39])), 12);
    assert_eq!(chart_refusal(&with_floors(40, &[], &[127; 40])), 11);
}

#[test]
fn house_lines_may_make_a_chart_broad() {
    let path: Vec<_> = (0..32).map(|u| (u, u + 1)).collect();
    let single: Vec<[usize; 1]> = (0..32).map(|word| [word]).collect();
    let lines: Vec<&[usize]> = single.iter().map(|line| line.as_slice()).collect();
    assert_eq!(chart_refusal(&graph(33, &path)), 0);
    // Word 32, and word 31 with it, make a line of their own.
    assert_eq!(chart_refusal(&with_channels(33, &path, &lines)), 11);
    assert_eq!(chart_refusal(&with_channels(33, &path, &lines[..31])), 11);
    assert_eq!(chart_refusal(&with_channels(33, &path, &lines[..30])), 0);
}

#[test]
fn channels_are_as_many_as_asked_for() {
    let mut generator = Generator::new(41);
    for (given, planned) in [
        (0, 1),
        (0, 128),
        (1, 0),
        (128, 0),
        (5, 7),
        (31, 1),
        (60, 60),
    ] {
        let record = of_channels(&mut generator, given, planned);
        assert_eq!(record.check(), Ok(()), "{given} {planned}");
        assert_eq!(record.given().len(), given);
        assert_eq!(fewest(&record), given + planned);
    }
}

#[test]
fn broad_is_said_exactly_where_every_division_has_more_than_31_parts() {
    let mut generator = Generator::new(42);
    let mut met: BTreeMap<(usize, bool), usize> = BTreeMap::new();
    let mut by_house_lines = 0;
    for _ in 0..600 {
        let record = near_limit(&mut generator);
        let (count, given) = (fewest(&record), !record.given().is_empty());
        let broad = is_broad(&record);
        assert_eq!(broad, count > MAX_CHANNELS, "{record:?}");
        *met.entry((count, given)).or_default() += 1;
        let free = record.with_given(Vec::new());
        by_house_lines += usize::from(broad && !is_broad(&free));
    }
    let counts = (30..=33).flat_map(|count| [(count, false), (count, true)]);
    assert!(met.keys().copied().eq(counts), "{met:?}");
    assert!(met.values().all(|&count| count > 20), "{met:?}");
    assert!(by_house_lines > 50, "{by_house_lines}");
}

#[test]
fn large_graphs_of_every_shape_have_the_fewest_lines() {
    let mut generator = Generator::new(43);
    let mut drawn = [0; 2];
    for shape in [SHAPES; 3].into_iter().flatten() {
        let size = generator.between(24, 128);
        let mut record = random_graph(&mut generator, shape, size);
        for _ in 0..3 {
            let expected = if fewest(&record) > MAX_CHANNELS {
                11
            } else {
                0
            };
            assert_eq!(chart_refusal(&record), expected, "{shape:?}");
            drawn[usize::from(expected > 0)] += 1;
            give_some_channels(&mut record, &mut generator);
        }
    }
    assert!(drawn.iter().all(|&count| count > 10), "{drawn:?}");
}

#[test]
fn what_is_shown_to_be_the_fewest_is_found_by_trying_all() {
    for record in (1..=4).flat_map(acyclic_graphs) {
        let given = sound_channels(&record).map(|channels| record.with_given(channels));
        for record in given.chain([record.clone()]) {
            assert_eq!(Some(fewest(&record)), least_parts(&record), "{record:?}");
        }
    }
}

#[test]
fn nothing_is_shown_by_other_channels() {
    let record = with_channels(4, &[(0, 1), (1, 2)], &[&[1]]);
    let shown = |lists: &[&[usize]]| {
        let lists: Vec<Vec<usize>> = lists.iter().map(|list| list.to_vec()).collect();
        fewest_parts(&record, &lists)
    };
    assert_eq!(shown(&[&[1], &[0, 2], &[3]]), Some(3));
    let wrong: [&[&[usize]]; 7] = [
        // One more than is needed; a part that is no chain; the given channel not whole, or not first.
        &[&[1], &[0], &[2], &[3]],
        &[&[1], &[0, 2, 3]],
        &[&[0, 1, 2], &[3]],
        &[&[0, 2], &[1], &[3]],
        // A word lacks, or stands twice; nothing at all.
        &[&[1], &[0, 2]],
        &[&[1], &[0, 2], &[3], &[3]],
        &[],
    ];
    for lists in wrong {
        assert_eq!(shown(lists), None, "{lists:?}");
    }
}
