//! The rules, looked at one by one on random records.

use crate::support::{channels, draw};
use reference::bundles::Bundle;
use reference::chart::Chart;
use reference::descent::Reachability;
use reference::geometry::on_segment;
use reference::kinds::Kind;
use reference::lawful::{choices, descent, LawfulChart, Relation};
use reference::random::{graph, sound_record, Generator, SHAPES};
use reference::record::Record;
use reference::refusal::Refusal;
use reference::rows;
use std::collections::{BTreeMap, BTreeSet};

/// Random sound records with their charts, without the broad ones; the seed is printed.
fn sample(seed: u64, count: usize) -> impl Iterator<Item = (Record, Chart)> {
    println!("seed {seed}");
    let mut generator = Generator::new(seed);
    (0..count).filter_map(move |_| {
        let record = sound_record(&mut generator);
        drawn(&record).map(|chart| (record, chart))
    })
}

/// The chart of a sound record, if it is not broad.
fn drawn(record: &Record) -> Option<Chart> {
    match Chart::draw(record) {
        Err(Refusal::Broad) => None,
        chart => Some(chart.expect("a sound record")),
    }
}

/// The same, of at most `size` vertices.
fn small(seed: u64, count: usize, size: usize) -> impl Iterator<Item = (Record, Chart)> {
    sample(seed, count).filter(move |(record, _)| record.vertex_count <= size)
}

#[test]
fn reachability_is_the_closure() {
    for (record, _) in sample(11, 300) {
        let (n, descent) = (record.vertex_count, descent(&record));
        let reach = Reachability::of(n, &record.edges);
        for u in 0..n {
            assert!((0..n).all(|v| reach.reaches(u, v) == descent.has(u, v)));
        }
        let counted: usize = (0..n).map(|u| reach.descendant_count(u)).sum();
        assert_eq!(counted, descent.pairs().count());
        assert!(!reach.has_cycle());
    }
}

#[test]
fn cycles_are_where_rounds_of_taking_off_stop() {
    let mut generator = Generator::new(12);
    let mut cyclic = 0;
    for _ in 0..500 {
        let size = generator.between(1, 8);
        let edge = |generator: &mut Generator| {
            let (tail, head) = (generator.below(size), generator.below(size));
            reference::record::Edge::new(tail, head)
        };
        let edges: Vec<_> = (0..size).map(|_| edge(&mut generator)).collect();
        let floors: Vec<usize> = (0..size).map(|_| generator.below(3)).collect();
        let rows = rows::compacted(&floors, &edges);
        let all_rise = edges.iter().all(|edge| rows[edge.tail] < rows[edge.head]);
        assert_eq!(Reachability::of(size, &edges).has_cycle(), !all_rise);
        cyclic += usize::from(!all_rise);
    }
    assert!((50..450).contains(&cyclic), "{cyclic}");
}

#[test]
fn lines_hold_each_word_once_and_follow_descent() {
    for (record, chart) in sample(13, 1000) {
        let reach = Reachability::of(record.vertex_count, &record.edges);
        let lines = channels(&chart);
        let mut held: Vec<usize> = lines.iter().flatten().copied().collect();
        held.sort_unstable();
        assert!(held.into_iter().eq(0..record.vertex_count));
        let follows = |pair: &[usize]| reach.reaches(pair[0], pair[1]);
        assert!(lines.iter().all(|line| line.windows(2).all(follows)));
        let (given, planned) = lines.split_at(record.given().len());
        assert_eq!(given, record.given());
        assert!(planned.windows(2).all(|pair| pair[0][0] < pair[1][0]));
    }
}

#[test]
fn planned_lines_are_as_many_as_the_most_unrelated_words_left() {
    for (record, chart) in small(14, 1000, 11) {
        let planned = chart.counts.channels - record.given().len();
        assert_eq!(planned, most_unrelated(&record), "{record:?}");
    }
}

/// The size of the largest set of vertices, in no given channel, of which none reaches another.
fn most_unrelated(record: &Record) -> usize {
    let (descent, left) = (descent(record), record.left());
    let related = |set: &[usize], u: usize| {
        (0..left.len()).any(|v| set[v] == 1 && descent.has(left[u], left[v]))
    };
    let unrelated = |set: &Vec<usize>| !(0..left.len()).any(|u| set[u] == 1 && related(set, u));
    let sets = choices(left.len(), 2).filter(unrelated);
    sets.map(|set| set.iter().sum()).max().unwrap_or(0)
}

#[test]
fn an_empty_field_of_house_lines_changes_nothing() {
    for (record, chart) in sample(28, 300) {
        if record.given().is_empty() {
            let empty = Some(Vec::new());
            let channels = if record.channels.is_none() {
                empty
            } else {
                None
            };
            assert_eq!(draw(&Record { channels, ..record }), chart);
        }
    }
}

#[test]
fn rows_are_the_floor_or_one_above_the_highest_tail() {
    // No edge into it; the floor lower than the edges ask, as high, higher.
    let mut met = [0; 4];
    for (record, chart) in sample(15, 1500) {
        for (vertex, entry) in chart.vertices.iter().enumerate() {
            let entering = record.edges.iter().filter(|edge| edge.head == vertex);
            let tails = entering.map(|edge| chart.vertices[edge.tail].row + 1);
            let (floor, above) = (record.lowest_rows()[vertex], tails.max());
            assert_eq!(entry.row, floor.max(above.unwrap_or(0)));
            assert_eq!(entry.floor, floor);
            let above = above.map_or(0, |above| {
                1 + usize::from(floor >= above) + usize::from(floor > above)
            });
            met[above] += usize::from(record.floors.is_some());
        }
        let highest = chart.vertices.iter().map(|entry| entry.row).max();
        assert_eq!(Some(chart.counts.rows), highest.map(|row| row + 1));
    }
    assert!(met.iter().all(|&count| count > 40), "{met:?}");
}

/// Rows rise along a line, with floors or without, so that bundles meet where they met: lines, marks, side
/// columns and columns go by the arrows alone. And zeros are no floors at all.
#[test]
fn floors_move_rows_and_the_courses_of_cross_arrows_alone() {
    let mut moved = 0;
    for (record, chart) in sample(29, 600) {
        let floors = None;
        let without = draw(&Record {
            floors,
            ..record.clone()
        });
        let zeros = vec![0; record.vertex_count];
        assert_eq!(draw(&record.with_floors(zeros)), without);
        assert!(chart.counts.rows >= without.counts.rows);
        moved += usize::from(chart.counts.rows > without.counts.rows);
        assert_eq!(leveled(chart), leveled(without), "{record:?}");
    }
    assert!(moved > 50, "{moved}");
}

/// The chart without its rows, its floors and what its cross arrows make of them.
fn leveled(mut chart: Chart) -> Chart {
    chart.counts.rows = 0;
    for entry in &mut chart.vertices {
        (entry.row, entry.floor) = (0, 0);
    }
    for entry in &mut chart.edges {
        if let Kind::Bent { .. } = entry.kind {
            entry.kind = Kind::Straight;
        }
    }
    for bundle in &mut chart.bundles {
        (bundle.first_row, bundle.last_row) = (0, 0);
    }
    chart
}

#[test]
fn firm_arrows_keep_descent_and_none_can_be_spared() {
    for (record, chart) in small(16, 500, 24) {
        let ours = LawfulChart::of(&record, &chart);
        let (n, descent) = (record.vertex_count, descent(&record));
        assert_eq!(
            Relation::of(n, ours.links.iter().copied()).closed(),
            descent
        );
        for link in &ours.links {
            let others = ours.links.iter().filter(|&other| other != link).copied();
            assert_ne!(Relation::of(n, others).closed(), descent);
        }
    }
}

#[test]
fn an_arrow_is_implied_where_descent_stays_without_it() {
    for (record, chart) in small(17, 500, 16) {
        let (n, descent) = (record.vertex_count, descent(&record));
        for (number, entry) in chart.edges.iter().enumerate() {
            let mut fewer = record.clone();
            fewer.edges.remove(number);
            let stays = Relation::of(n, fewer.edges.iter().map(|e| (e.tail, e.head))).closed();
            assert_eq!(entry.reduced, stays != descent);
        }
    }
}

/// The numbers of the edges in each bundle.
fn members(chart: &Chart) -> BTreeMap<usize, BTreeSet<usize>> {
    let mut members: BTreeMap<usize, BTreeSet<usize>> = BTreeMap::new();
    for entry in &chart.edges {
        if let Kind::PathTransitive { bundle } = entry.kind {
            members.entry(bundle).or_default().insert(entry.number);
        }
    }
    members
}

#[test]
fn side_arrows_are_those_between_words_apart_in_one_line() {
    for (record, chart) in sample(18, 1000) {
        for (edge, entry) in record.edges.iter().zip(&chart.edges) {
            let (u, v) = (chart.vertices[edge.tail], chart.vertices[edge.head]);
            let next = u.position + 1 == v.position;
            let expected = match (u.channel == v.channel, next) {
                (true, true) => matches!(entry.kind, Kind::Path),
                (true, false) => matches!(entry.kind, Kind::PathTransitive { .. }),
                _ => matches!(entry.kind, Kind::Straight | Kind::Bent { .. }),
            };
            assert!(expected);
        }
    }
}

#[test]
fn bundles_cover_their_arrows_and_no_more() {
    for (record, chart) in sample(19, 1000) {
        let members = members(&chart);
        assert!(members.keys().copied().eq(0..chart.bundles.len()));
        for (number, edges) in members {
            let ends = edges.iter().flat_map(|&edge| {
                let edge = record.edges[edge];
                [chart.vertices[edge.tail], chart.vertices[edge.head]]
            });
            let rows: BTreeSet<usize> = ends.clone().map(|vertex| vertex.row).collect();
            let bundle = chart.bundles[number];
            assert_eq!(rows.first(), Some(&bundle.first_row));
            assert_eq!(rows.last(), Some(&bundle.last_row));
            assert!(ends.clone().all(|vertex| vertex.channel == bundle.channel));
        }
        assert!(chart.bundles.is_sorted_by_key(|bundle| bundle.channel));
    }
}

#[test]
fn each_bundle_was_the_largest_of_what_was_left() {
    for (record, chart) in small(20, 1000, 30) {
        let members = members(&chart);
        for (number, bundle) in chart.bundles.iter().enumerate() {
            let later = members.range(number..);
            let left: Vec<usize> = later
                .filter(|(&other, _)| chart.bundles[other].channel == bundle.channel)
                .flat_map(|(_, edges)| edges.iter().copied())
                .collect();
            assert_eq!(members[&number], next_bundle(&record, &chart, &left));
        }
    }
}

/// Of the edges left, those that become the next bundle: a walk over all hubs in the order of
/// preference, in which only a larger one takes the place of the best so far.
fn next_bundle(record: &Record, chart: &Chart, left: &[usize]) -> BTreeSet<usize> {
    let mut best = BTreeSet::new();
    for into in [true, false] {
        for position in 0..chart.vertices.len() {
            let at_hub = |&&number: &&usize| {
                let edge = record.edges[number];
                let end = if into { edge.head } else { edge.tail };
                chart.vertices[end].position == position
            };
            let here: BTreeSet<usize> = left.iter().filter(at_hub).copied().collect();
            if here.len() > best.len() {
                best = here;
            }
        }
    }
    best
}

#[test]
fn side_columns_are_free_and_lowest_in_turn() {
    for (_, chart) in sample(21, 1000) {
        for bundle in 0..chart.bundles.len() {
            let before = |other: usize| {
                let (one, two) = (chart.bundles[other], chart.bundles[bundle]);
                one.channel == two.channel && (one.first_row, other) < (two.first_row, bundle)
            };
            let own = chart.bundles[bundle];
            let taken: BTreeSet<usize> = (0..chart.bundles.len())
                .filter(|&other| before(other) && meet(&chart.bundles[other], &own))
                .map(|other| chart.bundles[other].track)
                .collect();
            assert!(!taken.contains(&own.track));
            assert!((0..own.track).all(|track| taken.contains(&track)));
        }
    }
}

fn meet(one: &Bundle, other: &Bundle) -> bool {
    (one.first_row..=one.last_row).any(|row| (other.first_row..=other.last_row).contains(&row))
}

#[test]
fn side_columns_are_as_many_as_share_a_row() {
    for (_, chart) in sample(22, 1000) {
        for channel in 0..chart.counts.channels {
            let own = chart.bundles.iter().filter(|b| b.channel == channel);
            let at = |row: usize| {
                let covers = |b: &&Bundle| (b.first_row..=b.last_row).contains(&row);
                own.clone().filter(covers).count()
            };
            let most = (0..chart.counts.rows).map(at).max();
            assert_eq!(most, Some(chart.counts.tracks[channel]));
        }
    }
}

#[test]
fn blocks_follow_each_other() {
    for (_, chart) in sample(23, 1000) {
        let mut start = 0;
        for channel in 0..chart.counts.channels {
            let tracks = chart.counts.tracks[channel];
            let own = chart.vertices.iter().filter(|v| v.channel == channel);
            assert!(own.clone().count() > 0);
            assert!(own.clone().all(|v| v.column == start + tracks + 1));
            start += tracks + 3;
        }
        assert_eq!(chart.counts.width, start);
        assert!(start <= 640);
    }
}

/// Whether a straight stroke between the ends would meet a third word.
fn is_blocked(record: &Record, chart: &Chart, number: usize) -> bool {
    let edge = record.edges[number];
    let (u, v) = (chart.place(edge.tail), chart.place(edge.head));
    let (rise, run) = (v.row - u.row, v.column as f64 - u.column as f64);
    (1..rise).any(|step| {
        let column = u.column as f64 + run * step as f64 / rise as f64;
        let near = |w: f64| (w - column).abs() < 1e-6;
        let mut third = chart.vertices.iter().filter(|w| w.row == u.row + step);
        third.any(|w| near(w.column as f64))
    })
}

#[test]
fn cross_arrows_bend_exactly_where_a_word_is_in_the_way() {
    let mut bent = 0;
    for (record, chart) in sample(24, 1500) {
        for (number, entry) in chart.edges.iter().enumerate() {
            let blocked = is_blocked(&record, &chart, number);
            match entry.kind {
                Kind::Straight => assert!(!blocked),
                Kind::Bent { bend } => {
                    assert!(blocked);
                    let edge = record.edges[number];
                    let (u, v) = (chart.place(edge.tail), chart.place(edge.head));
                    assert_eq!(bend.row + 1, v.row);
                    assert_eq!(bend.column.abs_diff(u.column), 1);
                    assert_eq!(bend.column > u.column, v.column > u.column);
                    bent += 1;
                }
                _ => {}
            }
        }
    }
    assert!(bent > 100, "{bent}");
}

#[test]
fn no_arrow_meets_a_foreign_word() {
    for (record, chart) in sample(25, 1000) {
        for (number, &edge) in record.edges.iter().enumerate() {
            let route = chart.route(number, edge);
            let foreign = (0..record.vertex_count).filter(|&w| w != edge.tail && w != edge.head);
            for place in foreign.map(|w| chart.place(w)) {
                let meets = |pair: &[_]| on_segment(pair[0], pair[1], place);
                assert!(!route.windows(2).any(meets), "{record:?} {number}");
            }
        }
    }
}

#[test]
fn the_order_of_arrows_only_numbers_them() {
    let mut generator = Generator::new(26);
    for (record, chart) in small(26, 300, 40) {
        let mut order: Vec<usize> = (0..record.edges.len()).collect();
        generator.shuffle(&mut order);
        let edges = order.iter().map(|&number| record.edges[number]);
        let other = draw(&Record {
            edges: edges.collect(),
            ..record.clone()
        });
        assert_eq!(other.counts, chart.counts);
        assert_eq!(other.vertices, chart.vertices);
        assert_eq!(other.bundles, chart.bundles);
        for (place, &number) in order.iter().enumerate() {
            let (one, two) = (other.edges[place], chart.edges[number]);
            assert_eq!((one.kind, one.reduced), (two.kind, two.reduced));
        }
    }
}

#[test]
fn large_graphs_of_every_shape_are_drawn() {
    let mut generator = Generator::new(27);
    for shape in SHAPES {
        // As large as the shape can be without being broad.
        let mut graphs = (1..=128)
            .rev()
            .map(|size| graph(&mut generator, shape, size));
        let found = graphs.find_map(|record| drawn(&record).map(|chart| (record, chart)));
        let (record, chart) = found.expect("one word is not broad");
        assert!(record.vertex_count > 30, "{shape:?}");
        let ours = LawfulChart::of(&record, &chart);
        assert!(ours.is_lawful(&record), "{shape:?}");
    }
}
