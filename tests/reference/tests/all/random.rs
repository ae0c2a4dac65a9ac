//! The generator: the same for the same seed, and wide enough.

use reference::chart::Chart;
use reference::descent::Reachability;
use reference::kinds::Kind;
use reference::random::{graph, record, sound_record, Generator, Shape, SHAPES};
use reference::record::{split_fields, Record, MAX_BYTES, MAX_EDGES, MAX_VERTICES};
use reference::refusal::Refusal;
use std::collections::{BTreeMap, BTreeSet};

fn records(seed: u64, count: usize) -> Vec<Vec<u8>> {
    let mut generator = Generator::new(seed);
    (0..count).map(|_| record(&mut generator)).collect()
}

#[test]
fn one_seed_gives_the_same_records() {
    assert_eq!(records(7, 200), records(7, 200));
    assert_ne!(records(7, 200), records(8, 200));
}

#[test]
fn seed_0_is_good_too() {
    let distinct: BTreeSet<Vec<u8>> = records(0, 200).into_iter().collect();
    assert!(distinct.len() > 150);
}

#[test]
fn numbers_stay_below_their_bound_and_reach_it() {
    let mut generator = Generator::new(3);
    let met: BTreeSet<usize> = (0..1000).map(|_| generator.below(7)).collect();
    assert!(met.into_iter().eq(0..7));
    let met: BTreeSet<usize> = (0..1000).map(|_| generator.between(5, 9)).collect();
    assert!(met.into_iter().eq(5..=9));
    assert_eq!(generator.below(0), 0);
    assert_eq!(generator.pick::<u8>(&[]), None);
    assert!((0..100).all(|_| !generator.percent(0) && generator.percent(100)));
}

#[test]
fn sound_records_pass_the_checks_of_a_record() {
    let mut generator = Generator::new(4);
    let mut given = 0;
    for _ in 0..2000 {
        let record = sound_record(&mut generator);
        assert_eq!(Record::read(&record.to_bytes()).as_ref(), Ok(&record));
        given += usize::from(record.channels.is_some());
    }
    assert!((500..900).contains(&given), "{given}");
}

/// How the given channels of a record stand to its vertices.
#[derive(Clone, Copy, Debug, PartialEq, Eq, PartialOrd, Ord)]
enum Given {
    NoField,
    EmptyField,
    OneOfSome,
    SeveralOfSome,
    All,
}

fn given(record: &Record) -> Given {
    match (&record.channels, record.left().len()) {
        (None, _) => Given::NoField,
        (Some(channels), _) if channels.is_empty() => Given::EmptyField,
        (_, 0) => Given::All,
        (Some(channels), _) if channels.len() == 1 => Given::OneOfSome,
        _ => Given::SeveralOfSome,
    }
}

#[test]
fn channels_of_every_kind_are_given() {
    let mut generator = Generator::new(14);
    let mut met: BTreeMap<Given, usize> = BTreeMap::new();
    for _ in 0..3000 {
        *met.entry(given(&sound_record(&mut generator))).or_default() += 1;
    }
    assert_eq!(met.len(), 5, "{met:?}");
    assert!(met.values().all(|&count| count > 60), "{met:?}");
}

#[test]
fn repeats_and_breaks_of_every_kind_are_met() {
    // Repeated in one channel, in two; broken; both at once; beside vertices that none holds.
    let mut met = [0; 5];
    for bytes in records(15, 9000) {
        let Err(refusal @ (Refusal::Cover | Refusal::Broken)) = Record::read(&bytes) else {
            continue;
        };
        let record = Record::parse(&bytes).expect("laid out");
        let distinct = |list: &Vec<usize>| list.iter().collect::<BTreeSet<_>>().len();
        let repeated = refusal == Refusal::Cover;
        let within = record
            .given()
            .iter()
            .any(|list| distinct(list) < list.len());
        let broken = broken(&record);
        let cases = [
            within,
            repeated && !within,
            broken && !repeated,
            broken && repeated,
            !record.left().is_empty(),
        ];
        for (count, case) in met.iter_mut().zip(cases) {
            *count += usize::from(case);
        }
    }
    assert!(met.iter().all(|&count| count > 40), "{met:?}");
}

/// Whether a given channel goes on to a vertex that it does not reach.
fn broken(record: &Record) -> bool {
    let reach = Reachability::of(record.vertex_count, &record.edges);
    let falls = |pair: &[usize]| !reach.reaches(pair[0], pair[1]);
    record.given().iter().any(|list| list.windows(2).any(falls))
}

/// What there is to tell of the floors of a record's bytes, by name.
fn floor_cases(bytes: &[u8]) -> Vec<&'static str> {
    let cases = match Record::parse(bytes) {
        Ok(record) => said_floors(&record),
        Err(_) => misplaced_floors(bytes),
    };
    let met = cases.into_iter().filter(|&(_, is)| is);
    met.map(|(name, _)| name).collect()
}

fn misplaced_floors(bytes: &[u8]) -> Vec<(&'static str, bool)> {
    let fields = split_fields(bytes).unwrap_or_default();
    let tags: Vec<u8> = fields.iter().map(|&(tag, _)| tag).collect();
    vec![
        ("before house lines", tags == [1, 2, 4, 3]),
        ("twice", tags == [1, 2, 4, 4]),
        ("twice behind house lines", tags == [1, 2, 3, 4, 4]),
    ]
}

fn said_floors(record: &Record) -> Vec<(&'static str, bool)> {
    let Some(floors) = &record.floors else {
        return Vec::new();
    };
    let (count, highest) = (floors.len(), floors.iter().max().copied().unwrap_or(0));
    let (right, lines) = (count == record.vertex_count, record.channels.is_some());
    let lifted = Chart::draw(record).is_ok_and(|chart| {
        let mut entries = chart.vertices.iter();
        entries.any(|entry| 0 < entry.floor && entry.floor < entry.row)
    });
    vec![
        ("zeros", right && highest == 0),
        ("small", right && (1..9).contains(&highest)),
        ("large", right && (60..127).contains(&highest)),
        ("127", right && highest == 127),
        ("128", right && highest == 128),
        ("above 128", right && highest > 128),
        ("none", count == 0),
        ("too few", 0 < count && count < record.vertex_count),
        ("too many", count > record.vertex_count),
        ("behind house lines", right && lines),
        ("without house lines", right && !lines),
        ("below the row", lifted),
    ]
}

#[test]
fn floors_of_every_kind_are_met() {
    let mut met: BTreeMap<&str, usize> = BTreeMap::new();
    for bytes in records(16, 8000) {
        for case in floor_cases(&bytes) {
            *met.entry(case).or_default() += 1;
        }
    }
    assert_eq!(met.len(), 15, "{met:?}");
    assert!(met.values().all(|&count| count > 10), "{met:?}");
}

#[test]
fn every_refusal_and_every_size_is_met() {
    let mut answers: BTreeMap<u8, usize> = BTreeMap::new();
    let mut lengths = BTreeSet::new();
    let mut sizes = BTreeSet::new();
    for bytes in records(5, 10_000) {
        let chart = Chart::read(&bytes);
        sizes.extend(chart.as_ref().map(|chart| chart.vertices.len()));
        let number = chart.err().map_or(0, |refusal| refusal.number());
        *answers.entry(number).or_default() += 1;
        lengths.insert(bytes.len());
    }
    assert!(
        answers.keys().copied().eq((0..=7).chain([11, 12])),
        "{answers:?}"
    );
    assert!(answers.values().all(|&count| count >= 60), "{answers:?}");
    assert!(lengths.contains(&MAX_BYTES) && lengths.contains(&(MAX_BYTES + 1)));
    assert!(sizes.len() > 100 && sizes.last() == Some(&MAX_VERTICES));
}

#[test]
fn every_kind_and_mark_is_met_often() {
    let mut met: BTreeMap<(u8, bool), usize> = BTreeMap::new();
    for bytes in records(6, 1500) {
        for edge in Chart::read(&bytes).map_or(Vec::new(), |chart| chart.edges) {
            let kind = match edge.kind {
                Kind::Path => 0,
                Kind::PathTransitive { .. } => 1,
                Kind::Straight => 2,
                Kind::Bent { .. } => 3,
            };
            *met.entry((kind, edge.reduced)).or_default() += 1;
        }
    }
    // A side arrow is always implied, so (1, true) is never met.
    let kinds = [
        (0, false),
        (0, true),
        (1, false),
        (2, false),
        (2, true),
        (3, false),
        (3, true),
    ];
    assert!(met.keys().copied().eq(kinds), "{met:?}");
    assert!(met.values().all(|&count| count > 100), "{met:?}");
}

#[test]
fn shapes_are_what_they_are_called() {
    let mut generator = Generator::new(9);
    for shape in SHAPES {
        for size in [1, 2, 20, 128] {
            let record = graph(&mut generator, shape, size);
            let (n, m) = (record.vertex_count, record.edges.len());
            assert_eq!(record.check(), Ok(()));
            let right = match shape {
                Shape::Empty => n == size && m == 0,
                Shape::Chain => n == size && m >= n - 1,
                Shape::Forest => n == size && m < n,
                Shape::Full => n == MAX_VERTICES && m == MAX_EDGES,
                Shape::Dense if size > 2 => n == size && m > n,
                _ => n == size,
            };
            assert!(right, "{shape:?} {n} {m}");
        }
    }
}

#[test]
fn limits_are_met_on_both_sides() {
    let all = records(10, 6000);
    let parsed: Vec<Record> = all.iter().flat_map(|bytes| Record::parse(bytes)).collect();
    let edges: BTreeSet<usize> = parsed.iter().map(|record| record.edges.len()).collect();
    let vertices: BTreeSet<usize> = parsed.iter().map(|record| record.vertex_count).collect();
    assert!(edges.contains(&0) && edges.contains(&4096) && edges.contains(&4097));
    assert!([0, 1, 128, 129].iter().all(|size| vertices.contains(size)));
}
