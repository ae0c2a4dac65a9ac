//! Charts of about as many lines as are allowed: refused exactly where every division has more.

use crate::answers::Room;
use crate::questions::leads_of;
use crate::tester::{Outcome, Tester};
use reference::breadth::{is_broad, near_limit};
use reference::descent::Reachability;
use reference::lawful::fewest_parts;
use reference::lines::{Channels, MAX_CHANNELS};
use reference::random::{self, graph, Generator, SHAPES};
use reference::record::{Record, MAX_VERTICES};
use std::collections::BTreeMap;

/// Lists that hold the chart, longer ones, one or all too short, and none: broad goes before short.
const ROOMS: [Room; 6] = [
    Room::EXACT,
    Room([9, 8, 7]),
    Room([-1, 0, 0]),
    Room([0, -5, 0]),
    Room([-3, -3, -3]),
    Room([-100_000; 3]),
];

/// Records of 30 to 33 lines, and of every shape and any number; half of the former have floors.
pub fn broad(tester: &mut Tester, generator: &mut Generator, count: usize) -> Outcome {
    let mut met = Met::new();
    for number in 0..count {
        let mut record = near_limit(generator);
        if generator.percent(50) {
            random::give_floors(&mut record, generator);
        }
        let lines = compare(tester, &record)?;
        tell(&mut met, &record, lines);
        let size = generator.between(MAX_CHANNELS, MAX_VERTICES);
        let mut record = graph(generator, SHAPES[number % SHAPES.len()], size);
        compare(tester, &record)?;
        random::give_some_channels(&mut record, generator);
        compare(tester, &record)?;
    }
    enough(&met, count)
}

/// Compares all voices with lists of several lengths, and asks what leads where, whether broad or not;
/// gives the fewest lines of any division that has the house lines whole.
fn compare(tester: &mut Tester, record: &Record) -> Result<usize, String> {
    let reach = Reachability::of(record.vertex_count, &record.edges);
    let lines = Channels::of(record, &reach);
    let fewest = fewest_parts(record, lines.lists());
    let fewest = fewest.ok_or_else(|| format!("fewer lines would do: {record:?}"))?;
    if is_broad(record) != (fewest > MAX_CHANNELS) {
        return Err(format!("{fewest} lines: {record:?}"));
    }
    let bytes = record.to_bytes();
    for room in ROOMS {
        tester.record(&bytes, room)?;
    }
    leads_of(tester, &bytes, record.vertex_count)?;
    Ok(fewest)
}

/// How often each case came.
type Met = BTreeMap<String, usize>;

/// Counts the cases that a record of 30 to 33 lines is one of.
fn tell(met: &mut Met, record: &Record, lines: usize) {
    let given = record.given().len();
    let free = record.with_given(Vec::new());
    let beside = if given > 0 { "with" } else { "without" };
    let cases = [
        (true, format!("{lines} lines {beside} house lines")),
        (
            given == MAX_CHANNELS && lines == given,
            format!("{given} house lines alone"),
        ),
        (
            given == MAX_CHANNELS && lines > given,
            format!("{given} house lines and more"),
        ),
        (given > MAX_CHANNELS, "more house lines".to_string()),
        (
            is_broad(record) && !is_broad(&free),
            "broad by the house lines".to_string(),
        ),
    ];
    for (_, case) in cases.into_iter().filter(|&(is, _)| is) {
        *met.entry(case).or_default() += 1;
    }
}

/// A run that met too little of a case shows nothing of it: four numbers of lines with house lines and
/// without, and four cases more.
fn enough(met: &Met, count: usize) -> Outcome {
    match met.len() == 4 * 2 + 4 && met.values().all(|&times| times > count / 40) {
        true => Ok(()),
        false => Err(format!("too few of {count}: {met:?}")),
    }
}
