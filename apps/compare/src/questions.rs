//! Questions about a record's descent, and page strokes.

use crate::pairs::chart_tells;
use crate::tester::{Outcome, Tester};
use ceviloneth::raw;
use reference::descent::Reachability;
use reference::geometry::Place;
use reference::hex::to_hex;
use reference::random::{self, Generator};
use reference::record::Record;
use reference::refusal::Refusal;
use reference::shrink::shrink;
use reference::strokes::{Polyline, PAGE_COLUMNS, PAGE_ROWS};

/// Asks of random records how words lead to each other, unknown words too; their charts must say so.
pub fn leads(tester: &mut Tester, generator: &mut Generator, count: usize) -> Outcome {
    for _ in 0..count {
        let bytes = random::record(generator);
        let far = generator.pick(&[128, 255, 256, usize::MAX]).unwrap_or(128);
        leads_of(tester, &bytes, far)?;
        chart_tells(tester, &bytes)?;
    }
    Ok(())
}

/// Asks of one record, also from and to a far word.
pub fn leads_of(tester: &mut Tester, bytes: &[u8], far: usize) -> Outcome {
    tester.compared += 1;
    if agree(bytes, far) {
        return Ok(());
    }
    let small = shrink(bytes, |bytes| !agree(bytes, far));
    Err(format!("leads differs on record {}", to_hex(&small)))
}

/// What the second implementation answers of one record.
pub struct Expected(Result<Reachability, Refusal>);

impl Expected {
    /// Reads the record.
    pub fn of(bytes: &[u8]) -> Expected {
        let record = Record::read(bytes);
        Expected(record.map(|record| Reachability::of(record.vertex_count, &record.edges)))
    }

    /// The number of words, 1 where the record is refused.
    fn size(&self) -> usize {
        self.0.as_ref().map_or(1, Reachability::vertex_count)
    }

    /// The refusal's number, and that of how one word leads to the other.
    pub fn answer(&self, u: usize, v: usize) -> (u8, u8) {
        match &self.0 {
            Err(refusal) => (refusal.number(), 0),
            Ok(reach) if u.max(v) >= reach.vertex_count() => (Refusal::UnknownVertex.number(), 0),
            Ok(reach) => (0, reach.connection(u, v).number()),
        }
    }
}

/// Whether both sides answer alike for all pairs of some words.
fn agree(bytes: &[u8], far: usize) -> bool {
    let expected = Expected::of(bytes);
    let size = expected.size();
    let words: Vec<usize> = (0..size + 2).step_by(1 + size / 12).chain([far]).collect();
    let found = |u, v| {
        let told = raw::leads(bytes, u, v);
        (told.refusal, told.leads)
    };
    let alike = |u: usize| words.iter().all(|&v| found(u, v) == expected.answer(u, v));
    words.iter().all(|&u| alike(u))
}

/// Strokes through places on the page, at its edges and beyond.
pub fn strokes(tester: &mut Tester, generator: &mut Generator, count: usize) -> Outcome {
    for column in 0..=PAGE_COLUMNS {
        for row in 0..=PAGE_ROWS {
            stroke(
                tester,
                &[Place::new(column, row), Place::new(row, column % PAGE_ROWS)],
            )?;
        }
    }
    for _ in 0..count {
        let length = generator.between(2, 4);
        let places: Vec<Place> = (0..length).map(|_| place(generator)).collect();
        stroke(tester, &places)?;
    }
    Ok(())
}

fn place(generator: &mut Generator) -> Place {
    let mut number = |bound: usize| match generator.below(40) {
        0 => bound,
        1 => u32::MAX as usize - generator.below(3),
        2 => generator.below(1 << 32),
        3 => bound - 1,
        _ => generator.below(bound),
    };
    Place::new(number(PAGE_COLUMNS), number(PAGE_ROWS))
}

fn stroke(tester: &mut Tester, places: &[Place]) -> Outcome {
    tester.compared += 1;
    let numbers: Vec<[u32; 2]> = places
        .iter()
        .map(|p| [p.column as u32, p.row as u32])
        .collect();
    let found = match numbers[..] {
        [a, b] => raw::stroke_straight([a, b]),
        [a, b, c] => raw::stroke_bent([a, b, c]),
        [a, b, c, d] => raw::stroke_side([a, b, c, d]),
        _ => return Err(format!("no stroke has these places: {places:?}")),
    };
    let expected = expected(places);
    match found == expected {
        true => Ok(()),
        false => Err(format!(
            "stroke {places:?}: the proved library has {found:?}, not {expected:?}"
        )),
    }
}

fn expected(places: &[Place]) -> raw::Stroke {
    let mut stroke = raw::Stroke {
        refusal: 0,
        points: 0,
        places: [[0.0; 2]; 4],
    };
    match Polyline::through(places) {
        Some(Ok(line)) => {
            stroke.points = line.points().len() as u8;
            for (place, point) in stroke.places.iter_mut().zip(line.points()) {
                *place = [point.across(), point.up()];
            }
        }
        Some(Err(refusal)) => stroke.refusal = refusal.number(),
        None => {}
    }
    stroke
}
