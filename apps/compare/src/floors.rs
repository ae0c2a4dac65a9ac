//! Small graphs with floors, right and wrong: charts and questions (docs/SPECIFICATION.md, 4.1 and 13.1).

use crate::answers::Room;
use crate::questions::leads_of;
use crate::records::all_arrow_sets;
use crate::tester::{Outcome, Tester};
use reference::lawful::{acyclic_graphs, choices, sound_channels};
use reference::record::{Record, MAX_FLOOR};

/// Floors below, at and above the rows of small graphs, the highest, and one that is too high.
const FLOORS: [usize; 5] = [0, 1, 3, MAX_FLOOR, MAX_FLOOR + 1];

/// Every set of arrows over up to three words, rings too, with every choice of these floors, and with
/// fields of other lengths; those without a ring also with every sound choice of house lines. Of four
/// words every graph without a ring with the lower floors.
pub fn floors(tester: &mut Tester) -> Outcome {
    for size in 1..=3 {
        for record in all_arrow_sets(size) {
            each(tester, &record, &FLOORS)?;
            other_lengths(tester, &record)?;
        }
        for record in acyclic_graphs(size) {
            for channels in sound_channels(&record) {
                each(tester, &record.with_given(channels), &FLOORS)?;
            }
        }
    }
    for record in acyclic_graphs(4) {
        each(tester, &record, &FLOORS[..3])?;
    }
    Ok(())
}

/// The record with a floor for each word, of these, in every choice.
fn each(tester: &mut Tester, record: &Record, among: &[usize]) -> Outcome {
    for chosen in choices(record.vertex_count, among.len()) {
        let floors = chosen.into_iter().map(|place| among[place]);
        compare(tester, &record.with_floors(floors.collect()))?;
    }
    Ok(())
}

/// The record with too few floors, down to none, and with one too many.
fn other_lengths(tester: &mut Tester, record: &Record) -> Outcome {
    let lengths = (0..=record.vertex_count + 1).filter(|&length| length != record.vertex_count);
    for floors in lengths.flat_map(|length| choices(length, 2)) {
        let high = floors.into_iter().map(|chosen| chosen * (MAX_FLOOR + 1));
        compare(tester, &record.with_floors(high.collect()))?;
    }
    Ok(())
}

fn compare(tester: &mut Tester, record: &Record) -> Outcome {
    let bytes = record.to_bytes();
    tester.record(&bytes, Room::EXACT)?;
    leads_of(tester, &bytes, record.vertex_count)
}
