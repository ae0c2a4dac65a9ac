//! Stages over records: all small graphs, the limits, damage, chance.

use crate::answers::Room;
use crate::tester::{Outcome, Tester};
use reference::damage::{BYTE_FAULTS, FAULTS};
use reference::lawful::{acyclic_graphs, choices};
use reference::random::{self, graph, sound_record, Generator, SHAPES};
use reference::record::{Edge, Record, MAX_VERTICES};
use reference::vectors::{self, Vector};
use std::collections::BTreeSet;

const VECTORS: [&str; 4] = [
    include_str!("../../../tests/reference/vectors/base.txt"),
    include_str!("../../../tests/reference/vectors/a.txt"),
    include_str!("../../../tests/reference/vectors/b.txt"),
    include_str!("../../../tests/reference/vectors/e.txt"),
];

/// Every set of arrows over up to four words, rings too.
pub fn all_graphs(tester: &mut Tester) -> Outcome {
    for size in 1..=4 {
        for record in all_arrow_sets(size) {
            tester.record(&record.to_bytes(), Room::EXACT)?;
        }
    }
    Ok(())
}

/// Every set of arrows over so many words.
pub fn all_arrow_sets(size: usize) -> impl Iterator<Item = Record> {
    choices(size * size, 2).map(move |chosen| {
        let arrows = (0..size * size).filter(|&pair| chosen[pair] == 1);
        let edges = arrows.map(|pair| Edge::new(pair / size, pair % size));
        Record::new(size, edges.collect())
    })
}

/// Every list of house lines, of all words, of some and of none, broken ones too: for every set of
/// arrows over up to three words, with repeated words; over four words for the sets without a ring,
/// with no word twice.
pub fn all_house_lines(tester: &mut Tester) -> Outcome {
    for size in 1..=3 {
        let lists: Vec<_> = line_lists(size).collect();
        for record in all_arrow_sets(size) {
            with_each(tester, &record, &lists)?;
        }
    }
    let lists = line_lists(4).filter(|lines| no_word_twice(lines));
    let lists: Vec<_> = lists.collect();
    for record in acyclic_graphs(4) {
        with_each(tester, &record, &lists)?;
    }
    Ok(())
}

/// Compares on the graph with each of these lists of house lines.
fn with_each(tester: &mut Tester, record: &Record, lists: &[Vec<Vec<usize>>]) -> Outcome {
    for channels in lists {
        let given = record.with_given(channels.clone());
        tester.record(&given.to_bytes(), Room::EXACT)?;
    }
    Ok(())
}

fn no_word_twice(lines: &[Vec<usize>]) -> bool {
    let words: BTreeSet<usize> = lines.iter().flatten().copied().collect();
    words.len() == lines.iter().map(Vec::len).sum()
}

/// All lists of so many words or fewer, cut in all ways.
fn line_lists(size: usize) -> impl Iterator<Item = Vec<Vec<usize>>> {
    let lists = (0..=size).flat_map(move |length| choices(length, size));
    lists.flat_map(|words| {
        let cuts = choices(words.len().saturating_sub(1), 2);
        cuts.map(move |cuts| cut(&words, &cuts))
    })
}

/// The words in lines: a new one begins behind each place whose number is 1.
fn cut(words: &[usize], cuts: &[usize]) -> Vec<Vec<usize>> {
    let mut lines: Vec<Vec<usize>> = Vec::new();
    for (place, &word) in words.iter().enumerate() {
        match lines.last_mut() {
            Some(line) if cuts[place - 1] == 0 => line.push(word),
            _ => lines.push(vec![word]),
        }
    }
    lines
}

fn given_vectors() -> Result<Vec<Vector>, String> {
    let files = VECTORS.iter().map(|text| vectors::parse(text));
    let files: Vec<Vec<Vector>> = files.collect::<Result<_, _>>()?;
    Ok(files.concat())
}

/// The given vectors, each whole, each piece of it from the start, and with each byte changed.
pub fn given(tester: &mut Tester) -> Outcome {
    for vector in given_vectors()? {
        let bytes = vector.bytes;
        tester.record(&bytes, Room([7, 6, 9]))?;
        for length in 0..bytes.len().min(200) {
            tester.record(&bytes[..length], Room::EXACT)?;
        }
        for place in 0..bytes.len().min(40) {
            for value in 0..=255 {
                let mut changed = bytes.clone();
                changed[place] = value;
                tester.record(&changed, Room::EXACT)?;
            }
        }
    }
    Ok(())
}

/// Every kind of damage alone, and every pair of faults with a fault of the bytes.
pub fn damaged(tester: &mut Tester, generator: &mut Generator, often: usize) -> Outcome {
    for _ in 0..often {
        for (i, first) in FAULTS.iter().enumerate() {
            for second in &FAULTS[i..] {
                let mut record = sound_record(generator);
                first(&mut record, generator);
                tester.record(&record.to_bytes(), Room([3, 2, 1]))?;
                second(&mut record, generator);
                tester.record(&record.to_bytes(), Room::EXACT)?;
                for fault in &BYTE_FAULTS {
                    let mut bytes = record.to_bytes();
                    fault(&mut bytes, generator);
                    tester.record(&bytes, Room::EXACT)?;
                }
            }
        }
    }
    Ok(())
}

/// Random records, sound and damaged, with lists now and then too short or longer than needed.
pub fn chance(tester: &mut Tester, generator: &mut Generator, count: usize) -> Outcome {
    for _ in 0..count {
        let record = random::record(generator);
        tester.record(&record, room(generator))?;
    }
    Ok(())
}

fn room(generator: &mut Generator) -> Room {
    let exact = generator.percent(50);
    let lowest = if generator.percent(20) { 12 } else { 0 };
    Room([(); 3].map(|()| match exact {
        true => 0,
        false => generator.below(24) as isize - lowest.min(generator.below(24) as isize),
    }))
}

/// The largest records of every shape, without house lines and with those of all words and of some, each
/// without floors and with them.
pub fn largest(tester: &mut Tester, generator: &mut Generator, often: usize) -> Outcome {
    for _ in 0..often {
        for shape in SHAPES {
            let mut record = graph(generator, shape, MAX_VERTICES);
            with_and_without_floors(tester, generator, &record, Room([1, 1, 1]))?;
            for give in [random::give_channels, random::give_some_channels] {
                give(&mut record, generator);
                with_and_without_floors(tester, generator, &record, Room::EXACT)?;
            }
        }
    }
    Ok(())
}

fn with_and_without_floors(
    tester: &mut Tester,
    generator: &mut Generator,
    record: &Record,
    room: Room,
) -> Outcome {
    tester.record(&record.to_bytes(), room)?;
    let mut lifted = record.clone();
    random::give_floors(&mut lifted, generator);
    tester.record(&lifted.to_bytes(), room)
}

/// Lists of every length from nothing to more than needed, one by one and together.
pub fn lengths(tester: &mut Tester, generator: &mut Generator, count: usize) -> Outcome {
    let mut records: Vec<Vec<u8>> = given_vectors()?.into_iter().map(|v| v.bytes).collect();
    records.retain(|bytes| bytes.len() < 60);
    for size in 1..=count {
        let shape = SHAPES[size % (SHAPES.len() - 1)];
        let mut record = graph(generator, shape, 2 + size % 9);
        if generator.percent(30) {
            random::give_some_channels(&mut record, generator);
        }
        if generator.percent(30) {
            random::give_floors(&mut record, generator);
        }
        records.push(record.to_bytes());
    }
    for bytes in &records {
        for slack in -60..=12 {
            for list in 0..3 {
                let mut room = Room([1, 4, 0]);
                room.0[list] = slack;
                tester.record(bytes, room)?;
            }
            tester.record(bytes, Room([slack; 3]))?;
        }
        tester.record(bytes, Room([-100_000; 3]))?;
    }
    Ok(())
}
