//! The records that are timed. All are made from fixed seeds.

use ceviloneth::{
    ARROW_NUMBERS, BUNDLE_NUMBERS, MOST_ARROWS, MOST_BUNDLES, MOST_WORDS, WORD_NUMBERS,
};
use reference::breadth::is_broad;
use reference::random::{give_channels, graph, Generator, Shape};
use reference::record::{Edge, Record, MAX_BYTES, MAX_EDGES, MAX_FLOOR, MAX_VERTICES};
use reference::rows;

/// How many entries of the made-up dictionary are timed.
const ENTRIES: usize = 100_000;

/// How many numbers lists with room for every chart have: words, arrows, bundles.
pub const ROOM: [usize; 3] = [
    WORD_NUMBERS * MOST_WORDS,
    ARROW_NUMBERS * MOST_ARROWS,
    BUNDLE_NUMBERS * MOST_BUNDLES,
];

/// By which ratios to the peer are asked for.
#[derive(Clone, Copy, Debug, PartialEq, Eq)]
pub enum Class {
    /// The dictionary.
    Dictionary,
    /// The dense record.
    Dense,
    /// Any other record that is drawn.
    Chart,
    /// A record with floors that is drawn.
    Floored,
    /// A record that is refused, of which no ratio is asked.
    Refused,
}

/// A named list of records.
pub struct Input {
    /// What the table calls it.
    pub name: String,
    /// Which ratio to the peer is asked of it.
    pub class: Class,
    /// The records.
    pub records: Vec<Vec<u8>>,
    /// How many numbers the lent lists have.
    pub room: [usize; 3],
}

impl Input {
    /// A record that is drawn; its name tells its sizes.
    fn chart(shape: &str, record: &Record) -> Input {
        Input {
            name: sized(shape, record),
            class: match record.floors {
                Some(_) => Class::Floored,
                None => Class::Chart,
            },
            records: vec![record.to_bytes()],
            room: ROOM,
        }
    }

    /// A record that is refused for the lines that its chart would have.
    fn broad(shape: &str, record: &Record) -> Input {
        let why = format!("broad, {}", sized(shape, record));
        Input::refused(&why, record.to_bytes())
    }

    fn refused(why: &str, record: Vec<u8>) -> Input {
        Input {
            name: format!("refused: {why}"),
            class: Class::Refused,
            records: vec![record],
            room: ROOM,
        }
    }
}

/// A shape's name with the numbers of words and arrows.
fn sized(shape: &str, record: &Record) -> String {
    let words = format!("{shape}, {} words", record.vertex_count);
    match record.edges.len() {
        0 => words,
        arrows => format!("{words}, {} arrows", grouped(arrows)),
    }
}

/// A number with a comma before every three digits.
pub fn grouped(number: usize) -> String {
    let digits = number.to_string();
    let mut text = String::new();
    for (place, digit) in digits.chars().enumerate() {
        if place > 0 && (digits.len() - place) % 3 == 0 {
            text.push(',');
        }
        text.push(digit);
    }
    text
}

/// The first entries of the dictionary: nine of ten have 2 to 20 words, a few up to 128; a tenth
/// of them has house lines, and none is broad. Then the same with floors, and the broad ones that were met
/// on the way.
pub fn dictionary(entries: usize) -> [Input; 3] {
    let (mut generator, mut floors) = (Generator::new(1), Generator::new(9));
    let (mut drawn, mut floored, mut broad) = (Vec::new(), Vec::new(), Vec::new());
    while drawn.len() < entries {
        let record = entry(&mut generator);
        if is_broad(&record) {
            broad.push(record.to_bytes());
        } else {
            drawn.push(record.to_bytes());
            floored.push(with_floors(record, &mut floors).to_bytes());
        }
    }
    [
        ("dictionary", Class::Dictionary, drawn),
        ("dictionary with floors", Class::Floored, floored),
        ("refused: broad, dictionary", Class::Refused, broad),
    ]
    .map(|(name, class, records)| Input {
        name: format!("{name}, {} entries", grouped(records.len())),
        class,
        records,
        room: ROOM,
    })
}

fn entry(generator: &mut Generator) -> Record {
    let shapes = [
        Shape::Forest,
        Shape::Forest,
        Shape::Sparse,
        Shape::Layered,
        Shape::Chain,
        Shape::Bipartite,
    ];
    let words = match generator.below(1000) {
        0..=899 => generator.between(2, 20),
        900..=979 => generator.between(21, 48),
        980..=998 => generator.between(49, 96),
        _ => generator.between(97, MAX_VERTICES),
    };
    let shape = generator.pick(&shapes).unwrap_or(Shape::Forest);
    let mut record = graph(generator, shape, words);
    if generator.percent(10) {
        give_channels(&mut record, generator);
    }
    record
}

/// A shape, by the number of its words.
type Grown = fn(usize) -> Record;

/// The shapes whose records of the most words are broad.
const BROADENING: [(&str, Grown); 6] = [
    ("no arrows", |words| scattered(words, 0)),
    ("sparse", |words| {
        scattered(words, 190 * words / MAX_VERTICES)
    }),
    ("bipartite by halves", |words| bipartite(words, |_| words)),
    ("worst matching", |words| bipartite(words, |u| words - u)),
    ("house lines", |words| house_lines(medium(words))),
    ("house lines of some words", |words| {
        some_house_lines(medium(words))
    }),
];

/// The largest record of a shape that is not broad: as wide as a chart may be.
fn widest(shape: Grown) -> Record {
    let mut records = (1..=MAX_VERTICES).rev().map(shape);
    records
        .find(|record| !is_broad(record))
        .expect("one word is not broad")
}

/// Everything that is timed.
pub fn all() -> Vec<Input> {
    let [drawn, floored, broad] = dictionary(ENTRIES);
    let mut inputs = vec![drawn, floored];
    inputs.extend(alone());
    inputs.push(broad);
    inputs
}

/// What is timed one record at a time: shapes as they grow, the largest ones, refusals.
pub fn alone() -> Vec<Input> {
    [growing(), largest(), refused()]
        .into_iter()
        .flatten()
        .collect()
}

/// Records of growing size, shape by shape.
fn growing() -> Vec<Input> {
    let sizes = [8, 32, 64, MAX_VERTICES];
    let mut inputs: Vec<Input> = [(8, 16), (32, 128), (64, 256), (MAX_VERTICES, 512)]
        .iter()
        .map(|&(words, arrows)| Input::chart("random", &scattered(words, arrows)))
        .collect();
    let floored = [(8, 16), (MAX_VERTICES, 512)].map(|(n, m)| floored(scattered(n, m)));
    inputs.extend(floored.map(|record| Input::chart("random with floors", &record)));
    let shapes: [(&str, Grown); 3] = [
        ("chain", |words| chain(words, 1)),
        ("reversed chain", reversed_chain),
        ("chain with arrows two on", |words| chain(words, 2)),
    ];
    for (name, shape) in shapes {
        inputs.extend(sizes.map(|words| Input::chart(name, &shape(words))));
    }
    inputs.push(Input::chart("no arrows", &scattered(8, 0)));
    inputs.extend([8, 64, MAX_VERTICES].map(|words| Input::chart("layered", &layered(words))));
    let some = [(8, 16), (64, 256)].map(|(n, m)| some_house_lines(scattered(n, m)));
    inputs.extend(some.map(|record| Input::chart("house lines of some words", &record)));
    inputs
}

/// The largest chart of each shape, one each.
fn largest() -> Vec<Input> {
    let dense = Input::chart("dense", &scattered(MAX_VERTICES, MAX_EDGES));
    let mut inputs = vec![
        Input::chart("medium", &medium(MAX_VERTICES)),
        Input::chart("medium with floors", &floored(medium(MAX_VERTICES))),
        Input {
            class: Class::Dense,
            ..dense
        },
        Input::chart("chain from floor 127", &tallest(1)),
        Input::chart("chain with arrows up to 32 on", &chain(MAX_VERTICES, 32)),
        Input::chart("chain with arrows up to 32 on from floor 127", &tallest(32)),
        Input::chart("deepest search", &deepest_search(0)),
        Input::chart("deepest search beside a house line", &deepest_search(1)),
    ];
    inputs.extend(BROADENING.map(|(name, shape)| Input::chart(name, &widest(shape))));
    inputs
}

/// Records that are refused late, one that is at once, and broad ones.
fn refused() -> Vec<Input> {
    let mut ring = chain(MAX_VERTICES, 32);
    let _ = ring.edges.pop();
    ring.edges.push(Edge::new(MAX_VERTICES - 1, 0));
    let ring = Input::refused("a ring at the last of 3,568 arrows", ring.to_bytes());
    let no_layout = Input::refused("65,535 bytes of no layout", vec![0; MAX_BYTES]);
    let medium = medium(MAX_VERTICES);
    let mut short = Input::refused(
        "a list one number too short for 1,200 arrows",
        medium.to_bytes(),
    );
    short.room[1] = ARROW_NUMBERS * medium.edges.len() - 1;
    let mut floors = vec![0; MAX_VERTICES];
    floors[MAX_VERTICES - 1] = MAX_FLOOR + 1;
    let floor = Input::refused(
        "a floor of 128 at the last of 128 words",
        medium.with_floors(floors).to_bytes(),
    );
    let broad = BROADENING.map(|(name, shape)| Input::broad(name, &shape(MAX_VERTICES)));
    let refused = [ring, no_layout, short, floor].into_iter();
    refused.chain(broad).collect()
}

fn record(words: usize, pairs: impl Iterator<Item = (usize, usize)>) -> Record {
    Record::new(words, pairs.map(|(u, v)| Edge::new(u, v)).collect())
}

/// So many arrows anywhere, each from a lower to a higher word.
pub fn scattered(words: usize, arrows: usize) -> Record {
    let mut generator = Generator::new(2);
    let mut pairs: Vec<(usize, usize)> = (0..words)
        .flat_map(|v| (0..v).map(move |u| (u, v)))
        .collect();
    generator.shuffle(&mut pairs);
    pairs.truncate(arrows);
    record(words, pairs.into_iter())
}

/// Arrows anywhere, 1,200 for the most words.
fn medium(words: usize) -> Record {
    scattered(words, 1200 * words / MAX_VERTICES)
}

/// One line: each word to the next, and to those up to `longest` on.
fn chain(words: usize, longest: usize) -> Record {
    let pairs = (1..=longest).flat_map(|step| (0..words - step).map(move |u| (u, u + step)));
    record(words, pairs)
}

/// The same of the most words, from the highest floor: as many rows as there are.
fn tallest(longest: usize) -> Record {
    let mut floors = vec![0; MAX_VERTICES];
    floors[0] = MAX_FLOOR;
    chain(MAX_VERTICES, longest).with_floors(floors)
}

/// One line through the words in this order.
fn path(order: &[usize]) -> Record {
    let pairs = order.windows(2).map(|pair| (pair[0], pair[1]));
    record(order.len(), pairs)
}

/// One line from the highest word down to 0.
fn reversed_chain(words: usize) -> Record {
    path(&(0..words).rev().collect::<Vec<_>>())
}

/// One line whose planning goes as deep as any can: when the last word but one asks, the searches
/// of all words but the last wait for each other. So many words more, the highest, are a house line
/// that the others' routes go through.
fn deepest_search(held: usize) -> Record {
    let left = MAX_VERTICES - held;
    let house_line: Vec<usize> = (left..MAX_VERTICES).collect();
    let first = [left - 3, left - 4];
    let rest: Vec<usize> = (0..left - 4).chain([left - 2, left - 1]).collect();
    let graph = path(&[&first[..], &house_line, &rest].concat());
    match held {
        0 => graph,
        _ => graph.with_given(vec![house_line]),
    }
}

/// Rows of four words, each word to all of the next row.
fn layered(words: usize) -> Record {
    let next = |u: usize| 4 * (u / 4 + 1);
    record(
        words,
        (0..words - 4).flat_map(|u| (next(u)..next(u) + 4).map(move |v| (u, v))),
    )
}

/// Each word of the lower half to those of the upper one below a limit.
fn bipartite(words: usize, limit: impl Fn(usize) -> usize) -> Record {
    let half = words / 2;
    let pairs = (0..half).flat_map(|u| (half..limit(u)).map(move |v| (u, v)));
    record(words, pairs)
}

fn floored(record: Record) -> Record {
    with_floors(record, &mut Generator::new(10))
}

/// Centuries: later ones for words that others lead to, here and there by leaps.
fn with_floors(record: Record, generator: &mut Generator) -> Record {
    let mut floors = rows::compacted(&vec![0; record.vertex_count], &record.edges);
    for floor in &mut floors {
        *floor = (2 * *floor + generator.below(4)).min(MAX_FLOOR);
    }
    record.with_floors(floors)
}

fn house_lines(mut record: Record) -> Record {
    give_channels(&mut record, &mut Generator::new(3));
    record
}

/// Every second one of house lines that hold all words; the words of the others are planned.
fn some_house_lines(record: Record) -> Record {
    let all = house_lines(record);
    let kept = all.given().iter().step_by(2).cloned();
    all.with_given(kept.collect())
}
