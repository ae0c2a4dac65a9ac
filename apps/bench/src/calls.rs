//! Sessions, questions and strokes: the proved library and the second implementation.

use crate::{sides, timing};
use ceviloneth::STATE_NUMBERS;
use reference::geometry::Place;
use reference::random::Generator;
use reference::record::{Edge, Record, MAX_EDGES, MAX_VERTICES};
use reference::session::{Call, Session};
use reference::strokes::{PAGE_COLUMNS, PAGE_ROWS};
use std::hint::black_box;

/// Times scripts, questions and strokes, and prints their table.
pub fn table() {
    println!("\n## Sessions and strokes\n");
    println!("| Calls | Proved, ns a call | Second, ns a call | Ratio |\n|---|---:|---:|---:|");
    for (name, script) in scripts() {
        let mut state = [0; STATE_NUMBERS];
        let counts = (
            sides::run_proved(&mut state, &script),
            sides::run_second(&script),
        );
        assert_eq!(counts.0, counts.1, "both sides have the same arrows");
        let times = timing::seconds([
            &mut || _ = black_box(sides::run_proved(&mut state, &script)),
            &mut || _ = black_box(sides::run_second(&script)),
        ]);
        row(name, script.len(), times);
    }
    session_questions();
    record_questions();
    let places = places();
    let times = timing::seconds([&mut || sides::strokes_proved(&places), &mut || {
        sides::strokes_second(&places)
    }]);
    row("strokes over a side column", places.len(), times);
}

/// Questions of a session that is full.
fn session_questions() {
    let (mut state, pairs) = ([0; STATE_NUMBERS], shuffled_pairs());
    let adds = added(&pairs[..MAX_EDGES]);
    sides::run_proved(&mut state, &adds);
    let mut session = Session::start(MAX_VERTICES).0;
    for &call in &adds {
        session = session.call(call).0;
    }
    let times = timing::seconds([&mut || sides::ask_proved(&state, &pairs), &mut || {
        sides::ask_second(&mut session, &pairs)
    }]);
    row("questions of a session, 4,096 arrows", pairs.len(), times);
}

/// Questions of a record, which each of them reads anew.
fn record_questions() {
    let pairs = shuffled_pairs();
    let edges = pairs[..512].iter().map(|&(u, v)| Edge::new(u, v));
    let bytes = Record::new(MAX_VERTICES, edges.collect()).to_bytes();
    let asked: Vec<(usize, usize)> = pairs.iter().copied().step_by(127).collect();
    let times = timing::seconds([
        &mut || sides::ask_record_proved(&bytes, &asked),
        &mut || sides::ask_record_second(&bytes, &asked),
    ]);
    let name = "questions of a record, 128 words, 512 arrows";
    row(name, asked.len(), times);
}

fn row(name: &str, count: usize, seconds: [f64; 2]) {
    let [proved, second] = seconds.map(|seconds| 1e9 * seconds / count as f64);
    println!(
        "| {name} | {proved:.1} | {second:.1} | {:.3} |",
        proved / second
    );
}

/// Places of side strokes all over the page.
fn places() -> Vec<[Place; 4]> {
    let mut generator = Generator::new(5);
    let mut place = || Place::new(generator.below(PAGE_COLUMNS), generator.below(PAGE_ROWS));
    (0..10_000).map(|_| [(); 4].map(|()| place())).collect()
}

/// Scripts over 128 words: adds alone until the session is full, and as many calls of both kinds.
fn scripts() -> [(&'static str, Vec<Call>); 2] {
    let mut generator = Generator::new(4);
    let mut pairs = rising_pairs();
    generator.shuffle(&mut pairs);
    let adds = added(&pairs[..MAX_EDGES]);
    let mixed = pairs[..2048].iter().flat_map(|&(u, v)| {
        let asked = generator.pick(&pairs).unwrap_or((v, u));
        [Call::Add(u, v), Call::Leads(asked.0, asked.1)]
    });
    let mixed = mixed.collect();
    [
        ("session, 4,096 adds", adds),
        ("session, 2,048 adds and as many questions", mixed),
    ]
}

/// All pairs of a lower and a higher word.
fn rising_pairs() -> Vec<(usize, usize)> {
    (0..MAX_VERTICES)
        .flat_map(|v| (0..v).map(move |u| (u, v)))
        .collect()
}

/// The same in any order.
fn shuffled_pairs() -> Vec<(usize, usize)> {
    let mut pairs = rising_pairs();
    Generator::new(8).shuffle(&mut pairs);
    pairs
}

/// The calls that add these arrows.
fn added(pairs: &[(usize, usize)]) -> Vec<Call> {
    pairs.iter().map(|&(u, v)| Call::Add(u, v)).collect()
}
