//! Compares the proved library and the peer with the second implementation on every number handed
//! over.

mod answers;
mod broad;
mod edges;
mod floors;
mod least;
mod pairs;
mod questions;
mod records;
mod sessions;
mod tester;

use reference::random::Generator;
use std::process::ExitCode;
use std::time::Instant;
use tester::{Outcome, Tester};

const HELP: &str = "usage: compare [--quick] [--seed NUMBER]

Compares the proved library with the second implementation: all small graphs with all house lines,
with floors of every kind and all pairs of their words, the limits, damaged and random records, lists of
every length, sessions, strokes; and tries by brute force whether a small graph has a smaller lawful
chart that has the house lines whole, or one with fewer rows that keeps the floors, and whether every
division into lines of a broad one has too many. Every chart is also drawn by the peer (tests/peer),
which must agree. --quick does less of what chance makes.

Exit status: 0 all agree; 1 a difference, printed with the smallest record found; 2 wrong use.
";

/// What is asked for.
struct Plan {
    seed: u64,
    quick: bool,
}

fn main() -> ExitCode {
    let Some(plan) = plan() else {
        eprint!("{HELP}");
        return ExitCode::from(2);
    };
    println!("seed {}", plan.seed);
    match run(&plan) {
        Ok(()) => ExitCode::SUCCESS,
        Err(difference) => {
            println!("seed {}\n{difference}", plan.seed);
            ExitCode::FAILURE
        }
    }
}

fn plan() -> Option<Plan> {
    let mut plan = Plan {
        seed: 20_261_115,
        quick: false,
    };
    let mut words = std::env::args().skip(1);
    while let Some(word) = words.next() {
        match word.as_str() {
            "--quick" => plan.quick = true,
            "--seed" => plan.seed = words.next()?.parse().ok()?,
            _ => return None,
        }
    }
    Some(plan)
}

/// Runs all stages.
fn run(plan: &Plan) -> Outcome {
    let mut stages = Stages {
        tester: Tester::new(),
        generator: Generator::new(plan.seed),
    };
    all_small(&mut stages)?;
    by_chance(
        &mut stages,
        |quick, full| if plan.quick { quick } else { full },
    )?;
    summary(&stages.tester)
}

/// What the stages share.
struct Stages {
    tester: Tester,
    generator: Generator,
}

impl Stages {
    /// Runs a stage and prints how many comparisons it made.
    fn run(
        &mut self,
        name: &str,
        stage: impl FnOnce(&mut Tester, &mut Generator) -> Outcome,
    ) -> Outcome {
        let (began, before) = (Instant::now(), self.tester.compared);
        stage(&mut self.tester, &mut self.generator)?;
        let (count, seconds) = (self.tester.compared - before, began.elapsed().as_secs_f64());
        println!("{name}: {count} agree ({seconds:.1} s)");
        Ok(())
    }
}

/// What is tried whole.
fn all_small(stages: &mut Stages) -> Outcome {
    stages.run("the limits", |t, _| edges::edges(t))?;
    stages.run("given records, cut and changed", |t, _| records::given(t))?;
    stages.run("all graphs of up to four words", |t, _| {
        records::all_graphs(t)
    })?;
    stages.run("all house lines of small graphs", |t, _| {
        records::all_house_lines(t)
    })?;
    stages.run("floors of small graphs", |t, _| floors::floors(t))?;
    stages.run("all pairs of words of small graphs", |t, _| pairs::pairs(t))?;
    stages.run("no smaller lawful chart", |t, _| least::least(t))
}

/// What chance makes; `sized` picks of two sizes.
fn by_chance(stages: &mut Stages, sized: impl Fn(usize, usize) -> usize) -> Outcome {
    let count = sized(20, 200);
    stages.run("lists of every length", |t, g| {
        records::lengths(t, g, count)
    })?;
    let count = sized(4, 60);
    stages.run("damaged records", |t, g| records::damaged(t, g, count))?;
    let count = sized(3, 40);
    stages.run("largest records", |t, g| records::largest(t, g, count))?;
    let count = sized(250, 5_000);
    stages.run("about as many lines as a chart may have", |t, g| {
        broad::broad(t, g, count)
    })?;
    let count = sized(2_000, 30_000);
    stages.run("session scripts", |t, g| sessions::sessions(t, g, count))?;
    let count = sized(8_000, 60_000);
    stages.run("questions of records", |t, g| questions::leads(t, g, count))?;
    let count = sized(100_000, 2_000_000);
    stages.run("strokes", |t, g| questions::strokes(t, g, count))?;
    let count = sized(100_000, 500_000);
    stages.run("random records", |t, g| records::chance(t, g, count))
}

/// Prints what was seen; a run that met too little is no proof of anything.
fn summary(tester: &Tester) -> Outcome {
    println!("answers by number, 0 a chart: {:?}", tester.seen);
    // 9 and 10 are no answers of a chart.
    let mut numbers = (0..=8).chain([11, 12]);
    if let Some(number) = numbers.find(|&number| tester.seen[number] == 0) {
        return Err(format!("no record was answered with {number}"));
    }
    println!("words led to each other by number: {:?}", tester.led);
    if tester.led.contains(&0) {
        return Err("one of the four ways to lead was never answered".to_string());
    }
    println!("{} comparisons agree", tester.compared);
    Ok(())
}
