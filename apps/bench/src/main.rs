//! Times the proved library, the peer and the second implementation side by side; prints a page
//! of tables.

use bench::inputs::{self, Input};
use bench::memory::{peak_heap, peak_stack, Counting};
use bench::sides::{Second, Side};
use bench::{calls, charts, growth, others, plot};
use std::path::{Path, PathBuf};
use std::process::ExitCode;

#[global_allocator]
static ALLOCATOR: Counting = Counting;

const HELP: &str = "usage: bench [--plot FILE] [--others] [--check]

Times the proved library, the peer (tests/peer, written for speed) and the second implementation
(tests/reference, written for clarity) on the same inputs, and prints a page of tables (Markdown).
--plot FILE  also times growing charts and writes a picture (SVG) of it
--others     also times Graphviz and networkx on the same graphs, where they are installed
--check      ends with 1 where a ratio to the peer is over what is asked: 1.0 on a chart, 1.2 on
             one with floors, 0.7 on the dictionary, 0.3 on the dense record

Exit status: 0 done; 1 a ratio is over; 2 wrong use, or a file can't be written.
";

const HEAD: &str = "# Benchmarks

Made by one command, from the root of the repository, after `tools/archive.sh`:

    (cd apps && cargo run --release --offline --quiet -p bench -- --plot ../docs/pictures/cost.svg) > docs/BENCHMARKS.md

The proved library, the peer (`tests/peer`, C++ written for speed) and the second implementation
(`tests/reference`, Rust written for clarity) run in one process, in turn, on the same inputs, all as
release builds. The lists are made once, with room for every chart, and lent again and again: caches are
warm. Records are in memory. A figure is the best of fifteen turns of 0.06 s or more. A ratio below 1 says
that the proved library is faster. A shape whose largest record is broad is timed as a chart of 31 lines,
the most there are, and that record as a refusal. Records with floors stand beside the same ones without.
With `--check` the exit status tells whether all ratios are as asked, with `--others` Graphviz and networkx
are timed too.
";

/// What is asked for.
#[derive(Default)]
struct Plan {
    plot: Option<PathBuf>,
    others: bool,
    check: bool,
}

fn main() -> ExitCode {
    let Some(plan) = plan() else {
        eprint!("{HELP}");
        return ExitCode::from(2);
    };
    match run(&plan) {
        Ok(over) if plan.check && !over.is_empty() => {
            over.iter().for_each(|row| eprintln!("bench: over: {row}"));
            ExitCode::FAILURE
        }
        Ok(_) => ExitCode::SUCCESS,
        Err(error) => {
            eprintln!("bench: {error}");
            ExitCode::from(2)
        }
    }
}

/// The processor's name in brackets, where the system tells it: ratios differ from one make to another.
fn processor() -> String {
    let told = std::fs::read_to_string("/proc/cpuinfo").unwrap_or_default();
    told.lines()
        .find(|line| line.starts_with("model name"))
        .and_then(|line| line.split_once(':'))
        .map_or_else(String::new, |(_, name)| format!(" ({})", name.trim()))
}

fn plan() -> Option<Plan> {
    let mut plan = Plan::default();
    let mut words = std::env::args().skip(1);
    while let Some(word) = words.next() {
        match word.as_str() {
            "--plot" => plan.plot = Some(words.next()?.into()),
            "--others" => plan.others = true,
            "--check" => plan.check = true,
            _ => return None,
        }
    }
    Some(plan)
}

/// Prints the page; gives the rows whose ratio to the peer is over what is asked.
fn run(plan: &Plan) -> Result<Vec<String>, String> {
    let cores = std::thread::available_parallelism().map_or(1, usize::from);
    let architecture = std::env::consts::ARCH.replace('_', "-");
    let processor = processor();
    println!("{HEAD}\nMachine: one core of a {cores}-core {architecture} server{processor}.\n");
    let inputs = inputs::all();
    let rows = charts::table(&inputs);
    if let Some(file) = &plan.plot {
        growth(file)?;
    }
    calls::table();
    memory(&inputs);
    if plan.others {
        others::table().map_err(|error| format!("temporary files: {error}"))?;
    }
    Ok(charts::verdict(&rows))
}

/// Times growing charts, writes the picture, and shows it on the page.
fn growth(file: &Path) -> Result<(), String> {
    let picture = plot::svg(&growth::curves());
    std::fs::write(file, picture).map_err(|error| format!("{}: {error}", file.display()))?;
    let name = file.file_name().unwrap_or_default().to_string_lossy();
    println!("\n## Cost as charts grow\n\n![time by words and by arrows](pictures/{name})");
    Ok(())
}

fn memory(inputs: &[Input]) {
    println!(
        "\n## Memory\n\nPeak stack of a call (a painted thread stack) and peak heap besides the lent lists. \
         The peer has no heap.\n"
    );
    println!(
        "| Records | Proved: stack, KB | heap, KB | Peer: stack, KB | Second: stack, KB | heap, KB |"
    );
    println!("|---|---:|---:|---:|---:|---:|");
    let (mut proved, mut peer, mut second) = (Side::proved(), Side::peer(), Second::new());
    for input in inputs {
        let bytes = [
            peak_stack(|| proved.draw(input)),
            peak_heap(|| proved.draw(input)),
            peak_stack(|| peer.draw(input)),
            peak_stack(|| second.draw(input)),
            peak_heap(|| second.draw(input)),
        ];
        let cells = bytes.map(|bytes| bytes.div_ceil(1024).to_string());
        println!("| {} | {} |", input.name, cells.join(" | "));
    }
    println!("\nLent lists with room for every chart: 44 KB. A session's state: 4.1 KB.");
}
