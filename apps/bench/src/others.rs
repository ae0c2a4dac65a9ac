//! What a user would pick instead: Graphviz and networkx, where they are installed, on the same
//! graphs.

use crate::inputs::{grouped, scattered, ROOM};
use crate::sides::Side;
use crate::timing;
use reference::record::{Record, MAX_EDGES, MAX_VERTICES};
use std::fs;
use std::io;
use std::path::{Path, PathBuf};
use std::process::{Command, Output, Stdio};
use std::time::{Duration, Instant};

/// A program that runs longer on one graph is stopped.
const LIMIT: Duration = Duration::from_secs(60);
/// Runs, of which the best counts.
const RUNS: usize = 3;

/// Reads the graph of a dot file, prints the best time of three for both steps in seconds.
const NETWORKX: &str = "
import sys, time, networkx
lines = [line.strip(' ;\\n').split(' -> ') for line in open(sys.argv[1]) if ';' in line]
graph = networkx.DiGraph()
graph.add_nodes_from(line[0] for line in lines if len(line) == 1)
graph.add_edges_from(line for line in lines if len(line) == 2)
def run():
    began = time.perf_counter()
    networkx.transitive_reduction(graph)
    list(networkx.topological_generations(graph))
    return time.perf_counter() - began
print(min(run() for _ in range(3)))
";

/// A program or library that may be installed.
struct Other {
    name: &'static str,
    is_there: fn() -> bool,
    /// Seconds for the graph in a file; nothing where it fails or takes too long.
    seconds: fn(&Path) -> Option<f64>,
}

const OTHERS: [Other; 3] = [
    Other {
        name: "`dot`",
        is_there: || output("dot", &["-V"]).is_some(),
        seconds: |file| program("dot", &["-Tplain"], file),
    },
    Other {
        name: "`tred`",
        is_there: || output("tred", &["-?"]).is_some(),
        seconds: |file| program("tred", &[], file),
    },
    Other {
        name: "networkx",
        is_there: || {
            output("python3", &["-c", "import networkx"]).is_some_and(|o| o.status.success())
        },
        seconds: networkx,
    },
];

/// Times what is installed and prints a table; an error is one of the files.
pub fn table() -> io::Result<()> {
    println!("\n## What a user would pick instead\n");
    let (there, lacking): (Vec<_>, Vec<_>) = OTHERS.iter().partition(|other| (other.is_there)());
    for other in &lacking {
        println!("{} is not installed here.\n", other.name);
    }
    if there.is_empty() {
        return Ok(());
    }
    println!(
        "The proved library draws the whole chart. `dot` lays the graph out with its arrows' courses \
         and `tred` finds the firm arrows, both with the start of the process, which the graph of one \
         word shows. networkx finds the firm arrows and the rows, timed inside Python. A dash: failed, \
         or stopped after {} s.\n",
        LIMIT.as_secs()
    );
    let names: Vec<String> = there
        .iter()
        .map(|other| format!("{}, ms", other.name))
        .collect();
    println!("| Graph | Proved, ms | {} |", names.join(" | "));
    println!("|---|---:|{}", "---:|".repeat(there.len()));
    let folder = Folder::new()?;
    for (name, record) in graphs() {
        let file = folder.put(&record)?;
        let times = there.iter().map(|other| millis((other.seconds)(&file)));
        let times: Vec<String> = times.collect();
        let proved = millis(Some(proved(&record)));
        println!("| {name} | {proved} | {} |", times.join(" | "));
    }
    Ok(())
}

/// One word, random graphs as in the table of charts, and the dense one.
fn graphs() -> Vec<(String, Record)> {
    let sizes = [
        (1, 0),
        (8, 16),
        (32, 128),
        (64, 256),
        (MAX_VERTICES, 512),
        (MAX_VERTICES, 1200),
        (MAX_VERTICES, MAX_EDGES),
    ];
    let named = |&(words, arrows): &(usize, usize)| {
        let name = match arrows {
            0 => "one word alone".to_string(),
            _ => format!("{words} words, {} arrows", grouped(arrows)),
        };
        (name, scattered(words, arrows))
    };
    sizes.iter().map(named).collect()
}

fn proved(record: &Record) -> f64 {
    let records = [record.to_bytes()];
    let mut side = Side::proved();
    let [seconds] = timing::seconds([&mut || side.draw_each(&records, ROOM)]);
    seconds
}

/// Milliseconds, or a dash.
fn millis(seconds: Option<f64>) -> String {
    match seconds {
        None => "–".to_string(),
        Some(seconds) if seconds < 0.001 => format!("{:.4}", 1e3 * seconds),
        Some(seconds) => format!("{:.1}", 1e3 * seconds),
    }
}

/// What a command ends with; nothing where it can't be run.
fn output(name: &str, options: &[&str]) -> Option<Output> {
    let mut command = Command::new(name);
    command.args(options).stdin(Stdio::null()).output().ok()
}

/// The best time of a program on a file, from its start to its end.
fn program(name: &str, options: &[&str], file: &Path) -> Option<f64> {
    let run = || {
        let mut command = Command::new(name);
        command.args(options).arg(file).stdout(Stdio::null());
        limited(command.stderr(Stdio::null()))
    };
    let times: Option<Vec<f64>> = (0..RUNS).map(|_| run()).collect();
    times?.into_iter().reduce(f64::min)
}

/// Runs a command; nothing where it fails or has to be stopped.
fn limited(command: &mut Command) -> Option<f64> {
    let began = Instant::now();
    let mut child = command.spawn().ok()?;
    loop {
        if let Some(status) = child.try_wait().ok()? {
            return status.success().then(|| began.elapsed().as_secs_f64());
        }
        if began.elapsed() > LIMIT {
            child.kill().and_then(|()| child.wait()).ok()?;
            return None;
        }
        std::thread::sleep(Duration::from_micros(100));
    }
}

fn networkx(file: &Path) -> Option<f64> {
    let output = output("python3", &["-c", NETWORKX, file.to_str()?])?;
    String::from_utf8(output.stdout).ok()?.trim().parse().ok()
}

/// A folder for the graphs, gone at the end.
struct Folder(PathBuf);

impl Folder {
    fn new() -> io::Result<Folder> {
        let name = format!("ceviloneth-bench-{}", std::process::id());
        let path = std::env::temp_dir().join(name);
        fs::create_dir(&path)?;
        Ok(Folder(path))
    }

    /// Writes a record's graph as a dot file.
    fn put(&self, record: &Record) -> io::Result<PathBuf> {
        let words = (0..record.vertex_count).map(|word| format!("{word};\n"));
        let arrow = |edge: &reference::record::Edge| format!("{} -> {};\n", edge.tail, edge.head);
        let arrows = record.edges.iter().map(arrow);
        let text: String = words.chain(arrows).collect();
        let file = self.0.join("graph.dot");
        fs::write(&file, format!("digraph {{\n{text}}}\n"))?;
        Ok(file)
    }
}

impl Drop for Folder {
    fn drop(&mut self) {
        // It lies in the folder for temporary files; what stays there does no harm.
        let _ = fs::remove_dir_all(&self.0);
    }
}
