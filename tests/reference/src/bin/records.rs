//! Prints random records with their listings, in the form of the files of vectors.
//!
//! Arguments: a seed and a count.

use reference::random::{record, Generator};
use reference::vectors::block;
use std::io::{self, Write};
use std::process::ExitCode;

fn main() -> ExitCode {
    let arguments: Vec<String> = std::env::args().skip(1).collect();
    let numbers: Vec<u64> = arguments.iter().flat_map(|text| text.parse()).collect();
    let [seed, count] = numbers[..] else {
        eprintln!("usage: records SEED COUNT");
        return ExitCode::from(2);
    };
    match print(seed, count) {
        Ok(()) => ExitCode::SUCCESS,
        Err(_) => ExitCode::FAILURE,
    }
}

fn print(seed: u64, count: u64) -> io::Result<()> {
    let mut out = io::BufWriter::new(io::stdout().lock());
    writeln!(out, "# Random records, seed {seed}, count {count}\n")?;
    let mut generator = Generator::new(seed);
    for number in 0..count {
        let name = format!("seed {seed}, {number}");
        writeln!(out, "{}", block(&name, &record(&mut generator)))?;
    }
    out.flush()
}
