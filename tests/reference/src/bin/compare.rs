//! Compares another program with this reading, over random records.
//!
//! Arguments: the program, a seed and a count. The program gets each record on standard input and
//! must print the listing. The first record with another answer is made small and shown.

use reference::hex::to_hex;
use reference::listing::listing;
use reference::random::{record, Generator};
use reference::shrink::shrink;
use std::io::{self, Write};
use std::process::{Command, ExitCode, Stdio};

fn main() -> ExitCode {
    let arguments: Vec<String> = std::env::args().skip(1).collect();
    let [program, seed, count] = &arguments[..] else {
        return usage();
    };
    let (Ok(seed), Ok(count)) = (seed.parse(), count.parse()) else {
        return usage();
    };
    match compare(program, seed, count) {
        Ok(true) => ExitCode::SUCCESS,
        Ok(false) => ExitCode::FAILURE,
        Err(error) => {
            eprintln!("{program}: {error}");
            ExitCode::from(2)
        }
    }
}

fn usage() -> ExitCode {
    eprintln!("usage: compare PROGRAM SEED COUNT");
    ExitCode::from(2)
}

/// Whether all answers are the same; a difference is printed.
fn compare(program: &str, seed: u64, count: u64) -> io::Result<bool> {
    println!("seed {seed}");
    let mut generator = Generator::new(seed);
    for number in 0..count {
        let bytes = record(&mut generator);
        if answer(program, &bytes)? != listing(&bytes).into_bytes() {
            println!("record {number} differs");
            return show(program, &bytes).map(|()| false);
        }
    }
    println!("{count} records agree");
    Ok(true)
}

/// Prints a small record on which the two differ, and both answers.
fn show(program: &str, bytes: &[u8]) -> io::Result<()> {
    let differs = |bytes: &[u8]| {
        let theirs = answer(program, bytes);
        theirs.is_ok_and(|theirs| theirs != listing(bytes).into_bytes())
    };
    let small = shrink(bytes, differs);
    let theirs = answer(program, &small)?;
    println!("{}", to_hex(&small));
    print!("here:\n{}", listing(&small));
    println!("there:\n{}", String::from_utf8_lossy(&theirs));
    Ok(())
}

/// What the program prints for the record.
fn answer(program: &str, bytes: &[u8]) -> io::Result<Vec<u8>> {
    let mut child = Command::new(program)
        .stdin(Stdio::piped())
        .stdout(Stdio::piped())
        .spawn()?;
    if let Some(mut input) = child.stdin.take() {
        // A program that ends before it has read all is judged by what it prints.
        let _ = input.write_all(bytes);
    }
    Ok(child.wait_with_output()?.stdout)
}
