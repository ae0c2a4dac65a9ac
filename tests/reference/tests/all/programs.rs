//! The programs, run as they are.

use crate::support::{graph, layered, rising, tallest, with_floors};
use reference::listing::listing;
use reference::random::{record, Generator};
use reference::vectors::{parse, parse_script};
use std::io::Write;
use std::process::{Command, Output, Stdio};

const REFERENCE: &str = env!("CARGO_BIN_EXE_reference");
const RECORDS: &str = env!("CARGO_BIN_EXE_records");
const SESSION: &str = env!("CARGO_BIN_EXE_session");
const COMPARE: &str = env!("CARGO_BIN_EXE_compare");

fn run(program: &str, arguments: &[&str], input: &[u8]) -> Output {
    let mut child = Command::new(program)
        .args(arguments)
        .stdin(Stdio::piped())
        .stdout(Stdio::piped())
        .stderr(Stdio::piped())
        .spawn()
        .expect("the program starts");
    let mut pipe = child.stdin.take().expect("a pipe");
    // A program that reads nothing may be gone already.
    let _ = pipe.write_all(input);
    drop(pipe);
    child.wait_with_output().expect("the program ends")
}

fn text(output: &Output) -> String {
    String::from_utf8(output.stdout.clone()).expect("text")
}

#[test]
fn reference_prints_the_listing() {
    for record in [graph(5, &rising(5, 8)), layered(31), tallest()] {
        let output = run(REFERENCE, &[], &record.to_bytes());
        assert!(output.status.success());
        assert_eq!(text(&output), listing(&record.to_bytes()));
    }
}

#[test]
fn reference_prints_the_refusal() {
    for (bytes, expected) in [
        (Vec::new(), "refused 1\n"),
        (vec![0; 70_000], "refused 1\n"),
        (graph(129, &[]).to_bytes(), "refused 2\n"),
        (graph(1, &[(0, 0)]).to_bytes(), "refused 5\n"),
        (layered(32).to_bytes(), "refused 11\n"),
        (with_floors(1, &[], &[]).to_bytes(), "refused 12\n"),
    ] {
        assert_eq!(text(&run(REFERENCE, &[], &bytes)), expected);
    }
}

#[test]
fn records_prints_vectors() {
    let output = run(RECORDS, &["42", "30"], &[]);
    assert!(output.status.success());
    let vectors = parse(&text(&output)).expect("vectors");
    let mut generator = Generator::new(42);
    assert_eq!(vectors.len(), 30);
    for vector in vectors {
        assert_eq!(vector.bytes, record(&mut generator));
        assert_eq!(vector.listing, listing(&vector.bytes));
    }
}

#[test]
fn session_answers_the_script() {
    let (script, expected) = parse_script(include_str!("../../vectors/d.txt"));
    let output = run(SESSION, &[], script.as_bytes());
    assert!(output.status.success());
    assert_eq!(text(&output), expected);
}

#[test]
fn compare_agrees_with_itself() {
    let output = run(COMPARE, &[REFERENCE, "1", "100"], &[]);
    assert!(output.status.success());
    assert_eq!(text(&output), "seed 1\n100 records agree\n");
}

#[test]
fn compare_shows_a_small_record_where_another_program_differs() {
    let output = run(COMPARE, &[RECORDS, "1", "100"], &[]);
    assert_eq!(output.status.code(), Some(1));
    let expected = "seed 1\nrecord 0 differs\n\nhere:\nrefused 1\nthere:\n\n";
    assert_eq!(text(&output), expected);
}

#[test]
fn wrong_arguments_are_told() {
    for (program, arguments) in [
        (RECORDS, ["x", "1"].as_slice()),
        (RECORDS, &[]),
        (COMPARE, &[]),
        (COMPARE, &[REFERENCE, "x", "1"]),
        (COMPARE, &["no such program", "1", "1"]),
    ] {
        let output = run(program, arguments, &[]);
        assert_eq!(output.status.code(), Some(2));
        assert!(!output.stderr.is_empty());
    }
}
