//! Draws the record in a file, follows its arrows in a session, and places the first one on a page.
//!
//!     tools/archive.sh
//!     cd apps && cargo run --release --offline --example draw -- ../samples/p1.record

use ceviloneth::{stroke_straight, Chart, Place, Refusal, Session};
use std::process::ExitCode;

fn main() -> ExitCode {
    let file = std::env::args().nth(1);
    let Some(record) = file.and_then(|name| std::fs::read(name).ok()) else {
        eprintln!("usage: draw RECORD (a file that can be read)");
        return ExitCode::from(2);
    };
    match ceviloneth::chart(&record).and_then(|chart| show(&record, &chart)) {
        Ok(()) => ExitCode::SUCCESS,
        Err(refusal) => {
            println!("refused {refusal}");
            ExitCode::FAILURE
        }
    }
}

fn show(record: &[u8], chart: &Chart) -> Result<(), Refusal> {
    let counts = &chart.counts;
    println!(
        "{} words, {} arrows, {} firm, {} rows, {} lines, {} bundles, {} columns",
        counts.words,
        counts.arrows,
        counts.firm,
        counts.rows,
        counts.lines,
        counts.bundles,
        counts.width
    );
    for (number, word) in chart.words.iter().enumerate() {
        println!(
            "word {number}: column {}, row {}, floor {}, leads to {}",
            word.column, word.row, word.floor, word.descendants
        );
    }
    for arrow in chart.arrows.iter().take(8) {
        println!(
            "arrow {}: {:?}, {}",
            arrow.number,
            arrow.kind,
            if arrow.implied { "implied" } else { "firm" }
        );
    }
    let last = chart.words.len() - 1;
    println!(
        "word 0 leads to word {last} {}",
        ceviloneth::leads(record, 0, last)?
    );
    let places = [&chart.words[0], &chart.words[last]].map(|word| Place {
        column: word.column.into(),
        row: word.row.into(),
    });
    println!("on the page they stand at {:?}", stroke_straight(places)?);
    grow()
}

/// A session: three arrows go in, a fourth would close a ring.
fn grow() -> Result<(), Refusal> {
    let mut session = Session::start(3)?;
    session.add(0, 1)?;
    session.add(1, 2)?;
    println!("in a session 0 leads to 2 {}", session.leads(0, 2)?);
    session.add(0, 2)?;
    println!("after an arrow of their own, {}", session.leads(0, 2)?);
    if let Err(refusal) = session.add(2, 0) {
        println!("arrow 2 to 0 is refused: {refusal}");
    }
    Ok(())
}
