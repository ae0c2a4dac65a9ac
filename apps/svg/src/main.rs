//! Turns a chart's listing on standard input into a picture (SVG) or a page (HTML) on standard output.
//!
//!     chart < RECORD | svg > PICTURE.svg
//!     chart < RECORD | svg --html > PAGE.html

mod listing;
mod page;
mod picture;

use listing::Listing;
use std::io::{self, Read, Write};
use std::process::ExitCode;

const HELP: &str = "usage: svg < LISTING > PICTURE.svg
       svg --html < LISTING > PAGE.html

Draws the listing that `chart` prints: words as numbered points, spine arrows black, side arrows
blue, straight ones green, bent ones brown, implied ones faint. The sizes are the page's: a column
is 42 and a row 113 quarter points. Where words have floors, a thin line runs below the rows of each
floor above 0, with its number at the left.

With --html the picture stands in a page of one file, for a browser: pick two words, and the page
says how the first leads to the second (not at all, by an arrow only, by longer routes only, by
both) and lights the arrows of all routes between them. It tells the floor of a word that has one.

Exit status: 0 drawn, 1 no chart in the listing, 2 wrong use.
";

fn main() -> ExitCode {
    let arguments: Vec<_> = std::env::args_os().skip(1).collect();
    let drawn = match &arguments[..] {
        [] => draw(|listing| picture::svg(listing, &picture::File)),
        [option] if option == "--html" => draw(page::html),
        _ => {
            eprint!("{HELP}");
            return ExitCode::from(2);
        }
    };
    match drawn {
        Ok(()) => ExitCode::SUCCESS,
        Err(error) => {
            eprintln!("svg: {error}");
            ExitCode::FAILURE
        }
    }
}

fn draw(form: impl Fn(&Listing) -> Result<String, String>) -> Result<(), String> {
    let mut text = String::new();
    let read = io::stdin().lock().read_to_string(&mut text);
    read.map_err(|error| format!("standard input: {error}"))?;
    let drawn = form(&Listing::parse(&text)?)?;
    let written = io::stdout().lock().write_all(drawn.as_bytes());
    written.map_err(|error| format!("standard output: {error}"))
}
