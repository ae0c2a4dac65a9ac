//! Reads a script of a session on standard input and prints the answer to each of its lines.

use std::io::{self, Read, Write};

fn main() -> io::Result<()> {
    let mut script = Vec::new();
    io::stdin().lock().read_to_end(&mut script)?;
    let answers = reference::script::answers(&script);
    io::stdout().lock().write_all(answers.as_bytes())
}
