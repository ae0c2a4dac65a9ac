//! Reads a record on standard input and prints its listing, or `refused` and the number.

use std::io::{self, Read, Write};

fn main() -> io::Result<()> {
    let mut bytes = Vec::new();
    io::stdin().lock().read_to_end(&mut bytes)?;
    let listing = reference::listing::listing(&bytes);
    io::stdout().lock().write_all(listing.as_bytes())
}
