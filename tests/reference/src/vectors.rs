//! Files of vectors: a name, a record in hexadecimal, its listing, a blank line; or a script.

use crate::hex::{from_hex, to_hex};
use crate::listing::listing;

/// A record with the listing that it must have.
#[derive(Clone, Debug, PartialEq, Eq)]
pub struct Vector {
    /// The name.
    pub name: String,
    /// The record.
    pub bytes: Vec<u8>,
    /// The listing, each line ended.
    pub listing: String,
}

/// Reads a file of vectors. A comment with no record below it is passed over.
pub fn parse(text: &str) -> Result<Vec<Vector>, String> {
    let text = format!("\n{text}");
    let (before, blocks) = text.split_once("\n# ").unwrap_or((&text, ""));
    if !before.trim().is_empty() {
        return Err(format!("no name: {before}"));
    }
    let blocks = blocks.split("\n# ");
    let vectors = blocks.filter(|block| block.trim_end().contains('\n'));
    vectors.map(parse_block).collect()
}

/// Name, record and listing, one below the other; the record's line may be empty.
fn parse_block(block: &str) -> Result<Vector, String> {
    let mut lines = block.trim_end().lines();
    let name = lines.next().unwrap_or_default();
    let bytes = lines.next().and_then(from_hex);
    let bytes = bytes.ok_or_else(|| format!("no record: {name}"))?;
    let listing: String = lines.flat_map(|line| [line, "\n"]).collect();
    if listing.is_empty() {
        return Err(format!("no listing: {name}"));
    }
    Ok(Vector {
        name: name.to_string(),
        bytes,
        listing,
    })
}

/// A script and its answers, from a file that has each line of the script behind `> ` and its answer
/// below. Comments and blank lines are passed over.
pub fn parse_script(text: &str) -> (String, String) {
    let (mut script, mut answers) = (String::new(), String::new());
    let lines = text.lines();
    for line in lines.filter(|line| !line.is_empty() && !line.starts_with('#')) {
        let (part, line) = match line.strip_prefix("> ") {
            Some(order) => (&mut script, order),
            None => (&mut answers, line),
        };
        part.extend([line, "\n"]);
    }
    (script, answers)
}

/// A record as a block of such a file, with the listing that this reading gives.
pub fn block(name: &str, bytes: &[u8]) -> String {
    format!("# {name}\n{}\n{}", to_hex(bytes), listing(bytes))
}
