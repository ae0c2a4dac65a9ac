//! Charts of records.

use crate::raw;
use crate::refusal::Refusal;

/// Numbers of a word, of an arrow and of a bundle in the lent lists.
pub const WORD_NUMBERS: usize = 6;
/// Numbers of an arrow.
pub const ARROW_NUMBERS: usize = 5;
/// Numbers of a bundle.
pub const BUNDLE_NUMBERS: usize = 4;

/// The most words, arrows and bundles of a chart.
pub const MOST_WORDS: usize = 128;
/// The most arrows of a chart.
pub const MOST_ARROWS: usize = 4096;
/// The most bundles of a chart.
pub const MOST_BUNDLES: usize = 256;
/// The most lines of a chart.
pub const MOST_LINES: usize = 31;
/// The most rows of a chart, and the rows of a page.
pub const MOST_ROWS: usize = 255;
/// The highest floor of a word.
pub const MOST_FLOOR: u8 = 127;

/// The counts of a chart.
#[derive(Clone, Copy, Debug, PartialEq, Eq)]
pub struct Counts {
    /// The number of words.
    pub words: usize,
    /// The number of arrows.
    pub arrows: usize,
    /// The number of bundles.
    pub bundles: usize,
    /// The number of rows, at most [`MOST_ROWS`].
    pub rows: usize,
    /// The number of lines, at most [`MOST_LINES`].
    pub lines: usize,
    /// The number of firm arrows.
    pub firm: usize,
    /// The number of columns.
    pub width: usize,
    /// How many side columns each line has, 0 past the last.
    pub side_columns: [u16; MOST_WORDS],
}

/// A word: where it stands, how many words it leads to, and its floor.
#[derive(Clone, Copy, Debug, PartialEq, Eq)]
pub struct Word {
    /// Its line.
    pub line: u16,
    /// Its position in the line.
    pub position: u16,
    /// Its column.
    pub column: u16,
    /// Its row.
    pub row: u16,
    /// The number of its descendants.
    pub descendants: u16,
    /// Its floor, the lowest row that it may have: 0 where the record has no floors.
    pub floor: u8,
}

/// How an arrow is drawn.
#[derive(Clone, Copy, Debug, PartialEq, Eq)]
pub enum Kind {
    /// Between neighbours of a line.
    Spine,
    /// Over a side column.
    Side {
        /// The number of its bundle.
        bundle: u16,
    },
    /// From line to line.
    Straight,
    /// From line to line with one bend.
    Bent {
        /// The bend's column.
        column: u16,
        /// The bend's row.
        row: u16,
    },
}

/// An arrow: its kind, and whether a longer route implies it.
#[derive(Clone, Copy, Debug, PartialEq, Eq)]
pub struct Arrow {
    /// Its number in the record.
    pub number: u16,
    /// How it is drawn.
    pub kind: Kind,
    /// Implied, else firm.
    pub implied: bool,
}

/// Side arrows of a line that run together.
#[derive(Clone, Copy, Debug, PartialEq, Eq)]
pub struct Bundle {
    /// Its line.
    pub line: u16,
    /// Its first row.
    pub first_row: u16,
    /// Its last row.
    pub last_row: u16,
    /// Its side column.
    pub side_column: u16,
}

/// A whole chart.
#[derive(Clone, Debug, PartialEq, Eq)]
pub struct Chart {
    /// The counts.
    pub counts: Counts,
    /// The words by number.
    pub words: Vec<Word>,
    /// The arrows by number.
    pub arrows: Vec<Arrow>,
    /// The bundles by number.
    pub bundles: Vec<Bundle>,
}

/// The chart of a record.
pub fn chart(record: &[u8]) -> Result<Chart, Refusal> {
    Lists::new().chart(record)
}

/// The chart of a record as numbers into lent lists: [`WORD_NUMBERS`] a word, [`ARROW_NUMBERS`] an arrow,
/// [`BUNDLE_NUMBERS`] a bundle.
///
/// Numbers past the needed ones stay as they are, and so do all where the record is refused.
pub fn chart_into(
    record: &[u8],
    words: &mut [u16],
    arrows: &mut [u16],
    bundles: &mut [u16],
) -> Result<Counts, Refusal> {
    let counts = raw::chart(record, words, arrows, bundles);
    Refusal::of_number(counts.refusal).map(|()| counts.into())
}

/// Lists with room for every chart, to be used again and again.
pub struct Lists {
    words: Vec<u16>,
    arrows: Vec<u16>,
    bundles: Vec<u16>,
}

impl Lists {
    /// New lists.
    pub fn new() -> Lists {
        Lists {
            words: vec![0; WORD_NUMBERS * MOST_WORDS],
            arrows: vec![0; ARROW_NUMBERS * MOST_ARROWS],
            bundles: vec![0; BUNDLE_NUMBERS * MOST_BUNDLES],
        }
    }

    /// Checks a record whole and gives the counts of its chart.
    pub fn check(&mut self, record: &[u8]) -> Result<Counts, Refusal> {
        chart_into(record, &mut self.words, &mut self.arrows, &mut self.bundles)
    }

    /// The chart of a record.
    pub fn chart(&mut self, record: &[u8]) -> Result<Chart, Refusal> {
        let counts = self.check(record)?;
        Ok(Chart {
            counts,
            words: entries(&self.words, counts.words, word),
            arrows: entries(&self.arrows, counts.arrows, arrow),
            bundles: entries(&self.bundles, counts.bundles, bundle),
        })
    }
}

impl Default for Lists {
    fn default() -> Lists {
        Lists::new()
    }
}

/// The first entries of a list of numbers.
fn entries<T, const N: usize>(numbers: &[u16], count: usize, entry: fn([u16; N]) -> T) -> Vec<T> {
    let of_chunk = |chunk: &[u16]| entry(chunk.try_into().expect("a chunk of N numbers"));
    numbers.chunks_exact(N).take(count).map(of_chunk).collect()
}

fn word([line, position, column, row, descendants, floor]: [u16; WORD_NUMBERS]) -> Word {
    Word {
        line,
        position,
        column,
        row,
        descendants,
        floor: u8::try_from(floor).expect("a floor is at most 127"),
    }
}

fn arrow([number, kind, value, row, implied]: [u16; ARROW_NUMBERS]) -> Arrow {
    let kind = match kind {
        0 => Kind::Spine,
        1 => Kind::Side { bundle: value },
        2 => Kind::Straight,
        _ => Kind::Bent { column: value, row },
    };
    Arrow {
        number,
        kind,
        implied: implied == 1,
    }
}

fn bundle([line, first_row, last_row, side_column]: [u16; BUNDLE_NUMBERS]) -> Bundle {
    Bundle {
        line,
        first_row,
        last_row,
        side_column,
    }
}

impl From<raw::ChartCounts> for Counts {
    fn from(raw: raw::ChartCounts) -> Counts {
        Counts {
            words: raw.words,
            arrows: raw.arrows,
            bundles: raw.bundles,
            rows: usize::from(raw.rows),
            lines: usize::from(raw.lines),
            firm: usize::from(raw.firm),
            width: usize::from(raw.width),
            side_columns: raw.side_columns,
        }
    }
}
