//! How one word leads to another.

use crate::raw;
use crate::refusal::Refusal;
use std::fmt;

/// How one word leads to another: by an arrow, by longer routes of two arrows or more, by both or not
/// at all.
#[derive(Clone, Copy, Debug, PartialEq, Eq, PartialOrd, Ord, Hash)]
#[repr(u8)]
pub enum Leads {
    /// No route goes from the one to the other; a word asked about itself is told so.
    NotAtAll,
    /// An arrow does, and no longer route.
    Arrow,
    /// Longer routes do, and no arrow.
    Longer,
    /// An arrow and longer routes: an arrow that is implied.
    Both,
}

/// The answers by their numbers, each as it is said.
const TABLE: [(Leads, &str); 4] = [
    (Leads::NotAtAll, "not at all"),
    (Leads::Arrow, "by an arrow only"),
    (Leads::Longer, "by longer routes only"),
    (Leads::Both, "by both"),
];

impl Leads {
    /// Its number.
    pub fn number(self) -> u8 {
        self as u8
    }

    /// Whether any route leads there.
    pub fn at_all(self) -> bool {
        self != Leads::NotAtAll
    }
}

impl fmt::Display for Leads {
    fn fmt(&self, out: &mut fmt::Formatter<'_>) -> fmt::Result {
        out.write_str(TABLE[usize::from(self.number())].1)
    }
}

impl raw::Answer {
    /// The answer, or why there is none. Panics at a number that is no answer; the archive promises none.
    pub fn answer(self) -> Result<Leads, Refusal> {
        Refusal::of_number(self.refusal).map(|()| TABLE[usize::from(self.leads)].0)
    }
}

/// How a word of a record leads to another; of a broad record too.
pub fn leads(record: &[u8], from: usize, to: usize) -> Result<Leads, Refusal> {
    raw::leads(record, from, to).answer()
}
