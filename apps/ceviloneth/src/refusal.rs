//! The twelve refusals (docs/SPECIFICATION.md, 13).

use std::fmt;

/// Why a call is refused.
#[derive(Clone, Copy, Debug, PartialEq, Eq, PartialOrd, Ord, Hash)]
#[repr(u8)]
pub enum Refusal {
    /// The bytes are not laid out as a record's.
    Layout = 1,
    /// No word, more than 128 words, or more than 4,096 arrows.
    Size,
    /// An arrow or a line names a word that isn't there.
    Stranger,
    /// Two arrows have the same ends.
    Double,
    /// Some word leads back to itself.
    Ring,
    /// A word is in the house lines more than once.
    Cover,
    /// A word of a house line does not lead to the next.
    Broken,
    /// A lent list is too short.
    Short,
    /// The session has 4,096 arrows.
    Full,
    /// A place lies beyond the page.
    OffPage,
    /// The chart has more than 31 lines.
    Broad,
    /// There are floors, but not one for each word, or one is above 127; told straight after [`Refusal::Size`].
    Floor,
}

/// Each refusal with its word, and when it is given.
const TABLE: [(Refusal, &str, &str); 12] = [
    (
        Refusal::Layout,
        "layout",
        "the bytes are not laid out as a record's",
    ),
    (
        Refusal::Size,
        "size",
        "no word, more than 128 words or more than 4,096 arrows",
    ),
    (
        Refusal::Stranger,
        "stranger",
        "an arrow or a line names a word that isn't there",
    ),
    (Refusal::Double, "double", "two arrows have the same ends"),
    (Refusal::Ring, "ring", "some word leads back to itself"),
    (
        Refusal::Cover,
        "cover",
        "a word is in the house lines more than once",
    ),
    (
        Refusal::Broken,
        "broken",
        "a word of a house line does not lead to the next",
    ),
    (Refusal::Short, "short", "a lent list is too short"),
    (Refusal::Full, "full", "the session has 4,096 arrows"),
    (Refusal::OffPage, "off page", "a place lies beyond the page"),
    (Refusal::Broad, "broad", "the chart has more than 31 lines"),
    (
        Refusal::Floor,
        "floor",
        "there is not one floor for each word, or one is above 127",
    ),
];

impl Refusal {
    /// Its number.
    pub fn number(self) -> u8 {
        self as u8
    }

    /// Its word.
    pub fn word(self) -> &'static str {
        TABLE[usize::from(self.number()) - 1].1
    }

    /// When it is given.
    pub fn reason(self) -> &'static str {
        TABLE[usize::from(self.number()) - 1].2
    }

    /// What a call's number says: 0 is no refusal.
    pub(crate) fn of_number(number: u8) -> Result<(), Refusal> {
        match number.checked_sub(1) {
            None => Ok(()),
            Some(place) => Err(TABLE[usize::from(place)].0),
        }
    }
}

impl fmt::Display for Refusal {
    fn fmt(&self, out: &mut fmt::Formatter<'_>) -> fmt::Result {
        write!(out, "{} {}", self.number(), self.word())
    }
}

impl std::error::Error for Refusal {}
