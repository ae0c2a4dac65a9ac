//! Why something is sent back: the twelve refusals (13).

use std::fmt;

/// A refusal. The cases stand in the order of their numbers.
#[derive(Clone, Copy, Debug, PartialEq, Eq, PartialOrd, Ord, Hash)]
pub enum Refusal {
    /// 1, "layout": the bytes are not well laid out.
    Layout = 1,
    /// 2, "size": no vertex, too many vertices or too many edges.
    Size,
    /// 3, "stranger": an edge or a channel names a vertex that is not there.
    UnknownVertex,
    /// 4, "double": an edge stands twice.
    DuplicateEdge,
    /// 5, "ring": a vertex reaches itself.
    Cycle,
    /// 6, "cover": the given channels repeat a vertex.
    Cover,
    /// 7, "broken": a vertex of a given channel is not reached by the one before.
    Broken,
    /// 8, "short": there are too few entries in a lent list.
    Short,
    /// 9, "full": the session has all the edges it can hold.
    Full,
    /// 10, "off page": a place lies beyond the page.
    OffPage,
    /// 11, "broad": the chart has too many channels. Said after 7 and before 8.
    Broad,
    /// 12, "floor": there is not one floor a vertex, or one is too high. Said after 2 and before 3.
    Floor,
}

impl Refusal {
    /// Its number.
    pub fn number(self) -> u8 {
        self as u8
    }

    /// Its word.
    pub fn word(self) -> &'static str {
        match self {
            Refusal::Layout => "layout",
            Refusal::Size => "size",
            Refusal::UnknownVertex => "stranger",
            Refusal::DuplicateEdge => "double",
            Refusal::Cycle => "ring",
            Refusal::Cover => "cover",
            Refusal::Broken => "broken",
            Refusal::Short => "short",
            Refusal::Full => "full",
            Refusal::OffPage => "off page",
            Refusal::Broad => "broad",
            Refusal::Floor => "floor",
        }
    }
}

impl fmt::Display for Refusal {
    fn fmt(&self, out: &mut fmt::Formatter<'_>) -> fmt::Result {
        write!(out, "refused {}", self.number())
    }
}
