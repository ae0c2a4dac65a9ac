//! Connections: how one vertex leads to another, one of four answers (2.4).

use crate::descent::Reachability;
use crate::record::Record;
use crate::refusal::Refusal;

/// By which routes one vertex reaches another. The cases stand in the order of their numbers.
#[derive(Clone, Copy, Debug, PartialEq, Eq, PartialOrd, Ord, Hash)]
pub enum Connection {
    /// 0, "no": by none.
    Unreached,
    /// 1, "arrow": by an edge, and by no longer route.
    EdgeOnly,
    /// 2, "longer": by routes of two edges or more, and by no edge.
    LongerOnly,
    /// 3, "both": by an edge, and by a longer route.
    Both,
}

/// Every connection.
pub const CONNECTIONS: [Connection; 4] = [
    Connection::Unreached,
    Connection::EdgeOnly,
    Connection::LongerOnly,
    Connection::Both,
];

impl Connection {
    /// The connection by an edge, if there is one, and by a longer route, if there is one.
    pub fn by(edge: bool, longer: bool) -> Connection {
        match (edge, longer) {
            (false, false) => Connection::Unreached,
            (true, false) => Connection::EdgeOnly,
            (false, true) => Connection::LongerOnly,
            (true, true) => Connection::Both,
        }
    }

    /// Its number.
    pub fn number(self) -> u8 {
        self as u8
    }

    /// Its word in the answers to a script.
    pub fn word(self) -> &'static str {
        match self {
            Connection::Unreached => "no",
            Connection::EdgeOnly => "arrow",
            Connection::LongerOnly => "longer",
            Connection::Both => "both",
        }
    }

    /// Whether there is a route at all.
    pub fn reaches(self) -> bool {
        self != Connection::Unreached
    }
}

/// How vertex `u` of the record in `bytes` leads to `v`: refused as the record is when read, then
/// where one of them is unknown.
pub fn leads(bytes: &[u8], u: usize, v: usize) -> Result<Connection, Refusal> {
    let record = Record::read(bytes)?;
    if u.max(v) >= record.vertex_count {
        return Err(Refusal::UnknownVertex);
    }
    Ok(Reachability::of(record.vertex_count, &record.edges).connection(u, v))
}
