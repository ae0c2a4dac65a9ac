//! Sessions: a graph that grows arrow by arrow.

use crate::leads::Leads;
use crate::raw;
use crate::refusal::Refusal;

/// Numbers of a session's state: words, arrows, 256 masks of arrows and 256 of descent.
pub const STATE_NUMBERS: usize = 514;

/// A number of words, and arrows between them without a ring.
#[derive(Clone, Debug, PartialEq, Eq)]
pub struct Session {
    state: Vec<u64>,
}

impl Session {
    /// A session of 1 to 128 words and no arrows.
    pub fn start(words: usize) -> Result<Session, Refusal> {
        let mut state = vec![0; STATE_NUMBERS];
        Refusal::of_number(raw::session_start(&mut state, words))?;
        Ok(Session { state })
    }

    /// Adds an arrow; refused, the session stays as it is.
    pub fn add(&mut self, from: usize, to: usize) -> Result<(), Refusal> {
        Refusal::of_number(raw::session_add(&mut self.state, from, to))
    }

    /// How the arrows added lead from one word to the other.
    pub fn leads(&self, from: usize, to: usize) -> Result<Leads, Refusal> {
        raw::session_leads(&self.state, from, to).answer()
    }

    /// The number of words.
    pub fn words(&self) -> u64 {
        self.state[0]
    }

    /// The number of arrows.
    pub fn arrows(&self) -> u64 {
        self.state[1]
    }
}
