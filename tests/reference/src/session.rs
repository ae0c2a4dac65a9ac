//! A session: a graph that grows edge by edge, by value (11).

use crate::connection::Connection;
use crate::record::{MAX_EDGES, MAX_VERTICES};
use crate::refusal::Refusal;
use std::collections::BTreeSet;

/// A number of vertices and a set of edges without a cycle.
#[derive(Clone, Debug, Default, PartialEq, Eq)]
pub struct Session {
    vertex_count: usize,
    edges: BTreeSet<(usize, usize)>,
}

/// A call on a session that has been started.
#[derive(Clone, Copy, Debug, PartialEq, Eq)]
pub enum Call {
    /// Adds the edge from the first to the second vertex.
    Add(usize, usize),
    /// Asks how the first vertex leads to the second.
    Leads(usize, usize),
}

/// A call on a list that an app lends, where sessions may follow each other (11.5).
#[derive(Clone, Copy, Debug, PartialEq, Eq)]
pub enum LentCall {
    /// Starts a session with so many vertices.
    Start(usize),
    /// A call on the session that stands in the list.
    On(Call),
}

/// What a call answers.
#[derive(Clone, Copy, Debug, PartialEq, Eq)]
pub enum Answer {
    /// The edge was added.
    Added,
    /// How the first vertex leads to the second.
    Leads(Connection),
    /// The call was refused, and the session is as it was.
    Refused(Refusal),
}

impl Session {
    /// A session with `vertex_count` vertices and no edges; refused, one with no vertices.
    pub fn start(vertex_count: usize) -> (Session, Option<Refusal>) {
        if !(1..=MAX_VERTICES).contains(&vertex_count) {
            return (Session::default(), Some(Refusal::Size));
        }
        let edges = BTreeSet::new();
        let session = Session {
            vertex_count,
            edges,
        };
        (session, None)
    }

    /// A start on a lent list; refused, the earlier session stays, if there was one.
    pub fn start_after(
        earlier: Option<Session>,
        vertex_count: usize,
    ) -> (Option<Session>, Option<Refusal>) {
        match Session::start(vertex_count) {
            (session, None) => (Some(session), None),
            (_, refusal) => (earlier, refusal),
        }
    }

    /// Adds the edge from `u` to `v`, or comes back as it was.
    pub fn add(mut self, u: usize, v: usize) -> (Session, Option<Refusal>) {
        let refusal = self.refusal_of(u, v);
        if refusal.is_none() {
            self.edges.insert((u, v));
        }
        (self, refusal)
    }

    /// How `u` leads to `v`; refused where one of them is unknown.
    pub fn leads(self, u: usize, v: usize) -> (Session, Result<Connection, Refusal>) {
        let answer = if self.knows(u, v) {
            Ok(self.connection(u, v))
        } else {
            Err(Refusal::UnknownVertex)
        };
        (self, answer)
    }

    /// Makes one call.
    pub fn call(self, call: Call) -> (Session, Answer) {
        match call {
            Call::Add(u, v) => {
                let (session, refusal) = self.add(u, v);
                (session, refusal.map_or(Answer::Added, Answer::Refused))
            }
            Call::Leads(u, v) => {
                let (session, answer) = self.leads(u, v);
                (session, answer.map_or_else(Answer::Refused, Answer::Leads))
            }
        }
    }

    /// The number of vertices, 0 after a refused start.
    pub fn vertex_count(&self) -> usize {
        self.vertex_count
    }

    /// The edges.
    pub fn edges(&self) -> &BTreeSet<(usize, usize)> {
        &self.edges
    }

    /// Why the edge from `u` to `v` cannot be added: 3, 4, 5, 9, the first that applies.
    fn refusal_of(&self, u: usize, v: usize) -> Option<Refusal> {
        if !self.knows(u, v) {
            Some(Refusal::UnknownVertex)
        } else if self.edges.contains(&(u, v)) {
            Some(Refusal::DuplicateEdge)
        } else if u == v || self.connection(v, u).reaches() {
            Some(Refusal::Cycle)
        } else if self.edges.len() == MAX_EDGES {
            Some(Refusal::Full)
        } else {
            None
        }
    }

    fn knows(&self, u: usize, v: usize) -> bool {
        u < self.vertex_count && v < self.vertex_count
    }

    /// A longer route begins with any edge from `u`; what follows is searched for.
    fn connection(&self, u: usize, v: usize) -> Connection {
        let edge = self.edges.contains(&(u, v));
        Connection::by(edge, self.any_reaches(self.successors(u).collect(), v))
    }

    /// The heads of the edges from `tail`.
    fn successors(&self, tail: usize) -> impl Iterator<Item = usize> + '_ {
        let own = self.edges.range((tail, 0)..=(tail, usize::MAX));
        own.map(|&(_, head)| head)
    }

    /// Searches the set of edges from all vertices in `open` until `v` is met.
    fn any_reaches(&self, mut open: Vec<usize>, v: usize) -> bool {
        let mut met = BTreeSet::new();
        while let Some(tail) = open.pop() {
            for head in self.successors(tail) {
                if head == v {
                    return true;
                }
                if met.insert(head) {
                    open.push(head);
                }
            }
        }
        false
    }
}
