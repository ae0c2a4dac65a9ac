//! Reachability (descent): which vertex leads to which (2).

use crate::connection::Connection;
use crate::record::{Edge, MAX_VERTICES};

/// For each vertex, its successors, and which vertices it reaches by one or more edges.
#[derive(Clone, Debug, PartialEq, Eq)]
pub struct Reachability {
    successors: Vec<Vec<usize>>,
    reached: Vec<Vec<bool>>,
}

impl Reachability {
    /// Searches depth first from each vertex. All ends must be below `vertex_count`.
    pub fn of(vertex_count: usize, edges: &[Edge]) -> Reachability {
        let successors = successors(vertex_count, edges);
        let reached = (0..vertex_count)
            .map(|start| search(start, &successors))
            .collect();
        Reachability {
            successors,
            reached,
        }
    }

    /// The number of vertices.
    pub fn vertex_count(&self) -> usize {
        self.reached.len()
    }

    /// Whether one or more edges lead from `u` to `v`.
    pub fn reaches(&self, u: usize, v: usize) -> bool {
        self.reached[u][v]
    }

    /// How `u` leads to `v`. A longer route begins with an edge to a vertex that reaches `v`.
    pub fn connection(&self, u: usize, v: usize) -> Connection {
        let successors = &self.successors[u];
        let longer = successors.iter().any(|&next| self.reaches(next, v));
        Connection::by(successors.contains(&v), longer)
    }

    /// The vertices that `u` reaches, ascending.
    pub fn descendants(&self, u: usize) -> impl Iterator<Item = usize> + '_ {
        (0..self.vertex_count()).filter(move |&v| self.reaches(u, v))
    }

    /// The number of vertices that `u` reaches.
    pub fn descendant_count(&self, u: usize) -> usize {
        self.descendants(u).count()
    }

    /// Whether some vertex reaches itself (a ring).
    pub fn has_cycle(&self) -> bool {
        (0..self.vertex_count()).any(|v| self.reaches(v, v))
    }

    /// The descent table: bit v mod 64 of mask 2 u + v / 64 says that `u` reaches `v`.
    pub fn masks(&self) -> [u64; 2 * MAX_VERTICES] {
        let mut masks = [0; 2 * MAX_VERTICES];
        for u in 0..self.vertex_count() {
            for v in self.descendants(u) {
                masks[2 * u + v / 64] |= 1 << (v % 64);
            }
        }
        masks
    }
}

/// For each vertex the heads of its edges, in the edges' order.
pub fn successors(vertex_count: usize, edges: &[Edge]) -> Vec<Vec<usize>> {
    let mut lists = vec![Vec::new(); vertex_count];
    for edge in edges {
        lists[edge.tail].push(edge.head);
    }
    lists
}

/// What is met from `start` by one or more edges; `start` itself only over a cycle.
fn search(start: usize, successors: &[Vec<usize>]) -> Vec<bool> {
    let mut met = vec![false; successors.len()];
    let mut open = vec![start];
    while let Some(u) = open.pop() {
        for &v in &successors[u] {
            if !met[v] {
                met[v] = true;
                open.push(v);
            }
        }
    }
    met
}
