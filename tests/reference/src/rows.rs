//! Rows: as low as the edges and the floors allow (4).

use crate::descent::successors;
use crate::record::Edge;

/// The row of each vertex, by its floor and the edges: the floor, or 1 + the highest row of a tail
/// where that is higher.
///
/// Vertices are taken off in rounds: in each, all whose edges come from rounds before. Whoever is
/// taken off lifts the heads of its edges above itself. (Vertices on or behind a cycle would never
/// be taken off; a checked record has none.)
pub fn compacted(floors: &[usize], edges: &[Edge]) -> Vec<usize> {
    let successors = successors(floors.len(), edges);
    let mut entering = vec![0; floors.len()];
    for edge in edges {
        entering[edge.head] += 1;
    }
    let mut rows = floors.to_vec();
    let mut round: Vec<usize> = (0..rows.len()).filter(|&v| entering[v] == 0).collect();
    while !round.is_empty() {
        let mut next = Vec::new();
        for &u in &round {
            for &v in &successors[u] {
                rows[v] = rows[v].max(rows[u] + 1);
                entering[v] -= 1;
                if entering[v] == 0 {
                    next.push(v);
                }
            }
        }
        round = next;
    }
    rows
}

/// The number of rows used: 1 + the highest, 0 without a vertex.
pub fn count(rows: &[usize]) -> usize {
    rows.iter().max().map_or(0, |highest| highest + 1)
}
