//! Transitive and reduced edges: implied and firm arrows (5).

use crate::connection::Connection;
use crate::descent::Reachability;
use crate::record::Edge;

/// Whether the tail leads to the head by a longer route too.
pub fn is_transitive(edge: Edge, reach: &Reachability) -> bool {
    reach.connection(edge.tail, edge.head) == Connection::Both
}
