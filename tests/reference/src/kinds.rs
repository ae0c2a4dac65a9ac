//! The four kinds of edges and the way that each is drawn.

use crate::bundles::Bundling;
use crate::geometry::{strictly_inside, Place};
use crate::lines::Channels;
use crate::record::Edge;

/// How an edge is drawn.
#[derive(Clone, Copy, Debug, Default, PartialEq, Eq)]
pub enum Kind {
    /// A spine arrow: between neighbours of one channel.
    #[default]
    Path,
    /// A side arrow: within one channel, not between neighbours.
    PathTransitive {
        /// The number of its bundle.
        bundle: usize,
    },
    /// A cross edge without a bend.
    Straight,
    /// A cross edge with one bend.
    Bent {
        /// The place of the bend.
        bend: Place,
    },
}

/// The kind of edge `number`, with all vertices at their `places`.
pub fn kind(
    number: usize,
    edge: Edge,
    channels: &Channels,
    bundling: &Bundling,
    places: &[Place],
) -> Kind {
    if channels.slot(edge.tail).channel == channels.slot(edge.head).channel {
        match bundling.bundle_of.get(&number) {
            Some(&bundle) => Kind::PathTransitive { bundle },
            None => Kind::Path,
        }
    } else {
        cross_kind(places[edge.tail], places[edge.head], places)
    }
}

/// Straight unless some place lies strictly inside the segment.
fn cross_kind(from: Place, to: Place, places: &[Place]) -> Kind {
    let blocked = places.iter().any(|&place| strictly_inside(from, to, place));
    if blocked {
        let bend = bend(from, to);
        Kind::Bent { bend }
    } else {
        Kind::Straight
    }
}

/// One row below the end, one column from the beginning on the side of the end.
fn bend(from: Place, to: Place) -> Place {
    let column = if from.column < to.column {
        from.column + 1
    } else {
        from.column - 1
    };
    Place::new(column, to.row - 1)
}
