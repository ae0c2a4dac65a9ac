//! How the time of a chart grows with its words and with its arrows.

use crate::inputs::{scattered, ROOM};
use crate::sides::Side;
use crate::timing;
use reference::record::{MAX_EDGES, MAX_VERTICES};

/// Times over a growing number.
pub struct Curve {
    /// What the picture says above it.
    pub title: &'static str,
    /// What grows.
    pub axis: &'static str,
    /// The number, and the microseconds of the proved library and of the peer.
    pub points: Vec<(usize, [f64; 2])>,
}

/// Words and arrows of what is timed: as the words grow, and as the arrows between the most words do.
/// With fewer arrows some would be broad.
pub fn sizes() -> [Vec<(usize, usize)>; 2] {
    let words = [8, 16, 24, 32, 48, 64, 80, 96, 112, MAX_VERTICES];
    let arrows = [512, 768, 1024, 1536, 2048, 2560, 3072, 3584, MAX_EDGES];
    [
        words.map(|n| (n, 4 * n)).to_vec(),
        arrows.map(|m| (MAX_VERTICES, m)).to_vec(),
    ]
}

/// Times every size.
pub fn curves() -> [Curve; 2] {
    let [by_words, by_arrows] = sizes();
    let by_words = by_words.into_iter().map(|(n, m)| (n, micros(n, m)));
    let by_arrows = by_arrows.into_iter().map(|(n, m)| (m, micros(n, m)));
    [
        Curve {
            title: "random charts with four arrows a word",
            axis: "words",
            points: by_words.collect(),
        },
        Curve {
            title: "random charts of 128 words",
            axis: "arrows",
            points: by_arrows.collect(),
        },
    ]
}

fn micros(words: usize, arrows: usize) -> [f64; 2] {
    let records = [scattered(words, arrows).to_bytes()];
    let (mut proved, mut peer) = (Side::proved(), Side::peer());
    let seconds = timing::seconds([&mut || proved.draw_each(&records, ROOM), &mut || {
        peer.draw_each(&records, ROOM)
    }]);
    seconds.map(|seconds| 1e6 * seconds)
}
