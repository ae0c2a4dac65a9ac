//! Columns: a block of side columns, a gap, the channel's own column and a gap for each channel.

/// The columns that a block has besides its tracks: two gaps and the channel's own.
const FIXED: usize = 3;

/// Where the channels stand.
#[derive(Clone, Debug, PartialEq, Eq)]
pub struct Columns {
    /// The own column of each channel (X in 8.1).
    pub own: Vec<usize>,
    /// The number of columns of all blocks.
    pub width: usize,
}

impl Columns {
    /// Puts the blocks one after the other, from column 0.
    pub fn of(track_counts: &[usize]) -> Columns {
        let mut columns = Columns {
            own: Vec::new(),
            width: 0,
        };
        for tracks in track_counts {
            columns.own.push(columns.width + tracks + 1);
            columns.width += tracks + FIXED;
        }
        columns
    }
}

/// The column at which track `track` of a channel with the given own column stands.
pub fn track_column(own: usize, track: usize) -> usize {
    own - 2 - track
}
