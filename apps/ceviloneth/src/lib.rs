//! Safe calls to the proved layout engine for descent charts.
//!
//! The engine is an archive, `libceviloneth.a`, whose calls are proved for any bytes and any lists.
//! This crate lends it slices and hands back owned values; refusals are by number
//! (docs/SPECIFICATION.md, 13).
//!
//!     let chart = ceviloneth::chart(&record)?;
//!     println!("{} rows, {} lines", chart.counts.rows, chart.counts.lines);

mod chart;
mod leads;
pub mod raw;
mod refusal;
mod session;
mod stroke;

pub use chart::{
    chart, chart_into, Arrow, Bundle, Chart, Counts, Kind, Lists, Word, ARROW_NUMBERS,
    BUNDLE_NUMBERS, MOST_ARROWS, MOST_BUNDLES, MOST_FLOOR, MOST_LINES, MOST_ROWS, MOST_WORDS,
    WORD_NUMBERS,
};
pub use leads::{leads, Leads};
pub use refusal::Refusal;
pub use session::{Session, STATE_NUMBERS};
pub use stroke::{stroke_bent, stroke_side, stroke_straight, Place, Point};

/// The version of the header that this crate was written by.
pub const VERSION: u32 = 5;

/// The version of the archive that is linked; where it isn't [`VERSION`] an app must not go on.
pub fn version() -> u32 {
    raw::version()
}
