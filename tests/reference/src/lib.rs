//! A second implementation of docs/SPECIFICATION.md, whose sections are cited by number.
//!
//! Data goes one way: bytes, edges, reachability, channels, rows, marks, bundles, columns, kinds,
//! chart, listing. Each module holds one of these and says, in its head, which word of records and
//! listings it stands for.

pub mod breadth;
pub mod bundles;
pub mod chart;
pub mod checks;
pub mod columns;
pub mod connection;
pub mod damage;
pub mod descent;
pub mod geometry;
pub mod hex;
pub mod kinds;
pub mod lawful;
pub mod lines;
pub mod listing;
pub mod marks;
pub mod random;
pub mod record;
pub mod refusal;
pub mod rows;
pub mod script;
pub mod session;
pub mod shrink;
pub mod strokes;
pub mod tracks;
pub mod vectors;
