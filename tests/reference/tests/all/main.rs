//! All tests of the reference, in one program.

mod breadth;
mod chart;
mod connections;
mod damage;
mod edges;
mod floors;
mod geometry;
mod lawful;
mod misreadings;
mod programs;
mod proof_table;
mod random;
mod rules;
mod scripts;
mod sessions;
mod shrink;
mod strokes;
mod support;
mod vectors;
