//! The proved library beside the peer and the second implementation: inputs, times, memory.

pub mod calls;
pub mod charts;
pub mod growth;
pub mod inputs;
pub mod memory;
pub mod others;
pub mod plot;
pub mod sides;
pub mod timing;
