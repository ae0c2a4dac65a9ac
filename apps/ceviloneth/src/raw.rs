//! The archive's calls, as `include/ceviloneth.h` has them. A slice crosses as pointer and length.

use crate::chart::MOST_WORDS;

/// What a chart call answers; every number but the first is 0 where it is refused.
#[repr(C)]
pub struct ChartCounts {
    /// Why it is refused, or 0.
    pub refusal: u8,
    /// The number of words.
    pub words: usize,
    /// The number of arrows.
    pub arrows: usize,
    /// The number of bundles.
    pub bundles: usize,
    /// The number of rows.
    pub rows: u8,
    /// The number of lines.
    pub lines: u8,
    /// The number of firm arrows.
    pub firm: u16,
    /// The number of columns.
    pub width: u16,
    /// How many side columns each line has, 0 past the last.
    pub side_columns: [u16; MOST_WORDS],
}

/// What a question about descent answers.
#[repr(C)]
#[derive(Clone, Copy, Debug, PartialEq, Eq)]
pub struct Answer {
    /// Why it is refused, or 0.
    pub refusal: u8,
    /// How the first word leads to the second: 0 not at all, 1 by an arrow only, 2 by longer routes
    /// only, 3 by both; 0 where the call is refused.
    pub leads: u8,
}

/// What a stroke call answers: points across (x) and up (y), 0 where there is none.
#[repr(C)]
#[derive(Clone, Copy, Debug, PartialEq)]
pub struct Stroke {
    /// Why it is refused, or 0.
    pub refusal: u8,
    /// How many points the stroke has.
    pub points: u8,
    /// The points, four of x and y.
    pub places: [[f32; 2]; 4],
}

unsafe extern "C" {
    safe fn ceviloneth_version() -> u32;
    fn ceviloneth_chart(
        record: *const u8,
        record_length: usize,
        words: *mut u16,
        words_length: usize,
        arrows: *mut u16,
        arrows_length: usize,
        bundles: *mut u16,
        bundles_length: usize,
    ) -> ChartCounts;
    fn ceviloneth_session_start(state: *mut u64, length: usize, words: usize) -> u8;
    fn ceviloneth_session_add(state: *mut u64, length: usize, from: usize, to: usize) -> u8;
    fn ceviloneth_session_leads(state: *const u64, length: usize, from: usize, to: usize)
        -> Answer;
    fn ceviloneth_leads(record: *const u8, length: usize, from: usize, to: usize) -> Answer;
    safe fn ceviloneth_stroke_straight(c0: u32, r0: u32, c1: u32, r1: u32) -> Stroke;
    safe fn ceviloneth_stroke_bent(c0: u32, r0: u32, c1: u32, r1: u32, c2: u32, r2: u32) -> Stroke;
    safe fn ceviloneth_stroke_side(
        c0: u32,
        r0: u32,
        c1: u32,
        r1: u32,
        c2: u32,
        r2: u32,
        c3: u32,
        r3: u32,
    ) -> Stroke;
}

/// The version that the archive was made by.
pub fn version() -> u32 {
    ceviloneth_version()
}

/// The chart of a record into lent lists, with the counts as they come.
pub fn chart(
    record: &[u8],
    words: &mut [u16],
    arrows: &mut [u16],
    bundles: &mut [u16],
) -> ChartCounts {
    // SAFETY: each pointer comes with the length of its own slice, and no two slices overlap.
    unsafe {
        ceviloneth_chart(
            record.as_ptr(),
            record.len(),
            words.as_mut_ptr(),
            words.len(),
            arrows.as_mut_ptr(),
            arrows.len(),
            bundles.as_mut_ptr(),
            bundles.len(),
        )
    }
}

/// Starts a session of so many words in the lent state.
pub fn session_start(state: &mut [u64], words: usize) -> u8 {
    // SAFETY: the pointer comes with the length of its slice.
    unsafe { ceviloneth_session_start(state.as_mut_ptr(), state.len(), words) }
}

/// Adds an arrow to the session in the lent state.
pub fn session_add(state: &mut [u64], from: usize, to: usize) -> u8 {
    // SAFETY: the pointer comes with the length of its slice.
    unsafe { ceviloneth_session_add(state.as_mut_ptr(), state.len(), from, to) }
}

/// How a word leads to another in the session in the lent state.
pub fn session_leads(state: &[u64], from: usize, to: usize) -> Answer {
    // SAFETY: the pointer comes with the length of its slice.
    unsafe { ceviloneth_session_leads(state.as_ptr(), state.len(), from, to) }
}

/// How a word of a record leads to another.
pub fn leads(record: &[u8], from: usize, to: usize) -> Answer {
    // SAFETY: the pointer comes with the length of its slice.
    unsafe { ceviloneth_leads(record.as_ptr(), record.len(), from, to) }
}

/// The stroke between two places, each a column and a row.
pub fn stroke_straight([[c0, r0], [c1, r1]]: [[u32; 2]; 2]) -> Stroke {
    ceviloneth_stroke_straight(c0, r0, c1, r1)
}

/// The stroke that bends at the second place.
pub fn stroke_bent([[c0, r0], [c1, r1], [c2, r2]]: [[u32; 2]; 3]) -> Stroke {
    ceviloneth_stroke_bent(c0, r0, c1, r1, c2, r2)
}

/// The stroke of a side arrow, with corners at the second and third places.
pub fn stroke_side([[c0, r0], [c1, r1], [c2, r2], [c3, r3]]: [[u32; 2]; 4]) -> Stroke {
    ceviloneth_stroke_side(c0, r0, c1, r1, c2, r2, c3, r3)
}
