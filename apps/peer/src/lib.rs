//! The peer's one call, as `tests/peer/peer.h` has it. It proves nothing: it is timed and compared.

use ceviloneth::raw::ChartCounts;

unsafe extern "C" {
    fn peer_chart(
        record: *const u8,
        record_length: usize,
        words: *mut u16,
        words_length: usize,
        arrows: *mut u16,
        arrows_length: usize,
        bundles: *mut u16,
        bundles_length: usize,
    ) -> ChartCounts;
}

/// The chart of a record into lent lists, as `ceviloneth::raw::chart` answers it.
pub fn chart(
    record: &[u8],
    words: &mut [u16],
    arrows: &mut [u16],
    bundles: &mut [u16],
) -> ChartCounts {
    // SAFETY: each pointer comes with the length of its own slice, and no two slices overlap.
    unsafe {
        peer_chart(
            record.as_ptr(),
            record.len(),
            words.as_mut_ptr(),
            words.len(),
            arrows.as_mut_ptr(),
            arrows.len(),
            bundles.as_mut_ptr(),
            bundles.len(),
        )
    }
}
