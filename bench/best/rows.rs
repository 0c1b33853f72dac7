//! The first row of some bytes, by blocks of 32 of them.

use crate::plain::rows::Row;
use std::arch::x86_64::{_mm_cmpeq_epi8, _mm_loadu_si128, _mm_movemask_epi8, _mm_set1_epi8};

/// A bit for each byte of a block that is equal to one.
#[inline(always)]
fn equal(block: &[u8; 32], byte: u8) -> u32 {
    let half = |at: usize| {
        // every x86-64 processor has SSE2, and both halves are within the block
        unsafe {
            let bytes = _mm_loadu_si128(block.as_ptr().add(at).cast());
            _mm_movemask_epi8(_mm_cmpeq_epi8(bytes, _mm_set1_epi8(byte as i8))) as u32
        }
    };
    half(0) | half(16) << 16
}

/// The first row and its field. The last 32 bytes are not of the table. `None` where the row does not end before them.
#[inline(always)]
pub fn find(bytes: &[u8], field: usize, separator: u8) -> Option<Row> {
    let (mut left, mut start, mut end) = (field - 1, 0, None);
    for at in (0..bytes.len() - 32).step_by(32) {
        let block = bytes[at..at + 32].try_into().expect("32 bytes");
        let feeds = equal(block, b'\n');
        // those before the first line feed
        let mut separators = equal(block, separator) & (feeds & feeds.wrapping_neg()).wrapping_sub(1);
        while separators != 0 && end.is_none() {
            let found = at + separators.trailing_zeros() as usize;
            match left {
                0 => end = Some(found),
                1 => (left, start) = (0, found + 1),
                _ => left -= 1,
            }
            separators &= separators - 1;
        }
        if feeds != 0 {
            let feed = at + feeds.trailing_zeros() as usize;
            assert_eq!(left, 0, "so many fields");
            return (feed < bytes.len() - 32).then(|| Row { end: feed, field: start..end.unwrap_or(feed) });
        }
    }
    None
}
