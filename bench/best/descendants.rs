//! The descendants of cells in the best form known: seven siblings at a time, each by an addition, and one carry for each
//! parent.

/// Puts the descendants of a cell in a hexagon base cell at a resolution finer than its own into `out`, which has as many
/// slots.
#[inline(always)]
pub fn put(cell: u64, res: u64, mut out: &mut [u64]) {
    let own = cell >> 52 & 15;
    let unit = 1 << (45 - 3 * res);
    let below = (1 << (45 - 3 * own)) - unit;
    let mut first = cell & !(15 << 52) & !below | res << 52;
    while let Some((siblings, rest)) = out.split_first_chunk_mut::<7>() {
        for (slot, digit) in siblings.iter_mut().zip(0..) {
            *slot = first + digit * unit;
        }
        if rest.is_empty() {
            return;
        }
        out = rest;
        // the next parent: digits of 6 become 0, and the one before them is one more
        let mut place = 8 * unit;
        while first & 7 * place == 6 * place {
            first -= 6 * place;
            place *= 8;
        }
        first += place;
    }
}
