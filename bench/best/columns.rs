//! The best forms known in plain Rust of the functions over columns: no branch is in them, so the compiler asks of several
//! cells at once where the processor has lanes for it.

use super::plain::{PENTAGONS, base, resolution};

const DIGITS: u64 = (1 << 45) - 1;

/// The lowest bit of each of fifteen digits.
const LOWEST: u64 = 0o111_111_111_111_111;

/// A bit for each base cell that is a pentagon, in two words.
const PENTAGON_BITS: [u64; 2] = {
    let mut bits = [0; 2];
    let mut i = 0;
    while i < PENTAGONS.len() {
        bits[PENTAGONS[i] as usize / 64] |= 1 << (PENTAGONS[i] % 64);
        i += 1;
    }
    bits
};

/// By how much digits read in base 7 are too large for a position below a pentagon, by how many zeros lead the digits:
/// of the first that is not 0, by what the deleted children before it and the pentagon in the center lack.
const EXCESS: [u64; 65] = {
    let mut excess = [0; 65];
    let mut sevens = 1;
    let mut place = 0;
    while place < 15 {
        let lacking = sevens - (1 + 5 * (sevens - 1) / 6);
        let mut bit = 0;
        while bit < 3 {
            excess[63 - 3 * place - bit] = sevens + lacking;
            bit += 1;
        }
        sevens *= 7;
        place += 1;
    }
    excess
};

#[inline(always)]
pub fn has_pentagon_base(cell: u64) -> bool {
    let word = if base(cell) < 64 { PENTAGON_BITS[0] } else { PENTAGON_BITS[1] };
    word >> (base(cell) & 63) & 1 == 1
}

/// Whether a number is a cell's. The first digit that is not 0 is 1 where the highest bit of all digits is the lowest of
/// three: where the lowest bits make the larger number.
#[inline(always)]
pub fn is_valid(cell: u64) -> bool {
    let digits = cell & DIGITS;
    let sevens = digits & digits >> 1 & digits >> 2 & LOWEST;
    let is_form = (cell >> 56 == 8) & (base(cell) < 122) & (sevens == LOWEST >> (3 * resolution(cell)));
    let leads_with_one = (digits & LOWEST) > (digits & !LOWEST);
    is_form & !(leads_with_one & has_pentagon_base(cell))
}

/// Fifteen digits read in base 7: two at a time, four, eight, and all.
#[inline(always)]
fn in_base_seven(digits: u64) -> u64 {
    let twos = digits - (digits >> 3 & 0o07_07_07_07_07_07_07_07);
    let fours = twos - 15 * (twos >> 6 & 0o0077_0077_0077_0077);
    let eights = fours - (4096 - 2401) * (fours >> 12 & 0o00007777_00007777);
    eights - ((1 << 24) - 5_764_801) * (eights >> 24)
}

/// The position of a cell below its ancestor at a resolution that it has.
#[inline(always)]
fn position(cell: u64, res: u64) -> u64 {
    let all = (cell & DIGITS) >> (3 * (15 - resolution(cell)));
    let digits = all & (1 << (3 * (resolution(cell) - res) & 63)) - 1;
    let is_below_pentagon = has_pentagon_base(cell) & (all == digits);
    in_base_seven(digits) - if is_below_pentagon { EXCESS[digits.leading_zeros() as usize] } else { 0 }
}

/// The error of a cell over a resolution, or 0.
#[inline(always)]
fn refused(cell: u64, res: u64) -> u32 {
    if !is_valid(cell) {
        5
    } else if res > resolution(cell) {
        12
    } else {
        0
    }
}

/// Puts at each cell's place what is found of it, and returns the first error.
#[inline(always)]
fn fill<T: Copy>(cells: &[u64], out: &mut [T], missing: T, error: impl Fn(u64) -> u32, found: impl Fn(u64) -> T) -> u32 {
    let mut is_whole = true;
    for (slot, cell) in out.iter_mut().zip(cells) {
        let is_good = error(*cell) == 0;
        *slot = if is_good { found(*cell) } else { missing };
        is_whole &= is_good;
    }
    if is_whole { 0 } else { cells.iter().map(|cell| error(*cell)).find(|code| *code != 0).unwrap_or(0) }
}

pub fn are_valid(cells: &[u64], out: &mut [i32]) -> u32 {
    fill(cells, out, -1, |_| 0, |cell| is_valid(cell) as i32)
}

pub fn resolutions(cells: &[u64], out: &mut [i32]) -> u32 {
    fill(cells, out, -1, |cell| if is_valid(cell) { 0 } else { 5 }, |cell| resolution(cell) as i32)
}

pub fn parents(cells: &[u64], res: u64, out: &mut [u64]) -> u32 {
    let unused = (1 << (3 * (15 - res))) - 1;
    let cut = |cell: u64| cell & !(15 << 52) | res << 52 | unused;
    fill(cells, out, 0, |cell| refused(cell, res), cut)
}

pub fn positions(cells: &[u64], res: u64, out: &mut [i64]) -> u32 {
    fill(cells, out, -1, |cell| refused(cell, res), |cell| position(cell, res) as i64)
}
