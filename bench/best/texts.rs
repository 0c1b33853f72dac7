//! The lines of cells, those that differ little from one another written from it.

#[cfg(not(target_arch = "x86_64"))]
use super::plain::texts::read_plain;
use std::io::{self, Write};

const LOW: u64 = 0x0f0f_0f0f_0f0f_0f0f;

/// The eight hexadecimal digits of half an index, as characters.
#[cfg(not(target_arch = "x86_64"))]
#[inline(always)]
fn characters(half: u64) -> u64 {
    let quarters = (half | half << 16) & 0x0000_ffff_0000_ffff;
    let bytes = (quarters | quarters << 8) & 0x00ff_00ff_00ff_00ff;
    let digits = (bytes | bytes << 4) & LOW;
    let letters = digits + 0x0606_0606_0606_0606 >> 4 & 0x0101_0101_0101_0101;
    digits + 0x3030_3030_3030_3030 + 39 * letters
}

/// The line of a cell: the fifteen digits of its number, and a line feed in place of a sixteenth digit, 0.
#[cfg(not(target_arch = "x86_64"))]
#[inline(always)]
fn line_of(cell: u64) -> u128 {
    let last = characters(cell << 4 & 0xffff_ffff) - u64::from(b'0' - b'\n');
    u128::from_ne_bytes((u128::from(characters(cell >> 28)) << 64 | u128::from(last)).to_be_bytes())
}

/// The line of a cell: the fifteen digits of its number, and a line feed in place of a sixteenth digit, 0. All digits are
/// written at once.
#[cfg(target_arch = "x86_64")]
#[inline(always)]
fn line_of(cell: u64) -> u128 {
    // Safety: each processor of x86_64 has SSE2, and the types have one size
    unsafe { std::mem::transmute(write_sixteen((cell << 4).swap_bytes())) }
}

#[cfg(target_arch = "x86_64")]
#[target_feature(enable = "sse2")]
#[inline]
fn write_sixteen(bytes: u64) -> std::arch::x86_64::__m128i {
    use std::arch::x86_64::*;
    let bytes = _mm_cvtsi64_si128(bytes as i64);
    let low = _mm_set1_epi8(15);
    let digits = _mm_unpacklo_epi8(_mm_and_si128(_mm_srli_epi16(bytes, 4), low), _mm_and_si128(bytes, low));
    let letters = _mm_and_si128(_mm_cmpgt_epi8(digits, _mm_set1_epi8(9)), _mm_set1_epi8(39));
    let zeros = _mm_set_epi64x(0x0a30_3030_3030_3030, 0x3030_3030_3030_3030);
    _mm_add_epi8(_mm_add_epi8(digits, letters), zeros)
}

/// The lines of seven siblings: what is put into the line of the first, in which the two characters of their last digit
/// are 0. A row for each value of these two characters' bits.
pub struct Siblings {
    mask: u128,
    shift: u64,
    rows: Box<[[u128; 7]; 256]>,
}

impl Siblings {
    pub fn of(res: u64) -> Siblings {
        let bits = 45 - 3 * res;
        let shift = bits / 4 * 4;
        let at = 13 - bits as usize / 4;
        let line = |pair: [u8; 2]| {
            let mut line = [0; 16];
            line[at..at + 2].copy_from_slice(&pair);
            u128::from_ne_bytes(line)
        };
        let mut rows = Box::new([[0; 7]; 256]);
        for (byte, row) in rows.iter_mut().enumerate() {
            for (digit, place) in row.iter_mut().enumerate() {
                *place = line(PAIRS[byte + (digit << bits % 4) & 255]);
            }
        }
        Siblings { mask: !line([255; 2]), shift, rows }
    }
}

/// The bytes that two lines give together.
#[cfg(not(target_arch = "x86_64"))]
#[inline(always)]
fn joined(line: u128, digits: u128) -> [u8; 16] {
    (line | digits).to_ne_bytes()
}

/// The bytes that two lines give together, sixteen at once.
#[cfg(target_arch = "x86_64")]
#[inline(always)]
fn joined(line: u128, digits: u128) -> [u8; 16] {
    use std::arch::x86_64::_mm_or_si128;
    use std::mem::transmute;
    // Safety: all are sixteen bytes, and each processor of x86_64 has SSE2
    unsafe { transmute(_mm_or_si128(transmute(line), transmute(digits))) }
}

/// The two characters of each byte.
const PAIRS: [[u8; 2]; 256] = pairs();

const fn pairs() -> [[u8; 2]; 256] {
    let mut table = [[0; 2]; 256];
    let mut i = 0;
    while i < 256 {
        table[i] = [b"0123456789abcdef"[i >> 4], b"0123456789abcdef"[i & 15]];
        i += 1;
    }
    table
}

/// The line of a cell, for those that differ from it in the last two digits alone: these lie in four characters that are
/// written from the number, at `at`.
pub struct Near {
    line: [u8; 16],
    shift: u64,
    at: usize,
}

impl Near {
    pub fn of(cell: u64, res: u64) -> Near {
        let shift = (45 - 3 * res) / 4 * 4;
        Near { line: line_of(cell).to_ne_bytes(), shift, at: 11 - shift as usize / 4 }
    }

    #[inline(always)]
    pub fn move_to(&mut self, cell: u64) {
        self.line = line_of(cell).to_ne_bytes();
    }
}

/// The index of a line of fifteen lower-case digits and a line feed.
#[cfg(not(target_arch = "x86_64"))]
#[inline(always)]
pub fn read_line(line: &[u8; 16]) -> Option<u64> {
    if line[15] == b'\n' { read_plain(&line[..15]) } else { None }
}

/// The index of a line of fifteen lower-case digits and a line feed, all sixteen bytes at once: other bytes are seen where
/// the digits are written back.
#[cfg(target_arch = "x86_64")]
#[inline(always)]
pub fn read_line(line: &[u8; 16]) -> Option<u64> {
    let line = u128::from_le_bytes(*line);
    // Safety: each processor of x86_64 has SSE2
    unsafe { read_sixteen(line as u64, (line >> 64) as u64) }
}

#[cfg(target_arch = "x86_64")]
#[target_feature(enable = "sse2")]
#[inline]
fn read_sixteen(first: u64, last: u64) -> Option<u64> {
    use std::arch::x86_64::*;
    let line = _mm_set_epi64x(last as i64, first as i64);
    let low = _mm_set_epi64x((LOW >> 8) as i64, LOW as i64);
    let nines = _mm_and_si128(_mm_cmpgt_epi8(line, _mm_set1_epi8(b'9' as i8)), _mm_set1_epi8(9));
    let digits = _mm_and_si128(_mm_add_epi8(_mm_and_si128(line, low), nines), low);
    // the line feed is written back in the place of a sixteenth digit, 0
    let zeros = _mm_set_epi64x(0x0a30_3030_3030_3030, 0x3030_3030_3030_3030);
    let letters = _mm_and_si128(_mm_cmpgt_epi8(digits, _mm_set1_epi8(9)), _mm_set1_epi8(39));
    let written = _mm_add_epi8(_mm_add_epi8(digits, zeros), letters);
    let is_plain = _mm_movemask_epi8(_mm_cmpeq_epi8(written, line)) == 0xffff;
    let pairs = _mm_or_si128(_mm_slli_epi16(digits, 4), _mm_srli_epi16(digits, 8));
    let bytes = _mm_and_si128(pairs, _mm_set1_epi16(255));
    let index = (_mm_cvtsi128_si64(_mm_packus_epi16(bytes, bytes)) as u64).swap_bytes();
    is_plain.then_some(index >> 4)
}

/// The lines of cells, which are all of sixteen bytes.
pub struct Page<W: Write> {
    out: W,
    lines: Box<[[u8; 16]; 4096]>,
    end: usize,
}

impl<W: Write> Page<W> {
    pub fn new(out: W) -> Page<W> {
        Page { out, lines: Box::new([[0; 16]; 4096]), end: 0 }
    }

    /// The places of the next lines.
    #[inline(always)]
    fn next<const N: usize>(&mut self) -> io::Result<&mut [[u8; 16]]> {
        if self.end > 4096 - N {
            self.flush()?;
        }
        let start = self.end;
        self.end += N;
        Ok(&mut self.lines[start..start + N])
    }

    /// Puts the line of a cell.
    #[inline(always)]
    pub fn put(&mut self, cell: u64) -> io::Result<()> {
        self.next::<1>()?[0] = line_of(cell).to_ne_bytes();
        Ok(())
    }

    /// Puts the lines of a cell with the last digit 0 and its six siblings.
    #[inline(always)]
    pub fn put_siblings(&mut self, siblings: &Siblings, cell: u64) -> io::Result<()> {
        let line = line_of(cell) & siblings.mask;
        let row = &siblings.rows[(cell >> siblings.shift & 255) as usize];
        for (place, digits) in self.next::<7>()?.iter_mut().zip(row) {
            *place = joined(line, *digits);
        }
        Ok(())
    }

    /// Puts the line of a cell that differs from another in the last two digits alone.
    #[inline(always)]
    pub fn put_near(&mut self, near: &Near, cell: u64) -> io::Result<()> {
        let line = &mut self.next::<1>()?[0];
        *line = near.line;
        let four = &mut line[near.at..near.at + 4];
        four[..2].copy_from_slice(&PAIRS[(cell >> near.shift >> 8) as usize & 255]);
        four[2..].copy_from_slice(&PAIRS[(cell >> near.shift) as usize & 255]);
        Ok(())
    }

    pub fn flush(&mut self) -> io::Result<()> {
        self.out.write_all(self.lines[..self.end].as_flattened())?;
        self.end = 0;
        self.out.flush()
    }
}
