//! The texts of indexes, sixteen digits at once, and a page of lines.

use std::io::{self, Write};

/// The eight hexadecimal digits of half an index, each in a byte.
#[inline(always)]
fn characters(half: u64) -> u64 {
    let quarters = (half | half << 16) & 0x0000_ffff_0000_ffff;
    let bytes = (quarters | quarters << 8) & 0x00ff_00ff_00ff_00ff;
    let digits = (bytes | bytes << 4) & 0x0f0f_0f0f_0f0f_0f0f;
    let letters = digits + 0x0606_0606_0606_0606 >> 4 & 0x0101_0101_0101_0101;
    digits + 0x3030_3030_3030_3030 + 39 * letters
}

/// The half of an index that eight lower-case digits parse as.
#[inline(always)]
fn gathered(word: u64) -> u64 {
    let letters = word >> 6 & 0x0101_0101_0101_0101;
    let digits = (word & 0x0f0f_0f0f_0f0f_0f0f).wrapping_add(letters.wrapping_mul(9));
    let bytes = (digits | digits >> 4) & 0x00ff_00ff_00ff_00ff;
    let quarters = (bytes | bytes >> 8) & 0x0000_ffff_0000_ffff;
    (quarters | quarters >> 16) & 0xffff_ffff
}

fn word(bytes: &[u8]) -> u64 {
    u64::from_be_bytes(bytes.try_into().expect("eight bytes"))
}

/// The index that 8 to 16 lower-case digits parse as, by two words of eight bytes that may overlap.
#[inline(always)]
pub fn read_plain(bytes: &[u8]) -> Option<u64> {
    if bytes.len() < 8 || bytes.len() > 16 {
        return None;
    }
    let more = bytes.len() - 8;
    let (first, last) = (word(&bytes[..8]), word(&bytes[more..]));
    let index = gathered(first) << (4 * more) | gathered(last);
    // other bytes than digits are seen where the index is written back
    let is_plain = characters(index >> (4 * more)) == first && characters(index & 0xffff_ffff) == last;
    is_plain.then_some(index)
}

/// The index that a text parses as.
pub fn read_index(text: &[u8]) -> Option<u64> {
    read_plain(text).or_else(|| {
        let digits = text.trim_ascii();
        let digits = digits.strip_prefix(b"0x").unwrap_or(digits);
        u64::from_str_radix(std::str::from_utf8(digits).ok()?, 16).ok()
    })
}

/// Lines that are written by the page.
pub struct Page<W: Write> {
    out: W,
    bytes: Box<[u8; 65536]>,
    end: usize,
}

impl<W: Write> Page<W> {
    pub fn new(out: W) -> Page<W> {
        Page { out, bytes: Box::new([0; 65536]), end: 0 }
    }

    /// Puts the line of an index. Sixteen bytes are copied, however many of them are its text.
    #[inline(always)]
    pub fn put(&mut self, index: u64) -> io::Result<()> {
        if self.end > 65536 - 32 {
            self.hand_on()?;
        }
        let zeros = (index | 1).leading_zeros() / 4;
        let digits = index << (4 * zeros);
        let line: &mut [u8; 17] = (&mut self.bytes[self.end..self.end + 17]).try_into().expect("17 bytes");
        line[..8].copy_from_slice(&characters(digits >> 32).to_be_bytes());
        line[8..16].copy_from_slice(&characters(digits & 0xffff_ffff).to_be_bytes());
        let length = 16 - zeros as usize;
        line[length] = b'\n';
        self.end += length + 1;
        Ok(())
    }

    /// Puts a line of at most 32 bytes.
    #[inline(always)]
    pub fn put_text(&mut self, line: &[u8]) -> io::Result<()> {
        if self.end > 65536 - 32 {
            self.hand_on()?;
        }
        self.bytes[self.end..self.end + line.len()].copy_from_slice(line);
        self.end += line.len();
        Ok(())
    }

    /// Puts a row of at most 65,000 bytes, a separator, and the line of an index.
    #[inline(always)]
    pub fn put_row(&mut self, row: &[u8], separator: u8, index: u64) -> io::Result<()> {
        if self.end + row.len() > 65536 - 33 {
            self.hand_on()?;
        }
        self.bytes[self.end..self.end + row.len()].copy_from_slice(row);
        self.bytes[self.end + row.len()] = separator;
        self.end += row.len() + 1;
        self.put(index)
    }

    /// Puts the line of a number in decimal.
    #[inline(always)]
    pub fn put_number(&mut self, number: u64) -> io::Result<()> {
        let mut line = [b'\n'; 21];
        let (mut at, mut left) = (20, number);
        loop {
            at -= 1;
            line[at] = b'0' + (left % 10) as u8;
            left /= 10;
            if left == 0 {
                return self.put_text(&line[at..]);
            }
        }
    }

    /// Puts the line of an index, a blank and a count.
    #[inline(always)]
    pub fn put_counted(&mut self, index: u64, count: u64) -> io::Result<()> {
        self.put(index)?;
        self.bytes[self.end - 1] = b' ';
        self.put_number(count)
    }

    fn hand_on(&mut self) -> io::Result<()> {
        self.out.write_all(&self.bytes[..self.end])?;
        self.end = 0;
        Ok(())
    }
}

impl<W: Write> Write for Page<W> {
    fn write(&mut self, bytes: &[u8]) -> io::Result<usize> {
        self.hand_on()?;
        self.out.write(bytes)
    }

    fn flush(&mut self) -> io::Result<()> {
        self.hand_on()?;
        self.out.flush()
    }
}
