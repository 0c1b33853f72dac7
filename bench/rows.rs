//! Rows of a table, each with the parent of its cell at its end.

use super::texts::{Page, read_index};
use super::{is_valid, parent_at};
use std::io::{self, Read, Write};
use std::ops::Range;

/// What stands behind the bytes that were read, so that a block may be read over their end.
const SPARE: usize = 32;
const PAGE: usize = 65536;

/// Where a row ends, and its field.
pub struct Row {
    pub end: usize,
    pub field: Range<usize>,
}

/// The first row of some bytes and its field, by single bytes. `None` where the row does not end there.
pub fn find(bytes: &[u8], field: usize, separator: u8) -> Option<Row> {
    let end = bytes.iter().position(|byte| *byte == b'\n')?;
    let mut start = 0;
    for _ in 1..field {
        let separators = &mut bytes[start..end].iter();
        start += separators.position(|byte| *byte == separator).expect("so many fields") + 1;
    }
    let length = bytes[start..end].iter().position(|byte| *byte == separator);
    Some(Row { end, field: start..length.map_or(end, |length| start + length) })
}

/// Writes each row of standard input with the parent of its cell. `find` gives the first row of some bytes, of which the
/// last `SPARE` are not of the table.
#[inline(always)]
pub fn answer(
    out: &mut Page<impl Write>,
    separator: u8,
    level: u64,
    find: impl Fn(&[u8]) -> Option<Row>,
) -> io::Result<()> {
    let mut input = io::stdin().lock();
    let mut page = vec![0; 2 * PAGE + SPARE];
    let mut held = 0;
    loop {
        let count = input.read(&mut page[held..held + PAGE])?;
        let end = held + count;
        page[end..end + SPARE].fill(0);
        let mut start = 0;
        while let Some(row) = find(&page[start..end + SPARE]) {
            let cell = read_index(&page[start..][row.field]).filter(|cell| is_valid(*cell)).expect("a cell");
            out.put_row(&page[start..start + row.end], separator, parent_at(cell, level))?;
            start += row.end + 1;
        }
        if count == 0 {
            assert_eq!(start, end, "a row without its line feed");
            return Ok(());
        }
        page.copy_within(start..end, 0);
        held = end - start;
    }
}

/// Writes a table of trips: a number, a cell, and a number of passengers in each row.
pub fn write_trips(out: &mut impl Write, cells: impl Iterator<Item = u64>) -> io::Result<()> {
    let mut block = Vec::new();
    for (i, cell) in cells.enumerate() {
        writeln!(block, "{i}\t{cell:x}\t{}", i % 5)?;
        if block.len() > PAGE {
            out.write_all(&block)?;
            block.clear();
        }
    }
    out.write_all(&block)
}
