//! The rows and fields of tables, as the crate `csv` reads them: a second reader for tests/command/rows.
//!
//! Standard input has tables, one after another: the separator, a byte; the length in bytes, eight bytes, the lowest
//! first; and the table. For each of them is written how many rows it has, for each row how many fields, and for each
//! field its length, all as four bytes, and its bytes.

use std::io::{self, BufWriter, ErrorKind, Read, Write};

use csv::{ByteRecord, ReaderBuilder};

fn main() -> Result<(), Box<dyn std::error::Error>> {
    let mut input = io::stdin().lock();
    let mut out = BufWriter::new(io::stdout().lock());
    while let Some(separator) = next_byte(&mut input)? {
        let mut length = [0; 8];
        input.read_exact(&mut length)?;
        let mut table = vec![0; usize::try_from(u64::from_le_bytes(length))?];
        input.read_exact(&mut table)?;
        write_rows(&read_rows(separator, &table)?, &mut out)?;
    }
    Ok(out.flush()?)
}

/// The next byte, or `None` at the end.
fn next_byte(input: &mut impl Read) -> io::Result<Option<u8>> {
    let mut byte = [0];
    match input.read_exact(&mut byte) {
        Ok(()) => Ok(Some(byte[0])),
        Err(e) if e.kind() == ErrorKind::UnexpectedEof => Ok(None),
        Err(e) => Err(e),
    }
}

fn read_rows(separator: u8, table: &[u8]) -> csv::Result<Vec<ByteRecord>> {
    ReaderBuilder::new()
        .has_headers(false)
        .flexible(true)
        .delimiter(separator)
        .from_reader(table)
        .into_byte_records()
        .collect()
}

fn write_rows(rows: &[ByteRecord], out: &mut impl Write) -> Result<(), Box<dyn std::error::Error>> {
    write_count(rows.len(), out)?;
    for row in rows {
        write_count(row.len(), out)?;
        for field in row {
            write_count(field.len(), out)?;
            out.write_all(field)?;
        }
    }
    Ok(())
}

fn write_count(count: usize, out: &mut impl Write) -> Result<(), Box<dyn std::error::Error>> {
    Ok(out.write_all(&u32::try_from(count)?.to_le_bytes())?)
}
