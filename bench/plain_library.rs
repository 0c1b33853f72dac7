//! The plain Rust functions that the library for C is measured against by bench/library.c: the same
//! work behind `extern "C"`, with no proof; and, of columns and descendants, the best forms known.
#![allow(dead_code, non_snake_case)]

#[path = "best/columns.rs"]
mod columns;
#[path = "best/descendants.rs"]
mod descendants;
#[path = "best/zones.rs"]
mod lookup;
#[path = "plain.rs"]
mod plain;
mod regions;
#[path = "best/sets.rs"]
mod sets;

use plain::{Children, base, child_at, compact, is_valid, position, resolution};
use regions::{begin, end, left, region, shared};
use std::slice::{from_raw_parts, from_raw_parts_mut};

/// The error of a cell or a resolution, or 0.
fn refused(cell: u64, res: i32) -> u32 {
    if !is_valid(cell) {
        5
    } else if !(0..16).contains(&res) {
        4
    } else if res as u64 > resolution(cell) {
        12
    } else {
        0
    }
}

fn cut(cell: u64, res: i32) -> u64 {
    cell & !(15 << 52) | (res as u64) << 52 | (1 << (3 * (15 - res))) - 1
}

#[unsafe(no_mangle)]
extern "C" fn plain_isValidCell(cell: u64) -> i32 {
    is_valid(cell) as i32
}

#[unsafe(no_mangle)]
extern "C" fn plain_getBaseCellNumber(cell: u64) -> i32 {
    if is_valid(cell) {
        base(cell) as i32
    } else {
        -1
    }
}

#[unsafe(no_mangle)]
extern "C" fn plain_cellToParent(cell: u64, res: i32, out: &mut u64) -> u32 {
    let code = refused(cell, res);
    if code == 0 {
        *out = cut(cell, res);
    }
    code
}

#[unsafe(no_mangle)]
extern "C" fn plain_cellToChildPos(cell: u64, res: i32, out: &mut i64) -> u32 {
    let code = refused(cell, res);
    if code == 0 {
        *out = position(cell, res as u64) as i64;
    }
    code
}

#[unsafe(no_mangle)]
extern "C" fn plain_childPosToCell(place: i64, cell: u64, res: i32, out: &mut u64) -> u32 {
    *out = child_at(place as u64, cell, res as u64);
    0
}

/// Puts what a function returns of each cell at its place, and returns the first error.
fn fill<T: Copy>(
    cells: &[u64],
    out: &mut [T],
    missing: T,
    of: impl Fn(u64) -> Result<T, u32>,
) -> u32 {
    let mut first = 0;
    for (slot, cell) in out.iter_mut().zip(cells) {
        *slot = match of(*cell) {
            Ok(value) => value,
            Err(code) => {
                first = if first == 0 { code } else { first };
                missing
            }
        };
    }
    first
}

/// # Safety
/// Both pointers point to n elements.
#[unsafe(no_mangle)]
unsafe extern "C" fn plain_areValidCells(cells: *const u64, n: usize, out: *mut i32) -> u32 {
    let (cells, out) = unsafe { (from_raw_parts(cells, n), from_raw_parts_mut(out, n)) };
    fill(cells, out, -1, |cell| Ok(is_valid(cell) as i32))
}

/// # Safety
/// Both pointers point to n elements.
#[unsafe(no_mangle)]
unsafe extern "C" fn best_areValidCells(
    cells: *const u64,
    n: usize,
    out: *mut i32,
) -> u32 {
    let (cells, out) = unsafe { (from_raw_parts(cells, n), from_raw_parts_mut(out, n)) };
    columns::are_valid(cells, out)
}

/// # Safety
/// Both pointers point to n elements.
#[unsafe(no_mangle)]
unsafe extern "C" fn plain_getResolutions(cells: *const u64, n: usize, out: *mut i32) -> u32 {
    let (cells, out) = unsafe { (from_raw_parts(cells, n), from_raw_parts_mut(out, n)) };
    fill(cells, out, -1, |cell| {
        if is_valid(cell) {
            Ok(resolution(cell) as i32)
        } else {
            Err(5)
        }
    })
}

/// # Safety
/// Both pointers point to n elements.
#[unsafe(no_mangle)]
unsafe extern "C" fn best_getResolutions(
    cells: *const u64,
    n: usize,
    out: *mut i32,
) -> u32 {
    let (cells, out) = unsafe { (from_raw_parts(cells, n), from_raw_parts_mut(out, n)) };
    columns::resolutions(cells, out)
}

/// # Safety
/// Both pointers point to n elements.
#[unsafe(no_mangle)]
unsafe extern "C" fn plain_cellsToParents(
    cells: *const u64,
    n: usize,
    res: i32,
    out: *mut u64,
) -> u32 {
    let (cells, out) = unsafe { (from_raw_parts(cells, n), from_raw_parts_mut(out, n)) };
    fill(cells, out, 0, |cell| match refused(cell, res) {
        0 => Ok(cut(cell, res)),
        code => Err(code),
    })
}

/// # Safety
/// Both pointers point to n elements.
#[unsafe(no_mangle)]
unsafe extern "C" fn best_cellsToParents(
    cells: *const u64,
    n: usize,
    res: i32,
    out: *mut u64,
) -> u32 {
    let (cells, out) = unsafe { (from_raw_parts(cells, n), from_raw_parts_mut(out, n)) };
    columns::parents(cells, res as u64, out)
}

/// # Safety
/// Both pointers point to n elements.
#[unsafe(no_mangle)]
unsafe extern "C" fn plain_cellsToChildPositions(
    cells: *const u64,
    n: usize,
    res: i32,
    out: *mut i64,
) -> u32 {
    let (cells, out) = unsafe { (from_raw_parts(cells, n), from_raw_parts_mut(out, n)) };
    fill(cells, out, -1, |cell| match refused(cell, res) {
        0 => Ok(position(cell, res as u64) as i64),
        code => Err(code),
    })
}

/// # Safety
/// Both pointers point to n elements.
#[unsafe(no_mangle)]
unsafe extern "C" fn best_cellsToChildPositions(
    cells: *const u64,
    n: usize,
    res: i32,
    out: *mut i64,
) -> u32 {
    let (cells, out) = unsafe { (from_raw_parts(cells, n), from_raw_parts_mut(out, n)) };
    columns::positions(cells, res as u64, out)
}

/// Returns how many cells there are.
///
/// # Safety
/// Both pointers point to n elements.
#[unsafe(no_mangle)]
unsafe extern "C" fn plain_compactCells(cells: *const u64, n: usize, out: *mut u64) -> usize {
    let (cells, out) = unsafe { (from_raw_parts(cells, n), from_raw_parts_mut(out, n)) };
    assert!(cells.iter().all(|cell| is_valid(*cell)));
    let mut compacted = cells.to_vec();
    compact(&mut compacted);
    out[..compacted.len()].copy_from_slice(&compacted);
    compacted.len()
}

/// # Safety
/// `cells` points to n elements, and `out` has room for the children.
#[unsafe(no_mangle)]
unsafe extern "C" fn plain_uncompactCells(
    cells: *const u64,
    n: usize,
    out: *mut u64,
    room: usize,
    res: i32,
) -> usize {
    let (cells, out) = unsafe { (from_raw_parts(cells, n), from_raw_parts_mut(out, room)) };
    assert!(cells.iter().all(|cell| is_valid(*cell)));
    let mut written = 0;
    for (slot, child) in out.iter_mut().zip(
        cells
            .iter()
            .flat_map(|cell| Children::of(*cell, res as u64)),
    ) {
        *slot = child;
        written += 1;
    }
    written
}

/// # Safety
/// `cells` points to n elements, and `out` has room for the children.
#[unsafe(no_mangle)]
unsafe extern "C" fn best_uncompactCells(
    cells: *const u64,
    n: usize,
    out: *mut u64,
    room: usize,
    res: i32,
) -> usize {
    let (cells, out) = unsafe { (from_raw_parts(cells, n), from_raw_parts_mut(out, room)) };
    assert!(
        cells
            .iter()
            .fold(true, |all, cell| all & columns::is_valid(*cell))
    );
    let mut written = 0;
    for cell in cells {
        let levels = res as u64 - resolution(*cell);
        if columns::has_pentagon_base(*cell) || levels == 0 {
            for child in Children::of(*cell, res as u64) {
                out[written] = child;
                written += 1;
            }
        } else {
            let end = written + 7_usize.pow(levels as u32);
            descendants::put(*cell, res as u64, &mut out[written..end]);
            written = end;
        }
    }
    written
}

/// The place of the zone of a cell, or how many there are.
fn zone_of(zones: &[u64], cell: u64) -> usize {
    let i = zones.partition_point(|zone| end(*zone) < end(cell));
    if i < zones.len() && begin(zones[i]) <= begin(cell) {
        i
    } else {
        zones.len()
    }
}

/// Puts cells of which no two overlap in the order in which they are looked up.
///
/// # Safety
/// The pointer points to n elements.
#[unsafe(no_mangle)]
unsafe extern "C" fn plain_zones(zones: *mut u64, n: usize) {
    unsafe { from_raw_parts_mut(zones, n) }.sort_unstable_by_key(|zone| end(*zone));
}

/// # Safety
/// The pointers point to as many elements as there are zones, n and n.
#[unsafe(no_mangle)]
unsafe extern "C" fn plain_cellsToZones(
    zones: *const u64,
    count: usize,
    cells: *const u64,
    n: usize,
    out: *mut u64,
) -> u32 {
    let zones = unsafe { from_raw_parts(zones, count) };
    let (cells, out) = unsafe { (from_raw_parts(cells, n), from_raw_parts_mut(out, n)) };
    fill(cells, out, 0, |cell| {
        if is_valid(cell) {
            Ok(zones.get(zone_of(zones, cell)).copied().unwrap_or(0))
        } else {
            Err(5)
        }
    })
}

/// # Safety
/// The pointers point to as many elements as there are zones, n and n.
#[unsafe(no_mangle)]
unsafe extern "C" fn best_cellsToZones(
    zones: *const u64,
    count: usize,
    cells: *const u64,
    n: usize,
    out: *mut u64,
) -> u32 {
    let zones = lookup::Zones::of(unsafe { from_raw_parts(zones, count) }.to_vec());
    let (cells, out) = unsafe { (from_raw_parts(cells, n), from_raw_parts_mut(out, n)) };
    // (all are cells)
    if !cells.iter().all(|cell| columns::is_valid(*cell)) {
        return 5;
    }
    let mut places = out.iter_mut();
    zones.each(cells, |zone| *places.next().expect("a place") = zone.unwrap_or(0));
    0
}

/// # Safety
/// The pointers point to as many elements as there are zones, n, and as there are zones.
#[unsafe(no_mangle)]
unsafe extern "C" fn plain_countCellsInZones(
    zones: *const u64,
    count: usize,
    cells: *const u64,
    n: usize,
    counts: *mut i64,
    others: &mut i64,
) -> u32 {
    let zones = unsafe { from_raw_parts(zones, count) };
    let (cells, counts) = unsafe { (from_raw_parts(cells, n), from_raw_parts_mut(counts, count)) };
    if !cells.iter().all(|cell| is_valid(*cell)) {
        return 5;
    }
    counts.fill(0);
    *others = 0;
    for cell in cells {
        *counts.get_mut(zone_of(zones, *cell)).unwrap_or(others) += 1;
    }
    0
}

/// Writes a region in ascending order, and returns how many cells it has.
fn put_region(mut found: Vec<u64>, out: &mut [u64]) -> usize {
    found.sort_unstable();
    out[..found.len()].copy_from_slice(&found);
    found.len()
}

/// # Safety
/// The pointers point to n and room elements.
#[unsafe(no_mangle)]
unsafe extern "C" fn plain_uniteCells(
    cells: *const u64,
    n: usize,
    out: *mut u64,
    room: usize,
) -> usize {
    let cells = unsafe { from_raw_parts(cells, n) };
    assert!(cells.iter().all(|cell| is_valid(*cell)));
    put_region(region(cells), unsafe { from_raw_parts_mut(out, room) })
}

/// # Safety
/// The pointers point to n, m and room elements.
#[unsafe(no_mangle)]
unsafe extern "C" fn plain_intersectCells(
    first: *const u64,
    n: usize,
    second: *const u64,
    m: usize,
    out: *mut u64,
    room: usize,
) -> usize {
    let (first, second) = unsafe { (from_raw_parts(first, n), from_raw_parts(second, m)) };
    assert!(first.iter().chain(second).all(|cell| is_valid(*cell)));
    let found = shared(&region(first), &region(second));
    put_region(found, unsafe { from_raw_parts_mut(out, room) })
}

/// # Safety
/// The pointers point to n, m and room elements.
#[unsafe(no_mangle)]
unsafe extern "C" fn plain_subtractCells(
    first: *const u64,
    n: usize,
    second: *const u64,
    m: usize,
    out: *mut u64,
    room: usize,
) -> usize {
    let (first, second) = unsafe { (from_raw_parts(first, n), from_raw_parts(second, m)) };
    assert!(first.iter().chain(second).all(|cell| is_valid(*cell)));
    let found = left(&region(first), &region(second));
    put_region(found, unsafe { from_raw_parts_mut(out, room) })
}

/// Whether all numbers are cells'.
fn are_valid(cells: &[u64]) -> bool {
    cells
        .iter()
        .fold(true, |all, cell| all & columns::is_valid(*cell))
}

/// # Safety
/// The pointers point to n and room elements.
#[unsafe(no_mangle)]
unsafe extern "C" fn best_uniteCells(
    cells: *const u64,
    n: usize,
    out: *mut u64,
    room: usize,
) -> usize {
    let cells = unsafe { from_raw_parts(cells, n) };
    assert!(are_valid(cells));
    sets::put_by_number(&sets::united(cells), unsafe {
        from_raw_parts_mut(out, room)
    })
}

/// # Safety
/// The pointers point to n, m and room elements.
#[unsafe(no_mangle)]
unsafe extern "C" fn best_intersectCells(
    first: *const u64,
    n: usize,
    second: *const u64,
    m: usize,
    out: *mut u64,
    room: usize,
) -> usize {
    let (first, second) = unsafe { (from_raw_parts(first, n), from_raw_parts(second, m)) };
    assert!(are_valid(first) && are_valid(second));
    let found = sets::intersection(first, second);
    sets::put_by_number(&found, unsafe { from_raw_parts_mut(out, room) })
}

/// # Safety
/// The pointers point to n, m and room elements.
#[unsafe(no_mangle)]
unsafe extern "C" fn best_subtractCells(
    first: *const u64,
    n: usize,
    second: *const u64,
    m: usize,
    out: *mut u64,
    room: usize,
) -> usize {
    let (first, second) = unsafe { (from_raw_parts(first, n), from_raw_parts(second, m)) };
    assert!(are_valid(first) && are_valid(second));
    let found = sets::difference(first, second);
    sets::put_by_number(&found, unsafe { from_raw_parts_mut(out, room) })
}
