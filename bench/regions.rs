//! Regions in plain Rust: the compacted list of cells that may overlap, and what two such lists share, or what one has
//! beyond the other, by one pass over both in the order in which each cell comes right after its descendants.

use crate::plain::{Children, merge, resolution};

/// The end of the cells of resolution 15 below a cell, in the order of their base cells and digits.
pub fn end(cell: u64) -> u64 {
    cell & (1 << 52) - 1
}

/// Their beginning.
pub fn begin(cell: u64) -> u64 {
    end(cell) >> (3 * (15 - resolution(cell))) << (3 * (15 - resolution(cell)))
}

/// The compacted list of what the cells cover, in that order.
pub fn region(cells: &[u64]) -> Vec<u64> {
    let mut kept: Vec<u64> = Vec::with_capacity(cells.len());
    let mut sorted = cells.to_vec();
    sorted.sort_unstable_by_key(|cell| end(*cell));
    // from the last: a cell that is covered comes after one that covers it
    for cell in sorted.into_iter().rev() {
        if kept.last().is_none_or(|last| end(cell) < begin(*last)) {
            kept.push(cell);
        }
    }
    kept.reverse();
    let mut used = kept.iter().fold(0u16, |used, cell| used | 1 << resolution(*cell));
    for level in (1..=15).rev() {
        if used >> level & 1 == 1 {
            let count = merge(&mut kept, level);
            if count < kept.len() {
                used |= 1 << (level - 1);
                kept.truncate(count);
            }
        }
    }
    kept
}

/// What two regions both cover.
pub fn shared(first: &[u64], second: &[u64]) -> Vec<u64> {
    let mut found = Vec::with_capacity(first.len() + second.len());
    let (mut i, mut j) = (0, 0);
    while i < first.len() && j < second.len() {
        let (a, b) = (first[i], second[j]);
        if end(a) < begin(b) {
            i += 1;
        } else if end(b) < begin(a) {
            j += 1;
        } else {
            found.push(if resolution(a) < resolution(b) { b } else { a });
            if end(a) <= end(b) {
                i += 1;
            } else {
                j += 1;
            }
        }
    }
    found
}

/// Adds what a cell covers and others, which all lie in it, do not.
fn add_left(cell: u64, others: &[u64], found: &mut Vec<u64>) {
    if others.is_empty() {
        found.push(cell);
    } else if others[0] != cell {
        let mut rest = others;
        for child in Children::of(cell, resolution(cell) + 1) {
            let (here, after) = rest.split_at(rest.partition_point(|other| end(*other) <= end(child)));
            add_left(child, here, found);
            rest = after;
        }
    }
}

/// What the first region covers and the second does not.
pub fn left(first: &[u64], second: &[u64]) -> Vec<u64> {
    let mut found = Vec::with_capacity(first.len() + second.len());
    let mut j = 0;
    for cell in first {
        while j < second.len() && end(second[j]) < begin(*cell) {
            j += 1;
        }
        if j == second.len() || begin(second[j]) > end(*cell) {
            found.push(*cell);
        } else if end(second[j]) <= end(*cell) {
            let inside = second[j..].partition_point(|other| end(*other) <= end(*cell));
            add_left(*cell, &second[j..j + inside], &mut found);
        }
    }
    found
}
