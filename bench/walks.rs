//! Steps, disks and rings over a table of base cells, by carry tables on a cell's packed digits.

use super::{Links, TURNED, base, digit, is_hexagon, resolution, with_digit};
use super::texts::Page;
use std::io::{self, Write};

/// The digit that a digit and a direction give, and the direction that is carried, 0 for none: for even and for odd
/// resolutions, a row a digit, a column a direction.
const CARRIES: [[[(u8, u8); 6]; 7]; 2] = [
    [
        [(1, 0), (2, 0), (3, 0), (4, 0), (5, 0), (6, 0)],
        [(2, 1), (3, 0), (4, 3), (5, 0), (6, 1), (0, 0)],
        [(3, 0), (4, 2), (5, 2), (6, 0), (0, 0), (1, 6)],
        [(4, 3), (5, 2), (6, 3), (0, 0), (1, 0), (2, 0)],
        [(5, 0), (6, 0), (0, 0), (1, 4), (2, 5), (3, 4)],
        [(6, 1), (0, 0), (1, 0), (2, 5), (3, 5), (4, 0)],
        [(0, 0), (1, 6), (2, 0), (3, 4), (4, 0), (5, 6)],
    ],
    [
        [(1, 0), (2, 0), (3, 0), (4, 0), (5, 0), (6, 0)],
        [(4, 1), (3, 0), (6, 1), (5, 0), (2, 5), (0, 0)],
        [(3, 0), (1, 2), (4, 3), (6, 0), (0, 0), (5, 2)],
        [(6, 1), (4, 3), (5, 3), (0, 0), (1, 0), (2, 0)],
        [(5, 0), (6, 0), (0, 0), (2, 4), (3, 4), (1, 6)],
        [(2, 5), (0, 0), (1, 0), (3, 4), (6, 5), (4, 0)],
        [(0, 0), (5, 2), (2, 0), (1, 6), (4, 0), (3, 6)],
    ],
];

/// The digits turned as often as the row says.
const TURNS: [[u8; 8]; 6] = turns();

const fn turns() -> [[u8; 8]; 6] {
    let mut table = [[0, 1, 2, 3, 4, 5, 6, 7]; 6];
    let mut n = 1;
    while n < 6 {
        let mut d = 1;
        while d < 7 {
            table[n][d] = TURNED[table[n - 1][d] as usize - 1] as u8 + 1;
            d += 1;
        }
        n += 1;
    }
    table
}

fn turned_digits(cell: u64, turns: u8) -> u64 {
    (1..=resolution(cell)).fold(cell, |turned, r| with_digit(turned, r, TURNS[turns as usize][digit(cell, r) as usize].into()))
}

/// The neighbor in the direction of a digit, and the rotation there.
fn step(links: &Links, cell: u64, direction: usize, rotation: u8) -> Option<(u64, u8)> {
    let own = base(cell) as u8;
    if !is_hexagon(own) {
        return None;
    }
    let mut side = TURNS[rotation as usize][direction] as usize;
    let mut moved = cell;
    for r in (1..=resolution(cell)).rev() {
        let (new, carried) = CARRIES[r as usize & 1][digit(cell, r) as usize][side - 1];
        moved = with_digit(moved, r, new.into());
        if carried == 0 {
            return Some((moved, rotation));
        }
        side = carried as usize;
    }
    let (to, turns) = links[own as usize][side - 1]?;
    let there = moved & !(127 << 45) | u64::from(to) << 45;
    is_hexagon(to).then(|| (turned_digits(there, turns), (rotation + turns) % 6))
}

/// The directions of the sides of a ring: J, JK, K, IK, I and IJ.
const SIDES: [usize; 6] = [2, 3, 1, 5, 4, 6];

pub fn disk(out: &mut Page<impl Write>, links: &Links, origin: u64, k: u32) -> io::Result<()> {
    let (mut cell, mut rotation) = (origin, 0);
    out.put(cell)?;
    for ring in 1..=k {
        (cell, rotation) = step(links, cell, 4, rotation).expect("a hexagon base cell");
        for side in SIDES {
            for _ in 0..ring {
                (cell, rotation) = step(links, cell, side, rotation).expect("a hexagon base cell");
                out.put(cell)?;
            }
        }
    }
    Ok(())
}

/// Goes `count` times round the ring of radius 1000 by 6000 steps, and sums the cells.
pub fn rounds(links: &Links, origin: u64, count: u64) -> u64 {
    let (mut cell, mut sum) = (origin, 0u64);
    for _ in 0..count {
        for side in SIDES {
            for _ in 0..1000 {
                cell = step(links, cell, side, 0).expect("a hexagon base cell").0;
                sum = sum.wrapping_add(cell);
            }
        }
    }
    sum
}

pub fn ring(out: &mut Page<impl Write>, links: &Links, origin: u64, k: u32) -> io::Result<()> {
    let (mut cell, mut rotation) = (origin, 0);
    for _ in 0..k {
        (cell, rotation) = step(links, cell, 4, rotation).expect("a hexagon base cell");
    }
    let first = cell;
    for side in SIDES {
        for _ in 0..k {
            out.put(cell)?;
            (cell, rotation) = step(links, cell, side, rotation).expect("a hexagon base cell");
        }
    }
    assert!(cell == first, "a ring that closes");
    Ok(())
}
