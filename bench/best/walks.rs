//! Steps, disks and rings over a table of base cells, by a table of what a step does to two digits.

use super::is_hexagon;
use super::plain::{Links, base, digit, resolution, turned, with_digit};
use super::texts::{Near, Page};
use std::io::{self, Write};

/// The digit that a digit and a direction give, and the direction that is carried, 0 for none: for even and for odd
/// resolutions, a row a digit, a column a direction.
const CARRIES: [[[(u8, u8); 6]; 7]; 2] = [
    [
        [(1, 0), (2, 0), (3, 0), (4, 0), (5, 0), (6, 0)],
        [(2, 1), (3, 0), (4, 3), (5, 0), (6, 1), (0, 0)],
        [(3, 0), (4, 2), (5, 2), (6, 0), (0, 0), (1, 6)],
        [(4, 3), (5, 2), (6, 3), (0, 0), (1, 0), (2, 0)],
        [(5, 0), (6, 0), (0, 0), (1, 4), (2, 5), (3, 4)],
        [(6, 1), (0, 0), (1, 0), (2, 5), (3, 5), (4, 0)],
        [(0, 0), (1, 6), (2, 0), (3, 4), (4, 0), (5, 6)],
    ],
    [
        [(1, 0), (2, 0), (3, 0), (4, 0), (5, 0), (6, 0)],
        [(4, 1), (3, 0), (6, 1), (5, 0), (2, 5), (0, 0)],
        [(3, 0), (1, 2), (4, 3), (6, 0), (0, 0), (5, 2)],
        [(6, 1), (4, 3), (5, 3), (0, 0), (1, 0), (2, 0)],
        [(5, 0), (6, 0), (0, 0), (2, 4), (3, 4), (1, 6)],
        [(2, 5), (0, 0), (1, 0), (3, 4), (6, 5), (4, 0)],
        [(0, 0), (5, 2), (2, 0), (1, 6), (4, 0), (3, 6)],
    ],
];

fn turned_digit(digit: usize, turns: u8) -> usize {
    if digit == 0 { 0 } else { turned(digit - 1, turns) + 1 }
}

fn turned_digits(cell: u64, turns: u8) -> u64 {
    (1..=resolution(cell)).fold(cell, |moved, r| with_digit(moved, r, turned_digit(digit(cell, r) as usize, turns) as u64))
}

/// What a step does to the last two digits: a row for each direction of a side, a column for two digits; what is to be
/// added to them, and whether a direction is carried further.
type Lasts = [[(i8, bool); 64]; 6];

/// For even and for odd resolutions.
static LASTS: [Lasts; 2] = [lasts(0), lasts(1)];

const fn lasts(parity: usize) -> Lasts {
    let mut table = [[(0, true); 64]; 6];
    let mut i = 0;
    while i < 6 * 49 {
        let (side, above, last) = (i / 49, i / 7 % 7, i % 7);
        let (new, carried) = CARRIES[parity][last][side];
        let (new_above, further) = match carried {
            0 => (above as u8, 0),
            _ => CARRIES[1 - parity][above][carried as usize - 1],
        };
        table[side][8 * above + last] = ((8 * new_above + new) as i8 - (8 * above + last) as i8, further > 0);
        i += 1;
    }
    table
}

/// A cell with a hexagon base cell, and the rotation there.
struct Walker<'a> {
    links: &'a Links,
    cell: u64,
    rotation: u8,
}

impl<'a> Walker<'a> {
    fn new(links: &'a Links, cell: u64) -> Walker<'a> {
        Walker { links, cell, rotation: 0 }
    }

    /// The direction of a digit, turned by the rotation.
    fn side(&self, direction: usize) -> usize {
        turned_digit(direction, self.rotation)
    }

    /// Steps in the direction of a side. Nothing is known of a pentagon's surroundings.
    fn step(&mut self, mut side: usize) -> Option<()> {
        if !is_hexagon(self.cell) {
            return None;
        }
        for r in (1..=resolution(self.cell)).rev() {
            let (new, carried) = CARRIES[r as usize & 1][digit(self.cell, r) as usize][side - 1];
            self.cell = with_digit(self.cell, r, new.into());
            if carried == 0 {
                return Some(());
            }
            side = carried as usize;
        }
        let (to, turns) = self.links[base(self.cell) as usize][side - 1]?;
        let there = self.cell & !(127 << 45) | u64::from(to) << 45;
        self.cell = turned_digits(there, turns);
        self.rotation = (self.rotation + turns) % 6;
        is_hexagon(self.cell).then_some(())
    }

    /// Takes steps in the direction of a digit, and hands on each cell, and whether more than its last two digits changed,
    /// which few steps do.
    #[inline(always)]
    fn walk(&mut self, direction: usize, steps: u32, mut take: impl FnMut(u64, bool) -> io::Result<()>) -> io::Result<()> {
        assert!(steps == 0 || is_hexagon(self.cell), "a hexagon base cell");
        let res = resolution(self.cell);
        let places = 3 * (15 - res);
        let rows = &LASTS[res as usize & 1];
        let mut rotation = self.rotation;
        let mut side = self.side(direction);
        let mut row = &rows[side - 1];
        for _ in 0..steps {
            let (more, is_carried) = row[(self.cell >> places) as usize % 64];
            let is_far = is_carried || res < 2;
            if is_far {
                self.step(side).expect("a hexagon base cell");
                if self.rotation != rotation {
                    rotation = self.rotation;
                    side = self.side(direction);
                    row = &rows[side - 1];
                }
            } else {
                self.cell = self.cell.wrapping_add_signed(i64::from(more) << places);
            }
            take(self.cell, is_far)?;
        }
        Ok(())
    }
}

/// The directions of the sides of a ring: J, JK, K, IK, I and IJ.
const SIDES: [usize; 6] = [2, 3, 1, 5, 4, 6];

pub fn disk(out: &mut Page<impl Write>, links: &Links, origin: u64, k: u32) -> io::Result<()> {
    let mut walker = Walker::new(links, origin);
    let mut near = Near::of(origin, resolution(origin));
    out.put(origin)?;
    for ring in 1..=k {
        walker.step(walker.side(4)).expect("a hexagon base cell");
        near.move_to(walker.cell);
        for side in SIDES {
            walker.walk(side, ring, |cell, is_far| put_next(out, &mut near, cell, is_far))?;
        }
    }
    Ok(())
}

#[inline(always)]
fn put_next(out: &mut Page<impl Write>, near: &mut Near, cell: u64, is_far: bool) -> io::Result<()> {
    if is_far {
        near.move_to(cell);
    }
    out.put_near(near, cell)
}

/// Goes `count` times round the ring of radius 1000 by 6000 steps, and sums the cells.
pub fn rounds(links: &Links, origin: u64, count: u64) -> io::Result<u64> {
    let mut walker = Walker::new(links, origin);
    let mut sum = 0u64;
    for _ in 0..count {
        for side in SIDES {
            walker.walk(side, 1000, |cell, _| {
                sum = sum.wrapping_add(cell);
                Ok(())
            })?;
        }
    }
    Ok(sum)
}

pub fn ring(out: &mut Page<impl Write>, links: &Links, origin: u64, k: u32) -> io::Result<()> {
    let mut walker = Walker::new(links, origin);
    walker.walk(4, k, |_, _| Ok(()))?;
    let first = walker.cell;
    let (mut near, mut left) = (Near::of(first, resolution(first)), 6 * u64::from(k));
    if k > 0 {
        out.put(first)?;
    }
    for side in SIDES {
        walker.walk(side, k, |cell, is_far| {
            left -= 1;
            // the last step leads back to the first cell
            if left == 0 { Ok(()) } else { put_next(out, &mut near, cell, is_far) }
        })?;
    }
    assert!(walker.cell == first, "a ring that closes");
    Ok(())
}
