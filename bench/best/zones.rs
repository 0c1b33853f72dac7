//! The best form known of looking cells up in zones: a table of the first zone of each part of the keys, two parts a zone,
//! and blocks of 1,024 lines, of which sixteen cells at a time wait for memory side by side.

use super::plain::{key, resolution};

/// Zones in ascending order of their keys, and one past all others.
pub struct Zones {
    cells: Vec<u64>,
    firsts: Vec<u32>,
    lowest: u64,
    shift: u32,
}

impl Zones {
    pub fn of(mut cells: Vec<u64>) -> Zones {
        cells.sort_unstable_by_key(|cell| key(*cell));
        let lowest = cells.first().map_or(0, |cell| key(*cell));
        let span = cells.last().map_or(0, |cell| key(*cell)) - lowest;
        let shift = (0..).find(|shift| span >> shift <= 2 * cells.len() as u64 + 1).expect("a shift");
        let mut firsts = vec![0; (span >> shift) as usize + 3];
        for cell in &cells {
            firsts[((key(*cell) - lowest) >> shift) as usize + 1] += 1;
        }
        for part in 1..firsts.len() {
            firsts[part] += firsts[part - 1];
        }
        cells.push(u64::MAX);
        Zones { cells, firsts, lowest, shift }
    }

    /// Hands on the zone of each cell, in order.
    #[inline(always)]
    pub fn each(&self, cells: &[u64], mut take: impl FnMut(Option<u64>)) {
        let last = self.firsts.len() - 2;
        for cells in cells.chunks(16) {
            let mut places = [0; 16];
            for (place, cell) in places.iter_mut().zip(cells) {
                let part = (key(*cell).saturating_sub(self.lowest) >> self.shift) as usize;
                *place = self.firsts[part.min(last)] as usize;
            }
            // the zones are read once here, all sixteen side by side
            for (place, cell) in places.iter_mut().zip(cells) {
                *place += usize::from(key(self.cells[*place]) < key(*cell));
            }
            for (place, cell) in places.iter_mut().zip(cells) {
                while key(self.cells[*place]) < key(*cell) {
                    *place += 1;
                }
                let zone = self.cells[*place];
                let step = 1 << (3 * (15 - resolution(zone)));
                take(Some(zone).filter(|zone| *zone != u64::MAX && key(*zone) - key(*cell) < step));
            }
        }
    }
}
