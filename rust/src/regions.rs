use crate::ffi::{self, Order};
use crate::{Cell, Error};
use alloc::vec::Vec;
use core::fmt;
use core::hash::{Hash, Hasher};
use core::iter::{Copied, FusedIterator};
use core::ops::{BitAnd, BitOr, Sub};
use core::slice;

/// What cells cover: the shortest list of cells that covers the same. It takes 16 bytes of memory
/// for each of these cells, and 8 more once a fourth as many cells were looked up: a table, which is
/// kept. A call with as many cells as these, or more, takes 8 more while it lasts.
///
/// `&a | &b`, `&a & &b` and `&a - &b` are the regions of what either covers, both do, and the first
/// does and the second does not. They panic if there is no memory; [`union`](Region::union),
/// [`intersection`](Region::intersection) and [`difference`](Region::difference) return an error
/// instead. Two regions are equal if they cover the same.
///
/// # Examples
///
/// ```
/// use h3whole::{Cell, Error, Region, Resolution};
///
/// let cell: Cell = "8428347ffffffff".parse()?;
/// let hole: Region = cell.children(Resolution::Five)?.take(1).collect();
/// let region = &Region::of(&[cell, cell])? - &hole;
/// assert_eq!(region.len(), 6);
/// assert!(region.contains("862834707ffffff".parse()?) && !region.contains(cell));
/// assert_eq!(&region | &hole, Region::of(&[cell])?);
/// # Ok::<(), Error>(())
/// ```
#[derive(Clone, Default)]
pub struct Region {
    cells: Vec<Cell>,
    order: Order,
}

impl Region {
    /// Returns the region of what the cells cover, which may repeat and overlap.
    ///
    /// # Errors
    ///
    /// `MemoryAlloc` if there is no memory.
    pub fn of(cells: &[Cell]) -> Result<Region, Error> {
        Self::known(ffi::unite(cells)?)
    }

    /// A region by its list, which the library has made.
    fn known(cells: Vec<Cell>) -> Result<Region, Error> {
        let order = Order::of(&cells)?;
        Ok(Region { cells, order })
    }

    /// Returns what this region or the other covers.
    ///
    /// # Errors
    ///
    /// `MemoryAlloc` if there is no memory.
    pub fn union(&self, other: &Region) -> Result<Region, Error> {
        let mut both = Vec::new();
        both.try_reserve_exact(self.len() + other.len())
            .map_err(|_| Error::MemoryAlloc)?;
        both.extend_from_slice(&self.cells);
        both.extend_from_slice(&other.cells);
        Self::of(&both)
    }

    /// Returns what both regions cover.
    ///
    /// # Errors
    ///
    /// `MemoryAlloc` if there is no memory.
    pub fn intersection(&self, other: &Region) -> Result<Region, Error> {
        Self::known(ffi::intersect(&self.cells, &other.cells)?)
    }

    /// Returns what this region covers and the other does not. It may have more cells than both: up
    /// to 90 more for each of the other.
    ///
    /// # Errors
    ///
    /// `MemoryAlloc` if there is no memory.
    pub fn difference(&self, other: &Region) -> Result<Region, Error> {
        Self::known(ffi::subtract(&self.cells, &other.cells)?)
    }

    /// Whether the region covers a cell: whether one of its cells is it, or an ancestor of it.
    pub fn contains(&self, cell: Cell) -> bool {
        zone_of(&self.order, cell).is_some()
    }

    /// Whether the other region covers all that this one does.
    pub fn is_subset(&self, other: &Region) -> bool {
        self.iter().all(|cell| other.contains(cell))
    }

    /// The cells, ascending.
    pub fn iter(&self) -> Copied<slice::Iter<'_, Cell>> {
        self.cells.iter().copied()
    }

    /// The cells, ascending.
    pub fn as_slice(&self) -> &[Cell] {
        &self.cells
    }

    /// How many cells the list has.
    pub fn len(&self) -> usize {
        self.cells.len()
    }

    /// Whether the region is empty.
    pub fn is_empty(&self) -> bool {
        self.cells.is_empty()
    }
}

impl PartialEq for Region {
    fn eq(&self, other: &Region) -> bool {
        self.cells == other.cells
    }
}

impl Eq for Region {}

impl Hash for Region {
    fn hash<H: Hasher>(&self, state: &mut H) {
        self.cells.hash(state);
    }
}

impl fmt::Debug for Region {
    fn fmt(&self, f: &mut fmt::Formatter<'_>) -> fmt::Result {
        f.debug_set().entries(self.iter()).finish()
    }
}

/// Panics if there is no memory, as a `Vec` ends the program.
impl FromIterator<Cell> for Region {
    fn from_iter<I: IntoIterator<Item = Cell>>(cells: I) -> Region {
        let cells: Vec<Cell> = cells.into_iter().collect();
        Region::of(&cells).expect(MEMORY)
    }
}

impl<'a> IntoIterator for &'a Region {
    type Item = Cell;
    type IntoIter = Copied<slice::Iter<'a, Cell>>;

    fn into_iter(self) -> Self::IntoIter {
        self.iter()
    }
}

/// What an operator panics with, whose one error is want of memory.
const MEMORY: &str = "a region takes memory";

impl BitOr for &Region {
    type Output = Region;

    fn bitor(self, other: &Region) -> Region {
        self.union(other).expect(MEMORY)
    }
}

impl BitAnd for &Region {
    type Output = Region;

    fn bitand(self, other: &Region) -> Region {
        self.intersection(other).expect(MEMORY)
    }
}

impl Sub for &Region {
    type Output = Region;

    fn sub(self, other: &Region) -> Region {
        self.difference(other).expect(MEMORY)
    }
}

/// Cells that do not overlap, of any resolutions, by which other cells are joined and counted:
/// each is in one of them at most, its zone. They take 8 bytes of memory for each zone, and 8 more
/// once a fourth as many cells were looked up: a table, which is kept, so a column can come in parts.
/// A call with as many cells as zones, or more, takes 8 more for each zone while it lasts.
///
/// # Examples
///
/// ```
/// use h3whole::{Cell, Error, Zones};
///
/// let cell: Cell = "85283473fffffff".parse()?;
/// let zones = Zones::new(&[cell, "8009fffffffffff".parse()?])?;
/// let places = ["862834707ffffff".parse()?, "8428347ffffffff".parse()?, cell];
/// assert_eq!(zones.zones_of(&places)?, [Some(cell), None, Some(cell)]);
/// let counts = zones.count(&places)?;
/// assert_eq!((counts.of(cell), counts.others()), (Some(2), 1));
/// assert_eq!(Zones::new(&[cell, cell]).unwrap_err(), Error::DuplicateInput);
/// # Ok::<(), Error>(())
/// ```
#[derive(Clone, Default)]
pub struct Zones {
    order: Order,
}

impl Zones {
    /// Returns the cells as zones.
    ///
    /// # Errors
    ///
    /// - `MemoryAlloc` if there is no memory.
    /// - `DuplicateInput` if a cell is there twice, or together with an ancestor of it.
    pub fn new(cells: &[Cell]) -> Result<Zones, Error> {
        let order = Order::of(cells)?;
        Ok(Zones { order })
    }

    /// The zone of a cell: the one that is the cell or an ancestor of it; `None` if it has none.
    pub fn zone_of(&self, cell: Cell) -> Option<Cell> {
        zone_of(&self.order, cell)
    }

    /// Returns the zone of each cell of a column.
    ///
    /// # Errors
    ///
    /// `MemoryAlloc` if there is no memory.
    pub fn zones_of(&self, cells: &[Cell]) -> Result<Vec<Option<Cell>>, Error> {
        let mut zones = filled(None, cells.len())?;
        self.order.zones_of(cells, &mut zones)?;
        Ok(zones)
    }

    /// Counts the cells of a column in each zone, and in none.
    ///
    /// # Errors
    ///
    /// `MemoryAlloc` if there is no memory.
    pub fn count(&self, cells: &[Cell]) -> Result<Counts<'_>, Error> {
        let mut counts = filled(0, self.len())?;
        let others = self.order.count(cells, &mut counts)?;
        Ok(Counts {
            zones: self,
            counts,
            others: others.unsigned_abs(),
        })
    }

    /// The zones, each once, in the order in which others are looked up. It is not ascending.
    pub fn iter(&self) -> Copied<slice::Iter<'_, Cell>> {
        self.order.cells().iter().copied()
    }

    /// How many zones there are.
    pub fn len(&self) -> usize {
        self.order.cells().len()
    }

    /// Whether there are no zones.
    pub fn is_empty(&self) -> bool {
        self.order.cells().is_empty()
    }
}

impl fmt::Debug for Zones {
    fn fmt(&self, f: &mut fmt::Formatter<'_>) -> fmt::Result {
        f.debug_set().entries(self.iter()).finish()
    }
}

impl<'a> IntoIterator for &'a Zones {
    type Item = Cell;
    type IntoIter = Copied<slice::Iter<'a, Cell>>;

    fn into_iter(self) -> Self::IntoIter {
        self.iter()
    }
}

/// How many cells of a column are in each zone, and in none: together they are as many as the column
/// has. The counts of parts of a column, zone by zone, add up to those of the whole.
#[derive(Clone)]
pub struct Counts<'a> {
    zones: &'a Zones,
    counts: Vec<i64>,
    others: u64,
}

impl Counts<'_> {
    /// How many cells are in a zone; `None` if the cell is not one of the zones. It looks through
    /// the zones: for many lookups, make a map of [`iter`](Counts::iter).
    pub fn of(&self, zone: Cell) -> Option<u64> {
        self.iter()
            .find(|(found, _)| *found == zone)
            .map(|(_, count)| count)
    }

    /// How many cells are in no zone.
    pub fn others(&self) -> u64 {
        self.others
    }

    /// Each zone with its count, in the order of [`Zones::iter`].
    pub fn iter(
        &self,
    ) -> impl DoubleEndedIterator<Item = (Cell, u64)> + ExactSizeIterator + FusedIterator + '_ {
        let counts = self.counts.iter().map(|count| count.unsigned_abs());
        self.zones.iter().zip(counts)
    }
}

impl fmt::Debug for Counts<'_> {
    fn fmt(&self, f: &mut fmt::Formatter<'_>) -> fmt::Result {
        f.debug_map()
            .entries(self.iter())
            .entry(&"others", &self.others)
            .finish()
    }
}

fn zone_of(order: &Order, cell: Cell) -> Option<Cell> {
    let mut zone = [None];
    order
        .zones_of(&[cell], &mut zone)
        .expect("there is room for the zone of a cell");
    zone[0]
}

/// So many places. `MemoryAlloc` if there is no memory.
fn filled<T: Clone>(value: T, count: usize) -> Result<Vec<T>, Error> {
    let mut places = Vec::new();
    places
        .try_reserve_exact(count)
        .map_err(|_| Error::MemoryAlloc)?;
    places.resize(count, value);
    Ok(places)
}
