use crate::index::{index, write_text};
use crate::{ffi, Edge, Error, Refused, Resolution};
use alloc::vec::Vec;
use core::fmt;
use core::iter::FusedIterator;
use core::num::NonZeroU64;
use core::ops::Range;
use core::str::FromStr;

/// A cell. It holds the index of one: converting a number that is not a valid cell is an error. An
/// index is never 0, so an `Option<Cell>` takes 8 bytes too.
///
/// Cells are ordered by their numbers: by resolution, then base cell, then digits.
///
/// # Examples
///
/// ```
/// use h3whole::{Cell, Error, Resolution};
///
/// let cell: Cell = "85283473fffffff".parse()?;
/// assert_eq!(Cell::try_from(0x85283473fffffff), Ok(cell));
/// assert_eq!(cell.resolution(), Resolution::Five);
/// assert_eq!(cell.parent(Resolution::Four)?.to_string(), "8428347ffffffff");
/// assert_eq!(cell.parent(Resolution::Six), Err(Error::ResMismatch));
/// assert_eq!(Cell::try_from(5).unwrap_err(), Error::CellInvalid);
/// # Ok::<(), Error>(())
/// ```
#[derive(Clone, Copy, PartialEq, Eq, PartialOrd, Ord, Hash)]
#[repr(transparent)]
pub struct Cell(pub(crate) NonZeroU64);

index!(Cell, ffi::is_valid_cell, Error::CellInvalid);

impl Cell {
    /// Returns the 122 cells of resolution 0, ascending: H3's `getRes0Cells`.
    pub fn base_cells() -> [Cell; 122] {
        ffi::base_cells()
            .expect("there are 122 cells of resolution 0")
            .map(Self::known)
    }

    /// Returns the resolution: H3's `getResolution`.
    pub fn resolution(self) -> Resolution {
        Resolution::try_from(ffi::resolution(self.raw())).expect("a cell has a resolution")
    }

    /// Returns the base cell, 0 to 121: H3's `getBaseCellNumber`.
    pub fn base_cell(self) -> u8 {
        u8::try_from(ffi::base_cell(self.raw())).expect("a cell has a base cell")
    }

    /// Returns whether the cell is a pentagon: H3's `isPentagon`.
    pub fn is_pentagon(self) -> bool {
        ffi::is_pentagon(self.raw()) == 1
    }

    /// Returns whether the resolution is Class III, which is odd: H3's `isResClassIII`.
    pub fn is_class3(self) -> bool {
        ffi::is_class3(self.raw()) == 1
    }

    /// Returns the ancestor at a resolution: H3's `cellToParent`.
    ///
    /// # Errors
    ///
    /// `ResMismatch` if the resolution is finer than the cell's.
    pub fn parent(self, resolution: Resolution) -> Result<Cell, Error> {
        ffi::parent(self.raw(), resolution.into()).map(Self::known)
    }

    /// Returns the descendant in the center: H3's `cellToCenterChild`.
    ///
    /// # Errors
    ///
    /// `ResDomain` if the resolution is coarser than the cell's.
    pub fn center_child(self, resolution: Resolution) -> Result<Cell, Error> {
        ffi::center_child(self.raw(), resolution.into()).map(Self::known)
    }

    /// Returns the last descendant at a resolution, which is the greatest one; not a function of
    /// H3.
    ///
    /// Cells are ordered by their numbers. From the center child to the last child, the cells of
    /// that resolution are the descendants of this cell, and no others: a slice in that order has
    /// them side by side.
    ///
    /// # Errors
    ///
    /// `ResDomain` if the resolution is coarser than the cell's.
    ///
    /// # Examples
    ///
    /// ```
    /// use h3whole::{Cell, Error, Resolution};
    ///
    /// let cell = Cell::try_from(0x85283473fffffff)?;
    /// let below = cell.center_child(Resolution::Six)?..=cell.last_child(Resolution::Six)?;
    /// assert!(below.contains(&Cell::try_from(0x86283471fffffff)?));
    /// assert!(!below.contains(&Cell::try_from(0x862834747ffffff)?));
    /// # Ok::<(), Error>(())
    /// ```
    pub fn last_child(self, resolution: Resolution) -> Result<Cell, Error> {
        ffi::last_child(self.raw(), resolution.into()).map(Self::known)
    }

    /// Returns how many descendants there are at a resolution: H3's `cellToChildrenSize`.
    ///
    /// # Errors
    ///
    /// `ResDomain` if the resolution is coarser than the cell's.
    pub fn children_count(self, resolution: Resolution) -> Result<u64, Error> {
        ffi::children_size(self.raw(), resolution.into()).map(i64::unsigned_abs)
    }

    /// Returns an iterator over the descendants at a resolution, ascending. It takes no memory, and
    /// finds each by its position.
    ///
    /// # Errors
    ///
    /// `ResDomain` if the resolution is coarser than the cell's.
    ///
    /// # Examples
    ///
    /// ```
    /// use h3whole::{Cell, Error, Resolution};
    ///
    /// let cell = Cell::try_from(0x85283473fffffff)?;
    /// let mut children = cell.children(Resolution::Fifteen)?;
    /// assert_eq!(children.len(), 282_475_249);
    /// assert_eq!(children.next(), Some(cell.center_child(Resolution::Fifteen)?));
    /// # Ok::<(), Error>(())
    /// ```
    pub fn children(self, resolution: Resolution) -> Result<Children, Error> {
        Ok(Children {
            parent: self,
            resolution,
            positions: 0..self.children_count(resolution)?,
        })
    }

    /// Returns the descendants at a resolution, ascending: H3's `cellToChildren`.
    ///
    /// # Errors
    ///
    /// - `ResDomain` if the resolution is coarser than the cell's.
    /// - `MemoryAlloc` if there is no memory for them.
    pub fn children_vec(self, resolution: Resolution) -> Result<Vec<Cell>, Error> {
        let count = self.children_count(resolution)?;
        let count = usize::try_from(count).map_err(|_| Error::MemoryAlloc)?;
        ffi::children(self.raw(), resolution.into(), count)
    }

    /// Returns the position, from 0 on, among the descendants of the ancestor at a resolution: H3's
    /// `cellToChildPos`.
    ///
    /// # Errors
    ///
    /// `ResMismatch` if the resolution is finer than the cell's.
    pub fn child_position(self, resolution: Resolution) -> Result<u64, Error> {
        ffi::child_position(self.raw(), resolution.into()).map(i64::unsigned_abs)
    }

    /// Returns the descendant that has this position: H3's `childPosToCell`.
    ///
    /// # Errors
    ///
    /// - `ResMismatch` if the resolution is coarser than the cell's.
    /// - `Domain` if no descendant has the position.
    pub fn child_at(self, position: u64, resolution: Resolution) -> Result<Cell, Error> {
        // no descendant has a position that is no i64
        let position = i64::try_from(position).unwrap_or(i64::MAX);
        ffi::child_at(position, self.raw(), resolution.into()).map(Self::known)
    }

    /// The edges that leave the cell, in ascending direction: H3's `originToDirectedEdges`. They
    /// are six; of a pentagon five.
    pub fn edges(
        self,
    ) -> impl DoubleEndedIterator<Item = Edge> + ExactSizeIterator + FusedIterator {
        let edges = ffi::edges(self.raw()).expect("a cell has edges");
        // a pentagon has 0 in place of the first
        let missing = usize::from(edges[0] == 0);
        edges.into_iter().skip(missing).map(Edge::known)
    }
}

/// The descendants of a cell: see [`Cell::children`].
#[derive(Clone, Debug)]
pub struct Children {
    parent: Cell,
    resolution: Resolution,
    positions: Range<u64>,
}

impl Children {
    /// How many are left.
    #[allow(clippy::len_without_is_empty)]
    pub fn len(&self) -> u64 {
        self.positions.end - self.positions.start
    }

    fn at(&self, position: u64) -> Cell {
        self.parent
            .child_at(position, self.resolution)
            .expect("a child has each of the positions")
    }
}

/// Descendants that are passed over are not computed: [`last`](Iterator::last),
/// [`nth`](Iterator::nth) and [`count`](Iterator::count) use the positions.
impl Iterator for Children {
    type Item = Cell;

    fn next(&mut self) -> Option<Cell> {
        self.positions.next().map(|position| self.at(position))
    }

    fn nth(&mut self, n: usize) -> Option<Cell> {
        self.positions.nth(n).map(|position| self.at(position))
    }

    fn last(mut self) -> Option<Cell> {
        self.next_back()
    }

    fn count(self) -> usize {
        usize::try_from(self.len()).expect("a usize counts them")
    }

    fn size_hint(&self) -> (usize, Option<usize>) {
        self.positions.size_hint()
    }
}

impl DoubleEndedIterator for Children {
    fn next_back(&mut self) -> Option<Cell> {
        self.positions.next_back().map(|position| self.at(position))
    }

    fn nth_back(&mut self, n: usize) -> Option<Cell> {
        self.positions.nth_back(n).map(|position| self.at(position))
    }
}

/// (A usize of 32 bits does not count the descendants of all cells.)
#[cfg(target_pointer_width = "64")]
impl ExactSizeIterator for Children {}

impl FusedIterator for Children {}
