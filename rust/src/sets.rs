use crate::{ffi, Cell, Error, Resolution};
use alloc::vec::Vec;

/// Returns the shortest list of cells that covers the same as the given ones, ascending: H3's
/// `compactCells`. [`find_overlap`] returns which cells overlap.
///
/// # Errors
///
/// - `DuplicateInput` if a cell is there twice, or together with an ancestor of it.
/// - `MemoryAlloc` if there is no memory.
///
/// # Examples
///
/// ```
/// use h3whole::{compact, uncompact, Cell, Error, Resolution};
///
/// let cell = Cell::try_from(0x85283473fffffff)?;
/// let children = cell.children_vec(Resolution::Eight)?;
/// assert_eq!(children.len(), 343);
/// assert_eq!(compact(&children)?, [cell]);
/// assert_eq!(uncompact(&[cell], Resolution::Eight)?, children);
/// assert_eq!(compact(&[cell, cell]), Err(Error::DuplicateInput));
/// # Ok::<(), Error>(())
/// ```
pub fn compact(cells: &[Cell]) -> Result<Vec<Cell>, Error> {
    ffi::compact(cells)
}

/// Returns the places of two cells that overlap, or `None`: of the first one that overlaps an
/// earlier one, and of the first that it overlaps. They are the reason why [`compact`] or
/// [`Zones::new`](crate::Zones::new) returned `DuplicateInput`.
///
/// # Errors
///
/// `MemoryAlloc` if there is no memory.
///
/// # Examples
///
/// ```
/// use h3whole::{find_overlap, Cell, Error, Resolution};
///
/// let cell = Cell::try_from(0x85283473fffffff)?;
/// let other = Cell::try_from(0x8009fffffffffff)?;
/// assert_eq!(find_overlap(&[cell, other, cell.parent(Resolution::Four)?])?, Some((2, 0)));
/// assert_eq!(find_overlap(&[cell, other])?, None);
/// # Ok::<(), Error>(())
/// ```
pub fn find_overlap(cells: &[Cell]) -> Result<Option<(usize, usize)>, Error> {
    let (at, earlier) = ffi::find_overlap(cells)?;
    Ok(Some((at, earlier)).filter(|_| at < cells.len()))
}

/// Returns the descendants at a resolution of the first cell, ascending, then those of the second,
/// and so on: H3's `uncompactCells`.
///
/// # Errors
///
/// - `ResMismatch` if a cell is finer.
/// - `MemoryAlloc` if there is no memory for them.
pub fn uncompact(cells: &[Cell], resolution: Resolution) -> Result<Vec<Cell>, Error> {
    let mut count = 0u64;
    for cell in cells {
        let size = cell
            .children_count(resolution)
            .map_err(|_| Error::ResMismatch)?;
        count = count.checked_add(size).ok_or(Error::MemoryAlloc)?;
    }
    let count = usize::try_from(count).map_err(|_| Error::MemoryAlloc)?;
    ffi::uncompact(cells, count, resolution.into())
}
