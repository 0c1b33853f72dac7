//! One call for a column of indexes.
//!
//! The result for each index is written at its place in `out`. If the function of one index returns
//! an error, 0 is written there, or -1 if the results are not indexes. The first of these errors is
//! returned, with its place. If `out` is shorter than the column the error is `MemoryBounds`, and
//! nothing is written; [`children`] writes as many as fit. The rest of `out` keeps its values.
//!
//! # Examples
//!
//! ```
//! use h3whole::{columns, Error, Resolution};
//!
//! let cells = [0x85283473fffffff, 5, 0x8009fffffffffff];
//! let mut parents = [0; 3];
//! let refused = columns::parents(&cells, Resolution::Four, &mut parents).unwrap_err();
//! assert_eq!(parents, [0x8428347ffffffff, 0, 0]);
//! assert_eq!((refused.error, refused.at), (Error::CellInvalid, 1));
//! ```
//!
//! [`children`] and [`children_starts`] write one list of the children of all indexes, and the
//! places where those of each begin. An index that is refused has no children there.

use crate::ffi::columns as ffi;
use crate::{Cell, Error, Resolution};
use core::fmt;

/// The first error of a column, and its place.
#[derive(Clone, Copy, Debug, PartialEq, Eq, Hash)]
#[non_exhaustive]
pub struct ColumnError {
    /// The error.
    pub error: Error,
    /// The place of the index that the error is about, from 0 on. Of `MemoryBounds` it is the length
    /// of `out`; of [`children`] the place of the first index whose children have no room, and of
    /// [`children_starts`] that of the first whose end is not an `i64`. If the error is not about an
    /// index, it is the number of indexes.
    pub at: usize,
    /// The index that the error is about; `None` for `MemoryBounds`, and for an error that is not
    /// about an index.
    pub index: Option<u64>,
}

impl ColumnError {
    fn new(error: Error, at: usize, indexes: &[u64]) -> Self {
        let is_of_room = error == Error::MemoryBounds;
        let index = indexes.get(at).copied().filter(|_| !is_of_room);
        Self { error, at, index }
    }

    /// The error of the cell at a place; past all of them, of none.
    pub(crate) fn of_cell(error: Error, at: usize, cells: &[Cell]) -> Self {
        let index = cells.get(at).map(|cell| cell.raw());
        Self { error, at, index }
    }
}

impl fmt::Display for ColumnError {
    fn fmt(&self, f: &mut fmt::Formatter<'_>) -> fmt::Result {
        write!(f, "at {}: {}", self.at, self.error)?;
        self.index.map_or(Ok(()), |index| write!(f, ": {index:x}"))
    }
}

#[cfg(feature = "std")]
impl std::error::Error for ColumnError {}

impl From<ColumnError> for Error {
    fn from(refused: ColumnError) -> Error {
        refused.error
    }
}

/// Declares the functions by their names, the header's, and what they take and write.
macro_rules! columns {
    ($($(#[$doc:meta])* $name:ident = $export:ident($($res:ident)?) -> $result:ty;)*) => {
        $($(#[$doc])*
        pub fn $name(
            indexes: &[u64],
            $($res: Resolution,)?
            out: &mut [$result],
        ) -> Result<(), ColumnError> {
            ffi::$export(indexes, $($res.into(),)? out)
                .map_err(|(error, at)| ColumnError::new(error, at, indexes))
        })*
    };
}

columns! {
    /// 1 if the index is a valid cell, else 0: the only error is `MemoryBounds`.
    valid = h3w_areValidCells() -> i32;
    /// The resolutions of cells. See [`Cell::resolution`](crate::Cell::resolution).
    resolutions = h3w_getResolutions() -> i32;
    /// The base cells of cells. See [`Cell::base_cell`](crate::Cell::base_cell).
    base_cells = h3w_getBaseCellNumbers() -> i32;
    /// 1 if the cell is a pentagon, else 0. See [`Cell::is_pentagon`](crate::Cell::is_pentagon).
    pentagons = h3w_arePentagons() -> i32;
    /// 1 if the resolution of the cell is Class III, else 0. See
    /// [`Cell::is_class3`](crate::Cell::is_class3).
    class3 = h3w_areResClassIII() -> i32;
    /// The ancestors of cells at a resolution. See [`Cell::parent`](crate::Cell::parent).
    parents = h3w_cellsToParents(resolution) -> u64;
    /// The descendants of cells in their centers. See
    /// [`Cell::center_child`](crate::Cell::center_child).
    center_children = h3w_cellsToCenterChildren(resolution) -> u64;
    /// The last descendants of cells. See [`Cell::last_child`](crate::Cell::last_child).
    last_children = h3w_cellsToLastChildren(resolution) -> u64;
    /// How many descendants cells have. See [`Cell::children_count`](crate::Cell::children_count).
    children_counts = h3w_cellsToChildrenSizes(resolution) -> i64;
    /// The positions of cells below their ancestors. See
    /// [`Cell::child_position`](crate::Cell::child_position).
    child_positions = h3w_cellsToChildPositions(resolution) -> i64;
    /// Where the children of each index begin in the list that [`children`] writes, and where it
    /// ends: `out` needs one place more than there are indexes. Those of index i are at `out[i]` to
    /// `out[i + 1]`, which is the place after them. `MemoryBounds` is also the error if children
    /// end at a place that is not an `i64`; `at` is then the place of the first such index, and the
    /// places before are written.
    ///
    /// # Examples
    ///
    /// ```
    /// use h3whole::{columns, Resolution};
    ///
    /// let cells = [0x85283473fffffff, 0x8009fffffffffff];
    /// let mut starts = [0; 3];
    /// columns::children_starts(&cells, Resolution::Five, &mut starts)?;
    /// assert_eq!(starts, [0, 1, 14_007]);
    /// let mut children = vec![0; starts[2] as usize];
    /// columns::children(&cells, Resolution::Five, &mut children)?;
    /// assert_eq!(children[..2], [0x85283473fffffff, 0x85080003fffffff]);
    /// # Ok::<(), columns::ColumnError>(())
    /// ```
    children_starts = h3w_cellsToChildrenStarts(resolution) -> i64;
    /// The children of the first index at a resolution, ascending, then those of the second, and so
    /// on; none of an index that is refused. See [`Cell::children`](crate::Cell::children) and
    /// [`children_starts`]. If `out` is too short the error is `MemoryBounds`, before any other, and
    /// as many as fit are written.
    children = h3w_cellsToChildren(resolution) -> u64;
    /// 1 if the index is a valid directed edge, else 0: the only error is `MemoryBounds`.
    valid_edges = h3w_areValidDirectedEdges() -> i32;
    /// The cells that edges leave. See [`Edge::origin`](crate::Edge::origin).
    origins = h3w_getDirectedEdgeOrigins() -> u64;
}
