use crate::columns::ColumnError;
use crate::ffi::{self, Fault, RawTable};
use crate::{Cell, Edge, Error};
use alloc::vec::Vec;
use core::fmt;

/// A base cell table: how the base cells of hexagons lie beside each other. Functions that go from
/// cell to cell need one. H3 does not ship one as a file: the repository's `tools/h3-table` makes
/// it from H3's sources.
///
/// It takes 1,465 bytes and owns nothing; it may be cloned, and read from many threads at once.
///
/// # Examples
///
/// ```
/// use h3whole::{Cell, Error, Table};
///
/// # fn file() -> Vec<u8> {
/// #     let steps = [110, 11, 121, 1, 111, 12];
/// #     let mut file = String::from("base,dir,to,rot\n");
/// #     let pentagons = [4, 14, 24, 38, 49, 58, 63, 72, 83, 97, 107, 117];
/// #     for base in (0..122).filter(|base| !pentagons.contains(base)) {
/// #         for (digit, step) in (1..).zip(steps) {
/// #             file += &format!("{base},{digit},{},0\n", (base + step) % 122);
/// #         }
/// #     }
/// #     file.into()
/// # }
/// # let bytes = file();
/// // such as std::fs::read("table.csv")?
/// let table = Table::from_csv(&bytes)?;
/// let cell = Cell::try_from(0x85283473fffffff)?;
/// let disk = table.grid_disk_unsafe(cell, 2)?;
/// assert_eq!((disk[0], disk.len()), (cell, 19));
///
/// let edge = table.edge_between(cell, disk[1])?;
/// assert_eq!(table.edge_destination(edge), Ok(disk[1]));
/// assert_eq!(table.are_neighbors(cell, disk[7]), Ok(false));
///
/// let pentagon = Cell::try_from(0x8009fffffffffff)?;
/// assert_eq!(table.grid_disk_unsafe(pentagon, 1), Err(Error::Pentagon));
/// # Ok::<(), Box<dyn std::error::Error>>(())
/// ```
#[derive(Clone)]
pub struct Table(RawTable);

impl Table {
    /// Returns the table in the bytes of a file, in one of the two formats that `tools/h3-table`
    /// writes.
    ///
    /// # Errors
    ///
    /// The first [`TableError`] of the file, in the order in which they are declared.
    pub fn from_csv(file: &[u8]) -> Result<Table, TableError> {
        ffi::read_table(file).map(Table).map_err(TableError::from)
    }

    /// Returns the cells within k steps of a cell, ring by ring: H3's `gridDiskUnsafe`.
    ///
    /// # Errors
    ///
    /// - `Domain` if k is not an `i32`.
    /// - `MemoryAlloc` if there is no memory for 3k(k + 1) + 1 cells.
    /// - `Pentagon` if a step meets a pentagon base cell.
    pub fn grid_disk_unsafe(&self, origin: Cell, k: u32) -> Result<Vec<Cell>, Error> {
        let radius = radius(k)?;
        ffi::disk(&self.0, origin.raw(), radius, disk_len(k)?)
    }

    /// Returns the disks of cells, one after another: H3's `gridDisksUnsafe`. Each has 3k(k + 1) +
    /// 1 cells, in the order of [`Table::grid_disk_unsafe`].
    ///
    /// # Errors
    ///
    /// Those of [`Table::grid_disk_unsafe`], with the first cell that they are about; `Domain` and
    /// `MemoryAlloc` are not about a cell.
    ///
    /// # Examples
    ///
    /// ```
    /// # use h3whole::{Cell, Error, Table};
    /// # fn check(table: Table, cells: &[Cell]) -> Result<(), Error> {
    /// let disks = table.grid_disks_unsafe(cells, 2)?;
    /// for (cell, disk) in cells.iter().zip(disks.chunks(19)) {
    ///     assert_eq!(disk, table.grid_disk_unsafe(*cell, 2)?);
    /// }
    /// # Ok(())
    /// # }
    /// ```
    pub fn grid_disks_unsafe(&self, origins: &[Cell], k: u32) -> Result<Vec<Cell>, ColumnError> {
        let of_all = |error| ColumnError::of_cell(error, origins.len(), origins);
        let radius = radius(k).map_err(of_all)?;
        let count = disk_len(k).map_err(of_all)?.checked_mul(origins.len());
        let count = count.ok_or_else(|| of_all(Error::MemoryAlloc))?;
        ffi::disks(&self.0, origins, radius, count)
            .map_err(|(error, at)| ColumnError::of_cell(error, at, origins))
    }

    /// Returns the cells within k steps of a cell, each with its ring, 0 to k: H3's
    /// `gridDiskDistancesUnsafe`.
    ///
    /// # Errors
    ///
    /// Those of [`Table::grid_disk_unsafe`].
    pub fn grid_disk_distances_unsafe(
        &self,
        origin: Cell,
        k: u32,
    ) -> Result<Vec<(Cell, u32)>, Error> {
        let radius = radius(k)?;
        let (cells, rings) = ffi::distances(&self.0, origin.raw(), radius, disk_len(k)?)?;
        let mut found = Vec::new();
        found
            .try_reserve_exact(cells.len())
            .map_err(|_| Error::MemoryAlloc)?;
        found.extend(
            cells
                .into_iter()
                .zip(rings.into_iter().map(i32::unsigned_abs)),
        );
        Ok(found)
    }

    /// Returns the cells at k steps from a cell: H3's `gridRingUnsafe`.
    ///
    /// # Errors
    ///
    /// Those of [`Table::grid_disk_unsafe`], and for k = 0 none.
    pub fn grid_ring_unsafe(&self, origin: Cell, k: u32) -> Result<Vec<Cell>, Error> {
        let radius = radius(k)?;
        let count = usize::try_from(6 * u64::from(k)).map_err(|_| Error::MemoryAlloc)?;
        ffi::ring(&self.0, origin.raw(), radius, count.max(1))
    }

    /// Returns whether a step leads from the one cell to the other: H3's `areNeighborCells`.
    ///
    /// # Errors
    ///
    /// - `ResMismatch` if their resolutions differ.
    /// - `Pentagon` if the cells differ and the base cell of either is a pentagon.
    pub fn are_neighbors(&self, a: Cell, b: Cell) -> Result<bool, Error> {
        ffi::are_neighbors(&self.0, a.raw(), b.raw())
    }

    /// Returns the edge from a cell to a neighbor: H3's `cellsToDirectedEdge`.
    ///
    /// # Errors
    ///
    /// - `ResMismatch` if their resolutions differ.
    /// - `NotNeighbors` if both are the same.
    /// - `Pentagon` if the base cell of either is a pentagon.
    /// - `NotNeighbors` if no step leads from the one to the other.
    pub fn edge_between(&self, origin: Cell, destination: Cell) -> Result<Edge, Error> {
        ffi::edge_between(&self.0, origin.raw(), destination.raw()).map(Edge::known)
    }

    /// Returns the cell that an edge leads to: H3's `getDirectedEdgeDestination`.
    ///
    /// # Errors
    ///
    /// `Pentagon` if the base cell of the edge's origin, or of that cell, is a pentagon.
    pub fn edge_destination(&self, edge: Edge) -> Result<Cell, Error> {
        ffi::edge_destination(&self.0, edge.raw()).map(Cell::known)
    }
}

impl fmt::Debug for Table {
    fn fmt(&self, f: &mut fmt::Formatter<'_>) -> fmt::Result {
        f.debug_struct("Table").finish_non_exhaustive()
    }
}

/// A radius as H3's functions take it.
fn radius(k: u32) -> Result<i32, Error> {
    i32::try_from(k).map_err(|_| Error::Domain)
}

/// The number of cells of a disk.
fn disk_len(k: u32) -> Result<usize, Error> {
    let k = u64::from(k);
    usize::try_from(3 * k * (k + 1) + 1).map_err(|_| Error::MemoryAlloc)
}

/// Why a table file is refused, in the order in which the errors are found. Record 1 is the header,
/// and a direction is 1 to 6.
#[derive(Clone, Copy, Debug, PartialEq, Eq)]
#[non_exhaustive]
pub enum TableError {
    /// Out of memory.
    Memory,
    /// This record is malformed.
    Form(u64),
    /// This record has a number out of range.
    Range(u64),
    /// This record repeats an earlier one.
    Repeated(u64),
    /// Some base cell and direction have no link.
    Missing,
    /// This base cell and its neighbors are not seven different base cells.
    Neighbors(u8),
    /// The link of this base cell in this direction is not undone by the link back.
    Reversal(u8, u8),
    /// The links around the corner of this base cell after this direction do not agree.
    Corner(u8, u8),
}

impl From<Fault> for TableError {
    fn from(fault: Fault) -> Self {
        let (base, direction) = (fault.at as u8, fault.direction as u8);
        match fault.code {
            3 => TableError::Form(fault.at),
            4 => TableError::Range(fault.at),
            5 => TableError::Repeated(fault.at),
            6 => TableError::Missing,
            7 => TableError::Neighbors(base),
            8 => TableError::Reversal(base, direction),
            9 => TableError::Corner(base, direction),
            _ => TableError::Memory,
        }
    }
}

impl fmt::Display for TableError {
    fn fmt(&self, f: &mut fmt::Formatter<'_>) -> fmt::Result {
        match self {
            TableError::Memory => write!(f, "table: out of memory"),
            TableError::Form(record) => write!(f, "table: form {record}"),
            TableError::Range(record) => write!(f, "table: range {record}"),
            TableError::Repeated(record) => write!(f, "table: repeated {record}"),
            TableError::Missing => write!(f, "table: missing"),
            TableError::Neighbors(base) => write!(f, "table: neighbours {base}"),
            TableError::Reversal(base, direction) => {
                write!(f, "table: reversal {base} {direction}")
            }
            TableError::Corner(base, direction) => write!(f, "table: corner {base} {direction}"),
        }
    }
}

#[cfg(feature = "std")]
impl std::error::Error for TableError {}
