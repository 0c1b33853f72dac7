//! The functions of include/h3whole.h, and over each a safe function. All that is `unsafe` stands
//! here.
//!
//! What the header asks of a caller: each pointer points to as many elements as are passed with it,
//! or to one; it is never null, which the pointers of references and slices are not; and what is
//! written to overlaps nothing else that is passed, which holds of `&mut`. No function keeps a
//! pointer, and all may be called from any thread.

use crate::{Cell, Error};
use alloc::boxed::Box;
use alloc::vec::Vec;
use core::ptr;
use core::slice;
use core::sync::atomic::{AtomicPtr, AtomicUsize, Ordering};

// (core has these types from Rust 1.64 on; the library is one for Unix systems of 64 bits)
#[allow(non_camel_case_types)]
type c_int = i32;
#[allow(non_camel_case_types)]
type c_char = u8;

/// Declares functions for columns, whose signatures differ in the type of the results and by a
/// resolution.
macro_rules! columns {
    ($($name:ident($($resolution:ident)?) -> $result:ty;)*) => {
        extern "C" {
            $(fn $name(
                indexes: *const u64,
                n: usize,
                $($resolution: c_int,)?
                out: *mut $result,
                room: usize,
                at: &mut usize,
            ) -> u32;)*
        }

        /// The functions for columns, under their names in the header. The error comes with its
        /// place.
        pub(crate) mod columns {
            use super::{checked, c_int, Error};

            $(#[allow(non_snake_case)]
            pub(crate) fn $name(
                indexes: &[u64],
                $($resolution: i32,)?
                out: &mut [$result],
            ) -> Result<(), (Error, usize)> {
                let mut at = out.len();
                // SAFETY: each of the two pointers is passed with the length of its slice, and `at`
                // is one place.
                let code = unsafe {
                    super::$name(
                        indexes.as_ptr(),
                        indexes.len(),
                        $($resolution as c_int,)?
                        out.as_mut_ptr(),
                        out.len(),
                        &mut at,
                    )
                };
                checked(code).map_err(|error| (error, at))
            })*
        }
    };
}

columns! {
    h3w_areValidCells() -> c_int;
    h3w_getResolutions() -> c_int;
    h3w_getBaseCellNumbers() -> c_int;
    h3w_arePentagons() -> c_int;
    h3w_areResClassIII() -> c_int;
    h3w_cellsToParents(res) -> u64;
    h3w_cellsToCenterChildren(res) -> u64;
    h3w_cellsToLastChildren(res) -> u64;
    h3w_cellsToChildrenSizes(res) -> i64;
    h3w_cellsToChildPositions(res) -> i64;
    h3w_cellsToChildrenStarts(res) -> i64;
    h3w_cellsToChildren(res) -> u64;
    h3w_areValidDirectedEdges() -> c_int;
    h3w_getDirectedEdgeOrigins() -> u64;
}

/// The header's `H3wTable`.
#[derive(Clone)]
#[repr(C)]
pub(crate) struct RawTable {
    bytes: [u8; 1465],
}

/// The header's `H3wTableFault`.
#[derive(Default)]
#[repr(C)]
pub(crate) struct Fault {
    pub(crate) code: u32,
    pub(crate) direction: u32,
    pub(crate) at: u64,
}

extern "C" {
    fn h3w_readTable(file: *const c_char, n: usize, fault: &mut Fault) -> RawTable;
    fn h3w_gridDiskUnsafe(
        table: &RawTable,
        origin: u64,
        k: c_int,
        out: *mut u64,
        room: usize,
    ) -> u32;
    fn h3w_gridDisksUnsafe(
        table: &RawTable,
        cells: *const u64,
        n: usize,
        k: c_int,
        out: *mut u64,
        room: usize,
        at: &mut usize,
    ) -> u32;
    fn h3w_gridDiskDistancesUnsafe(
        table: &RawTable,
        origin: u64,
        k: c_int,
        out: *mut u64,
        room: usize,
        distances: *mut c_int,
        distances_room: usize,
    ) -> u32;
    fn h3w_gridRingUnsafe(
        table: &RawTable,
        origin: u64,
        k: c_int,
        out: *mut u64,
        room: usize,
    ) -> u32;
    fn h3w_areNeighborCells(
        table: &RawTable,
        origin: u64,
        destination: u64,
        out: &mut c_int,
    ) -> u32;
    fn h3w_cellsToDirectedEdge(
        table: &RawTable,
        origin: u64,
        destination: u64,
        out: &mut u64,
    ) -> u32;
    fn h3w_getDirectedEdgeDestination(table: &RawTable, edge: u64, out: &mut u64) -> u32;
    fn h3w_isValidCell(h: u64) -> c_int;
    fn h3w_getResolution(h: u64) -> c_int;
    fn h3w_getBaseCellNumber(h: u64) -> c_int;
    fn h3w_isPentagon(h: u64) -> c_int;
    fn h3w_isResClassIII(h: u64) -> c_int;
    fn h3w_getNumCells(res: c_int, out: &mut i64) -> u32;
    fn h3w_getRes0Cells(out: *mut u64, room: usize) -> u32;
    fn h3w_getPentagons(res: c_int, out: *mut u64, room: usize) -> u32;
    fn h3w_cellToParent(cell: u64, res: c_int, out: &mut u64) -> u32;
    fn h3w_cellToCenterChild(cell: u64, res: c_int, out: &mut u64) -> u32;
    fn h3w_cellToLastChild(cell: u64, res: c_int, out: &mut u64) -> u32;
    fn h3w_cellToChildrenSize(cell: u64, res: c_int, out: &mut i64) -> u32;
    fn h3w_cellToChildren(cell: u64, res: c_int, out: *mut u64, room: usize) -> u32;
    fn h3w_cellToChildPos(child: u64, res: c_int, out: &mut i64) -> u32;
    fn h3w_childPosToCell(position: i64, parent: u64, res: c_int, out: &mut u64) -> u32;
    fn h3w_h3ToString(h: u64, text: *mut c_char, room: usize) -> u32;
    fn h3w_stringToH3(text: *const c_char, n: usize, out: &mut u64) -> u32;
    fn h3w_isValidDirectedEdge(edge: u64) -> c_int;
    fn h3w_getDirectedEdgeOrigin(edge: u64, out: &mut u64) -> u32;
    fn h3w_originToDirectedEdges(origin: u64, edges: &mut [u64; 6]) -> u32;
    fn h3w_compactCells(
        cells: *const u64,
        n: usize,
        out: *mut u64,
        room: usize,
        count: &mut usize,
    ) -> u32;
    fn h3w_uncompactCells(
        cells: *const u64,
        n: usize,
        out: *mut u64,
        room: usize,
        res: c_int,
    ) -> u32;
}

/// What a function over two lists of cells is declared as.
type OverLists =
    unsafe extern "C" fn(*const u64, usize, *const u64, usize, *mut u64, usize, &mut usize) -> u32;

extern "C" {
    fn h3w_uniteCells(
        cells: *const u64,
        n: usize,
        out: *mut u64,
        room: usize,
        count: &mut usize,
    ) -> u32;
    fn h3w_intersectCells(
        first: *const u64,
        n: usize,
        second: *const u64,
        m: usize,
        out: *mut u64,
        room: usize,
        count: &mut usize,
    ) -> u32;
    fn h3w_subtractCells(
        first: *const u64,
        n: usize,
        second: *const u64,
        m: usize,
        out: *mut u64,
        room: usize,
        count: &mut usize,
    ) -> u32;
    fn h3w_zones(cells: *const u64, n: usize, zones: *mut u64, room: usize) -> u32;
    fn h3w_findOverlap(cells: *const u64, n: usize, at: &mut usize, earlier: &mut usize) -> u32;
    fn h3w_cellsToZones(
        zones: *const u64,
        zone_count: usize,
        cells: *const u64,
        n: usize,
        out: *mut u64,
        room: usize,
        at: &mut usize,
    ) -> u32;
    fn h3w_cellsToZonesByTable(
        zones: *const u64,
        zone_count: usize,
        cells: *const u64,
        n: usize,
        table: *mut u32,
        table_room: usize,
        out: *mut u64,
        room: usize,
        at: &mut usize,
    ) -> u32;
    fn h3w_countCellsInZonesByTable(
        zones: *const u64,
        zone_count: usize,
        cells: *const u64,
        n: usize,
        table: *mut u32,
        table_room: usize,
        counts: *mut i64,
        room: usize,
        others: &mut i64,
        at: &mut usize,
    ) -> u32;
    fn h3w_zonesTable(zones: *const u64, zone_count: usize, table: *mut u32, table_room: usize);
    fn h3w_cellsToZonesInTable(
        zones: *const u64,
        zone_count: usize,
        cells: *const u64,
        n: usize,
        table: *const u32,
        table_room: usize,
        out: *mut u64,
        room: usize,
        at: &mut usize,
    ) -> u32;
    fn h3w_countCellsInZonesInTable(
        zones: *const u64,
        zone_count: usize,
        cells: *const u64,
        n: usize,
        table: *const u32,
        table_room: usize,
        counts: *mut i64,
        room: usize,
        others: &mut i64,
        at: &mut usize,
    ) -> u32;
    fn h3w_countCellsInZones(
        zones: *const u64,
        zone_count: usize,
        cells: *const u64,
        n: usize,
        counts: *mut i64,
        room: usize,
        others: &mut i64,
        at: &mut usize,
    ) -> u32;
}

/// Declares safe functions of an index that return a number.
macro_rules! of_index {
    ($($name:ident = $export:ident;)*) => {
        $(pub(crate) fn $name(index: u64) -> i32 {
            // SAFETY: any number may be passed.
            unsafe { $export(index) }
        })*
    };
}

of_index! {
    is_valid_cell = h3w_isValidCell;
    resolution = h3w_getResolution;
    base_cell = h3w_getBaseCellNumber;
    is_pentagon = h3w_isPentagon;
    is_class3 = h3w_isResClassIII;
    is_valid_edge = h3w_isValidDirectedEdge;
}

/// Declares safe functions of an index and a resolution.
macro_rules! of_index_and_resolution {
    ($($name:ident = $export:ident -> $result:ty;)*) => {
        $(pub(crate) fn $name(index: u64, res: i32) -> Result<$result, Error> {
            let mut out = 0;
            // SAFETY: any numbers may be passed, and `out` is one place.
            checked(unsafe { $export(index, res, &mut out) })?;
            Ok(out)
        })*
    };
}

of_index_and_resolution! {
    parent = h3w_cellToParent -> u64;
    center_child = h3w_cellToCenterChild -> u64;
    last_child = h3w_cellToLastChild -> u64;
    children_size = h3w_cellToChildrenSize -> i64;
    child_position = h3w_cellToChildPos -> i64;
}

pub(crate) fn cell_count(res: i32) -> Result<i64, Error> {
    let mut out = 0;
    // SAFETY: any number may be passed, and `out` is one place.
    checked(unsafe { h3w_getNumCells(res, &mut out) })?;
    Ok(out)
}

pub(crate) fn base_cells() -> Result<[u64; 122], Error> {
    let mut out = [0; 122];
    // SAFETY: `out` is passed with its length.
    checked(unsafe { h3w_getRes0Cells(out.as_mut_ptr(), out.len()) })?;
    Ok(out)
}

pub(crate) fn pentagons(res: i32) -> Result<[u64; 12], Error> {
    let mut out = [0; 12];
    // SAFETY: `out` is passed with its length.
    checked(unsafe { h3w_getPentagons(res, out.as_mut_ptr(), out.len()) })?;
    Ok(out)
}

/// The children of a cell, of which there are this many.
pub(crate) fn children(cell: u64, res: i32, count: usize) -> Result<Vec<Cell>, Error> {
    written(count, |out| {
        // SAFETY: `out` points to room for `count` numbers.
        (unsafe { h3w_cellToChildren(cell, res, out, count) }, count)
    })
}

pub(crate) fn child_at(position: i64, cell: u64, res: i32) -> Result<u64, Error> {
    let mut out = 0;
    // SAFETY: any numbers may be passed, and `out` is one place.
    checked(unsafe { h3w_childPosToCell(position, cell, res, &mut out) })?;
    Ok(out)
}

/// The text of an index: the bytes before the first that is 0.
pub(crate) fn to_text(index: u64) -> Result<[u8; 17], Error> {
    let mut text = [0u8; 17];
    // SAFETY: `text` is passed with its length, and a `c_char` is a byte.
    checked(unsafe { h3w_h3ToString(index, text.as_mut_ptr().cast(), text.len()) })?;
    Ok(text)
}

pub(crate) fn from_text(text: &str) -> Result<u64, Error> {
    let mut out = 0;
    // SAFETY: `text` is passed with its length, a `c_char` is a byte, and `out` is one place.
    checked(unsafe { h3w_stringToH3(text.as_ptr().cast(), text.len(), &mut out) })?;
    Ok(out)
}

pub(crate) fn origin(edge: u64) -> Result<u64, Error> {
    let mut out = 0;
    // SAFETY: any number may be passed, and `out` is one place.
    checked(unsafe { h3w_getDirectedEdgeOrigin(edge, &mut out) })?;
    Ok(out)
}

pub(crate) fn edges(cell: u64) -> Result<[u64; 6], Error> {
    let mut out = [0; 6];
    // SAFETY: any number may be passed, and `out` has six places.
    checked(unsafe { h3w_originToDirectedEdges(cell, &mut out) })?;
    Ok(out)
}

/// The compacted list, which is no longer than the given one.
pub(crate) fn compact(cells: &[Cell]) -> Result<Vec<Cell>, Error> {
    let n = cells.len();
    written(n, |out| {
        let mut count = 0;
        // SAFETY: a `Cell` is a number. The slice is passed with its length, `out` points to room
        // for `n` numbers, and `count` is one place.
        let code = unsafe { h3w_compactCells(cells.as_ptr().cast(), n, out, n, &mut count) };
        (code, count)
    })
}

/// The cells of the uncompacted list, which are this many.
pub(crate) fn uncompact(cells: &[Cell], count: usize, res: i32) -> Result<Vec<Cell>, Error> {
    written(count, |out| {
        // SAFETY: a `Cell` is a number. The slice is passed with its length, and `out` points to
        // room for `count` numbers.
        let code =
            unsafe { h3w_uncompactCells(cells.as_ptr().cast(), cells.len(), out, count, res) };
        (code, count)
    })
}

/// The region of cells, which are no more.
pub(crate) fn unite(cells: &[Cell]) -> Result<Vec<Cell>, Error> {
    let n = cells.len();
    written(n, |out| {
        let mut count = 0;
        // SAFETY: a `Cell` is a number. The slice is passed with its length, `out` points to room
        // for `n` numbers, and `count` is one place.
        let code = unsafe { h3w_uniteCells(cells.as_ptr().cast(), n, out, n, &mut count) };
        (code, count)
    })
}

/// The places that the library writes: of the first cell that overlaps an earlier one, and of that.
pub(crate) fn find_overlap(cells: &[Cell]) -> Result<(usize, usize), Error> {
    let (mut at, mut earlier) = (0, 0);
    // SAFETY: a `Cell` is a number. The slice is passed with its length, and `at` and `earlier` are
    // one place each.
    let code =
        unsafe { h3w_findOverlap(cells.as_ptr().cast(), cells.len(), &mut at, &mut earlier) };
    checked(code).map(|()| (at, earlier))
}

pub(crate) fn intersect(first: &[Cell], second: &[Cell]) -> Result<Vec<Cell>, Error> {
    over_lists(h3w_intersectCells, first, second)
}

pub(crate) fn subtract(first: &[Cell], second: &[Cell]) -> Result<Vec<Cell>, Error> {
    over_lists(h3w_subtractCells, first, second)
}

/// What a function over two lists writes: with room for as many cells as they have, and where that
/// does not suffice, for as many as it says that there are.
fn over_lists(function: OverLists, first: &[Cell], second: &[Cell]) -> Result<Vec<Cell>, Error> {
    let mut count = 0;
    let mut write = |room: usize| {
        written(room, |out| {
            // SAFETY: a `Cell` is a number. Each slice is passed with its length, `out` points to
            // room for `room` numbers, and `count` is one place.
            let code = unsafe {
                function(
                    first.as_ptr().cast(),
                    first.len(),
                    second.as_ptr().cast(),
                    second.len(),
                    out,
                    room,
                    &mut count,
                )
            };
            (code, count)
        })
        .map_err(|error| (error, count))
    };
    match write(first.len() + second.len()) {
        Err((Error::MemoryBounds, count)) => write(count).map_err(|(error, _)| error),
        done => done.map_err(|(error, _)| error),
    }
}

/// By what cells are looked up in zones.
enum By<'a> {
    /// A search for each.
    Search,

    /// A table that the call writes into this memory.
    Own(Vec<u32>),

    /// The table that is kept.
    Kept(&'a [u32]),
}

/// Cells as `h3w_zones` has written them, which the functions over zones take. None is made but
/// here.
#[derive(Default)]
pub(crate) struct Order {
    cells: Vec<Cell>,
    /// Null, or the first of the numbers of the table of these zones, `table_room` of them, which are
    /// those of a box.
    table: AtomicPtr<u32>,
    /// How many cells have been looked up without a table.
    asked: AtomicUsize,
}

impl Clone for Order {
    /// The same zones, with no table yet.
    fn clone(&self) -> Self {
        Self::without_table(self.cells.clone())
    }
}

impl Drop for Order {
    fn drop(&mut self) {
        let table = *self.table.get_mut();
        if !table.is_null() {
            // SAFETY: these are the numbers of a box, which nothing else has any more.
            drop(unsafe { Box::from_raw(ptr::slice_from_raw_parts_mut(table, self.table_room())) });
        }
    }
}

impl Order {
    pub(crate) fn of(cells: &[Cell]) -> Result<Self, Error> {
        let n = cells.len();
        let order = written(n, |out| {
            // SAFETY: a `Cell` is a number. The slice is passed with its length, and `out` points to
            // room for `n` numbers, all of which are written where there is no error.
            (unsafe { h3w_zones(cells.as_ptr().cast(), n, out, n) }, n)
        })?;
        Ok(Self::without_table(order))
    }

    fn without_table(cells: Vec<Cell>) -> Self {
        Self {
            cells,
            table: AtomicPtr::default(),
            asked: AtomicUsize::default(),
        }
    }

    pub(crate) fn cells(&self) -> &[Cell] {
        &self.cells
    }

    /// How many numbers the table has.
    fn table_room(&self) -> usize {
        self.cells.len().saturating_mul(2)
    }

    /// By what so many cells are looked up. A table that the call writes is faster to look up in than
    /// one that is kept, so it pays for as many cells as there are zones, or more.
    fn by(&self, count: usize) -> By<'_> {
        let own = if count > 1 && count >= self.cells.len() {
            self.room_of_table()
        } else {
            None
        };
        match own {
            Some(table) => By::Own(table),
            None => self.table_for(count).map_or(By::Search, By::Kept),
        }
    }

    /// Memory for a table, where there is any.
    fn room_of_table(&self) -> Option<Vec<u32>> {
        let mut table = Vec::new();
        table.try_reserve_exact(self.table_room()).ok()?;
        table.resize(self.table_room(), 0);
        Some(table)
    }

    /// The table, by which so many cells more are looked up: it is written once so many were that it
    /// pays. None before, or where there is no memory for it.
    fn table_for(&self, count: usize) -> Option<&[u32]> {
        let table = self.table.load(Ordering::Acquire);
        if !table.is_null() {
            return Some(self.kept(table));
        }
        let before = self.asked.fetch_add(count, Ordering::Relaxed);
        let asked = before.saturating_add(count);
        if asked < 2 || asked < self.cells.len() / 4 {
            return None;
        }
        self.write_table()
    }

    /// The table that starts here.
    fn kept(&self, table: *const u32) -> &[u32] {
        // SAFETY: what `table` has once had that is not null stays as it is until this is dropped.
        unsafe { slice::from_raw_parts(table, self.table_room()) }
    }

    /// Writes the table and keeps it, unless another thread was first.
    fn write_table(&self) -> Option<&[u32]> {
        let mut table = self.room_of_table()?;
        let (zones, zone_count) = (self.cells.as_ptr().cast(), self.cells.len());
        // SAFETY: the zones are those of `h3w_zones`, all of them, and the table is passed with its
        // length.
        unsafe { h3w_zonesTable(zones, zone_count, table.as_mut_ptr(), table.len()) };
        let made = Box::into_raw(table.into_boxed_slice());
        let (empty, new) = (ptr::null_mut(), made.cast::<u32>());
        match (self.table).compare_exchange(empty, new, Ordering::AcqRel, Ordering::Acquire) {
            Ok(_) => Some(self.kept(new)),
            Err(first) => {
                // SAFETY: this is the box that was made here, which nothing else has.
                drop(unsafe { Box::from_raw(made) });
                Some(self.kept(first))
            }
        }
    }

    /// Writes the zone of each cell at its place. `MemoryBounds` where `out` is shorter.
    pub(crate) fn zones_of(&self, cells: &[Cell], out: &mut [Option<Cell>]) -> Result<(), Error> {
        let (zones, zone_count) = (self.cells.as_ptr().cast(), self.cells.len());
        let (numbers, n) = (cells.as_ptr().cast(), cells.len());
        let (places, room) = (out.as_mut_ptr().cast(), out.len());
        let mut at = 0;
        // SAFETY: the zones are those of `h3w_zones`, all of them. A `Cell` is a number, each slice
        // is passed with its length, and `at` is one place. What is written is the index of a cell,
        // or 0, which is `None`: a `Cell` is a `NonZeroU64`.
        checked(unsafe {
            match self.by(n) {
                By::Search => {
                    h3w_cellsToZones(zones, zone_count, numbers, n, places, room, &mut at)
                }
                By::Own(mut table) => {
                    let (table, size) = (table.as_mut_ptr(), table.len());
                    h3w_cellsToZonesByTable(
                        zones, zone_count, numbers, n, table, size, places, room, &mut at,
                    )
                }
                By::Kept(table) => {
                    let (table, size) = (table.as_ptr(), table.len());
                    h3w_cellsToZonesInTable(
                        zones, zone_count, numbers, n, table, size, places, room, &mut at,
                    )
                }
            }
        })
    }

    /// Writes the count of each zone at its place, and returns how many cells have none.
    /// `MemoryBounds` where `counts` is shorter than the zones are many.
    pub(crate) fn count(&self, cells: &[Cell], counts: &mut [i64]) -> Result<i64, Error> {
        let (zones, zone_count) = (self.cells.as_ptr().cast(), self.cells.len());
        let (numbers, n) = (cells.as_ptr().cast(), cells.len());
        let (places, room) = (counts.as_mut_ptr(), counts.len());
        let (mut others, mut at) = (0, 0);
        // SAFETY: as of `zones_of`; `others` is one place.
        checked(unsafe {
            match self.by(n) {
                By::Search => h3w_countCellsInZones(
                    zones,
                    zone_count,
                    numbers,
                    n,
                    places,
                    room,
                    &mut others,
                    &mut at,
                ),
                By::Own(mut table) => h3w_countCellsInZonesByTable(
                    zones,
                    zone_count,
                    numbers,
                    n,
                    table.as_mut_ptr(),
                    table.len(),
                    places,
                    room,
                    &mut others,
                    &mut at,
                ),
                By::Kept(table) => h3w_countCellsInZonesInTable(
                    zones,
                    zone_count,
                    numbers,
                    n,
                    table.as_ptr(),
                    table.len(),
                    places,
                    room,
                    &mut others,
                    &mut at,
                ),
            }
        })?;
        Ok(others)
    }
}

/// The table in the bytes of a file, or why they are refused.
pub(crate) fn read_table(file: &[u8]) -> Result<RawTable, Fault> {
    let mut fault = Fault::default();
    // SAFETY: the slice is passed with its length, a `c_char` is a byte, and `fault` is one place.
    let table = unsafe { h3w_readTable(file.as_ptr().cast(), file.len(), &mut fault) };
    if fault.code == 0 {
        Ok(table)
    } else {
        Err(fault)
    }
}

/// The cells of a disk, which are this many.
pub(crate) fn disk(
    table: &RawTable,
    origin: u64,
    k: i32,
    count: usize,
) -> Result<Vec<Cell>, Error> {
    written(count, |out| {
        // SAFETY: a `RawTable` is as the library returned it, or a copy. `out` points to room for
        // `count` numbers.
        let code = unsafe { h3w_gridDiskUnsafe(table, origin, k, out, count) };
        (code, count)
    })
}

/// The cells of the disks of cells, which are this many. An error comes with the place of its cell.
pub(crate) fn disks(
    table: &RawTable,
    origins: &[Cell],
    k: i32,
    count: usize,
) -> Result<Vec<Cell>, (Error, usize)> {
    let mut at = origins.len();
    let found = written(count, |out| {
        // SAFETY: a `RawTable` is as the library returned it, or a copy. A `Cell` is a number, and
        // the slice is passed with its length. `out` points to room for `count` numbers, and `at` is
        // one place.
        let code = unsafe {
            h3w_gridDisksUnsafe(
                table,
                origins.as_ptr().cast(),
                origins.len(),
                k,
                out,
                count,
                &mut at,
            )
        };
        (code, count)
    });
    found.map_err(|error| (error, at))
}

/// The cells of a disk, which are this many, and the ring of each.
pub(crate) fn distances(
    table: &RawTable,
    origin: u64,
    k: i32,
    count: usize,
) -> Result<(Vec<Cell>, Vec<c_int>), Error> {
    let mut rings = Vec::<c_int>::new();
    rings
        .try_reserve_exact(count)
        .map_err(|_| Error::MemoryAlloc)?;
    rings.resize(count, 0);
    let cells = written(count, |out| {
        // SAFETY: a `RawTable` is as the library returned it, or a copy. `out` points to room for
        // `count` numbers, and the slice is passed with its length.
        let code = unsafe {
            h3w_gridDiskDistancesUnsafe(
                table,
                origin,
                k,
                out,
                count,
                rings.as_mut_ptr(),
                rings.len(),
            )
        };
        (code, count)
    })?;
    Ok((cells, rings))
}

/// The cells of a ring, which are this many.
pub(crate) fn ring(
    table: &RawTable,
    origin: u64,
    k: i32,
    count: usize,
) -> Result<Vec<Cell>, Error> {
    written(count, |out| {
        // SAFETY: a `RawTable` is as the library returned it, or a copy. `out` points to room for
        // `count` numbers.
        let code = unsafe { h3w_gridRingUnsafe(table, origin, k, out, count) };
        (code, count)
    })
}

pub(crate) fn are_neighbors(table: &RawTable, a: u64, b: u64) -> Result<bool, Error> {
    let mut out = 0;
    // SAFETY: a `RawTable` is as the library returned it, or a copy; any numbers may be passed, and
    // `out` is one place.
    checked(unsafe { h3w_areNeighborCells(table, a, b, &mut out) })?;
    Ok(out == 1)
}

pub(crate) fn edge_between(table: &RawTable, a: u64, b: u64) -> Result<u64, Error> {
    let mut out = 0;
    // SAFETY: a `RawTable` is as the library returned it, or a copy; any numbers may be passed, and
    // `out` is one place.
    checked(unsafe { h3w_cellsToDirectedEdge(table, a, b, &mut out) })?;
    Ok(out)
}

pub(crate) fn edge_destination(table: &RawTable, edge: u64) -> Result<u64, Error> {
    let mut out = 0;
    // SAFETY: a `RawTable` is as the library returned it, or a copy; any number may be passed, and
    // `out` is one place.
    checked(unsafe { h3w_getDirectedEdgeDestination(table, edge, &mut out) })?;
    Ok(out)
}

/// The cells that a function writes where there is room for so many. It returns its error number,
/// and how many cells it has written.
fn written(room: usize, write: impl FnOnce(*mut u64) -> (u32, usize)) -> Result<Vec<Cell>, Error> {
    let mut cells = Vec::<Cell>::new();
    cells
        .try_reserve_exact(room)
        .map_err(|_| Error::MemoryAlloc)?;
    let (code, count) = write(cells.as_mut_ptr().cast());
    checked(code)?;
    assert!(count <= room);
    // SAFETY: the function has written the indexes of cells to the first `count` places; a `Cell` is
    // such a number, and no index is 0.
    unsafe { cells.set_len(count) };
    Ok(cells)
}

fn checked(code: u32) -> Result<(), Error> {
    Error::from_number(code).map_or(Ok(()), Err)
}
