"""Regions and zones: sets of cells by which other cells are joined and counted.

A region is what cells cover, held as the shortest list of cells that covers it. Zones are cells that do not overlap:
each cell is in one of them at most. `h3whole.Region` and `h3whole.Zones` are over texts, `h3whole.int.Region` and
`h3whole.int.Zones` over integers; this module has what they share. All of them also take and return columns, as the
functions of `h3whole.columns` do. None ever changes, and threads may share it."""

import ctypes
import sys
from array import array
from itertools import compress
from typing import (
    Any,
    Callable,
    Dict,
    Generic,
    Iterable,
    Iterator,
    List,
    Mapping,
    Optional,
    Tuple,
    Type,
    TypeVar,
    Union,
)

from . import _library, columns
from ._arguments import indexes_of
from ._library import _array, _number, _size
from ._memory import room as _room
from ._names import Totals, names_in, numbered, summed, weights_in
from ._overlap import areas_overlap_named
from .errors import H3BaseException, error_of

__all__ = ["CellRegion", "CellSet", "CellZones", "Counts", "Totals"]

_Cell = TypeVar("_Cell", str, int)
_Region = TypeVar("_Region", bound="CellRegion[Any]")

# cells of one form, or a column of integers, or another set of cells
_Cells = Union[Iterable[_Cell], "array[int]", memoryview, "CellSet[Any]"]

_of_two_lists = (_array, _size, _array, _size, _array, _size, ctypes.POINTER(_size))
_over_zones = (_array, _size, _array, _size, _array, _size, ctypes.POINTER(_size))
_with_table = (_array, _size, _array, _size, _array, _size, _array, _size, ctypes.POINTER(_size))
_unite_cells = _library.number("uniteCells", _array, _size, _array, _size, ctypes.POINTER(_size))
_intersect_cells = _library.number("intersectCells", *_of_two_lists)
_subtract_cells = _library.number("subtractCells", *_of_two_lists)
_zones = _library.number("zones", _array, _size, _array, _size)
_zones_table = _library.value("zonesTable", None, _array, _size, _array, _size)
_cells_to_zones = (
    _library.number("cellsToZones", *_over_zones),
    _library.number("cellsToZonesByTable", *_with_table),
    _library.number("cellsToZonesInTable", *_with_table),
)
_are_covered_cells = (
    _library.number("areCoveredCells", *_over_zones),
    _library.number("areCoveredCellsByTable", *_with_table),
    _library.number("areCoveredCellsInTable", *_with_table),
)
_over_places = (_array, _size, _array, _size, _array, _size)
_areas = _library.number("areas", _array, _size, _array, _size, _array, _size, _array, _size, ctypes.POINTER(_size))
_cells_to_places = (
    _library.number("cellsToZonesPlaces", *_over_places, *_over_zones[4:]),
    _library.number("cellsToZonesPlacesByTable", *_over_places, *_with_table[4:]),
    _library.number("cellsToZonesPlacesInTable", *_over_places, *_with_table[4:]),
)
_counted = (_array, _size, ctypes.POINTER(_number), ctypes.POINTER(_size))
_count_cells_in_zones = (
    _library.number("countCellsInZones", _array, _size, _array, _size, *_counted),
    _library.number("countCellsInZonesByTable", _array, _size, _array, _size, _array, _size, *_counted),
    _library.number("countCellsInZonesInTable", _array, _size, _array, _size, _array, _size, *_counted),
)
# (without a table, by one that the call writes, and in one that is kept)
_Lookup = Tuple[Callable[..., int], Callable[..., int], Callable[..., int]]

# (the library wants an address for no cells too)
_NOWHERE = array("Q", [0])


def _at(items: "array[int]") -> Tuple[int, int]:
    """The address of items, and how many they are."""
    return items.buffer_info()[0] if items else _NOWHERE.buffer_info()[0], len(items)


def _room_of_table(zones: "array[int]") -> "Optional[array[int]]":
    """Memory for the table by which cells are looked up in zones; None where there is none."""
    try:
        return array("I", bytes(4)) * (2 * len(zones))
    except MemoryError:
        return None


def _table_of(zones: "array[int]") -> "Optional[array[int]]":
    """The table by which cells are looked up in zones; None where there is no memory for it."""
    table = _room_of_table(zones)
    if table is not None:
        _zones_table(*_at(zones), *_at(table))
    return table


def _is_column(cells: Any) -> bool:
    is_own = isinstance(cells, (array, memoryview)) or columns._is_series(cells) or columns._is_numpy(cells)
    return is_own or columns._is_pandas_index(cells) or (columns._is_arrow(cells) and not isinstance(cells, CellSet))


def _as_series(column: Any) -> Any:
    """An Index of pandas as a Series; any other column as it is."""
    return column.to_series() if columns._is_pandas_index(column) else column


def _is_of_objects(column: Any) -> bool:
    """Whether a column is of texts, or of objects, which may be texts and integers."""
    return getattr(getattr(column, "dtype", None), "kind", "") in ("O", "S", "U")


def _fitted(function: Callable[..., int], given: Tuple[Any, ...], count: int) -> Tuple[int, "array[int]"]:
    """The error of a function that writes a list of cells, and the list. There is room for so many of them at first,
    and then for as many as there are."""
    found = _size()
    number = 14
    while number == 14:
        out = _room("Q", count)
        number = function(*given, *_at(out), ctypes.byref(found))
        if number == 14 and found.value <= count:
            break
        count = found.value
    return number, out[: found.value]


def _united(cells: Any) -> "array[int]":
    """The region of a column of cells."""
    with columns._Memory(cells) as given:
        number, found = _fitted(_unite_cells, (given.address, given.count), given.count)
        if number:
            raise error_of(number, columns._refused_cell(number, given))
    return found


def _prepared(cells: Any) -> "array[int]":
    """A column of cells of which no two overlap, in the order in which the library looks cells up."""
    with columns._Memory(cells) as given:
        out = _room("Q", given.count)
        number = _zones(given.address, given.count, *_at(out))
        if number:
            raise error_of(number, columns._refused_cell(number, given))
    return out


def _prepared_areas(cells: Any, names: List[Any]) -> "Tuple[array[int], array[int], List[Any]]":
    """The outermost cells of areas, in the order in which the library looks cells up, the number of each one's name,
    and the names."""
    known, given_numbers = numbered(names)
    with columns._Memory(cells) as given:
        if given.count != len(names):
            raise ValueError(f"there are {len(names)} names for {given.count} cells")
        zones, numbers, found = _room("Q", given.count), _room("I", given.count), _size()
        rest = _at(given_numbers) + _at(zones) + _at(numbers) + (ctypes.byref(found),)
        number = _areas(given.address, given.count, *rest)
        if number == 10:
            raise error_of(number, areas_overlap_named(given.copied(), names))
        if number:
            raise error_of(number, columns._refused_cell(number, given))
    return zones[: found.value], numbers[: found.value], known


class CellSet(Generic[_Cell]):
    """Cells that never change: the base class of regions and zones.

    Notes
    -----
    `len` counts the cells, and iteration returns them, ascending. Regions are equal to regions, and zones to zones, if
    they have the same cells; equal ones have the same hash. A set that is pickled is judged anew when it is read.

    A subclass sets the form of its cells: `_index_of` converts one to its index, and `_form_of` converts it back.
    """

    __slots__ = ("_asked", "_order", "_table")

    # the cells in the order in which the library looks cells up
    _order: "Optional[array[int]]"
    # the table of these, once as many cells were asked about as make it pay; it is not pickled, and never copied
    _table: "Optional[array[int]]"
    _asked: int

    def __init__(self, order: "Optional[array[int]]") -> None:
        self._order, self._table, self._asked = order, None, 0

    @staticmethod
    def _index_of(cell: _Cell) -> int:
        raise NotImplementedError

    @staticmethod
    def _form_of(index: int) -> _Cell:
        raise NotImplementedError

    def _ascending(self) -> "array[int]":
        raise NotImplementedError

    def __len__(self) -> int:
        return len(self._ascending())

    def __iter__(self) -> Iterator[_Cell]:
        return map(self._form_of, self._ascending())

    def __eq__(self, other: object) -> bool:
        if not isinstance(other, CellSet) or isinstance(self, CellZones) != isinstance(other, CellZones):
            return NotImplemented
        return self._ascending() == other._ascending()

    def __hash__(self) -> int:
        return hash(self._ascending().tobytes())

    def __repr__(self) -> str:
        cells = self._ascending()
        shown = ", ".join(repr(self._form_of(cell)) for cell in cells[:4])
        return f"{type(self).__name__}([{shown}{', ...' if len(cells) > 4 else ''}])" + (
            f" of {len(cells)} cells" if len(cells) > 4 else ""
        )

    def __reduce__(self) -> Tuple[Any, ...]:
        # (what is unpickled is judged and put in order anew)
        return type(self), (self._ascending(),)

    @classmethod
    def _column_of(cls, cells: Any) -> Any:
        """Cells of any kind as a column of integers; one that is such a column stays."""
        if isinstance(cells, CellSet):
            return cells._ascending()
        if not _is_column(cells):
            return cls._listed(cls._index_of, cells)
        if columns._is_arrow(cells):
            return columns._cells_of_arrow(cells)
        cells = _as_series(cells)
        return columns._to_int(cells, False, array("q")) if _is_of_objects(cells) else cells

    @classmethod
    def _numbers_of(cls, cells: Any, missing: bool, integers: "Optional[array[int]]" = None) -> Any:
        """The same of cells that are asked about; with `missing`, 0 in place of what is not an index. Of a column of
        objects, the places of integers are added to those in `integers`."""
        cells = _as_series(cells)
        if _is_column(cells) and _is_of_objects(cells):
            return columns._to_int(cells, missing, array("q") if integers is None else integers)
        if _is_column(cells) and columns._is_arrow(cells):
            return cells
        if not missing or _is_column(cells) or isinstance(cells, (CellSet, str, bytes)):
            return cls._column_of(cells)
        return cls._listed(cls._index_or_null, cells)

    @classmethod
    def _listed(cls, convert: Callable[[Any], int], cells: Any) -> "array[int]":
        """The indexes of cells in no column, each by itself."""
        return indexes_of(convert, cells)

    @classmethod
    def _forms_or_none(cls, zones: Any) -> List[Any]:
        """The zones of a list, each None if it is 0."""
        return [cls._form_of(zone) if zone else None for zone in zones]

    @classmethod
    def _index_or_null(cls, cell: Any) -> int:
        try:
            return cls._index_of(cell)
        except (H3BaseException, TypeError):
            return 0

    def _looked_up(self) -> "array[int]":
        """The cells in the library's order. Who takes their address keeps the array as long: another thread that asks
        for the first time at once may put its own in the place of this one."""
        order = self._order
        if order is None:
            self._order = order = _prepared(self._ascending())
        return order

    def _tabled(self, zones: "array[int]", count: int) -> "Optional[array[int]]":
        """The table of the zones; None while too few cells were looked up for it to pay, with so many more now. Who
        takes its address keeps it, as of `_looked_up`."""
        if self._table is None:
            self._asked += count
            if self._asked > 1 and self._asked >= len(zones) // 4:
                self._table = table = _table_of(zones)
                return table
        return self._table

    def _look_up(
        self, functions: _Lookup, address: int, count: int, *rest: Any, beside: "Optional[array[int]]" = None
    ) -> int:
        """The error of a function over zones, and numbers beside them, for so many cells. A table that the call writes
        is faster to look up in than one that is kept, so it pays for as many cells as there are zones, or more."""
        zones = self._looked_up()
        over = _at(zones) if beside is None else _at(zones) + _at(beside)
        plain, by_table, in_table = functions
        own = _room_of_table(zones) if count >= len(zones) > 1 else None
        if own is not None:
            return by_table(*over, address, count, *_at(own), *rest)
        table = self._tabled(zones, count)
        if table is None:
            return plain(*over, address, count, *rest)
        return in_table(*over, address, count, *_at(table), *rest)

    def _fill(
        self,
        functions: _Lookup,
        numbers: Any,
        typecode: str,
        missing: bool,
        is_truth: bool,
        beside: "Optional[array[int]]" = None,
    ) -> Any:
        """What a function over zones writes for a column."""

        def over_zones(*given: Any) -> int:
            return self._look_up(functions, *given, beside=beside)

        if columns._is_arrow(numbers):
            return columns._fill_arrow(over_zones, numbers, typecode, missing, is_truth=is_truth)
        return columns._fill_memory(over_zones, numbers, typecode, missing, is_truth=is_truth)

    def _as_arrow(self) -> columns.ArrowColumn:
        return columns.to_arrow(self._ascending())

    def __arrow_c_schema__(self) -> Any:
        """Return a capsule of Arrow's type of the cells: 64-bit integers.

        Raises
        ------
        NotImplementedError
            If the package was installed without its extension in C.
        """
        return self._as_arrow().__arrow_c_schema__()

    def __arrow_c_array__(self, requested_schema: Any = None) -> Tuple[Any, Any]:
        """Return Arrow's capsules of the cells, ascending, as integers, without a copy.

        Parameters
        ----------
        requested_schema : capsule, optional
            The type to return, if it is one of 64-bit integers, signed or not; any other is ignored.

        Returns
        -------
        schema, array : capsules
            The type of the cells, and the cells.

        Raises
        ------
        NotImplementedError
            If the package was installed without its extension in C.
        """
        return self._as_arrow().__arrow_c_array__(requested_schema)

    def __arrow_c_stream__(self, requested_schema: Any = None) -> Any:
        """Return a capsule of a stream that has the cells as its one array.

        Parameters
        ----------
        requested_schema : capsule, optional
            As of `__arrow_c_array__`.

        Raises
        ------
        NotImplementedError
            If the package was installed without its extension in C.
        """
        return self._as_arrow().__arrow_c_stream__(requested_schema)


class CellRegion(CellSet[_Cell]):
    """What cells cover, as the shortest list of cells that covers it.

    Parameters
    ----------
    cells : iterable of cells, column, region or zones, optional
        The cells, which may repeat and overlap; by default none.

    Raises
    ------
    H3FailedError
        If a text does not parse as an index.
    H3MemoryAllocError
        If there is no memory for the region.
    H3CellInvalidError
        If one is not a valid cell.

    Notes
    -----
    The operators take regions, over texts or over integers, and return one of the class of `a`:

    - `a | b` is what either covers, `a & b` what both cover, `a - b` what `a` covers and `b` does not, and `a ^ b` what
      one of them covers and the other does not.
    - `a <= b` says whether `b` covers all that `a` does, and `a < b` whether it also covers more; `>=` and `>` are the
      same the other way round.
    - `a == b` says whether both cover the same.

    `cell in a` says whether `a` covers a cell. Iteration returns the cells of the list, ascending, and `len` counts
    them.
    """

    __slots__ = ("_cells",)

    _cells: "array[int]"

    def __init__(self, cells: _Cells[_Cell] = ()) -> None:
        super().__init__(None)
        self._cells = cells._cells if isinstance(cells, CellRegion) else _united(self._column_of(cells))

    @classmethod
    def _known(cls, cells: "array[int]") -> Any:
        """A region whose list the library has made."""
        region: CellRegion[_Cell] = cls.__new__(cls)
        CellSet.__init__(region, None)
        region._cells = cells
        return region

    def _ascending(self) -> "array[int]":
        return self._cells

    def _with(self, other: Any, function: Callable[..., int]) -> Any:
        if not isinstance(other, CellRegion):
            return NotImplemented
        lists = (*_at(self._cells), *_at(other._cells))
        number, found = _fitted(function, lists, len(self._cells) + len(other._cells))
        if number:
            raise error_of(number, f"among {len(self._cells) + len(other._cells)} cells")
        return self._known(found)

    def __or__(self: _Region, other: "CellRegion[Any]") -> _Region:
        if not isinstance(other, CellRegion):
            return NotImplemented
        return self._known(_united(self._cells + other._cells))  # type: ignore[no-any-return]

    def __and__(self: _Region, other: "CellRegion[Any]") -> _Region:
        return self._with(other, _intersect_cells)  # type: ignore[no-any-return]

    def __sub__(self: _Region, other: "CellRegion[Any]") -> _Region:
        return self._with(other, _subtract_cells)  # type: ignore[no-any-return]

    def __le__(self, other: "CellRegion[Any]") -> bool:
        if not isinstance(other, CellRegion):
            return NotImplemented
        # (what a region covers of a cell of another, all of it or not, is one of its cells or more)
        return all(other.covers(self._cells))

    def __lt__(self, other: "CellRegion[Any]") -> bool:
        return NotImplemented if not isinstance(other, CellRegion) else self <= other and self != other

    def __ge__(self, other: "CellRegion[Any]") -> bool:
        return NotImplemented if not isinstance(other, CellRegion) else other <= self

    def __gt__(self, other: "CellRegion[Any]") -> bool:
        return NotImplemented if not isinstance(other, CellRegion) else other < self

    def __xor__(self: _Region, other: "CellRegion[Any]") -> _Region:
        if not isinstance(other, CellRegion):
            return NotImplemented
        return (self - other) | (other - self)

    def union(self: _Region, *others: _Cells[_Cell]) -> _Region:
        """Return the region of what this one or any of the others covers.

        Parameters
        ----------
        *others : regions, iterables of cells or columns
            The others.

        Raises
        ------
        H3FailedError
            If a text does not parse as an index.
        H3MemoryAllocError
            If there is no memory for the region.
        H3CellInvalidError
            If one is not a valid cell.
        """
        found = self
        for other in map(self._as_region, others):
            found = found | other
        return found

    def intersection(self: _Region, *others: _Cells[_Cell]) -> _Region:
        """Return the region of what this one and all the others cover.

        Parameters
        ----------
        *others : regions, iterables of cells or columns
            The others.

        Raises
        ------
        H3FailedError
            If a text does not parse as an index.
        H3MemoryAllocError
            If there is no memory for the region.
        H3CellInvalidError
            If one is not a valid cell.
        """
        found = self
        for other in map(self._as_region, others):
            found = found & other
        return found

    def difference(self: _Region, *others: _Cells[_Cell]) -> _Region:
        """Return the region of what this one covers and none of the others does.

        Parameters
        ----------
        *others : regions, iterables of cells or columns
            The others.

        Raises
        ------
        H3FailedError
            If a text does not parse as an index.
        H3MemoryAllocError
            If there is no memory for the region.
        H3CellInvalidError
            If one is not a valid cell.
        """
        found = self
        for other in map(self._as_region, others):
            found = found - other
        return found

    def symmetric_difference(self: _Region, other: _Cells[_Cell]) -> _Region:
        """Return the region of what one of the two covers and the other does not.

        Parameters
        ----------
        other : region, iterable of cells or column
            The other.

        Raises
        ------
        H3FailedError
            If a text does not parse as an index.
        H3MemoryAllocError
            If there is no memory for the region.
        H3CellInvalidError
            If one is not a valid cell.
        """
        return self ^ self._as_region(other)

    def issubset(self, other: _Cells[_Cell]) -> bool:
        """Return whether the other covers all that this region does.

        Parameters
        ----------
        other : region, iterable of cells or column
            The other.

        Raises
        ------
        H3FailedError
            If a text does not parse as an index.
        H3MemoryAllocError
            If there is no memory for the region of the other.
        H3CellInvalidError
            If one is not a valid cell.
        """
        return self <= self._as_region(other)

    def issuperset(self, other: _Cells[_Cell]) -> bool:
        """Return whether this region covers all that the other does.

        Parameters
        ----------
        other : region, iterable of cells or column
            The other.

        Raises
        ------
        H3FailedError
            If a text does not parse as an index.
        H3MemoryAllocError
            If there is no memory for the region of the other.
        H3CellInvalidError
            If one is not a valid cell.
        """
        return self >= self._as_region(other)

    def isdisjoint(self, other: _Cells[_Cell]) -> bool:
        """Return whether this region and the other have nothing in common.

        Parameters
        ----------
        other : region, iterable of cells or column
            The other.

        Raises
        ------
        H3FailedError
            If a text does not parse as an index.
        H3MemoryAllocError
            If there is no memory for the region of the other, or of what both cover.
        H3CellInvalidError
            If one is not a valid cell.
        """
        return not self & self._as_region(other)

    @classmethod
    def _as_region(cls: Type[_Region], other: Any) -> _Region:
        return other if isinstance(other, CellRegion) else cls(other)  # type: ignore[return-value]

    def column(self) -> "array[int]":
        """Return the cells, ascending, as a column of integers.

        Returns
        -------
        array of 64-bit integers
            A copy.
        """
        return self._cells[:]

    def __contains__(self, cell: _Cell) -> bool:
        """Return whether the region covers a cell.

        Parameters
        ----------
        cell : str or int
            A cell, in the form that the region has.

        Raises
        ------
        H3FailedError
            If a text does not parse as an index.
        H3CellInvalidError
            If it is not a valid cell.
        """
        return bool(self.covers(array("Q", [self._index_of(cell)]))[0])

    def covers(self, cells: _Cells[_Cell], *, missing: bool = False) -> Any:
        """Return whether the region covers each cell.

        Parameters
        ----------
        cells : column, iterable of cells, region or zones
            The cells.
        missing : bool, optional
            Take what is not a valid cell as not covered, and raise nothing for it.

        Returns
        -------
        column of the same kind, or list of bool
            A column for a column, and else a list. For a column in Arrow's memory it is an `ArrowColumn`, with a null
            for each null.

        Raises
        ------
        H3FailedError
            If a text does not parse as an index.
        H3CellInvalidError
            If one is not a valid cell.
        """
        found = self._fill(_are_covered_cells, self._numbers_of(cells, missing), "i", missing, True)
        if columns._is_pandas_index(cells):
            return columns._index_like(cells, found)
        return found if _is_column(cells) else list(map(bool, found))


class CellZones(CellSet[_Cell]):
    """Cells that do not overlap, compacted or not, by which other cells are joined and counted.

    Parameters
    ----------
    cells : iterable of cells, column, region or zones, optional
        The cells, of any resolutions; by default none.
    names : iterable, optional
        A name for each cell, of any type that a dict takes as a key. The cells with one name are an area. They may
        repeat, and overlap: those below others of the same area are left out, and each is there once.

    Raises
    ------
    H3FailedError
        If a text does not parse as an index.
    H3MemoryAllocError
        If there is no memory for the zones.
    H3CellInvalidError
        If one is not a valid cell.
    H3DuplicateInputError
        If two overlap: a cell is given twice, or with an ancestor of it; with names, if two of different names do.
    ValueError
        If there are not as many names as cells, or a name is None or NaN.

    Notes
    -----
    Each cell is in one zone at most: the one that is the cell or an ancestor of it. Iteration returns the zones,
    ascending, and `len` counts them; `in` says whether a cell is one of them. Zones are equal if they have the same
    cells, with the same names.
    """

    __slots__ = ("_names", "_numbers", "_sorted")

    _sorted: "Optional[array[int]]"
    # each name once, and the number of the name of each cell of `_order`
    _names: Optional[List[Any]]
    _numbers: "Optional[array[int]]"

    def __init__(self, cells: _Cells[_Cell] = (), names: Optional[Iterable[Any]] = None) -> None:
        self._names = self._numbers = self._sorted = None
        if names is None:
            super().__init__(_prepared(self._column_of(cells)))
            return
        order, self._numbers, self._names = _prepared_areas(self._column_of(cells), names_in(names))
        super().__init__(order)

    def _by_name(self) -> List[Tuple[int, int]]:
        """The number of the name of each cell, and the cell, ascending."""
        return sorted(zip(self._numbers or (), self._order or ()))

    def __reduce__(self) -> Tuple[Any, ...]:
        if self._names is None:
            return super().__reduce__()
        named = self._by_name()
        cells = array("Q", (cell for _, cell in named))
        return type(self), (cells, [self._names[number] for number, _ in named])

    def __eq__(self, other: object) -> bool:
        same = super().__eq__(other)
        if same is not True or not isinstance(other, CellZones):
            return same
        return (self._names, self._by_name()) == (other._names, other._by_name())

    __hash__ = CellSet.__hash__

    @property
    def names(self) -> Optional[List[Any]]:
        """The names, each once, in the order in which they were first given; None for zones without names."""
        return None if self._names is None else self._names[:]

    def _ascending(self) -> "array[int]":
        if self._sorted is None:
            self._sorted = array("Q", sorted(self._order or ()))
        return self._sorted

    def __len__(self) -> int:
        return len(self._order or ())

    def __contains__(self, cell: _Cell) -> bool:
        """Return whether a cell is one of the zones.

        Parameters
        ----------
        cell : str or int
            A cell, in the form that the zones have.

        Raises
        ------
        H3FailedError
            If a text does not parse as an index.
        H3CellInvalidError
            If it is not a valid cell.
        """
        index = self._index_of(cell)
        return self._number_of(index) == index

    def zone_of(self, cell: _Cell) -> Optional[_Cell]:
        """Return the zone of a cell, or None if it has none.

        Parameters
        ----------
        cell : str or int
            A cell, in the form that the zones have.

        Raises
        ------
        H3FailedError
            If a text does not parse as an index.
        H3CellInvalidError
            If it is not a valid cell.
        """
        return self._form_or_none(self._number_of(self._index_of(cell)))

    def _number_of(self, index: int) -> int:
        """The zone of one index, or 0."""
        return int(self._fill(_cells_to_zones, array("Q", [index]), columns._INDEXES, False, False)[0])

    def _form_or_none(self, zone: int) -> Optional[_Cell]:
        return self._form_of(zone) if zone else None

    def of(self, cells: _Cells[_Cell], *, missing: bool = False) -> Any:
        """Return the zone of each cell.

        Parameters
        ----------
        cells : column, iterable of cells, region or zones
            The cells.
        missing : bool, optional
            Take what is not a valid cell as a cell without a zone, and raise nothing for it.

        Returns
        -------
        column of the same kind, or list
            The zones:

            - for a column of integers one of integers, with 0 for a cell without a zone;
            - for a column of texts, of numpy or pandas, one of texts and None;
            - for a column of objects one with a text for a text, an integer for an integer, and None;
            - for a column in Arrow's memory an `ArrowColumn`, with a null for a cell without a zone and for each null;
            - for any other cells a list of zones and None.

        Raises
        ------
        H3FailedError
            If a text does not parse as an index.
        H3CellInvalidError
            If one is not a valid cell.
        """
        if columns._is_pandas_index(cells):
            return columns._index_like(cells, self.of(_as_series(cells), missing=missing))
        integers = array("q")
        numbers = self._numbers_of(cells, missing, integers)
        found = self._fill(_cells_to_zones, numbers, columns._INDEXES, missing, False)
        if not _is_column(cells):
            return self._forms_or_none(found)
        return columns._objects_of(cells, found, integers) if _is_of_objects(cells) else found

    def names_of(self, cells: _Cells[_Cell], *, none: Any = None, missing: bool = False) -> Any:
        """Return the name of the zone of each cell.

        Parameters
        ----------
        cells : column, iterable of cells, region or zones
            The cells.
        none : optional
            What is returned for a cell without a zone.
        missing : bool, optional
            Take what is not a valid cell as a cell without a zone, and raise nothing for it.

        Returns
        -------
        Series, Index or numpy array of objects, or list
            The names: for a Series a Series with the same index, for an Index an Index, for a numpy array one of the
            same shape, and else a list. A null in Arrow's memory has no zone.

        Raises
        ------
        H3FailedError
            If a text does not parse as an index.
        H3CellInvalidError
            If one is not a valid cell.
        ValueError
            If the zones have no names.
        """
        if self._names is None or self._numbers is None:
            raise ValueError("these zones have no names: Zones(cells, names=names) has them")
        if columns._is_pandas_index(cells):
            return columns._index_like(cells, self.names_of(_as_series(cells), none=none, missing=missing))
        numbers = self._numbers_of(cells, missing)
        places = self._fill(_cells_to_places, numbers, "q", missing, False, self._numbers)
        return _named_by(self._names, none, places, cells)

    def count(self, cells: _Cells[_Cell], *, weights: Any = None, missing: bool = False) -> Any:
        """Count the cells in each zone, and in none; or with each name; or add up their weights.

        Parameters
        ----------
        cells : column, iterable of cells, region or zones
            The cells.
        weights : iterable or column, optional
            A number for each cell: integers, also of numpy, `Decimal` or `Fraction`. They are added up exactly, so
            floats are refused.
        missing : bool, optional
            Count what is not a valid cell by itself, as `Counts.refused`, and raise nothing for it.

        Returns
        -------
        Counts or Totals
            The count of each zone, and the number of cells in none, as Counts. They do not depend on how a column is
            cut: the counts of its parts add up to these. Totals, if the zones have names, of each name; with weights,
            the sums in place of the numbers of cells.

        Raises
        ------
        H3FailedError
            If a text does not parse as an index.
        H3MemoryAllocError
            If there is no memory for the counts.
        H3CellInvalidError
            If one is not a valid cell. A null in a column in Arrow's memory is not one.
        TypeError
            If a weight is a float, or not a number.
        ValueError
            If there are not as many weights as cells.
        """
        if columns._is_arrow(cells):
            numbers = columns._cells_of_arrow(cells, missing)
        else:
            numbers = self._numbers_of(cells, missing)
        if weights is not None:
            return self._weighed(numbers, weights, missing)
        counts = self._count(numbers, missing)
        return counts if self._names is None else self._totals(counts._counts, counts.others, counts.refused)

    def _totals(self, by_zone: Iterable[int], others: int, refused: int) -> "Totals[Any]":
        """The totals of names, of the counts of zones."""
        names = self._names or []
        totals = [0] * len(names)
        for number, count in zip(self._numbers or (), by_zone):
            totals[number] += count
        return Totals(names, totals, others, refused)

    def _weighed(self, numbers: Any, weights: Any, missing: bool) -> "Totals[Any]":
        """The sums of weights: by name, or by zone if there are no names."""
        order = self._order or array("Q")
        beside = array("I", range(len(order))) if self._numbers is None else self._numbers
        size = len(order) if self._names is None else len(self._names)
        with columns._Memory(numbers) as given:
            cells = memoryview(given.copied())
        exact = weights_in(weights, len(cells))
        places = self._fill(_cells_to_places, cells, "q", missing, False, beside)
        sums = summed(exact, _groups_of(places, columns.are_valid_cells(cells), size), size + 2)
        others, refused = sums[size:]
        if self._names is not None:
            return Totals(self._names, sums, others, refused)
        by_cell = dict(zip(order, sums))
        ascending = self._ascending()
        values = [by_cell[cell] for cell in ascending]
        return Totals(list(map(self._form_of, ascending)), values, others, refused)

    def _count(self, numbers: Any, missing: bool) -> "Counts[_Cell]":
        counts, others, place = _room("q", len(self)), _number(), _size()
        with columns._Memory(numbers) as given:
            rest = _at(counts) + (ctypes.byref(others), ctypes.byref(place))
            number = self._look_up(_count_cells_in_zones, given.address, given.count, *rest)
            if number and not missing:
                raise error_of(number, given.named(place.value))
            kept = _cells_among(given) if number else None
        if kept is None:
            return Counts(self, counts, others.value, 0)
        found = self._count(kept, False)
        return Counts(self, found._counts, found.others, given.count - len(kept))


def _named_by(names: List[Any], none: Any, places: Any, column: Any) -> Any:
    """The names at places, in the kind of a column of numpy or pandas, else as a list; `none` at -1 and at None."""
    if not columns._has_numpy(column):
        return [none if place is None or place < 0 else names[place] for place in places]
    numpy = sys.modules["numpy"]
    known = numpy.empty(len(names) + 1, dtype=object)
    # (one by one: a name may be a tuple. At -1 is the last one)
    for place, name in enumerate(names + [none]):
        known[place] = name
    found = known[numpy.asarray(places).ravel()]
    if not columns._is_series(column):
        return found.reshape(column.shape)
    return type(column)(found, index=column.index, name=column.name, dtype=object)


def _groups_of(places: Any, are_valid: Any, size: int) -> Any:
    """The groups of cells by which weights are added up: the number of each one's zone, `size` without one, and one
    more for what is not a valid cell."""
    numpy = sys.modules.get("numpy")
    if numpy is None or len(places) == 0:
        return [place if place >= 0 else size + (not is_valid) for place, is_valid in zip(places, are_valid)]
    found, valid = numpy.frombuffer(places, dtype="int64"), numpy.frombuffer(are_valid, dtype="int8")
    return numpy.where(found >= 0, found, numpy.where(valid > 0, size, size + 1))


def _cells_among(given: Any) -> Any:
    """The indexes of a column that are cells'."""
    numbers = memoryview(given.copied())
    are_cells = columns.are_valid_cells(numbers)
    numpy = sys.modules.get("numpy")
    if numpy is not None:
        return numpy.frombuffer(numbers, dtype="uint64")[numpy.frombuffer(are_cells, dtype="int8") > 0]
    return array("Q", compress(numbers, are_cells))


class Counts(Mapping[_Cell, int]):
    """The number of cells in each zone: a mapping by the zones, ascending, as `CellZones.count` returns it.

    Attributes
    ----------
    others : int
        The number of cells in no zone.
    refused : int
        The number of those that are not valid cells; 0 without `missing=True`.

    Notes
    -----
    The counts, `others` and `refused` add up to the number of what was counted. `counts[zone]` raises a KeyError if the
    cell is not one of the zones, and a TypeError if it does not have their form.

    `a + b` adds counts up: those of the parts of a column make those of the whole. A ValueError says that the zones are
    not the same.

    Two counts are equal if they have the same zones with the same counts, and the same `others` and `refused`. A dict,
    or another mapping, has nothing beside its items, so it is equal to counts if both have the same items and `others`
    and `refused` are 0; `dict(counts)` has the items alone. Counts have no hash.
    """

    __slots__ = ("_zones", "_counts", "_by_zone", "others", "refused")

    others: int
    refused: int

    def __init__(self, zones: CellZones[_Cell], counts: "array[int]", others: int, refused: int) -> None:
        self._zones: CellZones[_Cell] = zones
        self._counts, self.others, self.refused = counts, others, refused
        self._by_zone: Optional[Dict[int, int]] = None

    def _counted(self) -> Dict[int, int]:
        if self._by_zone is None:
            self._by_zone = dict(zip(self._zones._order or (), self._counts))
        return self._by_zone

    def __getitem__(self, zone: _Cell) -> int:
        try:
            return self._counted()[self._zones._index_of(zone)]
        except (KeyError, H3BaseException):
            raise KeyError(zone) from None

    def __iter__(self) -> Iterator[_Cell]:
        return iter(self._zones)

    def __len__(self) -> int:
        return len(self._counts)

    def __eq__(self, other: object) -> bool:
        if not isinstance(other, Mapping):
            return NotImplemented
        beside = (other.others, other.refused) if isinstance(other, Counts) else (0, 0)
        return (self.others, self.refused) == beside and super().__eq__(other)

    def __add__(self, other: "Counts[_Cell]") -> "Counts[_Cell]":
        if not isinstance(other, Counts):
            return NotImplemented
        if self._zones != other._zones:
            raise ValueError("counts of other zones do not add up")
        added = array("q", map(int.__add__, self._counts, other._counts))
        return Counts(self._zones, added, self.others + other.others, self.refused + other.refused)

    def __repr__(self) -> str:
        return f"Counts of {len(self)} zones: {sum(self._counts)} cells, {self.others} others, {self.refused} refused"

    def column(self) -> Tuple[List[_Cell], List[int]]:
        """Return the zones and their counts as two lists, of which a DataFrame can be made.

        Returns
        -------
        zones : list of cells
            The zones, ascending.
        counts : list of int
            The count of each.
        """
        counted = self._counted()
        cells = self._zones._ascending()
        return [self._zones._form_of(cell) for cell in cells], [counted[cell] for cell in cells]
