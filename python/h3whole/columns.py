"""H3's functions over columns of indexes: one call for a column.

A column is anything whose memory holds 64-bit integers one after another: an array of the module `array`, a
memoryview, a numpy array, a column of pandas. None is copied, except pandas' categories and its nullable types, which
may be. The result is a column of the same kind: an array for an array, a memoryview for a memoryview, a numpy array of
the same shape for a numpy array, and a Series with the same index for one of pandas. Indexes have the type of the given
ones, signed or not; of a column of categories, that of the categories. Other results are integers of 32 or 64 bits. The
tests return True or False, which in an array and a memoryview are 1 or 0 in a byte.

A list of texts or of integers returns a list, a column of texts, of numpy or pandas, one of texts and None, and an
Index of pandas an Index. These are copied. A text that does not parse as an index is an error before any other.

A column with `__arrow_c_array__` or `__arrow_c_stream__` returns an `ArrowColumn`, with a null for each null;
`to_arrow` makes one of a column of another kind.

The exception for an index that is refused has the error, the index and its place, those of the first one. With
`missing=True` there is none, and what is refused has 0 in place of an index, -1 in place of a number, and False in
place of a truth value. A value that pandas marks as missing (NA) is refused as the index 0 is. A number that is not a
resolution is always an error, before any index. A numpy array with a mask is a TypeError."""

import ctypes
import sys
from array import array
from typing import Any, Callable, Iterable, List, Optional, SupportsIndex, Tuple, TypeVar

from . import _arrow, _fast, _library
from ._arguments import as_cell, as_int, as_res, indexes_of
from ._arrow import ArrowColumn
from ._library import _array, _index, _resolution, _size
from ._memory import View, numpy_room
from ._memory import room as _room
from ._memory import room_at
from ._names import Totals, ones, summed, weights_in
from ._overlap import overlap_named
from .errors import H3BaseException, H3CellInvalidError, error_of
from .table import Table

__all__ = [
    "ArrowColumn",
    "are_pentagons",
    "are_res_class_III",
    "are_valid_cells",
    "are_valid_directed_edges",
    "cells_to_center_children",
    "cells_to_child_positions",
    "cells_to_children",
    "cells_to_children_sizes",
    "cells_to_last_children",
    "cells_to_parents",
    "compact_cells",
    "count_parents",
    "get_base_cell_numbers",
    "get_directed_edge_origins",
    "get_resolutions",
    "grid_disks_unsafe",
    "int_to_str",
    "str_to_int",
    "to_arrow",
    "uncompact_cells",
]

_Column = TypeVar("_Column")


def _is_of(column: Any, module: str, name: str) -> bool:
    """Whether a column is of a class of a module, which is not imported for this."""
    kind = getattr(sys.modules.get(module), name, None)
    return kind is not None and isinstance(column, kind)


def _is_series(column: Any) -> bool:
    return _is_of(column, "pandas", "Series")


def _is_numpy(column: Any) -> bool:
    return _is_of(column, "numpy", "ndarray")


def _memory_of(column: Any) -> Any:
    """What has the memory of a column's integers."""
    if _is_arrow(column):
        return _cells_of_arrow(column)
    if _is_series(column):
        # (the nullable types of pandas have their integers beside a mask)
        own = getattr(column.dtype, "numpy_dtype", None)
        return column.to_numpy() if own is None else column.to_numpy(dtype=own, na_value=0)
    if _is_numpy(column) and _is_of(column, "numpy.ma", "MaskedArray"):
        raise TypeError("an array with a mask is no column: pass column.filled(0), with missing=True")
    return column


# of what is no integer: a float, whose lowest bits are gone, a truth value, a date
# (not as Int64: with a gap, pandas 1.5 makes that of floats)
_ROUNDED = ": read the column as text; a float has lost digits already"


def _hint(column: Any) -> str:
    """What helps where a column is refused. Nothing that makes other cells of those that were read."""
    dtype = getattr(column, "dtype", None)
    dtype = getattr(getattr(dtype, "categories", None), "dtype", dtype)
    kind = getattr(dtype, "kind", "")
    if kind in ("f", "c", "b", "M", "m") or _typecode_of(column) in ("e", "f", "d", "?"):
        return _ROUNDED
    if str(dtype) in ("int64", "uint64"):
        return ": numpy.ascontiguousarray(column) puts them one after another"
    if kind == "O":
        return ": h3whole.columns.str_to_int(column, missing=True) makes one of texts and integers, with 0 for None"
    if kind in ("S", "U") or isinstance(column, (list, tuple)):
        return ": h3whole.columns.str_to_int makes one of texts, and array('Q', column) of integers"
    if kind in ("i", "u"):
        return ": column.astype('uint64') makes one"
    if isinstance(column, memoryview):
        return ": memoryview(bytes(column)).cast('Q') is one, where the items are such integers"
    return ""


def _typecode_of(column: Any) -> str:
    """The type of the items of an array or a memoryview."""
    if isinstance(column, array):
        return column.typecode
    return column.format.lstrip("@=<>!") if isinstance(column, memoryview) else ""


def _refuse(column: Any) -> TypeError:
    dtype = getattr(column, "dtype", None)
    found = type(column).__name__ if dtype is None else f"{type(column).__name__} of {dtype}"
    return TypeError(f"a column is of 64-bit integers, one after another in memory, and not a {found}{_hint(column)}")


class _Memory:
    """The memory of a column while it is used: its address and how many 64-bit integers it has."""

    address: int

    def __init__(self, column: Any) -> None:
        memory = _memory_of(column)
        try:
            seen = memoryview(memory)
        except (TypeError, ValueError, BufferError):
            raise _refuse(column) from None
        self.typecode = seen.format.lstrip("@=<")
        if seen.itemsize != 8 or self.typecode not in ("q", "Q", "l", "L") or not seen.c_contiguous:
            raise _refuse(memory)
        self.count = seen.nbytes // 8
        self.shape: Tuple[int, ...] = tuple(seen.shape or ())
        self.dtype = getattr(memory, "dtype", None)
        self.seen = seen
        self._view = View()

    def __enter__(self) -> "_Memory":
        self._view.take(self.seen)
        # (the library wants an address for no indexes too)
        self.address = self._view.buf or ctypes.addressof(self._view)
        return self

    def __exit__(self, *_: Any) -> None:
        self._view.give_back()

    def copied(self) -> "array[int]":
        """The integers as they are now: another thread may write to the column."""
        numbers = _room("Q", self.count)
        ctypes.memmove(numbers.buffer_info()[0], self.address, 8 * self.count)
        return numbers

    def named(self, place: int) -> str:
        """The index at a place, and the place, as an exception names them; with a place after the last one, how many
        indexes there are."""
        if place >= self.count:
            return f"among {self.count} cells"
        return f"{_index.from_address(self.address + 8 * place).value:x} at place {place}"


_INDEXES = ""

# of a function that takes no resolution
_NONE: Any = object()


def _room_for(column: Any, given: _Memory, typecode: str, count: int) -> Tuple[Any, int]:
    """Room for so many results of a column, and its address. Indexes have the type of those that were given."""
    if _is_series(column) or _is_numpy(column):
        items = numpy_room(count, typecode or given.dtype)
        return items, items.ctypes.data
    numbers = _room(typecode or given.typecode, count)
    return numbers, numbers.buffer_info()[0]


def _dtype_for(column: Any) -> Any:
    """The type of a column of pandas in which indexes have the place of its own; None where that is theirs: of
    categories, since theirs need be none of the column's."""
    return None if _is_of(column.dtype, "pandas", "CategoricalDtype") else column.dtype


# of each byte whether it is 1
_IS_ONE = bytes(byte == 1 for byte in range(256))


def _truths_of(items: "array[int]") -> "array[int]":
    """Whether each item is 1, as a byte: the lowest bytes of 1, 0 and -1 differ."""
    lowest = items.tobytes()[0 if sys.byteorder == "little" else items.itemsize - 1 :: items.itemsize]
    return array("b", lowest.translate(_IS_ONE))


def _as_kind_of(column: Any, given: _Memory, items: Any, typecode: str, is_truth: bool) -> Any:
    """Results as a column of the same kind and shape as another."""
    if _is_series(column):
        dtype = _dtype_for(column) if typecode == _INDEXES else None
        return type(column)(items > 0 if is_truth else items, index=column.index, name=column.name, dtype=dtype)
    if _is_numpy(column):
        return (items > 0 if is_truth else items).reshape(given.shape)
    if is_truth:
        items = _truths_of(items)
    if not isinstance(column, memoryview):
        return items
    if len(given.shape) == 1:
        return memoryview(items)
    return memoryview(items).cast("B").cast(items.typecode, list(given.shape))


def _fill_memory(
    function: Callable[..., int],
    column: Any,
    typecode: str,
    missing: bool,
    *,
    res: SupportsIndex = _NONE,
    is_truth: bool = False,
    first: int = 0,
) -> Any:
    """What a function for columns writes for one of integers. Those before the place `first` are as the one there."""
    resolution = () if res is _NONE else (as_res(res),)
    with _Memory(column) as given:
        place = _size(0)
        room, address = _room_for(column, given, typecode, given.count)
        # (the library wants an address for no results too)
        address = address or ctypes.addressof(place)
        number = function(given.address, given.count, *resolution, address, given.count, ctypes.byref(place))
        if resolution and number == 4 and not 0 <= resolution[0] <= 15:
            raise error_of(number, f"resolution {res}")
        if number and not missing:
            raise error_of(
                number, given.named(max(place.value, first)) + (f", at resolution {res}" if number in (4, 12) else "")
            )
    return _as_kind_of(column, given, room, typecode, is_truth)


def _fill(function: Callable[..., int], column: Any, typecode: str, missing: bool, **how: Any) -> Any:
    """What a function for columns writes."""
    if _is_arrow(column):
        return _fill_arrow(function, column, typecode, missing, **how)
    if not _is_listed(column):
        return _fill_memory(function, column, typecode, missing, **how)
    # (a number that is no resolution is an error before any text)
    _fill_memory(function, array("Q"), typecode, missing, **how)
    numbers, integers = _numbers_of(column, missing)
    found = _fill_memory(function, numbers, typecode, missing, **how)
    return _as_list_of(column, found, integers, typecode == _INDEXES, missing)


# ---- columns of other programs, in Arrow's memory

_FORMATS = {"i": "i", "q": "l"}


def _is_arrow(column: Any) -> bool:
    # (numpy's and pandas's own memory has a way of its own)
    return not (_is_series(column) or _is_numpy(column) or _is_pandas_index(column)) and _arrow.is_arrow(column)


def _arrow_numbers(column: Any, missing: bool) -> "Tuple[ArrowColumn, ArrowColumn]":
    """A column, and its indexes: of texts, those that they parse as. Nulls stay."""
    given = _arrow.read(column)
    if not given.is_of_texts:
        return given, given
    return given, given.answered("L", memoryview(_parse(given.filled("0"), missing)), lambda _: None)


def _not_zero(items: Any) -> Optional[int]:
    """Which items are not 0, as bits; None where all are not."""
    numpy = sys.modules.get("numpy")
    if bytes(8) not in bytes(items):
        return None
    if numpy is not None:
        return int.from_bytes(numpy.packbits(numpy.frombuffer(items, "uint64") != 0, bitorder="little"), "little")
    return int.from_bytes(_arrow.packed(bytes(map(bool, items))), "little")


def _fill_arrow(function: Callable[..., int], column: Any, typecode: str, missing: bool, **how: Any) -> ArrowColumn:
    """What a function for columns writes, with a null for each null, and where an index has no result."""
    # (a number that is no resolution is an error before any item)
    _fill_memory(function, memoryview(array("Q")), typecode, missing, **how)
    given, numbers = _arrow_numbers(column, missing)
    is_missing, first = missing or numbers.null_count == len(numbers), numbers.first()
    found = _fill_memory(function, memoryview(numbers.with_first()), typecode, is_missing, first=first, **how)
    if typecode != _INDEXES:
        return numbers.answered("b" if how.get("is_truth") else _FORMATS[typecode], found, lambda _: None)
    answer = numbers.answered(given.format if given.format == "l" else "L", found, _not_zero)
    return _arrow_texts(answer) if given.is_of_texts else answer


def _arrow_texts(numbers: ArrowColumn) -> ArrowColumn:
    with _Memory(numbers.filled(0)) as given:
        texts = _write(given)
    return numbers.answered("U", texts, lambda _: None)


def _cells_of_arrow(column: Any, missing: bool = False) -> Any:
    """The indexes of a column as a set's cells: a null is 0, which is not a valid cell."""
    return memoryview(_arrow_numbers(column, missing)[1].filled(0))


def _set_of_arrow(column: Any, function: Callable[[Any], Any]) -> ArrowColumn:
    """The cells that a function of a column finds, in the form of those that are given."""
    given = _arrow.read(column)
    found = ArrowColumn("l" if given.format == "l" else "L", function(_cells_of_arrow(given)), None)
    return _arrow_texts(found) if given.is_of_texts else found


def to_arrow(column: Any) -> ArrowColumn:
    """Return a column as one that programs take by Arrow's C data interface.

    Parameters
    ----------
    column : array, memoryview, numpy array, Series, Index, list or column in Arrow's memory
        Integers or texts.

    Returns
    -------
    ArrowColumn
        The same items. A list or an Index becomes a column of texts, also one of integers.

    Raises
    ------
    H3FailedError
        If a text does not parse as an index.
    H3CellInvalidError
        If an integer of a list is not 0 to 2^64 - 1.

    Notes
    -----
    An array, a memoryview or a numpy array of integers is not copied, and its items must not change any more. Lists and
    columns of texts are copied, and written as `int_to_str` writes texts. What has `__arrow_c_array__` or
    `__arrow_c_stream__` is read as it is.
    """
    if _is_arrow(column):
        return _arrow.read(column)
    if _is_listed(column):
        return _arrow_texts(to_arrow(_numbers_of(column, False)[0]))
    with _Memory(column) as given:
        signed = given.typecode in ("q", "l")
        return ArrowColumn("l" if signed else "L", given.seen.cast("B").cast("Q"), None)


# ---- lists, and columns of texts


def _is_pandas_index(column: Any) -> bool:
    return _is_of(column, "pandas", "Index")


def _is_listed(column: Any) -> bool:
    """Whether a column is a list, one of texts, or an Index of pandas."""
    if isinstance(column, (list, tuple)) or _is_pandas_index(column):
        return True
    dtype = getattr(column, "dtype", None)
    dtype = getattr(getattr(dtype, "categories", None), "dtype", dtype)
    return (_is_numpy(column) or _is_series(column)) and getattr(dtype, "kind", "") in ("O", "S", "U")


def _numbers_of(column: Any, missing: bool) -> Tuple[Any, "array[int]"]:
    """The indexes of a column of texts or of a list, and the places of integers in it, which a list or a column of
    objects has."""
    integers = array("q")
    if not _is_pandas_index(column):
        return _to_int(column, missing, integers), integers
    series = column.to_series()
    return (_to_int(series, missing, integers) if _is_listed(series) else series), integers


def _index_like(column: Any, items: Any) -> Any:
    """Items as an Index of pandas that has the name of another."""
    values = items.to_numpy() if _is_series(items) else items
    # (of objects pandas would guess a type: floats, for integers beside None)
    return sys.modules["pandas"].Index(values, dtype=values.dtype, name=column.name)


def _as_list_of(column: Any, found: Any, integers: "array[int]", are_indexes: bool, missing: bool) -> Any:
    """Results as a list, a column of texts or an Index, as another is one. Indexes have the form of what was given."""
    if _is_pandas_index(column):
        given = column.to_series()
        of_texts = are_indexes and _is_listed(given)
        return _index_like(column, _objects_of(given, found, integers) if of_texts else found)
    if not isinstance(column, (list, tuple)):
        return _objects_of(column, found, integers) if are_indexes else found
    if not are_indexes:
        return list(map(bool, found)) if found.typecode == "b" else found.tolist()
    texts: List[Any] = int_to_str(found)
    if missing:
        texts = [text if number else None for text, number in zip(texts, found)]
    for place in integers:
        texts[place] = found[place]
    return texts


def _objects_of(column: Any, indexes: Any, integers: "array[int]") -> Any:
    """Indexes as a column of objects of the same kind: integers at the places of integers, else texts, and None in
    place of 0."""
    numpy = sys.modules["numpy"]
    numbers = numpy.ascontiguousarray(indexes.to_numpy() if _is_series(indexes) else indexes.ravel())
    found = numpy.empty(len(numbers), dtype=object)
    with _Memory(numbers) as given:
        found[:] = _write(given)
    if integers:
        places = numpy.array(integers, dtype="int64")
        found[places] = numbers[places].astype(object)
    found[numbers == 0] = None
    if _is_series(column):
        return type(column)(found, index=column.index, name=column.name, dtype=object)
    return found.reshape(indexes.shape)


def _function(name: str, *more: Any) -> Callable[..., int]:
    return _library.number(name, _array, _size, *more, _array, _size, ctypes.POINTER(_size))


_are_valid_cells = _function("areValidCells")
_are_valid_directed_edges = _function("areValidDirectedEdges")
_get_resolutions = _function("getResolutions")
_get_base_cell_numbers = _function("getBaseCellNumbers")
_are_pentagons = _function("arePentagons")
_are_res_class_iii = _function("areResClassIII")
_cells_to_parents = _function("cellsToParents", _resolution)
_cells_to_center_children = _function("cellsToCenterChildren", _resolution)
_cells_to_last_children = _function("cellsToLastChildren", _resolution)
_cells_to_children_sizes = _function("cellsToChildrenSizes", _resolution)
_cells_to_child_positions = _function("cellsToChildPositions", _resolution)
_cells_to_children_starts = _function("cellsToChildrenStarts", _resolution)
_cells_to_children = _function("cellsToChildren", _resolution)
_get_directed_edge_origins = _function("getDirectedEdgeOrigins")
_compact_cells = _function("compactCells")
_uncompact_cells = _library.number("uncompactCells", _array, _size, _array, _size, _resolution)
_grid_disks_unsafe = _library.number(
    "gridDisksUnsafe",
    ctypes.POINTER(_library.Table),
    _array,
    _size,
    _resolution,
    _array,
    _size,
    ctypes.POINTER(_size),
)
_string_to_h3 = _library.number("stringToH3", ctypes.c_char_p, _size, ctypes.POINTER(_index))
_h3_to_string = _library.number("h3ToString", _index, ctypes.c_char_p, _size)


def are_valid_cells(column: _Column, *, missing: bool = False) -> _Column:
    """Return whether each index is a valid cell.

    Parameters
    ----------
    column : array, memoryview, numpy array, Series, Index or list
        The cells.
    missing : bool, optional
        Write 0, -1 or False for what is refused, and raise nothing for it.

    Raises
    ------
    H3FailedError
        If a text does not parse as an index.
    """
    return _fill(_are_valid_cells, column, "i", missing, is_truth=True)  # type: ignore[no-any-return]


def are_valid_directed_edges(column: _Column, *, missing: bool = False) -> _Column:
    """Return whether each index is a valid directed edge.

    Parameters
    ----------
    column : array, memoryview, numpy array, Series, Index or list
        The edges.
    missing : bool, optional
        Write 0, -1 or False for what is refused, and raise nothing for it.

    Raises
    ------
    H3FailedError
        If a text does not parse as an index.
    """
    return _fill(_are_valid_directed_edges, column, "i", missing, is_truth=True)  # type: ignore[no-any-return]


def get_resolutions(column: _Column, *, missing: bool = False) -> _Column:
    """Return the resolution of each cell.

    Parameters
    ----------
    column : array, memoryview, numpy array, Series, Index or list
        The cells.
    missing : bool, optional
        Write 0, -1 or False for what is refused, and raise nothing for it.

    Raises
    ------
    H3FailedError
        If a text does not parse as an index.
    H3CellInvalidError
        If one is not a valid cell.
    """
    return _fill(_get_resolutions, column, "i", missing)  # type: ignore[no-any-return]


def get_base_cell_numbers(column: _Column, *, missing: bool = False) -> _Column:
    """Return the base cell of each cell.

    Parameters
    ----------
    column : array, memoryview, numpy array, Series, Index or list
        The cells.
    missing : bool, optional
        Write 0, -1 or False for what is refused, and raise nothing for it.

    Raises
    ------
    H3FailedError
        If a text does not parse as an index.
    H3CellInvalidError
        If one is not a valid cell.
    """
    return _fill(_get_base_cell_numbers, column, "i", missing)  # type: ignore[no-any-return]


def are_pentagons(column: _Column, *, missing: bool = False) -> _Column:
    """Return whether each cell is a pentagon.

    Parameters
    ----------
    column : array, memoryview, numpy array, Series, Index or list
        The cells.
    missing : bool, optional
        Write 0, -1 or False for what is refused, and raise nothing for it.

    Raises
    ------
    H3FailedError
        If a text does not parse as an index.
    H3CellInvalidError
        If one is not a valid cell.
    """
    return _fill(_are_pentagons, column, "i", missing, is_truth=True)  # type: ignore[no-any-return]


def are_res_class_III(column: _Column, *, missing: bool = False) -> _Column:
    """Return whether the resolution of each cell is Class III, which is odd.

    Parameters
    ----------
    column : array, memoryview, numpy array, Series, Index or list
        The cells.
    missing : bool, optional
        Write 0, -1 or False for what is refused, and raise nothing for it.

    Raises
    ------
    H3FailedError
        If a text does not parse as an index.
    H3CellInvalidError
        If one is not a valid cell.
    """
    return _fill(_are_res_class_iii, column, "i", missing, is_truth=True)  # type: ignore[no-any-return]


def cells_to_parents(column: _Column, res: SupportsIndex, *, missing: bool = False) -> _Column:
    """Return the ancestor of each cell at a resolution.

    Parameters
    ----------
    column : array, memoryview, numpy array, Series, Index or list
        The cells.
    res : int
        A resolution, which is judged first.
    missing : bool, optional
        Write 0, -1 or False for what is refused, and raise nothing for it.

    Raises
    ------
    H3ResDomainError
        If the resolution is not 0 to 15.
    H3FailedError
        If a text does not parse as an index.
    H3CellInvalidError
        If one is not a valid cell.
    H3ResMismatchError
        If the resolution is finer than a cell's.
    """
    return _fill(_cells_to_parents, column, _INDEXES, missing, res=res)  # type: ignore[no-any-return]


def cells_to_center_children(column: _Column, res: SupportsIndex, *, missing: bool = False) -> _Column:
    """Return the descendant in the center of each cell at a resolution.

    Parameters
    ----------
    column : array, memoryview, numpy array, Series, Index or list
        The cells.
    res : int
        A resolution, which is judged first.
    missing : bool, optional
        Write 0, -1 or False for what is refused, and raise nothing for it.

    Raises
    ------
    H3ResDomainError
        If the resolution is not 0 to 15, or coarser than a cell's.
    H3FailedError
        If a text does not parse as an index.
    H3CellInvalidError
        If one is not a valid cell.
    """
    return _fill(_cells_to_center_children, column, _INDEXES, missing, res=res)  # type: ignore[no-any-return]


def cells_to_last_children(column: _Column, res: SupportsIndex, *, missing: bool = False) -> _Column:
    """Return the last descendant of each cell at a resolution: the one with the greatest number.

    Parameters
    ----------
    column : array, memoryview, numpy array, Series, Index or list
        The cells.
    res : int
        A resolution, which is judged first.
    missing : bool, optional
        Write 0 for what is refused, and raise nothing for it.

    Raises
    ------
    H3ResDomainError
        If the resolution is not 0 to 15, or coarser than a cell's.
    H3FailedError
        If a text does not parse as an index.
    H3CellInvalidError
        If one is not a valid cell.
    """
    return _fill(_cells_to_last_children, column, _INDEXES, missing, res=res)  # type: ignore[no-any-return]


def cells_to_children_sizes(column: _Column, res: SupportsIndex, *, missing: bool = False) -> _Column:
    """Return the number of descendants of each cell at a resolution.

    Parameters
    ----------
    column : array, memoryview, numpy array, Series, Index or list
        The cells.
    res : int
        A resolution, which is judged first.
    missing : bool, optional
        Write 0, -1 or False for what is refused, and raise nothing for it.

    Raises
    ------
    H3ResDomainError
        If the resolution is not 0 to 15, or coarser than a cell's.
    H3FailedError
        If a text does not parse as an index.
    H3CellInvalidError
        If one is not a valid cell.
    """
    return _fill(_cells_to_children_sizes, column, "q", missing, res=res)  # type: ignore[no-any-return]


def cells_to_child_positions(column: _Column, res: SupportsIndex, *, missing: bool = False) -> _Column:
    """Return the position of each cell among the descendants of its ancestor at a resolution.

    Parameters
    ----------
    column : array, memoryview, numpy array, Series, Index or list
        The cells.
    res : int
        A resolution, which is judged first.
    missing : bool, optional
        Write 0, -1 or False for what is refused, and raise nothing for it.

    Raises
    ------
    H3ResDomainError
        If the resolution is not 0 to 15.
    H3FailedError
        If a text does not parse as an index.
    H3CellInvalidError
        If one is not a valid cell.
    H3ResMismatchError
        If the resolution is finer than a cell's.
    """
    return _fill(_cells_to_child_positions, column, "q", missing, res=res)  # type: ignore[no-any-return]


def get_directed_edge_origins(column: _Column, *, missing: bool = False) -> _Column:
    """Return the cell that each edge leaves.

    Parameters
    ----------
    column : array, memoryview, numpy array, Series, Index or list
        The edges.
    missing : bool, optional
        Write 0, -1 or False for what is refused, and raise nothing for it.

    Raises
    ------
    H3FailedError
        If a text does not parse as an index.
    H3DirEdgeInvalidError
        If one is not a valid directed edge.
    """
    return _fill(_get_directed_edge_origins, column, _INDEXES, missing)  # type: ignore[no-any-return]


# ---- sets of cells: a result has as many items as it has


def _alone(column: Any, items: Any) -> Any:
    """Cells as a column of the same kind, in one dimension."""
    if _is_series(column):
        return type(column)(items, name=column.name, dtype=_dtype_for(column))
    return memoryview(items) if isinstance(column, memoryview) else items


def _first_of_no_cell(given: _Memory) -> str:
    """The first index that is not a valid cell, with its place. There is none if the column has changed since."""
    (found, address), place = room_at("i", given.count), _size()
    _are_valid_cells(given.address, given.count, address, given.count, ctypes.byref(place))
    return given.named(found.index(0) if 0 in found else given.count)


def _refused_cell(number: int, given: _Memory) -> str:
    """What an error of a list of cells is about."""
    if number == 5:
        return _first_of_no_cell(given)
    if number != 10:
        return f"among {given.count} cells"
    return overlap_named(given.copied())


def _set_of_list(column: Any, function: Callable[[Any], Any]) -> Any:
    """The cells that a function of a column finds for a list, a column of texts or an Index, in their form: texts, or
    integers, where all that is given are integers."""
    numbers, integers = _numbers_of(column, False)
    if integers and len(integers) < len(numbers):
        raise TypeError("a list is of texts or of integers, and not of both")
    found = function(numbers)
    if _is_pandas_index(column):
        return _index_like(column, found if integers or not _is_listed(column.to_series()) else int_to_str(found))
    if isinstance(column, (list, tuple)):
        return found.tolist() if integers else int_to_str(found)
    items = found if integers else int_to_str(found)
    return items.astype(object)


def compact_cells(column: _Column) -> _Column:
    """Return the shortest list of cells that covers the same, ascending, as a column.

    Parameters
    ----------
    column : array, memoryview, numpy array, Series, Index or list
        The cells, of one resolution or of several.

    Raises
    ------
    H3FailedError
        If a text does not parse as an index.
    H3CellInvalidError
        If one is not a valid cell.
    H3DuplicateInputError
        If two overlap.
    """
    if _is_arrow(column):
        return _set_of_arrow(column, compact_cells)  # type: ignore[return-value]
    if _is_listed(column):
        return _set_of_list(column, compact_cells)  # type: ignore[no-any-return]
    with _Memory(column) as given:
        room, address = _room_for(column, given, _INDEXES, max(given.count, 1))
        found = _size()
        number = _compact_cells(given.address, given.count, address, given.count, ctypes.byref(found))
        if number:
            raise error_of(number, _refused_cell(number, given))
    # (a copy, so that the room of those that merged is given back)
    kept = room[: found.value]
    return _alone(column, kept.copy() if hasattr(kept, "copy") else kept)  # type: ignore[no-any-return]


def uncompact_cells(column: _Column, res: SupportsIndex) -> _Column:
    """Return the descendants at a resolution of the cells of a column, in their order, as a column.

    Parameters
    ----------
    column : array, memoryview, numpy array, Series, Index or list
        The cells.
    res : int
        The descendants' resolution, which is judged first.

    Raises
    ------
    H3ResDomainError
        If the resolution is not 0 to 15.
    H3FailedError
        If a text does not parse as an index.
    H3CellInvalidError
        If one is not a valid cell.
    H3ResMismatchError
        If a cell is finer.
    """
    wanted = as_res(res)
    if _is_arrow(column):
        uncompact_cells(array("Q"), res)
        return _set_of_arrow(column, lambda cells: uncompact_cells(cells, res))  # type: ignore[return-value]
    if _is_listed(column):
        uncompact_cells(array("Q"), res)
        return _set_of_list(column, lambda cells: uncompact_cells(cells, res))  # type: ignore[no-any-return]
    with _Memory(column) as given:
        (sizes, address), place = room_at("q", given.count), _size()
        number = _cells_to_children_sizes(given.address, given.count, wanted, address, given.count, ctypes.byref(place))
        if number == 4 and not 0 <= wanted <= 15:
            raise error_of(number, f"resolution {res}")
        count = _sum(sizes) if not number else 0
        room, address = _room_for(column, given, _INDEXES, max(count, 1))
        number = _uncompact_cells(given.address, given.count, address, count, wanted)
        if number:
            about = _first_of_no_cell(given) if number == 5 else f"{given.named(place.value)}, at resolution {res}"
            raise error_of(number, about)
    return _alone(column, room[:count])  # type: ignore[no-any-return]


def _sum(sizes: Any) -> int:
    """The sum of numbers of cells, which has no limit: by numpy, where a program has imported it, a million at a time,
    whose sum an int64 holds, since none is above 2^43."""
    numpy = sys.modules.get("numpy")
    if numpy is None or not len(sizes):
        return sum(sizes)
    numbers = numpy.frombuffer(sizes, dtype="int64")
    return sum(int(numbers[start : start + 2**20].sum()) for start in range(0, len(numbers), 2**20))


# ---- counts


def _indexes_of_form(column: Any, missing: bool) -> Tuple["array[int]", bool]:
    """The indexes of a column, and whether they are given as texts."""
    integers = array("q")
    if _is_arrow(column):
        given, numbers = _arrow_numbers(column, missing)
        # (a null is 0, which is not a valid cell)
        column, are_texts = memoryview(numbers.filled(0)), given.is_of_texts
    elif _is_listed(column):
        are_texts = not _is_pandas_index(column) or _is_listed(column.to_series())
        column, integers = _numbers_of(column, missing)
    else:
        are_texts = False
    with _Memory(column) as memory:
        indexes = memory.copied()
    places = set(integers)
    if places and any(index and place not in places for place, index in enumerate(indexes)):
        raise TypeError("a list is of texts or of integers, and not of both")
    return indexes, are_texts and not places


def _grouped(parents: "array[int]") -> Tuple["array[int]", Any]:
    """The ancestors of cells, each once, ascending, and of each cell the place of its own among these; for 0, in the
    place of an ancestor, how many there are."""
    numpy = sys.modules.get("numpy")
    if numpy is None or not parents:
        found = array("Q", sorted(set(parents).difference([0])))
        places = {parent: place for place, parent in enumerate(found)}
        return found, [places.get(parent, len(found)) for parent in parents]
    known, groups = numpy.unique(numpy.frombuffer(parents, dtype="uint64"), return_inverse=True)
    if known[0] == 0:
        known, groups = known[1:], numpy.where(groups > 0, groups - 1, len(known) - 1)
    return array("Q", known.tobytes()), groups


def count_parents(column: Any, res: SupportsIndex, weights: Any = None, *, missing: bool = False) -> "Totals[Any]":
    """Count the cells by their ancestors at a resolution; or add up their weights.

    Parameters
    ----------
    column : array, memoryview, numpy array, Series, Index or list
        The cells.
    res : int
        A resolution, which is judged first.
    weights : iterable or column, optional
        A number for each cell: integers, also of numpy, `Decimal` or `Fraction`. They are added up exactly, so floats
        are refused.
    missing : bool, optional
        Count what is refused by itself, as `Totals.refused`, and raise nothing for it.

    Returns
    -------
    Totals
        The number of cells with each ancestor, ascending, or the sum of their weights. The ancestors are texts if the
        cells are, else integers. `others` is 0.

    Raises
    ------
    H3ResDomainError
        If the resolution is not 0 to 15.
    H3FailedError
        If a text does not parse as an index.
    H3CellInvalidError
        If one is not a valid cell. A null in a column in Arrow's memory is not one.
    H3ResMismatchError
        If the resolution is finer than a cell's.
    TypeError
        If a weight is a float, or not a number, or a list has texts and integers.
    ValueError
        If there are not as many weights as cells.
    """
    cells_to_parents(array("Q"), res)
    indexes, are_texts = _indexes_of_form(column, missing)
    parents = cells_to_parents(indexes, res, missing=missing)
    exact = ones(len(parents)) if weights is None else weights_in(weights, len(parents))
    found, groups = _grouped(parents)
    *sums, refused = summed(exact, groups, len(found) + 1)
    return Totals(int_to_str(found) if are_texts else found.tolist(), sums, type(refused)(0), refused)


# ---- lists of all cells as one column, and the place where those of each begin


def _check_children(number: int, given: _Memory, place: int, res: SupportsIndex, missing: bool) -> None:
    """Raise what the library returned of the children of a column."""
    if number == 4 and not 0 <= as_res(res) <= 15:
        raise error_of(number, f"resolution {res}")
    if number == 14:
        raise error_of(13, f"the children up to those of {given.named(place)}, at resolution {res}")
    if number and not missing:
        raise error_of(number, given.named(place) + (f", at resolution {res}" if number == 4 else ""))


def _children_of_memory(column: Any, res: SupportsIndex, missing: bool, first: int = 0) -> Tuple[Any, Any]:
    """The children of a column of integers, and where those of each begin, in memory of their kind. An error is at the
    place `first` or after it."""
    wanted = as_res(res)
    with _Memory(column) as given:
        place, n = _size(0), given.count
        starts, address = _room_for(column, given, "q", n + 1)
        number = _cells_to_children_starts(given.address, n, wanted, address, n + 1, ctypes.byref(place))
        _check_children(number, given, max(place.value, first), res, missing)
        count = int(starts[n])
        children, address = _room_for(column, given, _INDEXES, count)
        # (the library wants an address for no results too)
        address = address or ctypes.addressof(place)
        number = _cells_to_children(given.address, n, wanted, address, count, ctypes.byref(place))
        _check_children(number, given, max(place.value, first), res, missing)
    return children, starts


def _disks_of_memory(table: Table, column: Any, k: SupportsIndex, missing: bool, first: int = 0) -> Tuple[Any, Any]:
    """The same of the disks of a column of integers."""
    radius = as_int(k)
    if radius < 0:
        raise error_of(2, f"k = {k}")
    with _Memory(column) as given:
        place, n, size = _size(0), given.count, 3 * radius * (radius + 1) + 1
        disks, address = _room_for(column, given, _INDEXES, n * size)
        address = address or ctypes.addressof(place)
        starts, done, end = array("q"), 0, 0
        while True:
            number = _grid_disks_unsafe(
                table._address(),
                given.address + 8 * done,
                n - done,
                radius,
                address + 8 * end,
                (n - done) * size,
                ctypes.byref(place),
            )
            whole = place.value
            starts.extend(range(end, end + whole * size, size))
            done, end = done + whole, end + whole * size
            starts.append(end)
            if not number:
                break
            if not missing:
                raise error_of(number, f"{given.named(max(done, first))}, k = {k}")
            # (the refused one has no disk)
            done += 1
            if done == n:
                starts.append(end)
                break
        kept = disks[:end]
    numbers = starts if not _has_numpy(column) else sys.modules["numpy"].array(starts, dtype="int64")
    return (kept.copy() if end < n * size and hasattr(kept, "copy") else kept), numbers


def _has_numpy(column: Any) -> bool:
    return _is_series(column) or _is_numpy(column)


def _lists_of(column: Any, find: Callable[..., Tuple[Any, Any]], missing: bool) -> Tuple[Any, Any]:
    """The lists that a function finds of the cells of a column, in the kind of the column."""
    # (a resolution or a number of steps is judged before any cell)
    find(array("Q"), missing)
    if _is_arrow(column):
        return _lists_of_arrow(column, find, missing)
    if _is_listed(column):
        return _lists_of_list(column, find, missing)
    items, starts = find(column, missing)
    if _is_series(column):
        at = column.index.repeat(starts[1:] - starts[:-1])
        return type(column)(items, index=at, name=column.name, dtype=_dtype_for(column)), starts
    return (memoryview(items), memoryview(starts)) if isinstance(column, memoryview) else (items, starts)


def _lists_of_list(column: Any, find: Callable[..., Tuple[Any, Any]], missing: bool) -> Tuple[Any, Any]:
    """The same of a list, a column of texts or an Index. What is listed has the form of its cell."""
    numbers, integers = _numbers_of(column, missing)
    found, starts = _lists_of(numbers, find, missing)
    if _is_pandas_index(column) and not _is_listed(column.to_series()):
        return _index_like(column, found), starts
    if isinstance(column, (list, tuple)):
        return _in_their_form(int_to_str(found), found, starts, integers), starts.tolist()
    texts = int_to_str(found)
    if _is_numpy(column):
        return _in_their_form(texts.astype(object), found, starts, integers), starts
    items = _in_their_form(texts.to_numpy(dtype=object, copy=True), found.to_numpy(), starts, integers)
    if _is_pandas_index(column):
        return _index_like(column, items), starts
    return type(found)(items, index=found.index, name=found.name, dtype=object), starts


def _in_their_form(texts: Any, found: Any, starts: Any, integers: "array[int]") -> Any:
    """Lists of cells as texts, but those of a cell that is an integer as integers."""
    for place in integers:
        texts[starts[place] : starts[place + 1]] = found[starts[place] : starts[place + 1]]
    return texts


def _lists_of_arrow(column: Any, find: Callable[..., Tuple[Any, Any]], missing: bool) -> Tuple[Any, Any]:
    """The same of a column of another program. A null has none, and is no error."""
    given, numbers = _arrow_numbers(column, missing)
    if not missing and numbers.null_count < len(numbers):
        find(memoryview(numbers.with_first()), False, numbers.first())
    items, starts = find(memoryview(numbers.filled(0)), True)
    found = ArrowColumn("l" if given.format == "l" else "L", memoryview(items), None)
    return (_arrow_texts(found) if given.is_of_texts else found), ArrowColumn("l", memoryview(starts), None)


def cells_to_children(column: _Column, res: SupportsIndex, *, missing: bool = False) -> Tuple[_Column, Any]:
    """Return the descendants of each cell at a resolution, as one column, and where those of each begin.

    Parameters
    ----------
    column : array, memoryview, numpy array, Series, Index or list
        The cells.
    res : int
        A resolution, which is judged first.
    missing : bool, optional
        Take no descendants for what is refused, and raise nothing for it.

    Returns
    -------
    children : column of the same kind
        Those of the first cell, ascending, then those of the second, and so on, in one dimension. A Series has at each
        the index of its cell, as `Series.explode` has it.
    starts : array, memoryview, numpy array, list or ArrowColumn of 64-bit integers
        One more than there are cells: the children of the cell at place i are `children[starts[i]:starts[i + 1]]`. Of
        a column of pandas it is a numpy array. These are the offsets of Arrow's large list array.

    Raises
    ------
    H3ResDomainError
        If the resolution is not 0 to 15, or coarser than a cell's.
    H3FailedError
        If a text does not parse as an index.
    H3CellInvalidError
        If one is not a valid cell.
    H3MemoryAllocError
        If there is no memory for the children.
    """
    return _lists_of(column, lambda cells, *how: _children_of_memory(cells, res, *how), missing)


def grid_disks_unsafe(table: Table, column: _Column, k: SupportsIndex, *, missing: bool = False) -> Tuple[_Column, Any]:
    """Return the cells within k steps of each cell, as one column, and where those of each begin.

    Parameters
    ----------
    table : Table
        A base cell table.
    column : array, memoryview, numpy array, Series, Index or list
        The cells.
    k : int
        The number of steps.
    missing : bool, optional
        Take no disk for what is refused, and raise nothing for it.

    Returns
    -------
    disks : column of the same kind
        Those of the first cell, in the order of the walk, then those of the second, and so on, in one dimension. A
        Series has at each the index of its cell, as `Series.explode` has it.
    starts : array, memoryview, numpy array, list or ArrowColumn of 64-bit integers
        One more than there are cells, as those of `cells_to_children`.

    Raises
    ------
    H3DomainError
        If `k` is below 0.
    H3FailedError
        If a text does not parse as an index.
    H3CellInvalidError
        If one is not a valid cell.
    H3PentagonError
        If a cell is a pentagon, or a step meets a pentagon base cell.
    H3MemoryAllocError
        If there is no memory for the disks.
    """
    if not isinstance(table, Table):
        raise TypeError(f"a table is wanted first, and not {table!r}")
    return _lists_of(column, lambda cells, *how: _disks_of_memory(table, cells, k, *how), missing)


# ---- texts


def _read_texts(items: List[Any], find: Callable[[Any, int], int], with_bytes: bool) -> "array[int]":
    """The indexes of a list: plain texts, and bytes if they are asked for, by the extension, and what is left by a
    function of an item and its place."""
    found, place = _room("Q", len(items)), 0
    address = found.buffer_info()[0]
    while place < len(found):
        if _fast.native is not None:
            place = _fast.native.read_texts(items, place, len(found), address, with_bytes)
            if place == len(found):
                break
        # (None, if another thread has made the list shorter)
        found[place] = find((items[place : place + 1] or [None])[0], place)
        place += 1
    return found


def _parse(texts: Iterable[Any], missing: bool, integers: "Optional[array[int]]" = None) -> "array[int]":
    """The indexes of texts; with room for the places of integers, those of integers too."""

    def find(item: Any, place: int) -> int:
        number, index = _parse_one(item, place, integers)
        if number and not missing:
            raise error_of(number, f"{item!r} at place {place}")
        return 0 if number else index

    return _read_texts(texts if isinstance(texts, list) else list(texts), find, True)


def _listed_texts(convert: Callable[[Any], int], texts: Iterable[Any]) -> "array[int]":
    """The same as `indexes_of` of a list or a tuple of texts, of which plain ones need no conversion of their own."""

    def find(item: Any, place: int) -> int:
        try:
            return convert(item)
        except H3BaseException as error:
            raise type(error)(f"{error} at place {place}") from None

    return _read_texts(texts if isinstance(texts, list) else list(texts), find, False)


def _parse_fixed(column: Any, missing: bool) -> Any:
    """The indexes of numpy's texts or bytes by the extension, in one dimension; None if it does not read them all."""
    numpy = sys.modules["numpy"]
    if _fast.native is None or type(column) is not numpy.ndarray or column.dtype.kind == "O":
        return None
    kind = column.dtype.newbyteorder("=")
    is_wide, flat = kind.kind == "U", numpy.ascontiguousarray(column, dtype=kind)
    found, width = numpy_room(flat.size, "uint64"), kind.itemsize // (4 if is_wide else 1)
    place = _fast.native.read_fixed(flat.ctypes.data, flat.size, width, is_wide, found.ctypes.data, missing)
    return found if place == flat.size else None


def _parse_one(text: Any, place: int, integers: "Optional[array[int]]") -> Tuple[int, int]:
    """The error of an item, and its index."""
    try:
        given = text if isinstance(text, bytes) else text.encode("ascii")
    except (AttributeError, UnicodeEncodeError):
        if integers is None or not hasattr(text, "__index__"):
            return 1, 0
        integers.append(place)
        return _whole(text)
    out = _index()
    number = _string_to_h3(given, len(given), ctypes.byref(out))
    return number, out.value


def _whole(number: Any) -> Tuple[int, int]:
    """The error of an item that is no text, and the index that it is."""
    try:
        return 0, as_cell(number)
    except H3CellInvalidError:
        return 5, 0
    except TypeError:
        return 1, 0


def _items_of(column: Any) -> Any:
    """The items of a column of pandas."""
    if not _is_of(column.dtype, "pandas", "CategoricalDtype"):
        return column.to_numpy(dtype=object)
    # (where one is missing, pandas makes floats of categories that are integers)
    categories = column.cat.categories.to_numpy(dtype=object)
    return sys.modules["numpy"].append(categories, [float("nan")])[column.cat.codes]


def _to_int(column: Any, missing: bool, integers: "Optional[array[int]]" = None) -> Any:
    """The indexes of a column of texts; with room for the places of integers, those of a column of objects, texts and
    integers."""
    if _is_arrow(column):
        return _arrow_parsed(column, missing)
    if _is_series(column):
        numbers = _parse(_items_of(column).tolist(), missing, integers)
        found = sys.modules["numpy"].frombuffer(numbers or b"", dtype="uint64")
        return type(column)(found.copy(), index=column.index, name=column.name)
    if _is_numpy(column):
        if column.dtype.kind not in "OSU":
            raise TypeError(f"a column of texts is wanted, and not one of {column.dtype}")
        found = _parse_fixed(column, missing)
        if found is None:
            # (its error is the first one)
            numbers = _parse(column.ravel().tolist(), missing, integers)
            found = sys.modules["numpy"].frombuffer(numbers or b"", dtype="uint64").copy()
        return found.reshape(column.shape)
    if isinstance(column, (str, bytes)):
        raise TypeError(f"a column of texts is wanted, and not {column!r}")
    return _parse(column, missing, integers)


def _arrow_parsed(column: Any, missing: bool) -> ArrowColumn:
    given, numbers = _arrow_numbers(column, missing)
    if not given.is_of_texts:
        raise TypeError("a column of texts is wanted, and not one of integers")
    return numbers


def str_to_int(column: Any, *, missing: bool = False) -> Any:
    """Return the indexes of a column of texts, each as `h3whole.str_to_int` parses it.

    Parameters
    ----------
    column : list, numpy array of texts, bytes or objects, Series or Index
        The texts. In a column of objects an integer is the index that it is.
    missing : bool, optional
        Write 0 for what is not a text, or does not parse as an index, and raise nothing for it.

    Returns
    -------
    array, numpy array, Series or Index
        An array for a list, and else the same kind and shape.

    Raises
    ------
    H3FailedError
        If a text does not parse as an index.
    H3CellInvalidError
        If an integer in a column of objects is not 0 to 2^64 - 1.
    """
    if _is_pandas_index(column):
        return _index_like(column, str_to_int(column.to_series(), missing=missing))
    is_of_objects = _is_listed(column) and not isinstance(column, (list, tuple))
    return _to_int(column, missing, array("q") if is_of_objects else None)


def _write(given: _Memory, or_none: bool = False) -> List[Any]:
    """The texts of indexes; None for 0, if that is asked for."""
    if _fast.native is not None:
        listed: List[Any] = _fast.native.write_texts(given.address, given.count, or_none)
        return listed
    found: List[Any] = []
    room = (ctypes.c_char * 17)()
    for index in (_index * given.count).from_address(given.address):
        number = _h3_to_string(index, room, 17)
        if number:
            raise error_of(number)
        found.append(None if or_none and not index else room.value.decode("ascii"))
    return found


def _texts_or_none(zones: "array[int]") -> List[Any]:
    """The texts of zones, and None in place of 0."""
    with _Memory(zones) as given:
        return _write(given, True)


def _arrow_written(numbers: ArrowColumn) -> ArrowColumn:
    if numbers.is_of_texts:
        raise TypeError("a column of integers is wanted, and not one of texts")
    return _arrow_texts(numbers)


def int_to_str(column: Any) -> Any:
    """Return the texts of a column of indexes, each as `h3whole.int_to_str` writes it.

    Parameters
    ----------
    column : array, memoryview, numpy array, Series, Index or list
        The indexes.

    Returns
    -------
    list, numpy array, Series or Index
        A list for an array, a memoryview or a list, and else the same kind and shape.
    """
    if _is_arrow(column):
        return _arrow_written(_arrow.read(column))
    if isinstance(column, (list, tuple)):
        column = indexes_of(as_cell, column)
    if _is_pandas_index(column):
        return _index_like(column, int_to_str(column.to_series()))
    with _Memory(column) as given:
        texts = _write(given)
    if _is_series(column):
        return type(column)(texts, index=column.index, name=column.name, dtype=object)
    if _is_numpy(column):
        return sys.modules["numpy"].array(texts, dtype="U16").reshape(given.shape)
    return texts
