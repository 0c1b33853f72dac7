"""H3's functions over indexes as integers, with h3-py's names. The package itself has the same over texts.

A cell or an edge is an integer from 0 to 2^64 - 1, of Python or of numpy. Errors are exceptions of `h3whole.errors`:
H3CellInvalidError if the index is not a valid cell, and H3DirEdgeInvalidError if it is not a valid edge, before any
other."""

import ctypes
from array import array
from typing import Any, Callable, Iterable, List, Optional, SupportsIndex, Tuple, overload

from . import _fast, _library
from ._areas import CellAreas
from ._arguments import MOST, as_cell, as_edge, as_int, as_int64, as_text, indexes_of, whole_number
from ._library import _array, _index, _number, _resolution, _size, _table, _truth
from ._memory import or_refused
from ._memory import room as _room
from ._memory import room_at
from ._overlap import overlap_named
from .errors import H3BaseException, error_at, error_of
from .regions import CellRegion, CellSet, CellZones
from .table import Table, over_table

__all__ = [
    "Areas",
    "Region",
    "Zones",
    "are_neighbor_cells",
    "cell_to_center_child",
    "cell_to_child_pos",
    "cell_to_children",
    "cell_to_children_size",
    "cell_to_last_child",
    "cell_to_parent",
    "cells_to_directed_edge",
    "child_pos_to_cell",
    "compact_cells",
    "get_base_cell_number",
    "get_directed_edge_destination",
    "get_directed_edge_origin",
    "get_num_cells",
    "get_pentagons",
    "get_res0_cells",
    "get_resolution",
    "grid_disk_distances_unsafe",
    "grid_disk_unsafe",
    "grid_ring_unsafe",
    "int_to_str",
    "is_pentagon",
    "is_res_class_III",
    "is_valid_cell",
    "is_valid_directed_edge",
    "origin_to_directed_edges",
    "str_to_int",
    "uncompact_cells",
]

_out_index = ctypes.POINTER(_index)
_out_number = ctypes.POINTER(_number)
_is_valid_cell = _library.value("isValidCell", _truth, _index)
_get_resolution = _library.value("getResolution", _truth, _index)
_get_base_cell_number = _library.value("getBaseCellNumber", _truth, _index)
_is_pentagon = _library.value("isPentagon", _truth, _index)
_is_res_class_iii = _library.value("isResClassIII", _truth, _index)
_get_num_cells = _library.number("getNumCells", _resolution, _out_number)
_get_res0_cells = _library.raising("getRes0Cells", _array, _size)
_get_pentagons = _library.number("getPentagons", _resolution, _array, _size)
_cell_to_parent = _library.number("cellToParent", _index, _resolution, _out_index)
_cell_to_center_child = _library.number("cellToCenterChild", _index, _resolution, _out_index)
_cell_to_last_child = _library.number("cellToLastChild", _index, _resolution, _out_index)
_cell_to_children_size = _library.number("cellToChildrenSize", _index, _resolution, _out_number)
_cell_to_children = _library.raising("cellToChildren", _index, _resolution, _array, _size)
_cell_to_child_pos = _library.number("cellToChildPos", _index, _resolution, _out_number)
_child_pos_to_cell = _library.number("childPosToCell", _number, _index, _resolution, _out_index)
_string_to_h3 = _library.number("stringToH3", ctypes.c_char_p, _size, _out_index)
# (a text of 17 bytes has room for any index)
_h3_to_string = _library.number("h3ToString", _index, ctypes.c_char_p, _size)
_is_valid_directed_edge = _library.value("isValidDirectedEdge", _truth, _index)
_get_directed_edge_origin = _library.number("getDirectedEdgeOrigin", _index, _out_index)
_origin_to_directed_edges = _library.number("originToDirectedEdges", _index, _array)
_are_valid_cells = _library.number("areValidCells", _array, _size, _array, _size, ctypes.POINTER(_size))
_compact_cells = _library.number("compactCells", _array, _size, _array, _size, ctypes.POINTER(_size))
_uncompact_cells = _library.number("uncompactCells", _array, _size, _array, _size, _resolution)
_grid_disk_unsafe = _library.number("gridDiskUnsafe", _table, _index, _resolution, _array, _size)
_grid_disk_distances_unsafe = _library.number(
    "gridDiskDistancesUnsafe", _table, _index, _resolution, _array, _size, _array, _size
)
_grid_ring_unsafe = _library.number("gridRingUnsafe", _table, _index, _resolution, _array, _size)
_are_neighbor_cells = _library.number("areNeighborCells", _table, _index, _index, ctypes.POINTER(_truth))
_cells_to_directed_edge = _library.number("cellsToDirectedEdge", _table, _index, _index, _out_index)
_get_directed_edge_destination = _library.number("getDirectedEdgeDestination", _table, _index, _out_index)


def _indexes(count: int) -> Tuple["array[int]", int]:
    """Room for so many indexes, at least one, and its address."""
    return room_at("Q", count)


def _listed(indexes: "array[int]") -> List[int]:
    listed: List[int] = or_refused(lambda: list(indexes), len(indexes))
    return listed


def _column(cells: Iterable[SupportsIndex]) -> Tuple["array[int]", int, int]:
    """Indexes one after another in memory, their address and their number."""
    column = indexes_of(as_cell, cells)
    count = len(column)
    if not count:
        column.append(0)
    return column, column.buffer_info()[0], count


# ---- texts


_byref = ctypes.byref
_Text = ctypes.c_char * 17


def _parse(text: str) -> ctypes.c_uint64:
    """The index of a text, as the library's functions take it."""
    try:
        given = text.encode("ascii")
    except (AttributeError, UnicodeEncodeError):
        # (which says what is wrong)
        given = as_text(text)
    found = _index()
    number = _string_to_h3(given, len(given), _byref(found))
    if number:
        raise error_of(number, repr(text))
    return found


def _write(index: ctypes.c_uint64) -> str:
    """The text of an index, as the library's functions write it."""
    room = _Text()
    _h3_to_string(index, room, 17)
    return room.value.decode("ascii")


def str_to_int(text: str) -> int:
    """Return the index that a text parses as, which need not be that of a cell.

    Parameters
    ----------
    text : str
        1 to 16 hexadecimal digits, with or without 0x.

    Raises
    ------
    H3FailedError
        If it does not parse as an index.
    """
    return _parse(text).value


def int_to_str(index: SupportsIndex) -> str:
    """Return the text of an index: lower-case hexadecimal digits.

    Parameters
    ----------
    index : int
        An index.
    """
    return _write(_index(as_cell(index)))


# ---- inspection


def _is(test: Callable[..., int], index: Any) -> bool:
    """A test, which is false for what cannot be an index."""
    try:
        given = whole_number(index)
    except TypeError:
        return False
    return 0 <= given < MOST and test(given) == 1


def is_valid_cell(cell: Any) -> bool:
    """Return whether a number is that of a valid cell.

    Parameters
    ----------
    cell : object
        Any value; what is not a number is not a cell.
    """
    return _is(_is_valid_cell, cell)


def _known(function: Callable[..., int], cell: SupportsIndex) -> int:
    given = as_cell(cell)
    found = function(given)
    if found < 0:
        raise error_of(5, f"{given:x}")
    return found


def get_resolution(cell: SupportsIndex) -> int:
    """Return the resolution of a cell, 0 to 15.

    Parameters
    ----------
    cell : int
        A cell.

    Raises
    ------
    H3CellInvalidError
        If it is not a valid cell.
    """
    return _known(_get_resolution, cell)


def get_base_cell_number(cell: SupportsIndex) -> int:
    """Return the base cell of a cell, 0 to 121.

    Parameters
    ----------
    cell : int
        A cell.

    Raises
    ------
    H3CellInvalidError
        If it is not a valid cell.
    """
    return _known(_get_base_cell_number, cell)


def is_pentagon(cell: SupportsIndex) -> bool:
    """Return whether a cell is a pentagon.

    Parameters
    ----------
    cell : int
        A cell.

    Raises
    ------
    H3CellInvalidError
        If it is not a valid cell.
    """
    get_resolution(cell)
    return bool(_is_pentagon(as_cell(cell)) == 1)


def is_res_class_III(cell: SupportsIndex) -> bool:
    """Return whether the resolution of a cell is Class III, which is odd.

    Parameters
    ----------
    cell : int
        A cell.

    Raises
    ------
    H3CellInvalidError
        If it is not a valid cell.
    """
    get_resolution(cell)
    return bool(_is_res_class_iii(as_cell(cell)) == 1)


# ---- resolutions


def get_num_cells(res: SupportsIndex) -> int:
    """Return the number of cells of a resolution.

    Parameters
    ----------
    res : int
        A resolution, 0 to 15.

    Raises
    ------
    H3ResDomainError
        If the resolution is not 0 to 15.
    """
    found = _number()
    number = _get_num_cells(as_int(res), ctypes.byref(found))
    if number:
        raise error_of(number, f"resolution {res}")
    return found.value


def get_res0_cells() -> List[int]:
    """Return the 122 cells of resolution 0, ascending."""
    room, at = _indexes(122)
    _get_res0_cells(at, 122)
    return _listed(room)


def get_pentagons(res: SupportsIndex) -> List[int]:
    """Return the 12 pentagons of a resolution, ascending.

    Parameters
    ----------
    res : int
        A resolution, 0 to 15.

    Raises
    ------
    H3ResDomainError
        If the resolution is not 0 to 15.
    """
    room, at = _indexes(12)
    number = _get_pentagons(as_int(res), at, 12)
    if number:
        raise error_of(number, f"resolution {res}")
    return _listed(room)


# ---- the hierarchy


def _at_resolution(function: Callable[..., int], found: Any, cell: SupportsIndex, res: SupportsIndex) -> int:
    """What a function of a cell and a resolution writes."""
    given = as_cell(cell)
    number = function(given, as_int(res), _byref(found))
    if number:
        raise _error_at(number, given, res)
    return int(found.value)


def _error_at(number: int, cell: int, res: object) -> H3BaseException:
    return error_of(number, f"{cell:x}") if number == 5 else error_at(number, cell, res)


def _text_at_resolution(function: Callable[..., int], cell: str, res: SupportsIndex) -> str:
    """The text of the cell that a function of a cell and a resolution writes. One that is refused stays in its
    place."""
    index = _parse(cell)
    number = function(index, as_int(res), _byref(index))
    if number:
        raise _error_at(number, index.value, res)
    return _write(index)


def cell_to_parent(cell: SupportsIndex, res: Optional[SupportsIndex] = None) -> int:
    """Return a cell's ancestor at a resolution.

    Parameters
    ----------
    cell : int
        A cell.
    res : int, optional
        The resolution; by default the next coarser one.

    Raises
    ------
    H3CellInvalidError
        If it is not a valid cell.
    H3ResDomainError
        If the resolution is not 0 to 15.
    H3ResMismatchError
        If the resolution is finer than the cell's.
    """
    return _at_resolution(_cell_to_parent, _index(), cell, get_resolution(cell) - 1 if res is None else res)


def _finer(cell: SupportsIndex, res: Optional[SupportsIndex]) -> SupportsIndex:
    return get_resolution(cell) + 1 if res is None else res


def cell_to_center_child(cell: SupportsIndex, res: Optional[SupportsIndex] = None) -> int:
    """Return the descendant in a cell's center at a resolution.

    Parameters
    ----------
    cell : int
        A cell.
    res : int, optional
        The resolution; by default the next finer one.

    Raises
    ------
    H3CellInvalidError
        If it is not a valid cell.
    H3ResDomainError
        If the resolution is not from the cell's own to 15.
    """
    return _at_resolution(_cell_to_center_child, _index(), cell, _finer(cell, res))


def cell_to_last_child(cell: SupportsIndex, res: Optional[SupportsIndex] = None) -> int:
    """Return the last descendant of a cell at a resolution: the one with the greatest number.

    The cells of the resolution from the center child to it are the cell's descendants there, and no others.

    Parameters
    ----------
    cell : int
        A cell.
    res : int, optional
        The resolution; by default the next finer one.

    Raises
    ------
    H3CellInvalidError
        If it is not a valid cell.
    H3ResDomainError
        If the resolution is not from the cell's own to 15.
    """
    return _at_resolution(_cell_to_last_child, _index(), cell, _finer(cell, res))


def cell_to_children_size(cell: SupportsIndex, res: Optional[SupportsIndex] = None) -> int:
    """Return the number of descendants of a cell at a resolution.

    Parameters
    ----------
    cell : int
        A cell.
    res : int, optional
        The resolution; by default the next finer one.

    Raises
    ------
    H3CellInvalidError
        If it is not a valid cell.
    H3ResDomainError
        If the resolution is not from the cell's own to 15.
    """
    return _at_resolution(_cell_to_children_size, _number(), cell, _finer(cell, res))


def cell_to_children(cell: SupportsIndex, res: Optional[SupportsIndex] = None) -> List[int]:
    """Return a cell's descendants at a resolution, ascending.

    Parameters
    ----------
    cell : int
        A cell.
    res : int, optional
        The resolution; by default the next finer one.

    Raises
    ------
    H3CellInvalidError
        If it is not a valid cell.
    H3ResDomainError
        If the resolution is not from the cell's own to 15.
    """
    wanted = _finer(cell, res)
    count = cell_to_children_size(cell, wanted)
    room, at = _indexes(count)
    _cell_to_children(as_cell(cell), as_int(wanted), at, count)
    return _listed(room)


def cell_to_child_pos(child: SupportsIndex, res_parent: SupportsIndex) -> int:
    """Return the position of a cell, from 0 on, among the descendants of its ancestor at a resolution.

    Parameters
    ----------
    child : int
        A cell.
    res_parent : int
        The ancestor's resolution.

    Raises
    ------
    H3CellInvalidError
        If it is not a valid cell.
    H3ResDomainError
        If the resolution is not 0 to 15.
    H3ResMismatchError
        If the resolution is finer than the cell's.
    """
    return _at_resolution(_cell_to_child_pos, _number(), child, res_parent)


def child_pos_to_cell(parent: SupportsIndex, res_child: SupportsIndex, child_pos: SupportsIndex) -> int:
    """Return the descendant of a cell at a position.

    Parameters
    ----------
    parent : int
        A cell.
    res_child : int
        The descendant's resolution.
    child_pos : int
        The position, from 0 on.

    Raises
    ------
    H3CellInvalidError
        If it is not a valid cell.
    H3ResDomainError
        If the resolution is not 0 to 15.
    H3ResMismatchError
        If the resolution is coarser than the cell's.
    H3DomainError
        If no descendant has this position.
    """
    given = as_cell(parent)
    found = _index()
    number = _child_pos_to_cell(as_int64(child_pos), given, as_int(res_child), ctypes.byref(found))
    if number == 5:
        raise error_of(number, f"{given:x}")
    if number:
        raise error_of(number, f"position {child_pos} in {given:x} at resolution {res_child}")
    return found.value


# ---- directed edges


def is_valid_directed_edge(edge: Any) -> bool:
    """Return whether a number is that of a valid directed edge.

    Parameters
    ----------
    edge : object
        Any value; what is not a number is not an edge.
    """
    return _is(_is_valid_directed_edge, edge)


def get_directed_edge_origin(edge: SupportsIndex) -> int:
    """Return the cell that an edge leaves.

    Parameters
    ----------
    edge : int
        A directed edge.

    Raises
    ------
    H3DirEdgeInvalidError
        If it is not a valid directed edge.
    """
    given = as_edge(edge)
    found = _index()
    number = _get_directed_edge_origin(given, ctypes.byref(found))
    if number:
        raise error_of(number, f"{given:x}")
    return found.value


def origin_to_directed_edges(origin: SupportsIndex) -> List[int]:
    """Return the edges that leave a cell, in ascending direction: six, of a pentagon five.

    Parameters
    ----------
    origin : int
        A cell.

    Raises
    ------
    H3CellInvalidError
        If it is not a valid cell.
    """
    given = as_cell(origin)
    room, at = _indexes(6)
    number = _origin_to_directed_edges(given, at)
    if number:
        raise error_of(number, f"{given:x}")
    return [edge for edge in room if edge]


# ---- over a base cell table


def _over(table: Table) -> Any:
    """The address of a table."""
    if not isinstance(table, Table):
        raise TypeError(f"a table is wanted, and not {table!r}")
    return table._address()


def _check_walk(number: int, cell: int, k: SupportsIndex) -> None:
    if number == 5:
        raise error_of(number, f"{cell:x}")
    if number:
        raise error_of(number, f"{k} steps from {cell:x}")


def _walk_room(
    walk: Callable[..., int], over: Any, cell: int, k: SupportsIndex, count: int
) -> Tuple["array[int]", int]:
    """Room for the cells of a walk. The walk is taken with room for one first, since its errors come before want of
    memory."""
    room, at = _indexes(1)
    number = walk(over, cell, as_int(k), at, 1)
    if number != 14:
        _check_walk(number, cell, k)
    return _indexes(count)


def _disk_len(k: int) -> int:
    return 3 * k * (k + 1) + 1


@overload
def grid_disk_unsafe(table: Table, origin: SupportsIndex, k: SupportsIndex) -> List[int]:
    ...


@overload
def grid_disk_unsafe(origin: SupportsIndex, k: SupportsIndex) -> List[int]:
    ...


@over_table
def grid_disk_unsafe(table, origin, k):  # type: ignore[no-untyped-def]
    """Return the cells within k steps of a cell, in the order of the walk: ring by ring.

    Parameters
    ----------
    table : Table
        A base cell table; may be left out after `use_table`.
    origin : int
        A cell.
    k : int
        The number of steps.

    Raises
    ------
    H3CellInvalidError
        If it is not a valid cell.
    H3DomainError
        If `k` is below 0.
    H3PentagonError
        If the cell is a pentagon, or a step meets a pentagon base cell.
    """
    over, cell, radius = _over(table), as_cell(origin), as_int(k)
    room, at = _walk_room(_grid_disk_unsafe, over, cell, k, _disk_len(radius))
    _check_walk(_grid_disk_unsafe(over, cell, radius, at, len(room)), cell, k)
    return _listed(room)


@overload
def grid_disk_distances_unsafe(table: Table, origin: SupportsIndex, k: SupportsIndex) -> List[List[int]]:
    ...


@overload
def grid_disk_distances_unsafe(origin: SupportsIndex, k: SupportsIndex) -> List[List[int]]:
    ...


@over_table
def grid_disk_distances_unsafe(table, origin, k):  # type: ignore[no-untyped-def]
    """Return the cells within k steps of a cell, ring by ring: a list for each of 0 to k steps.

    Parameters
    ----------
    table : Table
        A base cell table; may be left out after `use_table`.
    origin : int
        A cell.
    k : int
        The number of steps.

    Raises
    ------
    H3CellInvalidError
        If it is not a valid cell.
    H3DomainError
        If `k` is below 0.
    H3PentagonError
        If the cell is a pentagon, or a step meets a pentagon base cell.
    """
    over, cell, radius = _over(table), as_cell(origin), as_int(k)
    room, at = _walk_room(_grid_disk_unsafe, over, cell, k, _disk_len(radius))
    rings = _room("i", len(room))
    number = _grid_disk_distances_unsafe(over, cell, radius, at, len(room), rings.buffer_info()[0], len(rings))
    _check_walk(number, cell, k)
    found: List[List[int]] = [[] for _ in range(radius + 1)]
    for one, ring in zip(room, rings):
        found[ring].append(one)
    return found


@overload
def grid_ring_unsafe(table: Table, origin: SupportsIndex, k: SupportsIndex) -> List[int]:
    ...


@overload
def grid_ring_unsafe(origin: SupportsIndex, k: SupportsIndex) -> List[int]:
    ...


@over_table
def grid_ring_unsafe(table, origin, k):  # type: ignore[no-untyped-def]
    """Return the cells at k steps from a cell.

    Parameters
    ----------
    table : Table
        A base cell table; may be left out after `use_table`.
    origin : int
        A cell.
    k : int
        The number of steps.

    Raises
    ------
    H3CellInvalidError
        If it is not a valid cell.
    H3DomainError
        If `k` is below 0.
    H3PentagonError
        If a step meets a pentagon base cell, or the ring does not close.
    """
    over, cell, radius = _over(table), as_cell(origin), as_int(k)
    room, at = _walk_room(_grid_ring_unsafe, over, cell, k, 6 * radius)
    _check_walk(_grid_ring_unsafe(over, cell, radius, at, len(room)), cell, k)
    return _listed(room)


def _check_pair(number: int, origin: int, destination: int) -> None:
    if number == 5:
        raise error_of(number, f"{destination if _is_valid_cell(origin) else origin:x}")
    if number:
        raise error_of(number, f"{origin:x} and {destination:x}")


@overload
def are_neighbor_cells(table: Table, origin: SupportsIndex, destination: SupportsIndex) -> bool:
    ...


@overload
def are_neighbor_cells(origin: SupportsIndex, destination: SupportsIndex) -> bool:
    ...


@over_table
def are_neighbor_cells(table, origin, destination):  # type: ignore[no-untyped-def]
    """Return whether a step leads from the one cell to the other.

    Parameters
    ----------
    table : Table
        A base cell table; may be left out after `use_table`.
    origin : int
        A cell.
    destination : int
        Another cell.

    Raises
    ------
    H3CellInvalidError
        If one is not a valid cell.
    H3ResMismatchError
        If their resolutions differ.
    H3PentagonError
        If they differ, and the base cell of one is a pentagon.
    """
    over, first, second = _over(table), as_cell(origin), as_cell(destination)
    found = _truth()
    _check_pair(_are_neighbor_cells(over, first, second, ctypes.byref(found)), first, second)
    return found.value == 1


@overload
def cells_to_directed_edge(table: Table, origin: SupportsIndex, destination: SupportsIndex) -> int:
    ...


@overload
def cells_to_directed_edge(origin: SupportsIndex, destination: SupportsIndex) -> int:
    ...


@over_table
def cells_to_directed_edge(table, origin, destination):  # type: ignore[no-untyped-def]
    """Return the edge from a cell to a neighbor.

    Parameters
    ----------
    table : Table
        A base cell table; may be left out after `use_table`.
    origin : int
        A cell.
    destination : int
        Another cell.

    Raises
    ------
    H3CellInvalidError
        If one is not a valid cell.
    H3ResMismatchError
        If their resolutions differ.
    H3NotNeighborsError
        If they are the same, or no step leads from the one to the other.
    H3PentagonError
        If they differ, and the base cell of one is a pentagon.
    """
    over, first, second = _over(table), as_cell(origin), as_cell(destination)
    found = _index()
    _check_pair(_cells_to_directed_edge(over, first, second, ctypes.byref(found)), first, second)
    return found.value


@overload
def get_directed_edge_destination(table: Table, edge: SupportsIndex) -> int:
    ...


@overload
def get_directed_edge_destination(edge: SupportsIndex) -> int:
    ...


@over_table
def get_directed_edge_destination(table, edge):  # type: ignore[no-untyped-def]
    """Return the cell that an edge leads to.

    Parameters
    ----------
    table : Table
        A base cell table; may be left out after `use_table`.
    edge : int
        A directed edge.

    Raises
    ------
    H3DirEdgeInvalidError
        If it is not a valid directed edge.
    H3PentagonError
        If the base cell of either end is a pentagon.
    """
    over, given = _over(table), as_edge(edge)
    found = _index()
    number = _get_directed_edge_destination(over, given, ctypes.byref(found))
    if number:
        raise error_of(number, f"{given:x}")
    return found.value


# ---- sets of cells


def _first_of_no_cell(column: "array[int]", at: int, count: int) -> str:
    """The first index that is not a valid cell, and its place. There is none if the column has changed since."""
    found, place = _room("i", count), _size()
    _are_valid_cells(at, count, found.buffer_info()[0], count, ctypes.byref(place))
    if 0 not in found:
        return f"among {count} cells"
    first = found.index(0)
    return f"{column[first]:x} at place {first}"


def _refused_cell(number: int, column: "array[int]", at: int, count: int) -> str:
    """What an error of a list of cells is about."""
    if number == 5:
        return _first_of_no_cell(column, at, count)
    return overlap_named(column) if number == 10 else f"among {count} cells"


def compact_cells(cells: Iterable[SupportsIndex]) -> List[int]:
    """Return the shortest list of cells that covers the same, ascending.

    Parameters
    ----------
    cells : iterable of int
        Cells, of one resolution or of several.

    Raises
    ------
    H3CellInvalidError
        If one is not a valid cell.
    H3DuplicateInputError
        If two overlap: a cell is given twice, or with an ancestor of it.
    """
    given, at, count = _column(cells)
    room, out = _indexes(count)
    found = _size()
    number = _compact_cells(at, count, out, count, ctypes.byref(found))
    if number:
        raise error_of(number, _refused_cell(number, given, at, count))
    return _listed(room[: found.value])


def uncompact_cells(cells: Iterable[SupportsIndex], res: SupportsIndex) -> List[int]:
    """Return the descendants at a resolution of the first cell, ascending, then those of the second, and so on.

    Parameters
    ----------
    cells : iterable of int
        Cells.
    res : int
        The descendants' resolution.

    Raises
    ------
    H3CellInvalidError
        If one is not a valid cell.
    H3ResDomainError
        If the resolution is not 0 to 15.
    H3ResMismatchError
        If a cell is finer.
    """
    given, at, count = _column(cells)
    wanted = as_int(res)
    size = sum(_size_at(cell, wanted) for cell in given[:count])
    room, out = _indexes(size)
    number = _uncompact_cells(at, count, out, size, wanted)
    if number == 12:
        place = next(place for place in range(count) if not _size_at(given[place], wanted))
        raise error_of(number, f"{given[place]:x} at place {place}, at resolution {res}")
    if number:
        raise error_of(number, _first_of_no_cell(given, at, count) if number == 5 else f"resolution {res}")
    return _listed(room[:size])


def _size_at(cell: int, res: int) -> int:
    """The number of a cell's descendants at a resolution; 0 if the library refuses the cell, as it will later."""
    found = _number()
    return 0 if _cell_to_children_size(cell, res, ctypes.byref(found)) else found.value


class _Numbers(CellSet[int]):
    """Cells as integers."""

    __slots__ = ()

    @staticmethod
    def _index_of(cell: SupportsIndex) -> int:
        return as_cell(cell)

    @staticmethod
    def _form_of(index: int) -> int:
        return index


class Region(_Numbers, CellRegion[int]):
    """What cells cover, over integers: a set that never changes.

    Parameters
    ----------
    cells : iterable of int, column, region or zones, optional
        The cells, which may repeat and overlap; by default none.

    Raises
    ------
    H3FailedError
        If a text of a column does not parse as an index.
    H3MemoryAllocError
        If there is no memory for the region.
    H3CellInvalidError
        If one is not a valid cell.

    Notes
    -----
    A region has `|`, `&`, `-`, `^`, `<=`, `==`, `in` (whether it covers a cell), `len`, a hash, and its cells,
    ascending. It has as few as can be: the shortest list that covers the same.

    Examples
    --------
    >>> region = Region([0x8428347FFFFFFFF])
    >>> 0x85283473FFFFFFF in region
    True
    >>> region - Region([0x85283473FFFFFFF]) <= region
    True
    """

    __slots__ = ()


class Zones(_Numbers, CellZones[int]):
    """Zones, over integers: cells that do not overlap, by which other cells are joined and counted.

    Parameters
    ----------
    cells : iterable of int, column, region or zones, optional
        The cells, of any resolutions; by default none.
    names : iterable, optional
        A name for each cell. Many cells may have one name; these may repeat and overlap.

    Raises
    ------
    H3FailedError
        If a text of a column does not parse as an index.
    H3MemoryAllocError
        If there is no memory for the zones.
    H3CellInvalidError
        If one is not a valid cell.
    H3DuplicateInputError
        If two overlap: a cell is given twice, or with an ancestor of it; with names, if two of different names do.
    ValueError
        If there are not as many names as cells, or a name is None or NaN.

    Examples
    --------
    >>> zones = Zones([0x85283473FFFFFFF, 0x8009FFFFFFFFFFF])
    >>> zones.of([0x862834707FFFFFF, 0x8428347FFFFFFFF])
    [599686042433355775, None]
    >>> counts = zones.count([0x862834707FFFFFF, 0x8428347FFFFFFFF])
    >>> counts[0x85283473FFFFFFF], counts.others
    (1, 1)
    >>> named = Zones([0x85283473FFFFFFF, 0x8009FFFFFFFFFFF], names=["north", "far"])
    >>> named.names_of([0x862834707FFFFFF, 0x8428347FFFFFFFF])
    ['north', None]
    >>> named.count([0x862834707FFFFFF], weights=[5])["north"]
    5
    """

    __slots__ = ()


class Areas(CellAreas[int]):
    """Areas that may overlap, over integers: cells with names, by which other cells are joined and counted.

    Parameters
    ----------
    cells : iterable of int, column, region or zones
        The cells, of any resolutions, which may repeat and overlap.
    names : iterable
        A name for each cell. Many cells may have one name, and are an area.

    Raises
    ------
    H3FailedError
        If a text of a column does not parse as an index.
    H3MemoryAllocError
        If there is no memory for the areas.
    H3CellInvalidError
        If one is not a valid cell.
    ValueError
        If there are not as many names as cells, or a name is None or NaN.

    Examples
    --------
    >>> areas = Areas([0x85283473FFFFFFF, 0x8428347FFFFFFFF], names=["north", "all"])
    >>> areas.names_of([0x862834707FFFFFF, 0x85283477FFFFFFF, 0x8009FFFFFFFFFFF])
    [['all', 'north'], ['all'], []]
    >>> counts = areas.count([0x862834707FFFFFF, 0x85283477FFFFFFF, 0x8009FFFFFFFFFFF])
    >>> counts["north"], counts["all"], counts.others
    (1, 2, 1)
    """

    __slots__ = ()
    _form = _Numbers


_fast.replace(globals(), over_texts=False)
