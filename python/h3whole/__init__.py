"""H3's functions over indexes as texts, with h3-py's names.

`h3whole.int` has the same functions over indexes as integers, and `h3whole.columns` those that take a column of
indexes in one call. Each answer comes from libh3whole, which is compiled from proved code; this package checks the
types of its arguments, and passes them on."""

# (the module `int` of this package takes the name)
from builtins import int as _int
from typing import Any, Iterable, List, Optional, SupportsIndex, overload

from . import _fast
from . import columns as _columns
from . import errors as _errors
from . import int as _integers
from ._areas import CellAreas
from ._arguments import indexes_of as _indexes_of
from .errors import *  # noqa: F401,F403 (the exceptions are part of this module)
from .errors import H3FailedError
from .int import int_to_str, str_to_int
from .regions import CellRegion, CellSet, CellZones, Counts, Totals
from .table import Table, TableError, over_table, use_table

__version__ = "1.3.0"
__all__ = [
    *_errors.__all__,
    "Areas",
    "Counts",
    "Region",
    "Table",
    "TableError",
    "Totals",
    "Zones",
    "use_table",
    "are_neighbor_cells",
    "cell_to_center_child",
    "cell_to_child_pos",
    "cell_to_children",
    "cell_to_children_size",
    "cell_to_last_child",
    "cell_to_parent",
    "cells_to_directed_edge",
    "child_pos_to_cell",
    "compact_cells",
    "get_base_cell_number",
    "get_directed_edge_destination",
    "get_directed_edge_origin",
    "get_num_cells",
    "get_pentagons",
    "get_res0_cells",
    "get_resolution",
    "grid_disk_distances_unsafe",
    "grid_disk_unsafe",
    "grid_ring_unsafe",
    "int_to_str",
    "is_pentagon",
    "is_res_class_III",
    "is_valid_cell",
    "is_valid_directed_edge",
    "origin_to_directed_edges",
    "str_to_int",
    "uncompact_cells",
]


def _texts(indexes: Iterable[_int]) -> List[str]:
    return [int_to_str(index) for index in indexes]


def _parsed(text: Any) -> Optional[_int]:
    """The index of a text; None if it does not parse as an index, or is not a text."""
    try:
        return str_to_int(text)
    except (H3FailedError, TypeError):
        return None


# ---- inspection


def is_valid_cell(cell: Any) -> bool:
    """Return whether a text is that of a valid cell.

    Parameters
    ----------
    cell : object
        Any value; what is not a text is not a cell.
    """
    return _integers.is_valid_cell(_parsed(cell))


def get_resolution(cell: str) -> _int:
    """Return the resolution of a cell, 0 to 15.

    Parameters
    ----------
    cell : str
        A cell.

    Raises
    ------
    H3FailedError
        If a text does not parse as an index.
    H3CellInvalidError
        If it is not a valid cell.
    """
    return _integers.get_resolution(str_to_int(cell))


def get_base_cell_number(cell: str) -> _int:
    """Return the base cell of a cell, 0 to 121.

    Parameters
    ----------
    cell : str
        A cell.

    Raises
    ------
    H3FailedError
        If a text does not parse as an index.
    H3CellInvalidError
        If it is not a valid cell.
    """
    return _integers.get_base_cell_number(str_to_int(cell))


def is_pentagon(cell: str) -> bool:
    """Return whether a cell is a pentagon.

    Parameters
    ----------
    cell : str
        A cell.

    Raises
    ------
    H3FailedError
        If a text does not parse as an index.
    H3CellInvalidError
        If it is not a valid cell.
    """
    return _integers.is_pentagon(str_to_int(cell))


def is_res_class_III(cell: str) -> bool:
    """Return whether the resolution of a cell is Class III, which is odd.

    Parameters
    ----------
    cell : str
        A cell.

    Raises
    ------
    H3FailedError
        If a text does not parse as an index.
    H3CellInvalidError
        If it is not a valid cell.
    """
    return _integers.is_res_class_III(str_to_int(cell))


# ---- resolutions


def get_num_cells(res: SupportsIndex) -> _int:
    """Return the number of cells of a resolution.

    Parameters
    ----------
    res : int
        A resolution, 0 to 15.

    Raises
    ------
    H3ResDomainError
        If the resolution is not 0 to 15.
    """
    return _integers.get_num_cells(res)


def get_res0_cells() -> List[str]:
    """Return the texts of the 122 cells of resolution 0, ascending."""
    return _texts(_integers.get_res0_cells())


def get_pentagons(res: SupportsIndex) -> List[str]:
    """Return the texts of the 12 pentagons of a resolution, ascending.

    Parameters
    ----------
    res : int
        A resolution, 0 to 15.

    Raises
    ------
    H3ResDomainError
        If the resolution is not 0 to 15.
    """
    return _texts(_integers.get_pentagons(res))


# ---- the hierarchy


def cell_to_parent(cell: str, res: Optional[SupportsIndex] = None) -> str:
    """Return the text of a cell's ancestor at a resolution.

    Parameters
    ----------
    cell : str
        A cell.
    res : int, optional
        The resolution; by default the next coarser one.

    Raises
    ------
    H3FailedError
        If a text does not parse as an index.
    H3CellInvalidError
        If it is not a valid cell.
    H3ResDomainError
        If the resolution is not 0 to 15.
    H3ResMismatchError
        If the resolution is finer than the cell's.
    """
    wanted = get_resolution(cell) - 1 if res is None else res
    return _integers._text_at_resolution(_integers._cell_to_parent, cell, wanted)


def cell_to_center_child(cell: str, res: Optional[SupportsIndex] = None) -> str:
    """Return the text of the descendant in a cell's center at a resolution.

    Parameters
    ----------
    cell : str
        A cell.
    res : int, optional
        The resolution; by default the next finer one.

    Raises
    ------
    H3FailedError
        If a text does not parse as an index.
    H3CellInvalidError
        If it is not a valid cell.
    H3ResDomainError
        If the resolution is not from the cell's own to 15.
    """
    wanted = get_resolution(cell) + 1 if res is None else res
    return _integers._text_at_resolution(_integers._cell_to_center_child, cell, wanted)


def cell_to_last_child(cell: str, res: Optional[SupportsIndex] = None) -> str:
    """Return the text of a cell's last descendant at a resolution: the one with the greatest number.

    Parameters
    ----------
    cell : str
        A cell.
    res : int, optional
        The resolution; by default the next finer one.

    Raises
    ------
    H3FailedError
        If a text does not parse as an index.
    H3CellInvalidError
        If it is not a valid cell.
    H3ResDomainError
        If the resolution is not from the cell's own to 15.
    """
    wanted = get_resolution(cell) + 1 if res is None else res
    return _integers._text_at_resolution(_integers._cell_to_last_child, cell, wanted)


def cell_to_children_size(cell: str, res: Optional[SupportsIndex] = None) -> _int:
    """Return the number of descendants of a cell at a resolution.

    Parameters
    ----------
    cell : str
        A cell.
    res : int, optional
        The resolution; by default the next finer one.

    Raises
    ------
    H3FailedError
        If a text does not parse as an index.
    H3CellInvalidError
        If it is not a valid cell.
    H3ResDomainError
        If the resolution is not from the cell's own to 15.
    """
    return _integers.cell_to_children_size(str_to_int(cell), res)


def cell_to_children(cell: str, res: Optional[SupportsIndex] = None) -> List[str]:
    """Return the texts of a cell's descendants at a resolution, ascending.

    Parameters
    ----------
    cell : str
        A cell.
    res : int, optional
        The resolution; by default the next finer one.

    Raises
    ------
    H3FailedError
        If a text does not parse as an index.
    H3CellInvalidError
        If it is not a valid cell.
    H3ResDomainError
        If the resolution is not from the cell's own to 15.
    """
    return _texts(_integers.cell_to_children(str_to_int(cell), res))


def cell_to_child_pos(child: str, res_parent: SupportsIndex) -> _int:
    """Return the position of a cell, from 0 on, among the descendants of its ancestor at a resolution.

    Parameters
    ----------
    child : str
        A cell.
    res_parent : int
        The ancestor's resolution.

    Raises
    ------
    H3FailedError
        If a text does not parse as an index.
    H3CellInvalidError
        If it is not a valid cell.
    H3ResDomainError
        If the resolution is not 0 to 15.
    H3ResMismatchError
        If the resolution is finer than the cell's.
    """
    return _integers.cell_to_child_pos(str_to_int(child), res_parent)


def child_pos_to_cell(parent: str, res_child: SupportsIndex, child_pos: SupportsIndex) -> str:
    """Return the text of the descendant of a cell at a position.

    Parameters
    ----------
    parent : str
        A cell.
    res_child : int
        The descendant's resolution.
    child_pos : int
        The position, from 0 on.

    Raises
    ------
    H3FailedError
        If a text does not parse as an index.
    H3CellInvalidError
        If it is not a valid cell.
    H3ResDomainError
        If the resolution is not 0 to 15.
    H3ResMismatchError
        If the resolution is coarser than the cell's.
    H3DomainError
        If no descendant has this position.
    """
    return int_to_str(_integers.child_pos_to_cell(str_to_int(parent), res_child, child_pos))


# ---- directed edges


def is_valid_directed_edge(edge: Any) -> bool:
    """Return whether a text is that of a valid directed edge.

    Parameters
    ----------
    edge : object
        Any value; what is not a text is not an edge.
    """
    return _integers.is_valid_directed_edge(_parsed(edge))


def get_directed_edge_origin(edge: str) -> str:
    """Return the text of the cell that an edge leaves.

    Parameters
    ----------
    edge : str
        A directed edge.

    Raises
    ------
    H3FailedError
        If a text does not parse as an index.
    H3DirEdgeInvalidError
        If it is not a valid directed edge.
    """
    return int_to_str(_integers.get_directed_edge_origin(str_to_int(edge)))


def origin_to_directed_edges(origin: str) -> List[str]:
    """Return the texts of the edges that leave a cell, in ascending direction: six, of a pentagon five.

    Parameters
    ----------
    origin : str
        A cell.

    Raises
    ------
    H3FailedError
        If a text does not parse as an index.
    H3CellInvalidError
        If it is not a valid cell.
    """
    return _texts(_integers.origin_to_directed_edges(str_to_int(origin)))


# ---- over a base cell table


@overload
def grid_disk_unsafe(table: Table, origin: str, k: SupportsIndex) -> List[str]:
    ...


@overload
def grid_disk_unsafe(origin: str, k: SupportsIndex) -> List[str]:
    ...


@over_table
def grid_disk_unsafe(table, origin, k):  # type: ignore[no-untyped-def]
    """Return the texts of the cells within k steps of a cell, in the order of the walk: ring by ring.

    Parameters
    ----------
    table : Table
        A base cell table; may be left out after `use_table`.
    origin : str
        A cell.
    k : int
        The number of steps.

    Raises
    ------
    H3FailedError
        If a text does not parse as an index.
    H3CellInvalidError
        If it is not a valid cell.
    H3DomainError
        If `k` is below 0.
    H3PentagonError
        If the cell is a pentagon, or a step meets a pentagon base cell.
    """
    return _texts(_integers.grid_disk_unsafe(table, str_to_int(origin), k))


@overload
def grid_disk_distances_unsafe(table: Table, origin: str, k: SupportsIndex) -> List[List[str]]:
    ...


@overload
def grid_disk_distances_unsafe(origin: str, k: SupportsIndex) -> List[List[str]]:
    ...


@over_table
def grid_disk_distances_unsafe(table, origin, k):  # type: ignore[no-untyped-def]
    """Return the cells within k steps of a cell, ring by ring: a list of texts for each of 0 to k steps.

    Parameters
    ----------
    table : Table
        A base cell table; may be left out after `use_table`.
    origin : str
        A cell.
    k : int
        The number of steps.

    Raises
    ------
    H3FailedError
        If a text does not parse as an index.
    H3CellInvalidError
        If it is not a valid cell.
    H3DomainError
        If `k` is below 0.
    H3PentagonError
        If the cell is a pentagon, or a step meets a pentagon base cell.
    """
    return [_texts(ring) for ring in _integers.grid_disk_distances_unsafe(table, str_to_int(origin), k)]


@overload
def grid_ring_unsafe(table: Table, origin: str, k: SupportsIndex) -> List[str]:
    ...


@overload
def grid_ring_unsafe(origin: str, k: SupportsIndex) -> List[str]:
    ...


@over_table
def grid_ring_unsafe(table, origin, k):  # type: ignore[no-untyped-def]
    """Return the texts of the cells at k steps from a cell.

    Parameters
    ----------
    table : Table
        A base cell table; may be left out after `use_table`.
    origin : str
        A cell.
    k : int
        The number of steps.

    Raises
    ------
    H3FailedError
        If a text does not parse as an index.
    H3CellInvalidError
        If it is not a valid cell.
    H3DomainError
        If `k` is below 0.
    H3PentagonError
        If a step meets a pentagon base cell, or the ring does not close.
    """
    return _texts(_integers.grid_ring_unsafe(table, str_to_int(origin), k))


@overload
def are_neighbor_cells(table: Table, origin: str, destination: str) -> bool:
    ...


@overload
def are_neighbor_cells(origin: str, destination: str) -> bool:
    ...


@over_table
def are_neighbor_cells(table, origin, destination):  # type: ignore[no-untyped-def]
    """Return whether a step leads from the one cell to the other.

    Parameters
    ----------
    table : Table
        A base cell table; may be left out after `use_table`.
    origin : str
        A cell.
    destination : str
        Another cell.

    Raises
    ------
    H3FailedError
        If a text does not parse as an index.
    H3CellInvalidError
        If one is not a valid cell.
    H3ResMismatchError
        If their resolutions differ.
    H3PentagonError
        If they differ, and the base cell of one is a pentagon.
    """
    return _integers.are_neighbor_cells(table, str_to_int(origin), str_to_int(destination))


@overload
def cells_to_directed_edge(table: Table, origin: str, destination: str) -> str:
    ...


@overload
def cells_to_directed_edge(origin: str, destination: str) -> str:
    ...


@over_table
def cells_to_directed_edge(table, origin, destination):  # type: ignore[no-untyped-def]
    """Return the text of the edge from a cell to a neighbor.

    Parameters
    ----------
    table : Table
        A base cell table; may be left out after `use_table`.
    origin : str
        A cell.
    destination : str
        Another cell.

    Raises
    ------
    H3FailedError
        If a text does not parse as an index.
    H3CellInvalidError
        If one is not a valid cell.
    H3ResMismatchError
        If their resolutions differ.
    H3NotNeighborsError
        If they are the same, or no step leads from the one to the other.
    H3PentagonError
        If they differ, and the base cell of one is a pentagon.
    """
    return int_to_str(_integers.cells_to_directed_edge(table, str_to_int(origin), str_to_int(destination)))


@overload
def get_directed_edge_destination(table: Table, edge: str) -> str:
    ...


@overload
def get_directed_edge_destination(edge: str) -> str:
    ...


@over_table
def get_directed_edge_destination(table, edge):  # type: ignore[no-untyped-def]
    """Return the text of the cell that an edge leads to.

    Parameters
    ----------
    table : Table
        A base cell table; may be left out after `use_table`.
    edge : str
        A directed edge.

    Raises
    ------
    H3FailedError
        If a text does not parse as an index.
    H3DirEdgeInvalidError
        If it is not a valid directed edge.
    H3PentagonError
        If the base cell of either end is a pentagon.
    """
    return int_to_str(_integers.get_directed_edge_destination(table, str_to_int(edge)))


# ---- sets of cells


def compact_cells(cells: Iterable[str]) -> List[str]:
    """Return the texts of the shortest list of cells that covers the same, ascending.

    Parameters
    ----------
    cells : iterable of str
        Cells, of one resolution or of several.

    Raises
    ------
    H3FailedError
        If a text does not parse as an index.
    H3CellInvalidError
        If one is not a valid cell.
    H3DuplicateInputError
        If two overlap: a cell is given twice, or with an ancestor of it.
    """
    return _texts(_integers.compact_cells(_indexes_of(str_to_int, cells)))


def uncompact_cells(cells: Iterable[str], res: SupportsIndex) -> List[str]:
    """Return the texts of the descendants at a resolution of the first cell, ascending, then those of the second, and
    so on.

    Parameters
    ----------
    cells : iterable of str
        Cells.
    res : int
        The descendants' resolution.

    Raises
    ------
    H3FailedError
        If a text does not parse as an index.
    H3CellInvalidError
        If one is not a valid cell.
    H3ResDomainError
        If the resolution is not 0 to 15.
    H3ResMismatchError
        If a cell is finer.
    """
    return _texts(_integers.uncompact_cells(_indexes_of(str_to_int, cells), res))


class _Texts(CellSet[str]):
    """Cells as texts."""

    __slots__ = ()

    @staticmethod
    def _index_of(cell: str) -> _int:
        return str_to_int(cell)

    @staticmethod
    def _form_of(index: _int) -> str:
        return int_to_str(index)

    @classmethod
    def _listed(cls, convert: Any, cells: Any) -> Any:
        # (a subclass may have another form of its own, and an iterator is taken one by one)
        if cls._index_of is not _Texts._index_of or type(cells) not in (list, tuple):
            return super()._listed(convert, cells)
        return _columns._listed_texts(convert, cells)

    @classmethod
    def _forms_or_none(cls, zones: Any) -> Any:
        if cls._form_of is not _Texts._form_of:
            return super()._forms_or_none(zones)
        return _columns._texts_or_none(zones)


class Region(_Texts, CellRegion[str]):
    """What cells cover, over texts: a set that never changes.

    Parameters
    ----------
    cells : iterable of str, column, region or zones, optional
        The cells, which may repeat and overlap; by default none.

    Raises
    ------
    H3FailedError
        If a text does not parse as an index.
    H3MemoryAllocError
        If there is no memory for the region.
    H3CellInvalidError
        If one is not a valid cell.

    Notes
    -----
    A region has `|`, `&`, `-`, `^`, `<=`, `==`, `in` (whether it covers a cell), `len`, a hash, and the texts of its
    cells, ascending. It has as few as can be: the shortest list that covers the same.

    Examples
    --------
    >>> region = Region(["8428347ffffffff"])
    >>> "85283473fffffff" in region
    True
    >>> region - Region(["85283473fffffff"]) <= region
    True
    """

    __slots__ = ()


class Zones(_Texts, CellZones[str]):
    """Zones, over texts: cells that do not overlap, by which other cells are joined and counted.

    Parameters
    ----------
    cells : iterable of str, column, region or zones, optional
        The cells, of any resolutions; by default none.
    names : iterable, optional
        A name for each cell. Many cells may have one name; these may repeat and overlap.

    Raises
    ------
    H3FailedError
        If a text does not parse as an index.
    H3MemoryAllocError
        If there is no memory for the zones.
    H3CellInvalidError
        If one is not a valid cell.
    H3DuplicateInputError
        If two overlap: a cell is given twice, or with an ancestor of it; with names, if two of different names do.
    ValueError
        If there are not as many names as cells, or a name is None or NaN.

    Examples
    --------
    >>> zones = Zones(["85283473fffffff", "8009fffffffffff"])
    >>> zones.of(["862834707ffffff", "8428347ffffffff"])
    ['85283473fffffff', None]
    >>> counts = zones.count(["862834707ffffff", "8428347ffffffff"])
    >>> counts["85283473fffffff"], counts.others
    (1, 1)
    >>> named = Zones(["85283473fffffff", "8009fffffffffff"], names=["north", "far"])
    >>> named.names_of(["862834707ffffff", "8428347ffffffff"])
    ['north', None]
    >>> named.count(["862834707ffffff"], weights=[5])["north"]
    5
    """

    __slots__ = ()


class Areas(CellAreas[str]):
    """Areas that may overlap, over texts: cells with names, by which other cells are joined and counted.

    Parameters
    ----------
    cells : iterable of str, column, region or zones
        The cells, of any resolutions, which may repeat and overlap.
    names : iterable
        A name for each cell. Many cells may have one name, and are an area.

    Raises
    ------
    H3FailedError
        If a text does not parse as an index.
    H3MemoryAllocError
        If there is no memory for the areas.
    H3CellInvalidError
        If one is not a valid cell.
    ValueError
        If there are not as many names as cells, or a name is None or NaN.

    Examples
    --------
    >>> areas = Areas(["85283473fffffff", "8428347ffffffff"], names=["north", "all"])
    >>> areas.names_of(["862834707ffffff", "85283477fffffff", "8009fffffffffff"])
    [['all', 'north'], ['all'], []]
    >>> counts = areas.count(["862834707ffffff", "85283477fffffff", "8009fffffffffff"])
    >>> counts["north"], counts["all"], counts.others
    (1, 2, 1)
    """

    __slots__ = ()
    _form = _Texts


_fast.replace(globals(), over_texts=True)
