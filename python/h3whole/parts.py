"""Compaction of a list of cells, and counts by zones, in parts, in other processes or on other machines.

A list of cells that do not overlap may be cut into parts in any way. Compact each part, and then the results, one after
another: this is the compacted list of the whole. That is proved of libh3whole's compaction. The counts of zones in the
parts of any list add up to those in the whole. That is proved of its counting.

Nothing is lost in silence. Each part counts the cells that it is given, and adds up how many cells of resolution 15
they cover, or how many of them are in each zone. Each hand-over is counted on both sides, and each part has to come
once. Any difference is a PartsError."""

import math
from array import array
from functools import partial
from typing import Any, Callable, Dict, Iterable, Iterator, List, NamedTuple, Optional, Set, Tuple, TypeVar
from uuid import uuid4

from . import columns
from .errors import H3BaseException, error_of
from .regions import CellZones, Counts

__all__ = ["CountedPart", "Part", "PartsError", "compact_cells", "compact_part", "count_cells", "count_part"]

_Cell = TypeVar("_Cell", str, int)


class PartsError(Exception):
    """The cells that a part was given, or those that it returned, are not those that arrived."""


class Part(NamedTuple):
    """A compacted part, as `compact_part` returns it.

    Attributes
    ----------
    number : int
        Its number.
    given : int
        The number of cells that it was given.
    covered : int
        The number of cells of resolution 15 that these cover.
    count : int
        The number of compacted cells.
    cells : array of 64-bit integers
        The compacted cells, ascending.
    """

    number: int
    given: int
    covered: int
    count: int  # type: ignore[assignment]
    cells: "array[int]"


def compact_part(numbered: Tuple[int, Any]) -> Part:
    """Compact a part. This runs where the part is: in another process, or on another machine.

    Parameters
    ----------
    numbered : (int, column)
        The part's number, and its cells in a column of 64-bit integers: an array, a memoryview, a numpy array, a
        Series, or a column in Arrow's memory that has a length.

    Returns
    -------
    Part
        The compacted cells, with what `compact_cells` compares.

    Raises
    ------
    H3MemoryAllocError
        If there is no memory for the compacted cells.
    H3CellInvalidError
        If one is not a valid cell.
    H3DuplicateInputError
        If two overlap: a cell is given twice, or with an ancestor of it.

    Notes
    -----
    The text of an error of H3 has the part's number.
    """
    number, column = numbered
    try:
        compacted = columns.compact_cells(memoryview(columns._memory_of(column)))
    except H3BaseException as error:
        raise error_of(error.number or 0, f"part {number}: {error}") from None
    cells = array("Q")
    cells.frombytes(compacted.cast("B"))
    return Part(number, _count(column), _covered(column), len(cells), cells)


def compact_cells(parts: Any, run: Callable[..., Iterable[Part]] = map) -> "array[int]":
    """Return the shortest list of cells that covers what the parts cover, ascending.

    Parameters
    ----------
    parts : iterable of columns, or dask.bag of integers
        The cells. A column is one of 64-bit integers, as `compact_part` takes it. Each partition of a bag is a part.
    run : callable, optional
        Calls a function for each part of an iterable, as the built-in `map` does, and returns the results in any order:
        `map` of an executor of concurrent.futures, `imap_unordered` of a pool of multiprocessing, or
        `client.get_executor().map` for a client of dask.distributed. By default `map` itself. A list of parts comes to
        it as a list, which dask wants, and any other iterable as an iterator, which makes one part after another. It is
        not used for a bag, which dask's own scheduler runs.

    Returns
    -------
    array of 64-bit integers
        The compacted list.

    Raises
    ------
    H3MemoryAllocError
        If there is no memory for the compacted cells.
    H3CellInvalidError
        If one is not a valid cell.
    H3DuplicateInputError
        If two overlap, in one part or in two.
    PartsError
        If something was lost: a part did not come, came twice, or its cells are not those that were sent or returned.

    Notes
    -----
    The text of an error in a part has the part's number.

    The number of cells in a bag's partition is not known before it is computed, so what is lost before that goes
    unnoticed.
    """
    sent: Dict[int, Optional[int]] = {}
    joined, covered = array("Q"), 0
    numbers: Set[int] = set()
    for part in _run(compact_part, parts, sent, run):
        _check_part(part, sent, numbers)
        joined.extend(part.cells)
        covered += part.covered
    _check_all(sent, numbers)
    cells = columns.compact_cells(joined)
    _compare("the cells covered by all parts", covered, _covered(cells))
    return cells


def _covered(column: Any) -> int:
    """How many cells of resolution 15 the cells of a column cover."""
    return columns._sum(columns.cells_to_children_sizes(memoryview(columns._memory_of(column)), 15))


def _count(column: Any) -> int:
    """How many cells a column has, of any number of dimensions."""
    return int(math.prod(column.shape)) if hasattr(column, "shape") else len(column)


def _numbered(parts: Iterable[Any], sent: Dict[int, Optional[int]]) -> Iterator[Tuple[int, Any]]:
    """The parts with their numbers; what is sent is counted."""
    for number, part in enumerate(parts):
        sent[number] = _count(part)
        yield number, part


def _call_partition(call: Callable[..., Any], number: int, cells: Iterable[int]) -> Any:
    """Calls a function of parts for a partition of a bag."""
    return call((number, cells if isinstance(cells, array) and cells.typecode == "Q" else array("Q", cells)))


def _listed(column: "array[int]") -> List[int]:
    """The list of a column's integers. It is no function that dask knows: of a call of `list` it would take the column
    itself."""
    return column.tolist()


def _packed(value: Any) -> Any:
    """A list of integers in a graph of dask as a call that makes it of a column, since dask looks at each item of a
    list by itself. Anything else as it is."""
    if type(value) is not list or not value or not all(type(cell) is int for cell in value):
        return value
    try:
        return _listed, array("Q", value)
    except OverflowError:
        return value


def _run(
    call: Callable[..., Any], parts: Any, sent: Dict[int, Optional[int]], run: Callable[..., Any]
) -> Iterable[Any]:
    """What a function gives for each part; what is sent is counted."""
    if hasattr(parts, "to_delayed"):
        return _run_bag(call, parts, sent)
    numbered = _numbered(parts, sent)
    found: Iterable[Any] = run(call, list(numbered) if isinstance(parts, (list, tuple)) else numbered)
    return found


def _run_bag(call: Callable[..., Any], bag: Any, sent: Dict[int, Optional[int]]) -> Iterable[Any]:
    """The same of a dask.bag, which is counted only where its partitions are. The call of a partition is in the bag's
    own graph, and so runs where the partition is made; what it calls is there once."""
    from dask import compute  # type: ignore[attr-defined]

    count, name = bag.npartitions, f"h3whole-{uuid4().hex}"
    graph = {key: _packed(value) for key, value in dict(bag.dask).items()}
    graph[name] = call
    graph.update({(name, number): (_call_partition, name, number, (bag.name, number)) for number in range(count)})
    sent.update(dict.fromkeys(range(count)))
    found: Iterable[Any] = compute(*type(bag)(graph, name, count).to_delayed())  # type: ignore[no-untyped-call]
    return found


def _compare(what: str, counted: int, arrived: int) -> None:
    if counted != arrived:
        raise PartsError(f"{what}: {counted} were counted, and {arrived} arrived")


def _take(number: int, given: int, sent: Dict[int, Optional[int]], numbers: Set[int]) -> None:
    """A part that comes: it was asked for, comes once, and was given what was sent."""
    if number not in sent or number in numbers:
        raise PartsError(f"part {number}: it was not asked for, or came twice")
    numbers.add(number)
    wanted = sent[number]
    if wanted is not None:
        _compare(f"part {number}, cells given", wanted, given)


def _check_part(part: Part, sent: Dict[int, Optional[int]], numbers: Set[int]) -> None:
    """Both sides of the hand-overs of a part."""
    _take(part.number, part.given, sent, numbers)
    _compare(f"part {part.number}, compacted cells", part.count, len(part.cells))
    _compare(f"part {part.number}, cells covered", part.covered, _covered(part.cells))


def _check_all(sent: Dict[int, Optional[int]], numbers: Set[int]) -> None:
    if numbers != set(sent):
        raise PartsError(f"parts that are missing: {sorted(set(sent) - numbers)}")


# ---- counts


class CountedPart(NamedTuple):
    """A counted part, as `count_part` returns it.

    Attributes
    ----------
    number : int
        Its number.
    given : int
        The number of cells that it was given.
    counts : array of 64-bit integers
        The count of each zone, in the zones' own order, which is not ascending.
    others : int
        The number of cells in no zone.
    """

    number: int
    given: int
    counts: "array[int]"
    others: int


def count_part(zones: "CellZones[Any]", numbered: Tuple[int, Any]) -> CountedPart:
    """Count a part by zones. This runs where the part is: in another process, or on another machine.

    Parameters
    ----------
    zones : CellZones
        The zones.
    numbered : (int, column)
        The part's number, and its cells in a column, as `compact_part` takes it.

    Returns
    -------
    CountedPart
        The counts, with what `count_cells` compares.

    Raises
    ------
    H3MemoryAllocError
        If there is no memory for the counts.
    H3CellInvalidError
        If one is not a valid cell.

    Notes
    -----
    The text of an error of H3 has the part's number.
    """
    number, column = numbered
    try:
        found = zones._count(memoryview(columns._memory_of(column)), False)
    except H3BaseException as error:
        raise error_of(error.number or 0, f"part {number}: {error}") from None
    return CountedPart(number, _count(column), found._counts, found.others)


def count_cells(zones: "CellZones[_Cell]", parts: Any, run: Callable[..., Iterable[CountedPart]] = map) -> Any:
    """Count the cells of all parts in each zone, and in none, as `zones.count` does of the parts one after another.

    Parameters
    ----------
    zones : CellZones
        The zones.
    parts : iterable of columns, or dask.bag of integers
        The cells, as of `compact_cells`.
    run : callable, optional
        As of `compact_cells`.

    Returns
    -------
    Counts or Totals
        As of `zones.count`: the count of each zone, or of each name if the zones have names, and the number of cells in
        none.

    Raises
    ------
    H3MemoryAllocError
        If there is no memory for the counts.
    H3CellInvalidError
        If one is not a valid cell.
    PartsError
        If something was lost: a part did not come, came twice, or its counts do not add up to the cells that were sent.

    Notes
    -----
    The text of an error in a part has the part's number.
    """
    sent: Dict[int, Optional[int]] = {}
    numbers: Set[int] = set()
    counts = zones._count(array("Q"), False)
    for part in _run(partial(count_part, zones), parts, sent, run):
        _take(part.number, part.given, sent, numbers)
        _compare(f"part {part.number}, zones", len(zones), len(part.counts))
        _compare(f"part {part.number}, cells counted", part.given, sum(part.counts) + part.others)
        counts = counts + Counts(zones, part.counts, part.others, 0)
    _check_all(sent, numbers)
    return counts if zones._names is None else zones._totals(counts._counts, counts.others, counts.refused)
