"""Areas that may overlap: cells with names, by which other cells are joined and counted, each in any number of them."""

import ctypes
import sys
from array import array
from typing import Any, ClassVar, Generic, Iterable, List, Tuple, Type, TypeVar

from . import _library, columns
from ._library import _array, _size
from ._memory import room as _room
from ._names import Totals, names_in, numbered, ones, summed, weights_in
from .errors import error_of
from .regions import CellSet, _at

__all__ = ["CellAreas"]

_Cell = TypeVar("_Cell", str, int)

_cells_to_areas = _library.number("cellsToAreas", *(_array, _size) * 5, ctypes.POINTER(_size))


class CellAreas(Generic[_Cell]):
    """Areas that may overlap: cells with names, by which other cells are joined and counted.

    Parameters
    ----------
    cells : iterable of cells, column, region or zones
        The cells, of any resolutions, which may repeat and overlap.
    names : iterable
        A name for each cell, of any type that a dict takes as a key. The cells with one name are an area.

    Raises
    ------
    H3FailedError
        If a text does not parse as an index.
    H3MemoryAllocError
        If there is no memory for the areas.
    H3CellInvalidError
        If one is not a valid cell.
    ValueError
        If there are not as many names as cells, or a name is None or NaN.

    Notes
    -----
    A cell lies in each area that has it or an ancestor of it. Its areas are in the order of the resolution of each
    area's coarsest such cell; if these are the same, in the order in which the names were first given.

    Each call puts the cells of the areas in order, so ask about a column in one call. A subclass sets the form of its
    cells as that of a set of cells, `_form`.
    """

    __slots__ = ("_cells", "_names", "_numbers")

    _form: ClassVar[Type[CellSet[Any]]]
    # the cells as they were given, and the number of the name of each
    _cells: "array[int]"
    _names: List[Any]
    _numbers: "array[int]"

    def __init__(self, cells: Any, names: Iterable[Any]) -> None:
        given_names = names_in(names)
        self._names, self._numbers = numbered(given_names)
        with columns._Memory(self._form._column_of(cells)) as given:
            if given.count != len(given_names):
                raise ValueError(f"there are {len(given_names)} names for {given.count} cells")
            self._cells = given.copied()
            number, _, _, _ = self._asked(*_at(array("Q")))
            if number:
                raise error_of(number, columns._refused_cell(number, given))

    def __reduce__(self) -> Tuple[Any, ...]:
        # (what is unpickled is judged anew)
        return type(self), (self._cells, [self._names[number] for number in self._numbers])

    def __repr__(self) -> str:
        shown = ", ".join(map(repr, self._names[:4]))
        return f"{type(self).__name__} of {len(self._names)} names: {shown}{', ...' if len(self._names) > 4 else ''}"

    @property
    def names(self) -> List[Any]:
        """The names, each once, in the order in which they were first given."""
        return self._names[:]

    def _asked(self, address: int, count: int) -> "Tuple[int, array[int], array[int], int]":
        """What the library returns for so many cells: an error, the numbers of the areas of all, where those of each
        begin, and the place of the error. There is room for one area of each at first, and then for as many as there
        are."""
        starts, place, room = _room("q", count + 1), _size(0), count
        while True:
            found = _room("I", room)
            given = _at(self._cells) + _at(self._numbers)
            number = _cells_to_areas(*given, address, count, *_at(starts), *_at(found), ctypes.byref(place))
            if number != 14 or starts[count] <= room:
                return number, found[: starts[count]], starts, place.value
            room = starts[count]

    def _found(self, column: Any, missing: bool, first: int = 0) -> "Tuple[array[int], array[int]]":
        """The numbers of the areas of a column of integers, and where those of each begin. An error is at the place
        `first` or after it."""
        with columns._Memory(column) as given:
            number, found, starts, place = self._asked(given.address, given.count)
            if number == 5 and not missing:
                raise error_of(number, given.named(max(place, first)))
            if number and number != 5:
                raise error_of(number, f"among {given.count} cells")
        return found, starts

    def places_of(self, cells: Any, *, missing: bool = False) -> "Tuple[array[int], array[int]]":
        """Return the areas of each cell as places in `names`, as one column, and where those of each cell begin.

        Parameters
        ----------
        cells : column, iterable of cells, region or zones
            The cells.
        missing : bool, optional
            Take what is not a valid cell as a cell in no area, and raise nothing for it.

        Returns
        -------
        places : array of 32-bit integers
            Those of the first cell, in their order, then those of the second, and so on.
        starts : array of 64-bit integers
            One more than there are cells: the areas of the cell at place i are `places[starts[i]:starts[i + 1]]`. A
            null in Arrow's memory has none.

        Raises
        ------
        H3FailedError
            If a text does not parse as an index.
        H3MemoryAllocError
            If there is no memory for the areas.
        H3CellInvalidError
            If one is not a valid cell.
        """
        if not columns._is_arrow(cells) or isinstance(cells, CellSet):
            return self._found(self._form._numbers_of(cells, missing), missing)
        _, numbers = columns._arrow_numbers(cells, missing)
        if not missing and numbers.null_count < len(numbers):
            self._found(memoryview(numbers.with_first()), False, numbers.first())
        return self._found(memoryview(numbers.filled(0)), True)

    def names_of(self, cells: Any, *, missing: bool = False) -> Any:
        """Return the names of the areas of each cell.

        Parameters
        ----------
        cells : column, iterable of cells, region or zones
            The cells.
        missing : bool, optional
            Take what is not a valid cell as a cell in no area, and raise nothing for it.

        Returns
        -------
        Series or numpy array of objects, or list
            A list of names for each cell, in the order of its areas: for a Series a Series with the same index, which
            `Series.explode` takes apart, for a numpy array one of the same shape, and else a list.

        Raises
        ------
        H3FailedError
            If a text does not parse as an index.
        H3MemoryAllocError
            If there is no memory for the areas.
        H3CellInvalidError
            If one is not a valid cell.
        """
        places, starts = self.places_of(cells, missing=missing)
        names = [self._names[place] for place in places]
        found = [names[begin:end] for begin, end in zip(starts, starts[1:])]
        if not columns._has_numpy(cells):
            return found
        listed = sys.modules["numpy"].empty(len(found), dtype=object)
        # (one by one: of lists of one length numpy would make more dimensions)
        for place, own in enumerate(found):
            listed[place] = own
        if not columns._is_series(cells):
            return listed.reshape(cells.shape)
        return type(cells)(listed, index=cells.index, name=cells.name, dtype=object)

    def count(self, cells: Any, *, weights: Any = None, missing: bool = False) -> "Totals[Any]":
        """Count the cells in each area, and in none; or add up their weights.

        Parameters
        ----------
        cells : column, iterable of cells, region or zones
            The cells.
        weights : iterable or column, optional
            A number for each cell: integers, also of numpy, `Decimal` or `Fraction`. They are added up exactly, so
            floats are refused.
        missing : bool, optional
            Count what is not a valid cell by itself, as `Totals.refused`, and raise nothing for it.

        Returns
        -------
        Totals
            The number of cells in each area, by name, and in none; with weights, their sums. A cell counts in each of
            its areas, so these may add up to more than the number of cells.

        Raises
        ------
        H3FailedError
            If a text does not parse as an index.
        H3MemoryAllocError
            If there is no memory for the counts.
        H3CellInvalidError
            If one is not a valid cell. A null in a column in Arrow's memory is not one.
        TypeError
            If a weight is a float, or not a number.
        ValueError
            If there are not as many weights as cells.
        """
        if columns._is_arrow(cells) and not isinstance(cells, CellSet):
            numbers = columns._cells_of_arrow(cells, missing)
        else:
            numbers = self._form._numbers_of(cells, missing)
        with columns._Memory(numbers) as given:
            asked = memoryview(given.copied())
        exact = ones(len(asked)) if weights is None else weights_in(weights, len(asked))
        rows, groups = self._counted(asked, missing)
        *sums, others, refused = summed(_picked(exact, rows), groups, len(self._names) + 2)
        return Totals(self._names, sums, others, refused)

    def _counted(self, asked: memoryview, missing: bool) -> "Tuple[array[int], array[int]]":
        """What is counted of cells: the place of a cell, and the number of an area of it; or, of one in none, how many
        names there are, and one more if it is not valid."""
        found, starts = self._found(asked, missing)
        are_valid, size = columns.are_valid_cells(asked), len(self._names)
        rows, groups = array("q"), array("q")
        for place, (begin, end) in enumerate(zip(starts, starts[1:])):
            own = found[begin:end].tolist() or [size + (not are_valid[place])]
            rows.extend([place] * len(own))
            groups.extend(own)
        return rows, groups


def _picked(weights: Any, places: "array[int]") -> Any:
    """The weights at places: a column of numpy of one, else a list."""
    if isinstance(weights, list):
        return [weights[place] for place in places]
    return weights[sys.modules["numpy"].asarray(places, dtype="int64")]
