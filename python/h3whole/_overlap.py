"""Which cells overlap, after the library has refused them for it: E_DUPLICATE_INPUT names none."""

import ctypes
from array import array
from typing import Any, Dict, List, Tuple

from . import _library
from ._library import _array, _resolution, _size

__all__ = ["areas_overlap_named", "overlap_named"]

_cells_to_parents = _library.number("cellsToParents", _array, _size, _resolution, _array, _size, ctypes.POINTER(_size))
_find_overlap = _library.number("findOverlap", _array, _size, ctypes.POINTER(_size), ctypes.POINTER(_size))


def overlap_named(cells: "array[int]") -> str:
    """The first cell that overlaps an earlier one, and the first that it overlaps, with their places, as an exception
    names them. Without memory to look for them they are left out."""
    about, later, earlier = f"among {len(cells)} cells", _size(), _size()
    number = _find_overlap(cells.buffer_info()[0], len(cells), ctypes.byref(later), ctypes.byref(earlier))
    if number or later.value >= len(cells):
        return about
    named = [f"{cells[place.value]:x} at place {place.value}" for place in (later, earlier)]
    return f"{about}: {named[0]} overlaps {named[1]}"


def _ancestors(cells: "array[int]") -> "List[array[int]]":
    """The ancestors of cells at each resolution, and at its own a cell itself; 0 at finer ones."""
    address, count, place = cells.buffer_info()[0], len(cells), _size()
    found = []
    for res in range(16):
        at_res = array("Q", bytes(8)) * count
        _cells_to_parents(address, count, res, at_res.buffer_info()[0], count, ctypes.byref(place))
        found.append(at_res)
    return found


def areas_overlap_named(cells: "array[int]", names: List[Any]) -> str:
    """Two cells of different names that overlap: the first one that overlaps an earlier one, and one that it overlaps,
    with their places and names, as an exception names them."""
    places: Dict[int, Dict[Any, int]] = {}
    for place, (cell, name) in enumerate(zip(cells, names)):
        places.setdefault(cell, {}).setdefault(name, place)
    found: List[Tuple[int, int]] = []
    for at_res in _ancestors(cells):
        for place, (above, name) in enumerate(zip(at_res, names)):
            others = [other for other_name, other in places.get(above, {}).items() if other_name != name]
            found.extend((max(place, other), min(place, other)) for other in others[:1])
    about = f"among {len(cells)} cells"
    if not found:
        return about
    named = [f"{cells[place]:x} of {names[place]!r} at place {place}" for place in min(found)]
    return f"{about}: {named[0]} overlaps {named[1]}"
