"""Names of areas, and weights: numbers that are added up exactly."""

import sys
from array import array
from decimal import MAX_EMAX, MAX_PREC, MIN_EMIN, Context, Decimal, localcontext
from fractions import Fraction
from typing import AbstractSet, Any, Dict, Iterator, List, Mapping, Sequence, Tuple, TypeVar

from ._arguments import whole_number

__all__ = ["Totals", "names_in", "numbered", "ones", "summed", "weights_in"]

_Key = TypeVar("_Key")

# sums of decimals have as many digits as they need
_EXACT = Context(prec=MAX_PREC, Emax=MAX_EMAX, Emin=MIN_EMIN)

_KINDS = "a weight is an integer, a Decimal or a Fraction"
_INSTEAD = (
    "a float is not exact (0.1 + 0.2 is not 0.3): pass integers of the smallest unit, as cents, or Decimal(str(x))"
)


def _in_order(items: Any, what: str) -> None:
    """Refuses what has no order, or names its items by other things than their places, or hides some of them."""
    if isinstance(items, (str, bytes)):
        raise TypeError(f"{what} are wanted, and not one text: {items!r}")
    if isinstance(items, (Mapping, AbstractSet)):
        raise TypeError(f"{what} are wanted in the order of the cells, and not a {type(items).__name__}")
    numpy = sys.modules.get("numpy")
    if numpy is not None and isinstance(items, numpy.ma.MaskedArray):
        raise TypeError(f"{what} are wanted, and not an array with a mask")


def _is_missing(name: Any) -> bool:
    """Whether a name is None, NaN or pandas' NA, which is neither equal to itself nor not."""
    if name is None:
        return True
    try:
        return bool(name != name)
    except (TypeError, ValueError):
        return True


def names_in(names: Any) -> List[Any]:
    """Names as a list. None, NaN and pandas' NA are none."""
    _in_order(names, "names")
    found = list(names)
    for place, name in enumerate(found):
        if _is_missing(name):
            raise ValueError(f"there is no name at place {place}")
    return found


def numbered(names: List[Any]) -> "Tuple[List[Any], array[int]]":
    """Each name once, in the order in which they are first there, and the number of each of the names."""
    numbers: Dict[Any, int] = {}
    given = array("I", (numbers.setdefault(name, len(numbers)) for name in names))
    return list(numbers), given


def _is_float(weight: Any) -> bool:
    return isinstance(weight, float) or getattr(getattr(weight, "dtype", None), "kind", "") == "f"


def _weight(weight: Any, place: int) -> Any:
    """A weight of a list."""
    if isinstance(weight, Decimal):
        if weight.is_finite():
            return weight
        raise ValueError(f"{_KINDS}, and not {weight} at place {place}")
    if isinstance(weight, Fraction):
        return weight
    if _is_float(weight):
        raise TypeError(f"{_KINDS}, and not {weight!r} at place {place}: {_INSTEAD}")
    try:
        return whole_number(weight)
    except TypeError:
        raise TypeError(f"{_KINDS}, and not {weight!r} at place {place}") from None


def _of_one_kind(weights: List[Any]) -> List[Any]:
    """Weights as fractions, if one of them is one; else as decimals, if one is; else as integers."""
    for kind in (Fraction, Decimal):
        if any(isinstance(weight, kind) for weight in weights):
            return list(map(kind, weights))
    return weights


def weights_in(weights: Any, count: int) -> Any:
    """The weights of so many cells: a column of integers of numpy, or a list of one kind."""
    _in_order(weights, "weights")
    kind = getattr(getattr(weights, "dtype", None), "kind", "")
    if isinstance(weights, (array, memoryview)):
        kind = "f" if (weights.typecode if isinstance(weights, array) else weights.format)[-1] in "efd" else ""
    if kind == "f":
        raise TypeError(f"{_KINDS}, and not a column of floats: {_INSTEAD}")
    found = weights if hasattr(weights, "__len__") else list(weights)
    if len(found) != count:
        raise ValueError(f"there are {len(found)} weights for {count} cells")
    if kind in ("i", "u") and not (hasattr(found, "isna") and found.isna().any()):
        return sys.modules["numpy"].asarray(found, dtype="int64" if kind == "i" else "uint64")
    return _of_one_kind([_weight(weight, place) for place, weight in enumerate(found)])


def ones(count: int) -> Any:
    """A weight of 1 for each of so many cells, by which they are counted."""
    numpy = sys.modules.get("numpy")
    return [1] * count if numpy is None else numpy.ones(count, dtype="int64")


# how many halves of integers are added up as floats, which have 53 bits, and how many such sums as 64-bit integers
_EXACT_IN_FLOATS = 2**20
_EXACT_IN_INTEGERS = 2**30


def _summed_by_numpy(weights: Any, groups: Any, size: int) -> List[int]:
    """Sums of 64-bit integers: of their upper and their lower halves, so no sum is rounded or runs over."""
    numpy = sys.modules["numpy"]
    groups = numpy.asarray(groups, dtype="int64")
    sums = [0] * size
    for first in range(0, len(weights), _EXACT_IN_INTEGERS):
        halves = numpy.zeros((2, size), dtype="int64")
        for start in range(first, min(first + _EXACT_IN_INTEGERS, len(weights)), _EXACT_IN_FLOATS):
            part, of = weights[start : start + _EXACT_IN_FLOATS], groups[start : start + _EXACT_IN_FLOATS]
            for half, numbers in enumerate((part >> 32, part & 0xFFFFFFFF)):
                found = numpy.bincount(of, weights=numbers.astype("float64"), minlength=size)
                halves[half] += found.astype("int64")
        sums = [total + (upper << 32) + lower for total, upper, lower in zip(sums, *halves.tolist())]
    return sums


def summed(weights: Any, groups: Sequence[int], size: int) -> List[Any]:
    """The sum of the weights of each group, of which there are `size`."""
    if not isinstance(weights, list):
        return _summed_by_numpy(weights, groups, size)
    sums: List[Any] = [type(weights[0])(0) if weights else 0] * size
    with localcontext(_EXACT):
        for weight, group in zip(weights, groups):
            sums[group] += weight
    return sums


def _added(first: Any, second: Any) -> Any:
    with localcontext(_EXACT):
        one, other = _of_one_kind([first, second])
        return one + other


class Totals(Mapping[_Key, Any]):
    """The number of cells with each name or ancestor, or the sum of their weights by name, zone or ancestor: a mapping,
    as `CellZones.count` returns it for zones with names or with weights, `CellAreas.count` and `columns.count_parents`.

    Attributes
    ----------
    others : int, Decimal or Fraction
        The same of the cells in no zone.
    refused : int, Decimal or Fraction
        The same of those that are not valid cells; 0 without `missing=True`.

    Notes
    -----
    All values, `others` and `refused` add up to those of all cells; in areas that overlap a cell counts more than once.
    Names are in the order in which they were first given, zones and ancestors ascending. Sums are exact: fractions if
    one of the weights is a Fraction, else decimals if one is a Decimal, else integers of any length.

    `a + b` adds up: the totals of the parts of a column make those of the whole. A ValueError says that the names or
    zones are not the same.

    Two of them are equal if they have the same items, `others` and `refused`. A dict, or another mapping, is equal if
    it has the same items and `others` and `refused` are 0. They have no hash.
    """

    __slots__ = ("_totals", "others", "refused")

    def __init__(self, keys: Sequence[_Key], values: Sequence[Any], others: Any, refused: Any) -> None:
        self._totals: Dict[_Key, Any] = dict(zip(keys, values))
        self.others, self.refused = others, refused

    def __getitem__(self, key: _Key) -> Any:
        return self._totals[key]

    def __iter__(self) -> Iterator[_Key]:
        return iter(self._totals)

    def __len__(self) -> int:
        return len(self._totals)

    def __eq__(self, other: object) -> bool:
        if not isinstance(other, Mapping):
            return NotImplemented
        beside = (getattr(other, "others", 0), getattr(other, "refused", 0))
        return (self.others, self.refused) == beside and super().__eq__(other)

    def __add__(self, other: "Totals[_Key]") -> "Totals[_Key]":
        if not isinstance(other, Totals):
            return NotImplemented
        if list(self._totals) != list(other._totals):
            raise ValueError("totals of other names or zones do not add up")
        values = [_added(*both) for both in zip(self._totals.values(), other._totals.values())]
        others, refused = _added(self.others, other.others), _added(self.refused, other.refused)
        return Totals(list(self._totals), values, others, refused)

    def __repr__(self) -> str:
        return f"Totals of {len(self)}: {self._totals!r}, {self.others!r} others, {self.refused!r} refused"

    def column(self) -> Tuple[List[_Key], List[Any]]:
        """Return the names or zones and their values as two lists, of which a DataFrame can be made.

        Returns
        -------
        keys : list
            The names, or the zones.
        values : list
            The count or the sum of each.
        """
        return list(self._totals), list(self._totals.values())
