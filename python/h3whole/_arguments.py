"""Arguments of the library's functions, made of what programs have for them: integers of any kind, those of numpy
too."""

from array import array
from operator import index as whole_number
from typing import Any, Callable, Iterable, SupportsIndex

from .errors import H3BaseException, H3CellInvalidError, H3DirEdgeInvalidError, H3FailedError

__all__ = ["MOST", "as_cell", "as_edge", "as_int", "as_int64", "as_res", "as_text", "indexes_of", "whole_number"]

# what an index is below
MOST = 2**64


def _refuse(number: object) -> TypeError:
    return TypeError(f"a whole number is wanted, and not {number!r}")


def as_int(number: SupportsIndex) -> int:
    """A number as an int of C: -1 in place of one that it can't hold, which is refused alike."""
    try:
        given = whole_number(number)
    except TypeError:
        raise _refuse(number) from None
    return given if -(2**31) <= given < 2**31 else -1


def as_res(number: SupportsIndex) -> int:
    """The same of a resolution, which is named where it is no number."""
    try:
        return as_int(number)
    except TypeError as error:
        raise TypeError(f"res: {error}") from None


def as_int64(number: SupportsIndex) -> int:
    """A number as an int64_t of C: -1 in place of one that it can't hold, which is refused alike."""
    try:
        given = whole_number(number)
    except TypeError:
        raise _refuse(number) from None
    return given if -(2**63) <= given < 2**63 else -1


def _index(number: SupportsIndex) -> int:
    try:
        return whole_number(number)
    except TypeError:
        hint = ": h3whole itself has the functions over texts" if isinstance(number, str) else ""
        raise TypeError(f"an index is a whole number, and not {number!r}{hint}") from None


def as_cell(number: SupportsIndex) -> int:
    """A number that the index of a cell can be."""
    given = _index(number)
    if not 0 <= given < MOST:
        raise H3CellInvalidError(f"error 5: E_CELL_INVALID: {given}")
    return given


def as_edge(number: SupportsIndex) -> int:
    """A number that the index of an edge can be."""
    given = _index(number)
    if not 0 <= given < MOST:
        raise H3DirEdgeInvalidError(f"error 6: E_DIR_EDGE_INVALID: {given}")
    return given


def as_text(text: str) -> bytes:
    """The bytes of a text, where it is of ASCII's characters."""
    try:
        return text.encode("ascii")
    except UnicodeEncodeError:
        raise H3FailedError(f"error 1: E_FAILED: {text!r}") from None
    except AttributeError:
        hint = ": h3whole.int has the functions over integers" if hasattr(text, "__index__") else ""
        raise TypeError(f"an index is a text, and not {text!r}{hint}") from None


def indexes_of(convert: Callable[[Any], int], cells: Iterable[Any]) -> "array[int]":
    """The indexes of a list of cells, each by itself. An error of H3 names the place."""
    if isinstance(cells, (str, bytes)):
        raise TypeError(f"cells are wanted, and not one text: {cells!r}")
    found = array("Q")
    try:
        found.extend(map(convert, cells))
    except H3BaseException as error:
        raise type(error)(f"{error} at place {len(found)}") from None
    return found
