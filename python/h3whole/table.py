"""Base cell tables, over which cells are walked to their neighbors.

A table describes how the base cells of hexagons lie beside each other. H3 does not ship one as a file: the repository's
tools/h3-table makes it from H3's sources."""

import ctypes
import functools
from os import PathLike
from typing import Any, Callable, Optional, Union

from . import _library
from .errors import H3MemoryAllocError

__all__ = ["Table", "TableError", "use_table"]

_FAULTS = {
    3: "form {at}",
    4: "range {at}",
    5: "repeated {at}",
    6: "missing",
    7: "neighbours {at}",
    8: "reversal {at} {direction}",
    9: "corner {at} {direction}",
}


class TableError(ValueError):
    """A table file is refused.

    Parameters
    ----------
    code : int
        Why, by the numbers of h3whole.h: 3 to 9.
    at : int
        The record that the error is about (1 is the header), or the base cell; also 0 if the error has neither.
    direction : int
        The direction that the error is about, 1 to 6; 0 if the error has none.

    Attributes
    ----------
    code, at, direction : int
        As above.
    """

    def __init__(self, code: int, at: int, direction: int) -> None:
        super().__init__(code, at, direction)
        self.code, self.at, self.direction = code, at, direction

    def __str__(self) -> str:
        text = _FAULTS.get(self.code, "error {code}")
        return "table: " + text.format(code=self.code, at=self.at, direction=self.direction)


class Table:
    """A base cell table, from the bytes of its file. It never changes, and threads may share it.

    Parameters
    ----------
    file : bytes
        The file, in one of the two formats that tools/h3-table writes.

    Raises
    ------
    TypeError
        If `file` is not bytes.
    H3MemoryAllocError
        If there is no memory for the file's records.
    TableError
        If the file is refused.
    """

    __slots__ = ("_own",)

    def __init__(self, file: bytes) -> None:
        if not isinstance(file, bytes):
            raise TypeError(f"the bytes of a table's file are wanted, and not {file!r}")
        fault = _library.TableFault()
        self._own = _library.read_table(file, len(file), ctypes.byref(fault))
        if fault.code == 2:
            raise H3MemoryAllocError("error 13: E_MEMORY_ALLOC: a table")
        if fault.code:
            raise TableError(fault.code, fault.at, fault.direction)

    @classmethod
    def read(cls, path: "Union[str, bytes, PathLike[Any]]") -> "Table":
        """Return the table in the file at a path.

        Parameters
        ----------
        path : str, bytes or PathLike
            The path.

        Returns
        -------
        Table
            The table.

        Raises
        ------
        OSError
            If the file cannot be read.
        H3MemoryAllocError
            If there is no memory for the file's records.
        TableError
            If the file is refused.
        """
        with open(path, "rb") as file:
            return cls(file.read())

    def _address(self) -> Any:
        return ctypes.byref(self._own)


_used: Optional[Table] = None


def use_table(table: Table) -> None:
    """Set the table for calls without one, as `grid_disk_unsafe(origin, k)`, in this process.

    Parameters
    ----------
    table : Table
        The table.

    Raises
    ------
    TypeError
        If it is not a table.
    """
    global _used
    if not isinstance(table, Table):
        raise TypeError(f"a table is wanted, and not {table!r}")
    _used = table


def over_table(walk: Callable[..., Any]) -> Callable[..., Any]:
    """The same function, over the table of `use_table` if none is passed. A table is passed first, or by its name."""
    most = walk.__code__.co_argcount

    @functools.wraps(walk)
    def over(*given: Any, **named: Any) -> Any:
        if "table" in named or (given and isinstance(given[0], Table)):
            return walk(*given, **named)
        if len(given) + len(named) >= most:
            raise TypeError(f"{walk.__name__}: a table is wanted first, and not {given[:1]!r}")
        if _used is None:
            raise TypeError(
                f"{walk.__name__}: a table is wanted first; or call h3whole.use_table(h3whole.Table.read(path)) once"
            )
        return walk(_used, *given, **named)

    return over
