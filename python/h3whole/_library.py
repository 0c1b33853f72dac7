"""The shared object libh3whole, and its functions as its header, h3whole.h, declares them.

It is looked for at the path in H3WHOLE_LIBRARY, if that is set; then in the package, where pip puts it; then where
tools/library makes it, in a tree of the project's sources; then where the system's linker looks."""

import ctypes
import os
from ctypes.util import find_library
from typing import Any, Callable

from .errors import error_of

__all__: "list[str]" = []

_NAME = "libh3whole.so.1"
_HERE = os.path.dirname(os.path.realpath(__file__))
_PLACES = [os.path.join(_HERE, _NAME), os.path.join(_HERE, "..", "..", "lib", _NAME)]


def _load() -> ctypes.CDLL:
    chosen = os.environ.get("H3WHOLE_LIBRARY")
    if chosen:
        return ctypes.CDLL(chosen)
    for place in _PLACES:
        if os.path.exists(place):
            return ctypes.CDLL(place)
    try:
        return ctypes.CDLL(find_library("h3whole") or _NAME)
    except OSError as error:
        raise ImportError(
            f"h3whole: {_NAME} is not found: run tools/library in the sources, or ./install, "
            "or set H3WHOLE_LIBRARY to its path"
        ) from error


_library = _load()

_index = ctypes.c_uint64
_number = ctypes.c_int64
_truth = ctypes.c_int
_error = ctypes.c_uint32
_resolution = ctypes.c_int
_size = ctypes.c_size_t
# an array or a column, by its address
_array = ctypes.c_void_p


def value(name: str, result: Any, *arguments: Any) -> Callable[..., Any]:
    """A function of the library, by what it returns: a result, or an error."""
    function: Callable[..., Any] = getattr(_library, "h3w_" + name)
    _declare(function, result, arguments)
    return function


def _declare(function: Any, result: Any, arguments: Any) -> None:
    function.restype = result
    function.argtypes = arguments


def number(name: str, *arguments: Any) -> Callable[..., int]:
    """A function that returns the number of an error."""
    return value(name, _error, *arguments)


def raising(name: str, *arguments: Any) -> Callable[..., None]:
    """A function that returns an error, which is raised."""
    function = number(name, *arguments)

    def call(*given: Any) -> None:
        code = function(*given)
        if code:
            raise error_of(code)

    return call


class Table(ctypes.Structure):
    """The header's H3wTable."""

    _fields_ = [("bytes", ctypes.c_uint8 * 1465)]


class TableFault(ctypes.Structure):
    """The header's H3wTableFault."""

    _fields_ = [("code", ctypes.c_uint32), ("direction", ctypes.c_uint32), ("at", ctypes.c_uint64)]


_table = ctypes.POINTER(Table)
read_table = value("readTable", Table, ctypes.c_char_p, _size, ctypes.POINTER(TableFault))
