"""The extension in C, where the package has one: it makes the calls of one index, and of columns of texts, without
ctypes. What it puts in the place of a function calls that function for all that is not plain, so that errors are the
same."""

import importlib
import sys
from typing import Any, Dict, Optional

from . import _library

__all__ = ["native", "replace"]


def _load() -> Any:
    """The extension, over the shared object that ctypes has loaded; None where there is none."""
    if sys.version_info < (3, 10):
        return None
    try:
        found = importlib.import_module("._native", __package__)
        found.load(_library._library._name)
    except ImportError:
        return None
    return found


native: Optional[Any] = _load()


def _described(function: Any) -> str:
    """The docstring of a function, with its arguments, as C's functions have it."""
    code, defaults = function.__code__, function.__defaults__ or ()
    names = code.co_varnames[: code.co_argcount]
    plain = list(names[: len(names) - len(defaults)])
    plain += [f"{name}={value!r}" for name, value in zip(names[len(plain) :], defaults)]
    return f"{function.__name__}({', '.join(plain)})\n--\n\n{function.__doc__}"


def replace(names: Dict[str, Any], over_texts: bool) -> None:
    """Puts the functions of the extension into the place of a module's own."""
    if native is None:
        return
    own = {name: one for name, one in names.items() if getattr(one, "__module__", None) == names["__name__"]}
    docs = {name: _described(one) for name, one in own.items() if hasattr(one, "__code__") and one.__doc__}
    native.replace(names, names["__name__"], docs, over_texts)
