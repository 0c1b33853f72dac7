"""Memory for the library's results, and where that of columns is. Want of memory is an error of H3 that says for how
many items."""

import ctypes
import sys
from array import array
from typing import Any, Callable, Tuple

from .errors import H3MemoryAllocError

__all__ = ["View", "address_of", "numpy_room", "or_refused", "room", "room_at"]


class View(ctypes.Structure):
    """The Py_buffer of Python's C API, by which the memory of read-only columns has an address too."""

    _fields_ = [
        ("buf", ctypes.c_void_p),
        ("obj", ctypes.c_void_p),
        ("len", ctypes.c_ssize_t),
        ("itemsize", ctypes.c_ssize_t),
        ("readonly", ctypes.c_int),
        ("ndim", ctypes.c_int),
        ("format", ctypes.c_char_p),
        ("shape", ctypes.POINTER(ctypes.c_ssize_t)),
        ("strides", ctypes.POINTER(ctypes.c_ssize_t)),
        ("suboffsets", ctypes.POINTER(ctypes.c_ssize_t)),
        ("internal", ctypes.c_void_p),
    ]

    def take(self, memory: Any) -> None:
        ctypes.pythonapi.PyObject_GetBuffer(ctypes.py_object(memory), ctypes.byref(self), _CONTIGUOUS)

    def give_back(self) -> None:
        ctypes.pythonapi.PyBuffer_Release(ctypes.byref(self))


ctypes.pythonapi.PyObject_GetBuffer.argtypes = [ctypes.py_object, ctypes.POINTER(View), ctypes.c_int]
ctypes.pythonapi.PyBuffer_Release.argtypes = [ctypes.POINTER(View)]
ctypes.pythonapi.PyBuffer_Release.restype = None
_CONTIGUOUS = 0x0038  # PyBUF_C_CONTIGUOUS


def address_of(memory: Any) -> int:
    """The address of bytes, an array or a memoryview, whose memory stays where it is as long as that."""
    view = View()
    view.take(memory)
    address: int = view.buf or 0
    view.give_back()
    return address


def or_refused(make: Callable[[], Any], count: int) -> Any:
    """What is made for so many items, where there is memory for it."""
    try:
        return make()
    except (MemoryError, OverflowError):
        raise H3MemoryAllocError(f"error 13: E_MEMORY_ALLOC: {count} items") from None


def room(typecode: str, count: int) -> "array[int]":
    """An array of so many items, each 0."""
    made: "array[int]" = or_refused(lambda: array(typecode, [0]) * count, count)
    return made


def room_at(typecode: str, count: int) -> Tuple["array[int]", int]:
    """The same, of one item at least, since the library wants an address for none too; and its address."""
    made = room(typecode, max(count, 1))
    return made, made.buffer_info()[0]


def numpy_room(count: int, dtype: Any) -> Any:
    """A numpy array of so many items, whatever they are."""
    return or_refused(lambda: sys.modules["numpy"].empty(count, dtype=dtype), count)
