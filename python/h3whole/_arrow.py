"""Columns of other programs by Arrow's C data interface: what has `__arrow_c_array__` or `__arrow_c_stream__` is read
where it is, and an ArrowColumn hands its memory on in the same way."""

import ctypes
import sys
import weakref
from array import array
from typing import Any, Callable, Iterator, List, NamedTuple, Optional, Sequence, SupportsIndex, Tuple

from . import _fast
from ._memory import address_of, room

__all__ = ["ArrowColumn", "is_arrow", "packed", "read"]


class _Schema(ctypes.Structure):
    _fields_ = [
        ("format", ctypes.c_char_p),
        ("name", ctypes.c_char_p),
        ("metadata", ctypes.c_void_p),
        ("flags", ctypes.c_int64),
        ("n_children", ctypes.c_int64),
        ("children", ctypes.POINTER(ctypes.c_void_p)),
        ("dictionary", ctypes.c_void_p),
        ("release", ctypes.c_void_p),
        ("private_data", ctypes.c_void_p),
    ]


class _Array(ctypes.Structure):
    _fields_ = [
        ("length", ctypes.c_int64),
        ("null_count", ctypes.c_int64),
        ("offset", ctypes.c_int64),
        ("n_buffers", ctypes.c_int64),
        ("n_children", ctypes.c_int64),
        ("buffers", ctypes.POINTER(ctypes.c_void_p)),
        ("children", ctypes.POINTER(ctypes.c_void_p)),
        ("dictionary", ctypes.c_void_p),
        ("release", ctypes.c_void_p),
        ("private_data", ctypes.c_void_p),
    ]


class _Stream(ctypes.Structure):
    _fields_ = [
        ("get_schema", ctypes.c_void_p),
        ("get_next", ctypes.c_void_p),
        ("get_last_error", ctypes.c_void_p),
        ("release", ctypes.c_void_p),
        ("private_data", ctypes.c_void_p),
    ]


_pointer_of = ctypes.PYFUNCTYPE(ctypes.c_void_p, ctypes.py_object, ctypes.c_char_p)(
    ("PyCapsule_GetPointer", ctypes.pythonapi)
)
_Release = ctypes.CFUNCTYPE(None, ctypes.c_void_p)
_Get = ctypes.CFUNCTYPE(ctypes.c_int, ctypes.c_void_p, ctypes.c_void_p)
_Said = ctypes.CFUNCTYPE(ctypes.c_char_p, ctypes.c_void_p)


def _release(structure: Any) -> None:
    if structure.release:
        _Release(structure.release)(ctypes.addressof(structure))
        structure.release = None


class _Owned:
    """A structure of a producer. It is released once, when nothing refers to this any more."""

    def __init__(self, kind: Any) -> None:
        self.of = kind()
        # (at the end of the process others may still have the memory)
        weakref.finalize(self, _release, self.of).atexit = False


def _taken(kind: Any, capsule: Any, name: bytes) -> _Owned:
    """A structure that is taken over from a capsule."""
    given = kind.from_address(_pointer_of(capsule, name))
    if not given.release:
        raise ValueError(f"the {name.decode()} is released: another has taken it")
    owned = _Owned(kind)
    ctypes.memmove(ctypes.byref(owned.of), ctypes.byref(given), ctypes.sizeof(kind))
    given.release = None
    return owned


# ---- what is read

_NAMES = {
    "n": "null", "b": "bool", "c": "int8", "C": "uint8", "s": "int16", "S": "uint16", "i": "int32", "I": "uint32",
    "e": "float16", "f": "float32", "g": "float64", "z": "binary", "Z": "large_binary", "+s": "struct",
}  # fmt: skip
_INTEGERS = ("L", "l")
_TEXTS = ("u", "U", "vu")
# of places in a dictionary
_CODES = {"c": "b", "C": "B", "s": "h", "S": "H", "i": "i", "I": "I", "l": "q", "L": "Q"}
# of each byte the places of its bits
_BITS = [[bit for bit in range(8) if byte >> bit & 1] for byte in range(256)]


class _Chunk(NamedTuple):
    """One array: how many items it has, which of them are no nulls (the lowest bit is the first; None: all), where its
    first item is, as the format has it, and what owns it."""

    length: int
    valid: Optional[int]
    array: Any
    offset: int
    owner: _Owned


def is_arrow(column: Any) -> bool:
    """Whether a column hands itself on as Arrow's."""
    return hasattr(column, "__arrow_c_array__") or hasattr(column, "__arrow_c_stream__")


def read(column: Any) -> "ArrowColumn":
    """A column of another program. One of a single array of integers stays where it is; several are joined."""
    if isinstance(column, ArrowColumn):
        if column.format not in _INTEGERS + _TEXTS:
            raise _refusal(column.format)
        return column
    if hasattr(column, "_as_arrow"):
        own: ArrowColumn = column._as_arrow()
        return own
    if hasattr(column, "__arrow_c_array__"):
        capsules = column.__arrow_c_array__()
        schema = _taken(_Schema, capsules[0], b"arrow_schema")
        return _joined(schema.of, [_taken(_Array, capsules[1], b"arrow_array")])
    stream = _taken(_Stream, column.__arrow_c_stream__(), b"arrow_array_stream")
    schema = _got(stream.of, stream.of.get_schema, _Schema)
    chunks: List[_Owned] = []
    while True:
        chunk = _got(stream.of, stream.of.get_next, _Array)
        if not chunk.of.release:
            return _joined(schema.of, chunks)
        chunks.append(chunk)


def _refusal(kind: str) -> TypeError:
    lost = ": read the column as text; a float has lost digits already" if kind in ("e", "f", "g") else ""
    return TypeError(f"a column is of 64-bit integers or of texts, and not of Arrow's {_NAMES.get(kind, kind)}{lost}")


def _got(stream: Any, function: int, kind: Any) -> _Owned:
    """What a stream's function gives."""
    owned, at = _Owned(kind), ctypes.addressof(stream)
    number = _Get(function)(at, ctypes.addressof(owned.of))
    if number:
        said = _Said(stream.get_last_error)(at) if stream.get_last_error else None
        raise OSError(number, f"Arrow's stream: {(said or b'an error').decode(errors='replace')}")
    return owned


def _joined(schema: Any, arrays: List[_Owned]) -> "ArrowColumn":
    """The arrays of a column as one. A table, or a struct, is a column where it has one."""
    is_struct = schema.format == b"+s" and schema.n_children == 1
    own = _Schema.from_address(schema.children[0]) if is_struct else schema
    kind = own.format.decode(errors="replace")
    codes = _CODES.get(kind) if own.dictionary else None
    if codes:
        kind = _Schema.from_address(own.dictionary).format.decode(errors="replace")
    if kind not in _INTEGERS + _TEXTS:
        raise _refusal(kind)
    chunks = [_chunk(one, is_struct) for one in arrays]
    if codes:
        return _of_items([item for chunk in chunks for item in _looked_up(chunk, codes, kind)], kind)
    valid = _valid_of(chunks)
    if kind in _INTEGERS:
        return ArrowColumn(kind, _integers_of(chunks), valid)
    texts = [text for chunk in chunks for text in _texts_of(chunk, kind)]
    return ArrowColumn("U", texts, valid)


def _bits_of(given: Any, offset: int, count: int) -> Optional[int]:
    """Which items of an array from an offset on are no nulls; None where all are none."""
    address = given.buffers[0] if given.n_buffers and given.buffers else None
    if not address or given.null_count == 0 or not count:
        return None
    first, shift = divmod(offset, 8)
    bits = int.from_bytes(ctypes.string_at(address + first, (shift + count + 7) // 8), "little") >> shift
    return bits & _all(count)


def _all(count: int) -> int:
    return (1 << count) - 1


def _chunk(owner: _Owned, is_struct: bool) -> _Chunk:
    given = owner.of
    if not given.release:
        raise ValueError("the arrow_array is released: another has taken it")
    count, offset = given.length, given.offset
    valid = _bits_of(given, offset, count)
    if is_struct:
        given = _Array.from_address(given.children[0])
        offset += given.offset
        own = _bits_of(given, offset, count)
        valid = own if valid is None else valid if own is None else valid & own
    return _Chunk(count, valid, given, offset, owner)


def _valid_of(chunks: Sequence[_Chunk]) -> Optional[int]:
    """Which items of all chunks are no nulls."""
    if all(chunk.valid is None or chunk.valid == _all(chunk.length) for chunk in chunks):
        return None
    if len(chunks) == 1:
        return chunks[0].valid
    # (in halves, so that each bit moves as often as there are halvings)
    half = len(chunks) // 2
    sides = chunks[:half], chunks[half:]
    counts = [sum(chunk.length for chunk in side) for side in sides]
    low, high = (_all(n) if bits is None else bits for n, bits in zip(counts, map(_valid_of, sides)))
    return low | high << counts[0]


def _block(chunk: _Chunk, buffer: int, start: int, size: int) -> Any:
    """So many bytes of a buffer, whose owner they keep."""
    address = chunk.array.buffers[buffer] if size else None
    if size and not address:
        raise ValueError(f"the arrow_array has no buffer {buffer}")
    block: Any = (ctypes.c_char * size).from_address(address + start) if size else (ctypes.c_char * 0)()
    block.owner = chunk.owner
    return block


def _integers_of(chunks: Sequence[_Chunk]) -> memoryview:
    blocks = [_block(chunk, 1, 8 * chunk.offset, 8 * chunk.length) for chunk in chunks]
    if len(blocks) == 1 and ctypes.addressof(blocks[0]) % 8 == 0:
        return memoryview(blocks[0]).cast("B").cast("Q")
    items = room("Q", sum(chunk.length for chunk in chunks))
    at = items.buffer_info()[0]
    for block in blocks:
        ctypes.memmove(at, block, len(block))
        at += len(block)
    return memoryview(items)


def _texts_of(chunk: _Chunk, kind: str) -> Iterator[str]:
    """The texts of a chunk; of nulls anything."""
    if not chunk.length:
        return iter(())
    if kind == "vu":
        return map(_decoded, _views_of(chunk))
    width, code = (4, "i") if kind == "u" else (8, "q")
    ends = memoryview(_block(chunk, 1, width * chunk.offset, width * (chunk.length + 1))).cast("B").cast(code)
    whole = bytes(_block(chunk, 2, 0, ends[-1]))
    return (_decoded(whole[ends[i] : ends[i + 1]]) for i in range(chunk.length))


def _decoded(text: bytes) -> str:
    return text.decode(errors="replace")


def _nulls_of(valid: Optional[int], count: int) -> List[int]:
    """The places of nulls among so many items."""
    if valid is None:
        return []
    gone = (valid ^ _all(count)).to_bytes((count + 7) // 8, "little")
    return [8 * at + bit for at, byte in enumerate(gone) if byte for bit in _BITS[byte]]


def _looked_up(chunk: _Chunk, codes: str, kind: str) -> List[Any]:
    """The items of a chunk of places in a dictionary, and None in place of nulls."""
    given = _Array.from_address(chunk.array.dictionary)
    own = _Chunk(given.length, _bits_of(given, given.offset, given.length), given, given.offset, chunk.owner)
    values: List[Any] = list(_texts_of(own, kind) if kind in _TEXTS else _integers_of([own]))
    for place in _nulls_of(own.valid, own.length):
        values[place] = None
    width = array(codes).itemsize
    places = memoryview(_block(chunk, 1, width * chunk.offset, width * chunk.length)).cast("B").cast(codes).tolist()
    for at in _nulls_of(chunk.valid, chunk.length):
        places[at] = -1
    values.append(None)
    return [values[place] for place in places]


def _of_items(items: List[Any], kind: str) -> "ArrowColumn":
    """A column of items, of which None is a null."""
    valid = int.from_bytes(packed(bytes(item is not None for item in items)), "little")
    if kind in _TEXTS:
        return ArrowColumn("U", ["" if item is None else item for item in items], valid)
    return ArrowColumn(kind, memoryview(array("Q", [item or 0 for item in items])), valid)


def _views_of(chunk: _Chunk) -> Iterator[bytes]:
    """The texts of a chunk of views: each is in its view, or in one of the buffers."""
    views = bytearray(_block(chunk, 1, 16 * chunk.offset, 16 * chunk.length))
    for place in _nulls_of(chunk.valid, chunk.length):
        views[16 * place : 16 * place + 4] = bytes(4)
    for start in range(0, len(views), 16):
        size = int.from_bytes(views[start : start + 4], "little")
        if size <= 12:
            yield bytes(views[start + 4 : start + 4 + size])
        else:
            buffer, at = memoryview(views[start + 8 : start + 16]).cast("i")
            yield bytes(_block(chunk, 2 + buffer, at, size))


# ---- what is handed on


def packed(truths: bytes) -> bytes:
    """Truth values, each 0 or 1 in a byte, as bits."""
    if not truths:
        return b""
    digits = truths[::-1].translate(bytes.maketrans(b"\x00\x01", b"01"))
    return int(digits, 2).to_bytes((len(truths) + 7) // 8, "little")


class ArrowColumn:
    """A column with nulls, which programs take by Arrow's C data interface without a copy. It never changes.

    Attributes
    ----------
    format : str
        Arrow's name of the type: "L" or "l" for integers of 64 bits, "i" for those of 32 bits, "b" for truth values and
        "U" for texts.
    null_count : int
        The number of nulls.

    Notes
    -----
    As a sequence it has the values, and None in place of a null. The methods of the interface are `__arrow_c_schema__`,
    `__arrow_c_array__` and `__arrow_c_stream__`.
    """

    __slots__ = ("format", "_items", "_valid", "__weakref__")

    format: str

    def __init__(self, format: str, items: Any, valid: Optional[int]) -> None:
        self.format, self._items = format, items
        self._valid = None if valid == _all(len(items)) else valid

    @property
    def null_count(self) -> int:
        """The number of nulls."""
        return 0 if self._valid is None else len(self) - bin(self._valid).count("1")

    def __len__(self) -> int:
        return len(self._items)

    def __getitem__(self, place: SupportsIndex) -> Any:
        at = range(len(self))[place]
        return self._value(self._as_given()[at]) if self._valid is None or self._valid >> at & 1 else None

    def _value(self, item: Any) -> Any:
        return bool(item) if self.format == "b" else item

    def tolist(self) -> List[Any]:
        """Return the values in a list, with None in place of a null."""
        found = [self._value(item) for item in self._as_given()]
        for place in self._nulls():
            found[place] = None
        return found

    def __iter__(self) -> Iterator[Any]:
        return iter(self.tolist())

    def __repr__(self) -> str:
        shown = ", ".join(repr(self[place]) for place in range(min(len(self), 4)))
        return f"ArrowColumn({self.format!r}, [{shown}{', ...' if len(self) > 4 else ''}]) of {len(self)} items"

    def _as_given(self) -> Any:
        return self._items.cast("B").cast("q") if self.format == "l" else self._items

    def _nulls(self) -> List[int]:
        """The places of nulls."""
        return _nulls_of(self._valid, len(self))

    def _gone(self) -> bytes:
        """Which items are nulls, as bits."""
        return ((self._valid or 0) ^ _all(len(self))).to_bytes((len(self) + 7) // 8, "little")

    @property
    def is_of_texts(self) -> bool:
        return self.format == "U"

    def first(self) -> int:
        """The place of the first item that is not a null; the number of items if all are nulls."""
        if self._valid is None:
            return 0
        return (self._valid & -self._valid).bit_length() - 1 if self._valid else len(self)

    def filled(self, value: Any) -> Any:
        """The items, with a value in place of nulls."""
        items = self._items if self.is_of_texts else self._items.cast("B").cast("Q")
        if self._valid is None:
            return items
        numpy = sys.modules.get("numpy")
        if numpy is not None and not self.is_of_texts:
            gone = numpy.unpackbits(numpy.frombuffer(self._gone(), "uint8"), count=len(self), bitorder="little")
            return array("Q", numpy.where(gone, numpy.uint64(value), items).tobytes())
        found = items[:] if self.is_of_texts else array("Q", bytes(items))
        for place in self._nulls():
            found[place] = value
        return found

    def with_first(self) -> Any:
        """The items, with the first one that is not a null in place of nulls."""
        return self.filled(self._items[self.first()] if self._valid else 0)

    def answered(self, format: str, items: Any, is_null: Callable[[Any], Optional[int]]) -> "ArrowColumn":
        """A column of other items with the nulls of this one, and those that `is_null` finds."""
        found = is_null(items)
        valid = found if self._valid is None else self._valid if found is None else self._valid & found
        return ArrowColumn(format, items, valid)

    # ---- as a producer

    def _buffers(self) -> Tuple[Any, List[int]]:
        """The buffers, and their addresses."""
        size = (len(self) + 7) // 8
        kept: List[Any] = [None if self._valid is None else self._valid.to_bytes(size, "little")]
        if self.format == "b":
            kept.append(packed(bytes(self._items)))
        elif self.is_of_texts:
            texts = [item.encode() for item in self.filled("")]
            ends = array("q", [0])
            for text in texts:
                ends.append(ends[-1] + len(text))
            kept += [ends, b"".join(texts)]
        else:
            kept.append(self._items)
        return kept, [0 if one is None else address_of(one) for one in kept] + [0] * (3 - len(kept))

    def _handed_on(self, function: str, requested_schema: Any) -> Tuple[str, Any]:
        """The format, and the capsule that a function of the extension makes."""
        format = self._wanted(requested_schema)
        kept, addresses = self._buffers()
        given = (kept, format, len(self), self.null_count, tuple(addresses), len(kept))
        return format, getattr(_extension(), function)(*given)

    def _wanted(self, requested_schema: Any) -> str:
        """The format: the one that is asked for, where it has the same bits."""
        if requested_schema is None:
            return self.format
        asked: bytes = _Schema.from_address(_pointer_of(requested_schema, b"arrow_schema")).format
        has_same_bits = asked in (b"L", b"l") and self.format in _INTEGERS
        return asked.decode() if has_same_bits else self.format

    def __arrow_c_schema__(self) -> Any:
        """Return a capsule of Arrow's type of the column.

        Raises
        ------
        NotImplementedError
            If the package was installed without its extension in C.
        """
        return _extension().arrow_schema(self.format)

    def __arrow_c_array__(self, requested_schema: Any = None) -> Tuple[Any, Any]:
        """Return capsules of Arrow's type of the column, and of the column.

        Parameters
        ----------
        requested_schema : capsule, optional
            The type to return, if both it and the column's are of 64-bit integers; any other is ignored.

        Raises
        ------
        NotImplementedError
            If the package was installed without its extension in C.
        """
        format, capsule = self._handed_on("arrow_array", requested_schema)
        return _extension().arrow_schema(format), capsule

    def __arrow_c_stream__(self, requested_schema: Any = None) -> Any:
        """Return a capsule of a stream that has the column as its one array.

        Parameters
        ----------
        requested_schema : capsule, optional
            As of `__arrow_c_array__`.

        Raises
        ------
        NotImplementedError
            If the package was installed without its extension in C.
        """
        return self._handed_on("arrow_stream", requested_schema)[1]


def _extension() -> Any:
    # (a callback of ctypes would do for no release while an exception is set)
    if _fast.native is None:
        raise NotImplementedError("h3whole hands columns on by its extension in C, without which it was installed")
    return _fast.native
