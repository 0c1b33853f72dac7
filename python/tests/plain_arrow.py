"""A producer and a consumer of Arrow's C data interface, written over its structures alone: what polars, DuckDB or
pyarrow do, by its definition (https://arrow.apache.org/docs/format/CDataInterface.html)."""

import ctypes
import struct


class Schema(ctypes.Structure):
    _fields_ = [
        ("format", ctypes.c_char_p),
        ("name", ctypes.c_char_p),
        ("metadata", ctypes.c_char_p),
        ("flags", ctypes.c_int64),
        ("n_children", ctypes.c_int64),
        ("children", ctypes.c_void_p),
        ("dictionary", ctypes.c_void_p),
        ("release", ctypes.c_void_p),
        ("private_data", ctypes.c_void_p),
    ]


class Array(ctypes.Structure):
    _fields_ = [
        ("length", ctypes.c_int64),
        ("null_count", ctypes.c_int64),
        ("offset", ctypes.c_int64),
        ("n_buffers", ctypes.c_int64),
        ("n_children", ctypes.c_int64),
        ("buffers", ctypes.c_void_p),
        ("children", ctypes.c_void_p),
        ("dictionary", ctypes.c_void_p),
        ("release", ctypes.c_void_p),
        ("private_data", ctypes.c_void_p),
    ]


class Stream(ctypes.Structure):
    _fields_ = [(name, ctypes.c_void_p) for name in ("get_schema", "get_next", "get_last_error", "release", "private")]


Release = ctypes.CFUNCTYPE(None, ctypes.c_void_p)
Get = ctypes.CFUNCTYPE(ctypes.c_int, ctypes.c_void_p, ctypes.c_void_p)
Said = ctypes.CFUNCTYPE(ctypes.c_void_p, ctypes.c_void_p)
api = ctypes.pythonapi
new_capsule = ctypes.PYFUNCTYPE(ctypes.py_object, ctypes.c_void_p, ctypes.c_char_p, ctypes.c_void_p)(
    ("PyCapsule_New", api)
)
is_capsule = ctypes.PYFUNCTYPE(ctypes.c_int, ctypes.py_object, ctypes.c_char_p)(("PyCapsule_IsValid", api))
pointer_of = ctypes.PYFUNCTYPE(ctypes.c_void_p, ctypes.py_object, ctypes.c_char_p)(("PyCapsule_GetPointer", api))


def bits(truths):
    """Truth values as a bitmap, the first in the lowest bit."""
    packed = bytearray((len(truths) + 7) // 8)
    for place, truth in enumerate(truths):
        packed[place // 8] |= bool(truth) << place % 8
    return bytes(packed)


def buffers_of(kind, items):
    """The buffers of items, beside the bitmap, by their format."""
    items = [(b"" if kind in ("u", "U", "vu") else 0) if item is None else item for item in items]
    if kind in ("u", "U"):
        ends = [sum(map(len, items[:place])) for place in range(len(items) + 1)]
        return [struct.pack(f"{len(ends)}{'i' if kind == 'u' else 'q'}", *ends), b"".join(items)]
    if kind == "vu":
        views, data = b"", b""
        for item in items:
            inline = item.ljust(12, b"\0") if len(item) <= 12 else item[:4] + struct.pack("ii", 0, len(data))
            views += struct.pack("i", len(item)) + inline
            data += item if len(item) > 12 else b""
        return [views, data, struct.pack("q", len(data))]
    code = {"L": "Q", "l": "q", "i": "i", "I": "I", "g": "d", "f": "f"}.get(kind, "Q")
    return [struct.pack(f"{len(items)}{code}", *items)]


class Producer:
    """A column of chunks of items, None for a null. `released` says how often each structure was released."""

    def __init__(self, kind, *chunks, offset=0, null_count=None, as_struct=False, dictionary=None, fails=None):
        self.kind, self.chunks, self.offset, self.null_count = kind, chunks, offset, null_count
        self.as_struct, self.dictionary, self.fails = as_struct, dictionary, fails
        self.released, self.kept, self.asked, self.at = [], [], [], 0
        self.live = 0

    def _keep(self, item):
        self.kept.append(item)
        return item

    def _address(self, item):
        held = self._keep(ctypes.create_string_buffer(item, max(len(item), 1)))
        return ctypes.addressof(held)

    def _pointers(self, addresses):
        return ctypes.addressof(self._keep((ctypes.c_void_p * max(len(addresses), 1))(*addresses)))

    def _releasing(self, kind, what):
        def release(address):
            self.released.append(what)
            self.live -= 1
            kind.from_address(address).release = None

        self.live += 1
        return ctypes.cast(self._keep(Release(release)), ctypes.c_void_p).value

    def fill_schema(self, out):
        own = self._keep(Schema(format=self.kind.encode(), name=b"cell", flags=2))
        if self.dictionary is not None:
            own.format, values = b"I", self.kind.encode()
            own.dictionary = ctypes.addressof(self._keep(Schema(format=values)))
        if self.as_struct:
            own.release = ctypes.cast(self._keep(Release(lambda _: None)), ctypes.c_void_p).value
            own = Schema(format=b"+s", name=b"", n_children=1, children=self._pointers([ctypes.addressof(own)]))
        ctypes.memmove(ctypes.byref(out), ctypes.byref(own), ctypes.sizeof(own))
        out.release = self._releasing(Schema, "schema")

    def fill_array(self, out, items):
        before = [items[0] if items else None] * self.offset
        every = before + list(items)
        addresses = [0 if None not in items else self._address(bits([item is not None for item in every]))]
        kind = self.kind if self.dictionary is None else "I"
        addresses += [self._address(buffer) for buffer in buffers_of(kind, every)]
        nulls = items.count(None) if self.null_count is None else self.null_count
        own = self._keep(
            Array(
                length=len(items), null_count=nulls, offset=self.offset, n_buffers=len(addresses),
                buffers=self._pointers(addresses),
            )
        )  # fmt: skip
        if self.dictionary is not None:
            values = Array()
            ArrayProducer(self.kind, self.dictionary, offset=1).lend(values, self)
            own.dictionary = ctypes.addressof(self._keep(values))
        if self.as_struct:
            own.length += self.offset
            own.offset = 0
            own = Array(length=len(items), offset=self.offset, n_buffers=1, n_children=1, buffers=self._pointers([0]),
                        children=self._pointers([ctypes.addressof(own)]))  # fmt: skip
        ctypes.memmove(ctypes.byref(out), ctypes.byref(own), ctypes.sizeof(own))
        out.release = self._releasing(Array, "array")

    def lend(self, out, other):
        """Fills an array that is part of another's."""
        other.kept.append(self)
        self.fill_array(out, self.chunks[0])

    def capsule(self, kind, name, fill, *more):
        out = self._keep(kind())
        fill(out, *more)
        # (none of these has a destructor: what is not taken over is not released, which the tests see)
        return new_capsule(ctypes.addressof(out), self._keep(name), None)


class ArrayProducer(Producer):
    names = (b"arrow_schema", b"arrow_array")

    def __arrow_c_array__(self, requested_schema=None):
        self.asked.append(requested_schema)
        self.last = (
            self.capsule(Schema, self.names[0], self.fill_schema),
            self.capsule(Array, self.names[1], self.fill_array, self.chunks[0]),
        )
        return self.last


class StreamProducer(Producer):
    name = b"arrow_array_stream"

    def get_schema(self, _, out):
        if self.fails == "schema":
            return 5
        self.fill_schema(Schema.from_address(out))
        return 0

    def get_next(self, _, out):
        if self.fails == self.at:
            return 5
        if self.at < len(self.chunks):
            self.fill_array(Array.from_address(out), self.chunks[self.at])
        self.at += 1
        return 0

    def fill_stream(self, out):
        said = self._address(b"the disk is gone\0")
        for name, kind, function in (
            ("get_schema", Get, self.get_schema),
            ("get_next", Get, self.get_next),
            ("get_last_error", Said, lambda _: said),
        ):
            setattr(out, name, ctypes.cast(self._keep(kind(function)), ctypes.c_void_p).value)
        out.release = self._releasing(Stream, "stream")

    def __arrow_c_stream__(self, requested_schema=None):
        self.asked.append(requested_schema)
        return self.capsule(Stream, self.name, self.fill_stream)


# ---- the consumer


def taken(kind, capsule, name):
    """A structure that is moved out of its capsule."""
    given = kind.from_address(pointer_of(capsule, name))
    assert given.release, "it is released"
    own = kind()
    ctypes.memmove(ctypes.byref(own), ctypes.byref(given), ctypes.sizeof(own))
    given.release = None
    return own


def let_go(structure):
    Release(structure.release)(ctypes.addressof(structure))
    assert not structure.release, "a release has to say that it is done"


def values_of(format, array):
    """The items of an array, None for a null."""
    addresses = (ctypes.c_void_p * array.n_buffers).from_address(array.buffers)
    count, nulls = array.length, []
    assert array.offset == 0 and array.n_buffers == (3 if format == "U" else 2)
    if addresses[0]:
        bitmap = ctypes.string_at(addresses[0], (count + 7) // 8)
        nulls = [place for place in range(count) if not bitmap[place // 8] >> place % 8 & 1]
    assert array.null_count == len(nulls)
    if format == "U":
        ends = struct.unpack(f"{count + 1}q", ctypes.string_at(addresses[1], 8 * count + 8))
        data = ctypes.string_at(addresses[2], ends[-1]).decode()
        found = [data[start:end] for start, end in zip(ends, ends[1:])]
    elif format == "b":
        packed = ctypes.string_at(addresses[1], (count + 7) // 8)
        found = [bool(packed[place // 8] >> place % 8 & 1) for place in range(count)]
    else:
        code = {"L": "Q", "l": "q", "i": "i"}[format]
        found = list(struct.unpack(f"{count}{code}", ctypes.string_at(addresses[1], count * struct.calcsize(code))))
    for place in nulls:
        found[place] = None
    return found


def consume_array(column, *requested):
    """The format and the items of a column, by its array."""
    capsules = column.__arrow_c_array__(*requested)
    schema, array = taken(Schema, capsules[0], b"arrow_schema"), taken(Array, capsules[1], b"arrow_array")
    found = schema.format.decode(), values_of(schema.format.decode(), array)
    let_go(schema)
    let_go(array)
    return found


def consume_stream(column, *requested):
    """The same, by its stream."""
    stream = taken(Stream, column.__arrow_c_stream__(*requested), b"arrow_array_stream")
    at, schema, found = ctypes.addressof(stream), Schema(), []
    assert Get(stream.get_schema)(at, ctypes.addressof(schema)) == 0
    while True:
        array = Array()
        assert Get(stream.get_next)(at, ctypes.addressof(array)) == 0
        if not array.release:
            break
        found += values_of(schema.format.decode(), array)
        let_go(array)
    let_go(stream)
    format = schema.format.decode()
    let_go(schema)
    return format, found
