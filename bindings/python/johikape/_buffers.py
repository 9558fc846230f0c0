"""Buffers lent to the library where they lie.

A buffer is anything with the buffer protocol: an array.array, bytes, a memoryview, a numpy array,
a ctypes array. Nothing is copied. `view` checks one and makes a flat memoryview of it. `call` asks
that memoryview for its `Py_buffer`, C's side of the protocol, which has the address, of read-only
memory too (`from_buffer` of ctypes has it of writable memory alone). Until the `Py_buffer` is
released, after the call, the owner of the memory can neither free nor move it. `ctypes.pythonapi`,
which has the two functions for that, is CPython's.
"""

from __future__ import annotations

import ctypes
import sys
from ctypes import POINTER, byref, c_char_p, c_int, c_ssize_t, c_void_p, py_object
from pickle import PickleBuffer
from typing import Any, List, NamedTuple, Tuple


class _Item(NamedTuple):
    """A type of items: in C, in words, and by the codes that others have for its kind. The size
    decides among those codes: numpy's int64 is an 'l' where that has 64 bits."""

    c: Any
    words: str
    codes: str


# By the codes of array.array.
_ITEMS = {
    "d": _Item(ctypes.c_double, "doubles", "d"),
    "q": _Item(ctypes.c_int64, "integers of 64 bits with a sign", "lq"),
    "I": _Item(ctypes.c_uint32, "integers of 32 bits without a sign", "IL"),
    "B": _Item(ctypes.c_uint8, "bytes", "B"),
}
_NATIVE_ORDERS = ("", "@", "=", "<" if sys.byteorder == "little" else ">")


class _PyBuffer(ctypes.Structure):
    """`Py_buffer`. The object is a plain address here, since C counts its references."""

    _fields_ = [
        ("buf", c_void_p),
        ("obj", c_void_p),
        ("len", c_ssize_t),
        ("itemsize", c_ssize_t),
        ("readonly", c_int),
        ("ndim", c_int),
        ("format", c_char_p),
        ("shape", POINTER(c_ssize_t)),
        ("strides", POINTER(c_ssize_t)),
        ("suboffsets", POINTER(c_ssize_t)),
        ("internal", c_void_p),
    ]


# Prototypes of this module's own, since the functions of `pythonapi` are shared with everyone.
_get = ctypes.PYFUNCTYPE(c_int, py_object, POINTER(_PyBuffer), c_int)(
    ("PyObject_GetBuffer", ctypes.pythonapi)
)
_release = ctypes.PYFUNCTYPE(None, POINTER(_PyBuffer))(("PyBuffer_Release", ctypes.pythonapi))
_SIMPLE, _WRITABLE = 0, 1


class Out(NamedTuple):
    """A place of fixed length that a call writes, so that it is lent without a count."""

    place: memoryview
    name: str


def view(buffer: Any, item: str, name: str) -> memoryview:
    """A flat memoryview of a buffer of any shape, where its items are of the right type and lie one
    after the other."""
    wanted = _ITEMS[item]
    try:
        lent = memoryview(buffer)
    except TypeError:
        raise TypeError(
            f"{name} must be a buffer of {wanted.words}, such as array.array({item!r}), not "
            f"{type(buffer).__name__}"
        ) from None
    order, code = lent.format[:-1], lent.format[-1:]
    alike = code in wanted.codes and lent.itemsize == ctypes.sizeof(wanted.c)
    if not alike or order not in _NATIVE_ORDERS:
        raise TypeError(
            f"{name} must be a buffer of {wanted.words} (item type {item!r}), and has item type "
            f"{lent.format!r} of {lent.itemsize} bytes"
        )
    if not lent.c_contiguous:
        raise ValueError(f"{name} must be contiguous: its items do not lie one after the other")
    # `raw` sees bytes in any shape and format, where `cast` of a memoryview knows but a few.
    return PickleBuffer(lent).raw().cast(item)


def call(function: Any, *arguments: Any) -> int:
    """Calls the function with each memoryview as its address and count, and each Out, which come
    last, as its address. An empty memoryview is NULL and 0."""
    held: List[_PyBuffer] = []
    spans: List[Tuple[int, int]] = []
    passed: List[Any] = []
    try:
        for argument in arguments:
            if isinstance(argument, memoryview):
                span = _hold(argument, _SIMPLE, held)
                spans.append(span)
                passed += [span[0] or None, len(argument)]
            elif isinstance(argument, Out):
                if argument.place.readonly:
                    raise BufferError(f"{argument.name} is read-only, and would be written")
                span = _hold(argument.place, _WRITABLE, held)
                if any(span[0] < end and start < span[1] for start, end in spans):
                    raise ValueError(f"{argument.name} would be written over another buffer")
                spans.append(span)
                passed.append(span[0])
            else:
                passed.append(argument)
        number: int = function(*passed)
        return number
    finally:
        for buffer in held:
            _release(byref(buffer))


def _hold(lent: memoryview, flags: int, held: List[_PyBuffer]) -> Tuple[int, int]:
    """The addresses where the items begin and end. They stay there until `held` is released."""
    if len(lent) == 0:
        return 0, 0
    buffer = _PyBuffer()
    _get(lent, byref(buffer), flags)
    held.append(buffer)
    if buffer.buf % ctypes.alignment(_ITEMS[lent.format].c) != 0:
        raise ValueError(f"a buffer of item type {lent.format!r} is not aligned in memory")
    return buffer.buf, buffer.buf + lent.nbytes
