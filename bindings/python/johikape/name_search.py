"""The search for a name number."""

from __future__ import annotations

from array import array
from ctypes import byref, c_size_t
from typing import Any, Iterable, NamedTuple, Optional

from ._buffers import call, view
from ._library import library
from ._values import unsigned


class NameSearch(NamedTuple):
    """What `find_name` found. Without a hit it is false, so that `if` asks whether there is one.

    `place` is the hit's, counted from 0, or None. `compared` says how many names were compared: the
    hit's place counted from 1, or all of them where there is no hit.

    >>> bool(NameSearch(place=0, compared=1)), bool(NameSearch(place=None, compared=3))
    (True, False)
    """

    place: Optional[int]
    compared: int

    @property
    def hit(self) -> bool:
        """Whether the name is there."""
        return self.place is not None

    def __bool__(self) -> bool:
        return self.hit


def find_name(names: Iterable[int], name: int) -> NameSearch:
    """Seeks a name number among others, as `evaluate_by_name` does at each leaf: from the first
    name on, until one is the same.

    `names` is a buffer (item type 'I'), which is read where it lies, or has ints. Nothing is
    refused. Of a name that comes twice the first is the hit.

    >>> find_name([41, 6, 12], 6)
    NameSearch(place=1, compared=2)
    >>> find_name([41, 6, 12], 7)
    NameSearch(place=None, compared=3)
    """
    number = unsigned(name, "name")
    place, compared = c_size_t(), c_size_t()
    hit = call(library.johikape_find_name, _lent(names), number, byref(place), byref(compared))
    return NameSearch(place.value if hit else None, compared.value)


def _lent(names: Any) -> memoryview:
    """The names where they lie, or ints written into a buffer of their own."""
    if not _is_buffer(names):
        names = array("I", [unsigned(name, "a name number") for name in names])
    return view(names, "I", "names")


def _is_buffer(names: Any) -> bool:
    try:
        memoryview(names)
    except TypeError:
        return False
    return True
