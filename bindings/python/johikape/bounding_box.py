"""Boxes: an x that may wrap around, a y, and a z and an m that may be missing."""

from __future__ import annotations

from ctypes import byref, c_double, c_size_t, c_uint8, c_uint32
from dataclasses import dataclass
from typing import Any, Iterable, Optional, Sequence, Tuple, Union

from ._buffers import call, view
from ._library import library
from ._values import Value, double
from .interval import Interval, WraparoundInterval
from .refusal import accept, answer

# Flags of a box. A box that is not there has none of them.
BOX, Z, M = 1, 2, 4
BOX_FLAGS = BOX | Z | M
ENDS = 8

_Array = c_double * ENDS
_Six = c_double * 6
_Pair = Tuple[float, float]


@dataclass(frozen=True, init=False, repr=False)
class BoundingBox(Value):
    """A box over x, y, z and m. Each is an interval or a pair (lo, hi).

    z and m may be missing (None). Missing is not empty: it rules nothing out.

    >>> pile_six = BoundingBox((10, 20), (38, 46), m=(55, 120))
    >>> pile_six.intersects(BoundingBox((14, 17), (41, 43), z=(0.9, 1.6), m=(49, 63.5)))
    True
    >>> pile_six.intersects(BoundingBox((14, 17), (41, 43), m=(31.5, 48)))
    False
    """

    __slots__ = ("x", "y", "z", "m")

    x: WraparoundInterval
    y: Interval
    z: Optional[Interval]
    m: Optional[Interval]

    def __init__(
        self,
        x: Union[WraparoundInterval, _Pair],
        y: Union[Interval, _Pair],
        z: Union[Interval, _Pair, None] = None,
        m: Union[Interval, _Pair, None] = None,
    ) -> None:
        self._set(
            x=WraparoundInterval._taken(x, "x"),
            y=Interval._taken(y, "y"),
            z=None if z is None else Interval._taken(z, "z"),
            m=None if m is None else Interval._taken(m, "m"),
        )

    def is_empty(self) -> bool:
        """Whether x or y is empty."""
        return self.x.is_empty() or self.y.is_empty()

    def intersects(self, other: BoundingBox) -> bool:
        """Whether the boxes meet. z and m are tested only where both know them."""
        return answer(library.johikape_box_intersects(*self._lend(), *_lend(other)))

    def contains(self, other: BoundingBox) -> bool:
        """Whether the other lies in this one. z and m are tested only where both know them; an x
        may wrap on either side.

        >>> BoundingBox((0, 10), (0, 1)).contains(BoundingBox((1, 2), (0, 1), z=(5, 6)))
        True
        """
        return answer(library.johikape_box_contains(*self._lend(), *_lend(other)))

    def merge(self, other: BoundingBox) -> BoundingBox:
        """A box around both. z and m stay only where both know them.

        >>> BoundingBox((0, 1), (0, 1), z=(2, 3)).merge(BoundingBox((4, 5), (0, 2)))
        BoundingBox(x=WraparoundInterval(lo=0.0, hi=5.0), y=Interval(lo=0.0, hi=2.0))
        """
        return self._changed(library.johikape_box_merge, *_lend(other))

    def intersection(self, other: BoundingBox) -> BoundingBox:
        """What both hold; `Refusal` 1 where that of x has two parts. z and m stay only where both
        know them."""
        return self._changed(library.johikape_box_intersection, *_lend(other))

    def expand_by(self, distance: float) -> BoundingBox:
        """x and y moved outward; z and m stay.

        >>> BoundingBox((20, 10), (0, 1)).expand_by(4)
        BoundingBox(x=WraparoundInterval(lo=16.0, hi=14.0), y=Interval(lo=-4.0, hi=5.0))
        """
        return self._changed(library.johikape_box_expand_by, double(distance, "distance"))

    def to_geoparquet(self) -> Tuple[float, ...]:
        """The box as GeoParquet's `bbox` array: (xmin, ymin, xmax, ymax), or where z is known
        (xmin, ymin, zmin, xmax, ymax, zmax). `Refusal` 13 where m is known; then 14 where a known
        number is NaN or infinite, or y or z has its low above its high.

        >>> BoundingBox((170, -170), (-10, 10), z=(-1.5, 0)).to_geoparquet()
        (170.0, -10.0, -1.5, -170.0, 10.0, 0.0)
        """
        numbers, count = _Six(), c_size_t()
        accept(library.johikape_box_to_geoparquet(*self._lend(), numbers, byref(count)))
        return tuple(numbers[: count.value])

    @classmethod
    def from_geoparquet(cls, array: Iterable[float]) -> BoundingBox:
        """The box of such an array: turned back, it has the same numbers, +0 for zero. `Refusal` 12
        where it has neither four nor six numbers; then 14, as above.

        >>> BoundingBox.from_geoparquet([10, 38, 20, 46])
        BoundingBox(x=WraparoundInterval(lo=10.0, hi=20.0), y=Interval(lo=38.0, hi=46.0))
        """
        numbers = [double(number, "a number of a bbox array") for number in array]
        ends, flags = new_ends(), c_uint8()
        lent = (c_double * len(numbers))(*numbers)
        accept(library.johikape_box_from_geoparquet(lent, len(numbers), ends, byref(flags)))
        return box_of(ends, flags.value)

    @classmethod
    def from_wkb(cls, data: Any) -> Tuple[BoundingBox, int]:
        """The box of a geometry in well-known binary, and a set of the geometry's type alone, as
        `GeoStatistics` has it: `GeoStatistics(*BoundingBox.from_wkb(data))` knows both. z and m are
        known where the type has them.

        `data` is a buffer (item type 'B'): bytes, a bytearray, a memoryview. It is read where it
        lies. Read are points, line strings, polygons, their multiples and collections, with the
        type codes of ISO and at most 65,536 bytes. NaN is passed over, infinities are not. The x
        never wraps around. A dimension without a number is empty, as all are of an empty geometry.

        `Refusal` by the first fault from the front: 15 where the bytes are too few or left over,
        or, whatever they are, over 65,536; 16 where a byte order is unknown or a type code wrong,
        as are those of curves, surfaces and TINs, with EWKB's flags, and of a part that its whole
        does not take; 17 where a collection is more than 32 deep.

        >>> from struct import pack
        >>> low_first, point = 1, 1
        >>> BoundingBox.from_wkb(pack("<BIdd", low_first, point, 10, 38))
        (BoundingBox(x=WraparoundInterval(lo=10.0, hi=10.0), y=Interval(lo=38.0, hi=38.0)), 2)
        """
        lent = view(data, "B", "data")
        ends, flags, types = new_ends(), c_uint8(), c_uint32()
        accept(call(library.johikape_box_from_wkb, lent, ends, byref(flags), byref(types)))
        return box_of(ends, flags.value), types.value

    def _changed(self, change: Any, *arguments: Any) -> BoundingBox:
        """The box that a call makes of this one, which is lent to it as a copy."""
        ends, flags = self._lend()
        changed = c_uint8(flags)
        accept(change(ends, byref(changed), *arguments))
        return box_of(ends, changed.value)

    def _lend(self) -> Tuple[Any, int]:
        return _Array(*ends_of(self)), flags_of(self)


def ends_of(box: Optional[BoundingBox]) -> Tuple[float, ...]:
    """The eight doubles of a box, with 0 for what is missing."""
    if box is None:
        return (0.0,) * ENDS
    z = _ZERO if box.z is None else box.z
    m = _ZERO if box.m is None else box.m
    return (box.x.lo, box.x.hi, box.y.lo, box.y.hi, z.lo, z.hi, m.lo, m.hi)


def flags_of(box: Optional[BoundingBox]) -> int:
    """The flags that say what is known of a box."""
    if box is None:
        return 0
    return BOX | (0 if box.z is None else Z) | (0 if box.m is None else M)


def box_of(ends: Sequence[float], flags: int) -> BoundingBox:
    """The box of eight doubles and flags."""
    return BoundingBox(
        (ends[0], ends[1]),
        (ends[2], ends[3]),
        (ends[4], ends[5]) if flags & Z else None,
        (ends[6], ends[7]) if flags & M else None,
    )


def new_ends() -> Any:
    """Room for a box's eight doubles."""
    return _Array()


def _lend(other: Any) -> Tuple[Any, int]:
    if not isinstance(other, BoundingBox):
        raise TypeError(f"expected BoundingBox, not {type(other).__name__}")
    return other._lend()


_ZERO = Interval(0, 0)
