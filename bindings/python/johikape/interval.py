"""Intervals in one dimension: plain ones, as y, z and m are, and x, which may wrap around."""

from __future__ import annotations

import math
from ctypes import byref, c_double
from dataclasses import dataclass
from typing import Any, ClassVar, Tuple, Type, TypeVar, Union

from ._library import Ends, library, of_intervals
from ._values import Value, double
from .refusal import accept

E = TypeVar("E", bound="_Ends")


@dataclass(frozen=True, init=False, repr=False)
class _Ends(Value):
    """Two ends, and what plain intervals and x have alike."""

    __slots__ = ("lo", "hi")
    _calls: ClassVar[Any]

    lo: float
    hi: float

    def __init__(self, lo: float, hi: float) -> None:
        # +0 for -0, as in all that the library gives.
        self._set(lo=double(lo, "lo") + 0.0, hi=double(hi, "hi") + 0.0)

    @classmethod
    def empty(cls: Type[E]) -> E:
        """The one that accepts no value: (inf, -inf)."""
        return cls(math.inf, -math.inf)

    @classmethod
    def full(cls: Type[E]) -> E:
        """The one that accepts every value but a NaN: (-inf, inf)."""
        return cls(-math.inf, math.inf)

    @classmethod
    def _taken(cls: Type[E], ends: Union[E, Tuple[float, float]], name: str) -> E:
        """The interval itself, or that of a pair of ends. `name` is what an error calls it."""
        if isinstance(ends, cls):
            return ends
        if isinstance(ends, tuple) and len(ends) == 2:
            lo, hi = ends
            return cls(double(lo, f"the low of {name}"), double(hi, f"the high of {name}"))
        raise TypeError(f"{name} must be {cls.__name__} or a pair (lo, hi), not {ends!r}")

    def intersects_value(self, value: float) -> bool:
        """Whether the value lies in it."""
        return bool(self._calls.accepts(self._c(), double(value, "value")))

    def intersects(self: E, other: E) -> bool:
        """Whether they have a value in common. Ends that touch do."""
        return bool(self._calls.intersects(self._c(), self._like(other)))

    def contains(self: E, other: E) -> bool:
        """Whether the other lies in it."""
        return bool(self._calls.contains(self._c(), self._like(other)))

    def is_empty(self) -> bool:
        """Whether hi - lo is -inf."""
        return bool(self._calls.is_empty(self._c()))

    def width(self) -> float:
        """hi - lo; of an x that wraps around, inf."""
        return float(self._calls.width(self._c()))

    def mid(self) -> float:
        """The middle; of an x that wraps around, inf."""
        return float(self._calls.mid(self._c()))

    def merge(self: E, other: E) -> E:
        """One around both. An empty x yields the other; a NaN end of a plain one is passed over."""
        return self._of(self._calls.merge(self._c(), self._like(other)))

    def merge_value(self: E, value: float) -> E:
        """One around this and a value. A NaN is passed over."""
        return self._of(self._calls.merge_value(self._c(), double(value, "value")))

    def expand_by(self: E, distance: float) -> E:
        """Both ends moved outward. A distance that is NaN or below 0 changes nothing."""
        return self._of(self._calls.expand_by(self._c(), double(distance, "distance")))

    def _c(self) -> Ends:
        return Ends(self.lo, self.hi)

    def _like(self: E, other: E) -> Ends:
        """The other's ends. A plain interval and an x do not mix: (20, 10) accepts nothing as one,
        and nearly everything as the other."""
        if not isinstance(other, type(self)):
            raise TypeError(f"expected {type(self).__name__}, not {type(other).__name__}")
        return other._c()

    @classmethod
    def _of(cls: Type[E], ends: Ends) -> E:
        return cls(ends.lo, ends.hi)


class Interval(_Ends):
    """The numbers from lo to hi, both among them. It never wraps around.

    It is empty where hi - lo is -inf, as of (inf, -inf). Ends may be infinite or NaN.

    >>> Interval(10, 20).intersects(Interval(20, 30))
    True
    >>> Interval(10, 20).merge(Interval(30, 40))
    Interval(lo=10.0, hi=40.0)
    >>> Interval(10, 20).intersection(Interval(30, 40)).is_empty()
    True
    """

    __slots__ = ()
    _calls = of_intervals("interval")

    def intersection(self, other: Interval) -> Interval:
        """What both hold; empty where they are apart.

        >>> Interval(10, 20).intersection(Interval(15, 25))
        Interval(lo=15.0, hi=20.0)
        """
        return self._of(library.johikape_interval_intersection(self._c(), self._like(other)))

    def is_wraparound(self) -> bool:
        """False: a plain interval does not."""
        return False


class WraparoundInterval(_Ends):
    """An x. Where its low is above its high it wraps around.

    It holds everything at or above the low then, and everything at or below the high: (170, -170)
    is the strip at the antimeridian. `contains` asks that each piece of the other that is not empty
    lies inside one of its pieces; an x that does not wrap is one piece.

    >>> strip = WraparoundInterval(170, -170)
    >>> strip.intersects_value(175), strip.intersects_value(0)
    (True, False)
    >>> strip.contains(WraparoundInterval(-178, -175))
    True
    >>> strip.contains(WraparoundInterval(175, 178))
    True
    >>> WraparoundInterval(-180, 180).contains(strip)
    False
    >>> strip.merge(WraparoundInterval(-100, 100))
    WraparoundInterval(lo=-100.0, hi=-170.0)
    >>> WraparoundInterval(20, 10).expand_by(4)
    WraparoundInterval(lo=16.0, hi=14.0)
    """

    __slots__ = ()
    _calls = of_intervals("x")

    def intersection(self, other: WraparoundInterval) -> WraparoundInterval:
        """What both hold, where it has one part; `Refusal` 1 where it has two.

        >>> WraparoundInterval(0, 10).intersection(WraparoundInterval(20, 5))
        WraparoundInterval(lo=0.0, hi=5.0)
        >>> WraparoundInterval(0, 30).intersection(WraparoundInterval(20, 5))
        Traceback (most recent call last):
            ...
        johikape.refusal.Refusal: refused by 1: the intersection of two x has two parts
        """
        lo, hi = c_double(), c_double()
        accept(
            library.johikape_x_intersection(self._c(), self._like(other), byref(lo), byref(hi))
        )
        return WraparoundInterval(lo.value, hi.value)

    def is_wraparound(self) -> bool:
        """Whether it wraps around: it is not empty, and its low is above its high.

        >>> WraparoundInterval(170, -170).is_wraparound()
        True
        """
        return bool(library.johikape_x_wraps(self._c()))
