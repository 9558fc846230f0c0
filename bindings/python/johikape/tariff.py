"""The scan tariff: what it costs to read bytes of files that a filter does not rule out."""

from __future__ import annotations

from array import array
from ctypes import byref, c_uint64
from dataclasses import dataclass
from typing import Iterable, Optional, Tuple

from ._buffers import call
from ._library import library
from ._values import Value, signed, unsigned
from .refusal import accept


@dataclass(frozen=True, init=False, repr=False)
class Rates(Value):
    """The rates of the tariff, each in whole cents for a GiB (2**30 bytes), at most 10,000.

    The first is that of bytes up to 64 GiB, the second of those above that to 512 GiB, the third of
    the rest. A fee adds the bands exactly and is then rounded once to the cent, halves upward. A
    rate is an integer of 32 bits without a sign; one over 10,000 is refused where it is used.

    >>> Rates(7, 5, 3)
    Rates(first=7, second=5, third=3)
    """

    __slots__ = ("first", "second", "third")

    first: int
    second: int
    third: int

    def __init__(self, first: int, second: int, third: int) -> None:
        self._set(
            first=unsigned(first, "first"),
            second=unsigned(second, "second"),
            third=unsigned(third, "third"),
        )


def fee_of_sizes(sizes: Iterable[Optional[int]], rates: Rates) -> int:
    """The fee for reading files of these sizes, in cents: that of the sum of at most 1,000 numbers
    of bytes, as `Rates` says. None is a size that is missing. No sizes cost 0.

    `Refusal` 18 where a size or the sum is missing, negative or over 2**40, or there are more
    sizes; then 19 where a rate is over 10,000. A size is an integer of 64 bits with a sign.

    >>> fee_of_sizes([2**29, 2**29], Rates(1, 1, 1))
    1
    """
    numbers, known = array("q"), array("B")
    for size in sizes:
        numbers.append(0 if size is None else signed(size, "a size"))
        known.append(size is not None)
    lists, cents = (memoryview(numbers), memoryview(known)), c_uint64()
    accept(call(library.johikape_fee_of_sizes, *lists, *bands(rates), byref(cents)))
    return cents.value


def bands(rates: Rates) -> Tuple[int, int, int]:
    """The rates of the three bands, for a call."""
    if not isinstance(rates, Rates):
        raise TypeError(f"expected Rates, not {type(rates).__name__}")
    return rates.first, rates.second, rates.third
