"""What the package's values share: how numbers are taken in, how a value is shown and copied."""

from __future__ import annotations

import operator
from dataclasses import fields
from numbers import Integral
from typing import Any, List, Tuple


def double(value: Any, name: str) -> float:
    """The value as a float.

    An int that no float equals is refused: rounded, it could move an end of a box inward, and a
    file would be skipped that should be read.
    """
    if isinstance(value, Integral):
        whole = operator.index(value)
        try:
            number = float(whole)
        except OverflowError:
            raise OverflowError(f"{name} is an int beyond every float") from None
        if number != whole:
            raise ValueError(f"{name} is {whole}, an int that no float equals")
        return number
    if hasattr(value, "__float__") and not isinstance(value, complex):
        return float(value)
    raise TypeError(f"{name} must be a number, not {type(value).__name__}")


def integer(value: Any, name: str, low: int, high: int) -> int:
    """The value as an int from low to high."""
    try:
        number = operator.index(value)
    except TypeError:
        raise TypeError(f"{name} must be a whole number, not {type(value).__name__}") from None
    if not low <= number <= high:
        raise OverflowError(f"{name} must lie between {low} and {high}")
    return number


def unsigned(value: Any, name: str) -> int:
    """The value as an int of 32 bits without a sign."""
    return integer(value, name, 0, 2**32 - 1)


def signed(value: Any, name: str) -> int:
    """The value as an int of 64 bits with a sign."""
    return integer(value, name, -(2**63), 2**63 - 1)


class Value:
    """A frozen dataclass whose fields are set once, by its `__init__`."""

    __slots__ = ()

    def _set(self, **values: Any) -> None:
        for name, value in values.items():
            object.__setattr__(self, name, value)

    def _fields(self) -> List[Tuple[str, Any]]:
        itself: Any = self
        return [(field.name, getattr(self, field.name)) for field in fields(itself)]

    def __repr__(self) -> str:
        """As one would write it; what is missing is left out."""
        known = ((name, value) for name, value in self._fields() if value is not None)
        shown = ", ".join(f"{name}={value!r}" for name, value in known)
        return f"{type(self).__name__}({shown})"

    def __reduce__(self) -> Any:
        # A frozen value cannot be filled in after it is made, which is what pickle would try.
        return type(self), tuple(value for _, value in self._fields())
