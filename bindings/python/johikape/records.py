"""Many records, in four buffers, and their fold."""

from __future__ import annotations

from array import array
from dataclasses import dataclass
from typing import Any, Iterable, Tuple, Union, overload

from ._buffers import Out, call, view
from ._library import library
from .refusal import BOXES, Refusal, accept
from .statistics import DOUBLES, TOTALS, GeoStatistics, Parts


@dataclass(frozen=True, init=False, repr=False, eq=False)
class Records:
    """Records in four buffers, which are read where they lie.

    A record is ten doubles (item type 'd': low and high of x, y, z and m, then the summed width and
    height of envelopes), seven totals ('q': geometries, bytes, points, and the counts of puntal,
    lineal, polygonal and collection geometries), a type set ('I') and flags ('I') that say what is
    known: 1 box, 2 its z, 4 its m, 8 types, 16 to 1,024 the totals, 2,048 width, 4,096 height.

    A buffer may have any shape: a numpy array of ten columns serves as doubles. As long as the
    Records is there its buffers keep their length: an array.array refuses to grow (BufferError).
    Nobody may change them during a call.

    >>> flags = 1 | 64
    >>> records = Records(
    ...     doubles=array("d", [0, 1, 0, 1, 0, 0, 0, 0, 0, 0, 4, 5, 0, 2, 0, 0, 0, 0, 0, 0]),
    ...     totals=array("q", [0, 0, 240, 0, 0, 0, 0, 0, 0, 180, 0, 0, 0, 0]),
    ...     types=array("I", [0, 0]),
    ...     flags=array("I", [flags, flags]),
    ... )
    >>> records.fold().total_points
    420
    >>> records[1].total_points
    180
    """

    __slots__ = ("doubles", "totals", "types", "flags")

    doubles: memoryview
    totals: memoryview
    types: memoryview
    flags: memoryview

    def __init__(self, doubles: Any, totals: Any, types: Any, flags: Any) -> None:
        object.__setattr__(self, "doubles", view(doubles, "d", "doubles"))
        object.__setattr__(self, "totals", view(totals, "q", "totals"))
        object.__setattr__(self, "types", view(types, "I", "types"))
        object.__setattr__(self, "flags", view(flags, "I", "flags"))

    @classmethod
    def of(cls, records: Iterable[GeoStatistics]) -> Records:
        """The records, written into buffers of their own.

        >>> len(Records.of([GeoStatistics(total_points=240), GeoStatistics()]))
        2
        """
        doubles, totals, types, flags = array("d"), array("q"), array("I"), array("I")
        for record in records:
            parts = Parts.of(record)
            doubles.extend(parts.doubles)
            totals.extend(parts.totals)
            types.append(parts.types.value)
            flags.append(parts.flags.value)
        return cls(doubles, totals, types, flags)

    def __len__(self) -> int:
        """How many records have flags."""
        return len(self.flags)

    @overload
    def __getitem__(self, place: int) -> GeoStatistics: ...

    @overload
    def __getitem__(self, place: slice) -> Records: ...

    def __getitem__(self, place: Union[int, slice]) -> Union[GeoStatistics, Records]:
        """The record at a place; or those of a slice without a step, in the same buffers."""
        if not isinstance(place, slice):
            at = range(len(self))[place]
            # Of one record the fold is that record, and the library reads its flags.
            return self[at : at + 1].fold()
        start, stop, step = place.indices(len(self))
        if step != 1:
            raise ValueError("a slice of records has no step: its records lie one after the other")
        if not self._fit():
            raise Refusal(BOXES)
        stop = max(start, stop)
        return Records(
            self.doubles[DOUBLES * start : DOUBLES * stop],
            self.totals[len(TOTALS) * start : len(TOTALS) * stop],
            self.types[start:stop],
            self.flags[start:stop],
        )

    def fold(self) -> GeoStatistics:
        """One record of all, merged in their order from the first on.

        Of no records nothing is known. `Refusal` 3 where a total leaves its range, and 8 where the
        lengths do not fit or flags are bad.
        """
        parts = Parts()
        accept(call(library.johikape_fold, *self._lists(), *parts.places()))
        return parts.record()

    def fold_into(self, place: Records) -> None:
        """The same, written to the one record of `place`: a slice of other records serves.

        Its buffers must be writable and apart from these. A refused fold writes nothing.

        >>> files = Records.of([GeoStatistics()] * 3)
        >>> parts = Records.of([GeoStatistics(total_points=240), GeoStatistics(total_points=180)])
        >>> parts.fold_into(files[2:])
        >>> files[2]
        GeoStatistics(total_points=420)
        """
        if not isinstance(place, Records):
            raise TypeError(f"place must be Records, not {type(place).__name__}")
        # The library writes one record, and is told no count: the room has to be right.
        if len(place) != 1 or not place._fit():
            raise ValueError("place must have room for one record: 10 doubles, 7 totals, 1 and 1")
        accept(
            call(
                library.johikape_fold,
                *self._lists(),
                Out(place.doubles, "doubles"),
                Out(place.totals, "totals"),
                Out(place.types, "types"),
                Out(place.flags, "flags"),
            )
        )

    def _fit(self) -> bool:
        """Whether the buffers have as many doubles, totals and types as the flags ask for."""
        return (
            len(self.doubles) == DOUBLES * len(self)
            and len(self.totals) == len(TOTALS) * len(self)
            and len(self.types) == len(self)
        )

    def _lists(self) -> Tuple[memoryview, ...]:
        return self.doubles, self.totals, self.types, self.flags


def fold(records: Union[Records, Iterable[GeoStatistics]]) -> GeoStatistics:
    """One record of many, merged in their order from the first on: see `Records.fold`.

    >>> fold([GeoStatistics(total_points=240), GeoStatistics(total_points=180)])
    GeoStatistics(total_points=420)
    >>> fold([])
    GeoStatistics()
    """
    if not isinstance(records, Records):
        records = Records.of(records)
    return records.fold()
