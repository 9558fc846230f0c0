"""Statistics of a column: a box, a set of geometry types, and totals of what lies in it."""

from __future__ import annotations

from ctypes import byref, c_double, c_int64, c_uint32, c_uint64
from dataclasses import dataclass
from typing import Any, Callable, Dict, Optional, Tuple

from ._library import library
from ._values import Value, double, signed, unsigned
from .bounding_box import BOX, BOX_FLAGS, ENDS, BoundingBox, box_of, ends_of, flags_of
from .refusal import accept
from .tariff import Rates, bands

# The totals and lengths in the order in which the library has them, with their flags.
TYPES = 8
TOTALS = {
    "total_geometries": 16,
    "total_size_bytes": 32,
    "total_points": 64,
    "puntal_count": 128,
    "lineal_count": 256,
    "polygonal_count": 512,
    "collection_count": 1024,
}
EXTENTS = {"total_envelope_width": 2048, "total_envelope_height": 4096}
DOUBLES = ENDS + len(EXTENTS)


@dataclass(frozen=True, init=False, repr=False)
class GeoStatistics(Value):
    """The record of a column of a file. What is None is not known.

    `geometry_types` is a set of 32 bits, a type's being its WKB number, and 8 more with z, 16 more
    with m, 24 more with both. The totals are integers of 64 bits with a sign, and the two totals of
    envelopes are floats.

    >>> GeoStatistics(bbox=BoundingBox((0, 1), (0, 1)), total_points=240).total_points
    240
    """

    __slots__ = ("bbox", "geometry_types", *TOTALS, *EXTENTS)

    bbox: Optional[BoundingBox]
    geometry_types: Optional[int]
    total_geometries: Optional[int]
    total_size_bytes: Optional[int]
    total_points: Optional[int]
    puntal_count: Optional[int]
    lineal_count: Optional[int]
    polygonal_count: Optional[int]
    collection_count: Optional[int]
    total_envelope_width: Optional[float]
    total_envelope_height: Optional[float]

    def __init__(
        self,
        bbox: Optional[BoundingBox] = None,
        geometry_types: Optional[int] = None,
        total_geometries: Optional[int] = None,
        total_size_bytes: Optional[int] = None,
        total_points: Optional[int] = None,
        puntal_count: Optional[int] = None,
        lineal_count: Optional[int] = None,
        polygonal_count: Optional[int] = None,
        collection_count: Optional[int] = None,
        total_envelope_width: Optional[float] = None,
        total_envelope_height: Optional[float] = None,
    ) -> None:
        if not (bbox is None or isinstance(bbox, BoundingBox)):
            raise TypeError(f"bbox must be a BoundingBox or None, not {type(bbox).__name__}")
        self._set(
            bbox=bbox,
            geometry_types=_known(unsigned, geometry_types, "geometry_types"),
            total_geometries=_known(signed, total_geometries, "total_geometries"),
            total_size_bytes=_known(signed, total_size_bytes, "total_size_bytes"),
            total_points=_known(signed, total_points, "total_points"),
            puntal_count=_known(signed, puntal_count, "puntal_count"),
            lineal_count=_known(signed, lineal_count, "lineal_count"),
            polygonal_count=_known(signed, polygonal_count, "polygonal_count"),
            collection_count=_known(signed, collection_count, "collection_count"),
            total_envelope_width=_known(double, total_envelope_width, "total_envelope_width"),
            total_envelope_height=_known(double, total_envelope_height, "total_envelope_height"),
        )

    def merge(self, other: GeoStatistics) -> GeoStatistics:
        """Both records in one.

        A box or type set that is missing yields the other's. Totals add where both are known, and
        are missing where one is. `Refusal` 3 where a total leaves its range.

        >>> GeoStatistics(total_points=240, puntal_count=240).merge(GeoStatistics(total_points=180))
        GeoStatistics(total_points=420)
        """
        parts, others = Parts.of(self), Parts.of(other)
        accept(
            library.johikape_merge(
                *parts.places(), others.doubles, others.totals, others.types, others.flags
            )
        )
        return parts.record()

    def fee(self, rates: Rates) -> int:
        """The fee for reading its bytes, in cents: that of `total_size_bytes`, as `Rates` says.

        `Refusal` 18 where `total_size_bytes` is missing, negative or over 2**40; then 19 where a
        rate is over 10,000.

        >>> GeoStatistics(total_size_bytes=2**29).fee(Rates(1, 1, 1))  # half a cent, upward
        1
        """
        parts, cents = Parts.of(self), c_uint64()
        record = parts.doubles, parts.totals, parts.types, parts.flags
        accept(library.johikape_fee_of_record(*record, *bands(rates), byref(cents)))
        return cents.value


def _known(taken: Callable[[Any, str], Any], value: Any, name: str) -> Any:
    return None if value is None else taken(value, name)


class Parts:
    """A record as the library reads and writes it: room for one, until it is filled."""

    __slots__ = ("doubles", "totals", "types", "flags")

    def __init__(self) -> None:
        self.doubles = (c_double * DOUBLES)()
        self.totals = (c_int64 * len(TOTALS))()
        self.types = c_uint32()
        self.flags = c_uint32()

    @classmethod
    def of(cls, record: GeoStatistics) -> Parts:
        """Those of the record."""
        if not isinstance(record, GeoStatistics):
            raise TypeError(f"expected GeoStatistics, not {type(record).__name__}")
        parts = cls()
        flags = flags_of(record.bbox)
        parts.doubles[:ENDS] = list(ends_of(record.bbox))
        for place, (name, flag) in enumerate(EXTENTS.items(), ENDS):
            extent = getattr(record, name)
            if extent is not None:
                parts.doubles[place] = extent
                flags |= flag
        for place, (name, flag) in enumerate(TOTALS.items()):
            total = getattr(record, name)
            if total is not None:
                parts.totals[place] = total
                flags |= flag
        if record.geometry_types is not None:
            parts.types.value = record.geometry_types
            flags |= TYPES
        parts.flags.value = flags
        return parts

    def places(self) -> Tuple[Any, ...]:
        """The four places, for a call that writes them."""
        return self.doubles, self.totals, byref(self.types), byref(self.flags)

    def record(self) -> GeoStatistics:
        """The record that stands there."""
        flags = self.flags.value
        known: Dict[str, Any] = {}
        for place, (name, flag) in enumerate(TOTALS.items()):
            known[name] = self.totals[place] if flags & flag else None
        for place, (name, flag) in enumerate(EXTENTS.items(), ENDS):
            known[name] = self.doubles[place] if flags & flag else None
        return GeoStatistics(
            bbox=box_of(self.doubles[:ENDS], flags & BOX_FLAGS) if flags & BOX else None,
            geometry_types=self.types.value if flags & TYPES else None,
            **known,
        )
