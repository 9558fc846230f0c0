"""Pile six: a query for hot readings, and which of three files it may skip.

A reading has x and y on the site, its depth as z and its degrees as m. Each file keeps one record
of its readings; a reader that trusts the records opens only the files that may match.
"""

from __future__ import annotations

from typing import Tuple

from . import BoundingBox, Column, Filter, GeoStatistics, fold

Pair = Tuple[float, float]


def part(x: Pair, y: Pair, z: Pair, m: Pair, readings: int) -> GeoStatistics:
    return GeoStatistics(bbox=BoundingBox(x, y, z, m), total_points=readings)


# Two records of each file.
FILES = {
    "monday.parquet": [
        part((12.0, 18.0), (40.0, 44.0), (0.2, 1.1), (31.5, 48.0), 240),
        part((13.5, 19.0), (41.0, 45.0), (0.2, 1.4), (33.0, 51.5), 180),
    ],
    "tuesday.parquet": [
        part((12.5, 18.5), (40.5, 44.5), (0.3, 1.2), (36.0, 52.0), 220),
        part((14.0, 17.0), (41.0, 43.0), (0.9, 1.6), (49.0, 63.5), 36),
    ],
    "wednesday.parquet": [
        part((52.0, 58.0), (40.0, 44.0), (0.2, 1.1), (57.0, 66.0), 250),
        part((53.0, 57.5), (41.0, 43.5), (0.4, 1.3), (55.5, 64.0), 190),
    ],
}

ABOVE_55 = BoundingBox((10.0, 20.0), (38.0, 46.0), m=(55.0, 120.0))
READINGS = Column(index=0, name=6)


def main() -> None:
    wanted = Filter.intersects(READINGS, ABOVE_55)
    print("Wanted: readings above 55 degrees in pile six, x 10 to 20 and y 38 to 46.")
    for name, parts in FILES.items():
        record = fold(parts)
        assert record.bbox and record.bbox.m, "each part has both"
        degrees = record.bbox.m
        answer = wanted.evaluate_by_position([record])
        print(
            f"{name:<18} {record.total_points:3} readings, "
            f"{degrees.lo:.1f} to {degrees.hi:.1f} degrees: "
            + ("may match, read it" if answer else "cannot match, skip it")
        )
    box = wanted.filter_bbox(READINGS.name)
    assert box.m, "the filter has it"
    print(
        f"The index is asked for x {box.x.lo:g} to {box.x.hi:g}, y {box.y.lo:g} to {box.y.hi:g}, "
        f"from {box.m.lo:g} degrees on."
    )
