"""Records, merged and folded."""

import math
import unittest
from array import array

from johikape import BoundingBox, GeoStatistics, Records, Refusal, fold, merge

MOST = 2**63 - 1
LEAST = -(2**63)
TOTALS = (
    "total_geometries",
    "total_size_bytes",
    "total_points",
    "puntal_count",
    "lineal_count",
    "polygonal_count",
    "collection_count",
)


def full_record(n):
    """A record of which everything is known, each part another number."""
    return GeoStatistics(
        bbox=BoundingBox((n, n + 1), (n + 2, n + 3), z=(n + 4, n + 5), m=(n + 6, n + 7)),
        geometry_types=2**n,
        **{name: 100 * place + n for place, name in enumerate(TOTALS)},
        total_envelope_width=n + 0.25,
        total_envelope_height=n + 0.5,
    )


class Merging(unittest.TestCase):
    def test_each_part(self):
        self.assertEqual(
            full_record(1).merge(full_record(2)),
            GeoStatistics(
                bbox=BoundingBox((1, 3), (3, 5), z=(5, 7), m=(7, 9)),
                geometry_types=2 + 4,
                **{name: 200 * place + 3 for place, name in enumerate(TOTALS)},
                total_envelope_width=3.5,
                total_envelope_height=4.0,
            ),
        )

    def test_what_is_missing(self):
        known = full_record(1)
        # A box and a type set yield the other's; totals are missing.
        expected = GeoStatistics(bbox=known.bbox, geometry_types=2)
        self.assertEqual(merge(known, GeoStatistics()), expected)
        self.assertEqual(merge(GeoStatistics(), known), expected)

    def test_each_total_at_the_end_of_its_range(self):
        for name in TOTALS:
            for end, step in [(MOST, 1), (LEAST, -1)]:
                with self.subTest(name=name, end=end):
                    record = GeoStatistics(**{name: end})
                    self.assertEqual(record.merge(GeoStatistics(**{name: 0})), record)
                    with self.assertRaises(Refusal) as caught:
                        record.merge(GeoStatistics(**{name: step}))
                    self.assertEqual(caught.exception.number, 3)
                    self.assertEqual(record, GeoStatistics(**{name: end}))

    def test_extents_are_floats(self):
        record = GeoStatistics(total_envelope_width=math.inf)
        self.assertEqual(record.merge(GeoStatistics(total_envelope_width=1)), record)

    def test_only_records(self):
        with self.assertRaisesRegex(TypeError, "expected GeoStatistics, not BoundingBox"):
            GeoStatistics().merge(BoundingBox((0, 1), (0, 1)))
        with self.assertRaisesRegex(TypeError, "expected GeoStatistics, not NoneType"):
            GeoStatistics().merge(None)


class Zeros(unittest.TestCase):
    """Records in buffers, since a `BoundingBox` has no -0."""

    minus = array("d", [-0.0] * 10)
    flags = array("I", [1 | 2 | 4 | 2048 | 4096])

    def records(self):
        return Records(self.minus, array("q", bytes(56)), array("I", [0]), self.flags)

    def test_a_fold_has_plus_zero_and_lengths_as_they_are_added(self):
        place = Records.of([GeoStatistics()])
        self.records().fold_into(place)
        self.assertEqual(bytes(place.doubles), bytes(64) + array("d", [-0.0] * 2).tobytes())

    def test_a_folded_record(self):
        folded = self.records().fold()
        self.assertEqual(math.copysign(1, folded.bbox.x.lo), 1)
        self.assertEqual(math.copysign(1, folded.total_envelope_width), -1)


class Ranges(unittest.TestCase):
    def test_totals(self):
        for name in TOTALS:
            for bad in (MOST + 1, LEAST - 1, 2**64, 10**5000):
                with self.assertRaisesRegex(OverflowError, f"{name} must lie between"):
                    GeoStatistics(**{name: bad})
            for bad in (1.0, "1", [1]):
                with self.assertRaisesRegex(TypeError, f"{name} must be a whole number"):
                    GeoStatistics(**{name: bad})

    def test_geometry_types(self):
        self.assertEqual(GeoStatistics(geometry_types=2**32 - 1).geometry_types, 2**32 - 1)
        for bad in (-1, 2**32):
            with self.assertRaisesRegex(OverflowError, "geometry_types must lie between 0 and 429"):
                GeoStatistics(geometry_types=bad)

    def test_bbox(self):
        with self.assertRaisesRegex(TypeError, "bbox must be a BoundingBox or None, not tuple"):
            GeoStatistics(bbox=(0, 1, 0, 1))


class Folding(unittest.TestCase):
    def test_none(self):
        self.assertEqual(fold([]), GeoStatistics())

    def test_one_is_itself(self):
        for record in (full_record(3), GeoStatistics(), GeoStatistics(total_points=7)):
            self.assertEqual(fold([record]), record)

    def test_many_are_merged_in_order(self):
        records = [full_record(n) for n in range(20)]
        merged = records[0]
        for record in records[1:]:
            merged = merged.merge(record)
        self.assertEqual(fold(records), merged)
        self.assertEqual(fold(iter(records)), merged)
        self.assertEqual(fold(Records.of(records)), merged)

    def test_a_hundred_thousand(self):
        count = 100_000
        records = (
            GeoStatistics(bbox=BoundingBox((n, n + 1), (0, 1), m=(n, n)), total_points=n)
            for n in range(count)
        )
        self.assertEqual(
            fold(records),
            GeoStatistics(
                bbox=BoundingBox((0, count), (0, 1), m=(0, count - 1)),
                total_points=count * (count - 1) // 2,
            ),
        )

    def test_overflow_in_any_step(self):
        one, most, minus = (GeoStatistics(total_points=n) for n in (1, MOST, -1))
        self.assertEqual(fold([most, minus, one]), most)
        # The sum of all would fit; that of the first two does not.
        with self.assertRaises(Refusal) as caught:
            fold([most, one, minus])
        self.assertEqual(caught.exception.number, 3)

    def test_only_records(self):
        for bad, name in [(5, "int"), (None, "NoneType")]:
            with self.assertRaisesRegex(TypeError, f"expected GeoStatistics, not {name}"):
                fold([GeoStatistics(), bad])


if __name__ == "__main__":
    unittest.main()
