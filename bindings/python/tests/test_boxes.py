"""Boxes."""

import copy
import dataclasses
import math
import unittest
from array import array
from struct import pack

from johikape import BoundingBox, GeoStatistics, Interval, Refusal, WraparoundInterval

HIGH_FIRST, LOW_FIRST = 0, 1


def wkb(order, words, numbers=()):
    """A part of well-known binary: its byte order, a type code and counts, and numbers."""
    return pack(f"{'><'[order]}B{len(words)}I{len(numbers)}d", order, *words, *numbers)


def nest(collections):
    """A point in so many collections."""
    return wkb(HIGH_FIRST, [7, 1]) * collections + wkb(LOW_FIRST, [1], [10, 38])


class Boxes(unittest.TestCase):
    def test_made_of_pairs_or_intervals(self):
        box = BoundingBox((170, -170), Interval(0, 1), m=(31.5, 48))
        self.assertEqual(box.x, WraparoundInterval(170, -170))
        self.assertEqual(box.y, Interval(0, 1))
        self.assertIsNone(box.z)
        self.assertEqual(box.m, Interval(31.5, 48))

    def test_intersects(self):
        a = BoundingBox((0, 10), (0, 10), z=(0, 1))
        self.assertTrue(a.intersects(BoundingBox((10, 20), (10, 20), z=(1, 2))))
        self.assertFalse(a.intersects(BoundingBox((11, 20), (0, 10))))
        self.assertFalse(a.intersects(BoundingBox((0, 10), (11, 20))))
        self.assertFalse(a.intersects(BoundingBox((0, 10), (0, 10), z=(2, 3))))

    def test_what_is_missing_rules_nothing_out(self):
        known = BoundingBox((0, 10), (0, 10), z=(0, 1), m=(0, 1))
        missing = BoundingBox((0, 10), (0, 10))
        for a, b in [(known, missing), (missing, known)]:
            self.assertTrue(a.intersects(b))
            self.assertTrue(a.contains(b))
        empty_m = BoundingBox((0, 10), (0, 10), m=Interval.empty())
        self.assertFalse(empty_m.contains(known))
        self.assertFalse(empty_m.intersects(known))

    def test_contains(self):
        a = BoundingBox((170, -170), (0, 10), m=(0, 55))
        self.assertTrue(a.contains(BoundingBox((-178, -175), (1, 2), m=(1, 2))))
        self.assertTrue(a.contains(BoundingBox((175, 178), (1, 2))))
        self.assertFalse(a.contains(BoundingBox((165, 178), (1, 2))))
        self.assertFalse(a.contains(BoundingBox((175, 178), (1, 12))))
        self.assertFalse(a.contains(BoundingBox((-178, -175), (1, 2), m=(1, 56))))

    def test_merge_keeps_what_both_know(self):
        a = BoundingBox((0, 1), (0, 1), z=(0, 1), m=(0, 1))
        b = BoundingBox((5, 6), (5, 6), m=(5, 6))
        self.assertEqual(a.merge(b), BoundingBox((0, 6), (0, 6), m=(0, 6)))
        self.assertEqual(a, BoundingBox((0, 1), (0, 1), z=(0, 1), m=(0, 1)))

    def test_intersection(self):
        a = BoundingBox((0, 10), (0, 10), z=(0, 1), m=(0, 5))
        self.assertEqual(
            a.intersection(BoundingBox((5, 20), (5, 20), m=(3, 9))),
            BoundingBox((5, 10), (5, 10), m=(3, 5)),
        )
        self.assertTrue(a.intersection(BoundingBox((0, 10), (11, 12))).is_empty())
        with self.assertRaises(Refusal) as caught:
            BoundingBox((0, 30), (0, 1)).intersection(BoundingBox((20, 5), (0, 1)))
        self.assertEqual(caught.exception.number, 1)

    def test_expand(self):
        self.assertEqual(
            BoundingBox((20, 10), (0, 1), z=(2, 3)).expand_by(4),
            BoundingBox((16, 14), (-4, 5), z=(2, 3)),
        )

    def test_is_empty(self):
        self.assertFalse(BoundingBox((0, 1), (0, 1)).is_empty())
        self.assertTrue(BoundingBox((math.inf, -math.inf), (0, 1)).is_empty())
        # An empty z does not make the box empty.
        self.assertFalse(BoundingBox((0, 1), (0, 1), z=Interval.empty()).is_empty())

    def test_nan_ends(self):
        odd = BoundingBox((0, 1), (math.nan, 1))
        self.assertFalse(odd.intersects(BoundingBox((0, 1), (0, 1))))
        self.assertEqual(odd.merge(BoundingBox((0, 1), (0, 1))), BoundingBox((0, 1), (0, 1)))

    def test_zeros_are_plus(self):
        zero = BoundingBox((-0.0, -0.0), (-0.0, -0.0), z=(-0.0, -0.0))
        for box in [
            zero,
            zero.merge(zero),
            zero.intersection(zero),
            zero.expand_by(math.nan),
            BoundingBox.from_geoparquet([-0.0] * 6),
        ]:
            ends = (box.x.lo, box.x.hi, box.y.lo, box.y.hi, box.z.lo, box.z.hi)
            self.assertEqual(pack("6d", *ends), bytes(48), box)
        self.assertEqual(pack("6d", *zero.to_geoparquet()), bytes(48))

    def test_what_makes_a_box_has_plus_zero_for_each_end(self):
        for place in range(8):
            ends = [1.0] * 8
            ends[place] = -0.0
            x, y, z, m = zip(ends[::2], ends[1::2])
            plus = pack("8d", *(end + 0.0 for end in ends))
            made = BoundingBox(WraparoundInterval(*x), Interval(*y), Interval(*z), Interval(*m))
            for box in [
                made,
                BoundingBox(x, y, z, m),
                dataclasses.replace(BoundingBox(x, y), z=z, m=m),
                dataclasses.replace(made, z=z),
                copy.deepcopy(made),
                GeoStatistics(bbox=made).bbox,
                dataclasses.replace(GeoStatistics(), bbox=made).bbox,
            ]:
                ends_of_all = [
                    end for part in (box.x, box.y, box.z, box.m) for end in (part.lo, part.hi)
                ]
                self.assertEqual(pack("8d", *ends_of_all), plus, box)
            # A box's ends are not filled in afterwards.
            for interval in (made.x, made.y, made.z, made.m):
                with self.assertRaises(dataclasses.FrozenInstanceError):
                    interval.lo = -0.0

    def test_to_geoparquet(self):
        strip = BoundingBox((170, -170), (1, 2))
        self.assertEqual(strip.to_geoparquet(), (170, 1, -170, 2))
        deep = BoundingBox((170, -170), (1, 2), z=(3, 4))
        self.assertEqual(deep.to_geoparquet(), (170, 1, 3, -170, 2, 4))
        below_1 = math.nextafter(1, 0)
        for number, box in [
            (13, BoundingBox((0, 1), (0, 1), m=(31.5, 48))),
            (13, BoundingBox((math.nan, 1), (0, 1), m=(31.5, 48))),
            (14, BoundingBox((math.nan, 1), (0, 1))),
            (14, BoundingBox((0, math.inf), (0, 1))),
            (14, BoundingBox((0, 1), (1, below_1))),
            (14, BoundingBox((0, 1), (0, 1), z=(1, below_1))),
            (14, BoundingBox((math.inf, -math.inf), (math.inf, -math.inf))),
        ]:
            with self.assertRaises(Refusal) as caught:
                box.to_geoparquet()
            self.assertEqual(caught.exception.number, number, box)

    def test_from_geoparquet(self):
        for array in [(170, 1, -170, 2), (1, 2, 3, 4, 5, 6)]:
            self.assertEqual(BoundingBox.from_geoparquet(array).to_geoparquet(), array)
        box = BoundingBox((10, 20), (38, 46), z=(-1.5, -1.5))
        self.assertEqual(BoundingBox.from_geoparquet(box.to_geoparquet()), box)
        for number, array in [
            *((12, [math.nan] * count) for count in (0, 1, 2, 3, 5, 7, 8)),
            (14, (0, math.nan, 1, 1)),
            (14, (-math.inf, 0, 1, 1)),
            (14, (0, 1, 1, 0)),
            (14, (0, 0, 1, 1, 1, 0)),
        ]:
            with self.assertRaises(Refusal) as caught:
                BoundingBox.from_geoparquet(array)
            self.assertEqual(caught.exception.number, number, array)
        with self.assertRaisesRegex(TypeError, "a number of a bbox array must be a number"):
            BoundingBox.from_geoparquet((0, "1", 1, 1))
        with self.assertRaises(TypeError):
            BoundingBox.from_geoparquet(1)

    def test_wrong_types(self):
        with self.assertRaisesRegex(TypeError, "x must be WraparoundInterval or a pair"):
            BoundingBox(Interval(0, 1), (0, 1))
        with self.assertRaisesRegex(TypeError, "y must be Interval or a pair"):
            BoundingBox((0, 1), WraparoundInterval(0, 1))
        with self.assertRaisesRegex(TypeError, "the high of z must be a number"):
            BoundingBox((0, 1), (0, 1), z=(0, "1"))
        with self.assertRaises(TypeError):
            BoundingBox((0, 1), (0, 1, 2))
        box = BoundingBox((0, 1), (0, 1))
        for call in (box.intersects, box.contains, box.merge, box.intersection):
            with self.assertRaisesRegex(TypeError, "expected BoundingBox, not tuple"):
                call((0, 1, 0, 1))


class WellKnownBinary(unittest.TestCase):
    point = bytes.fromhex("0101000000 0000000000002440 0000000000004340")
    point_box = BoundingBox((10, 10), (38, 38))
    empty = BoundingBox(WraparoundInterval.empty(), Interval.empty())

    def test_a_point_low_byte_first(self):
        self.assertEqual(BoundingBox.from_wkb(self.point), (self.point_box, 1 << 1))

    def test_both_byte_orders(self):
        box = BoundingBox((-170, 170), (2, 6), z=(-7, 3), m=(4, 8))
        for order in (HIGH_FIRST, LOW_FIRST):
            line = wkb(order, [3002, 2], [170, 2, 3, 4, -170, 6, -7, 8])
            self.assertEqual(BoundingBox.from_wkb(line), (box, 1 << 26))

    def test_parts_have_byte_orders_of_their_own(self):
        parts = [
            wkb(LOW_FIRST, [7, 3]),
            wkb(HIGH_FIRST, [1], [1, 2]),
            wkb(LOW_FIRST, [3, 2, 1], [5, 6]),
            # The polygon's second ring.
            wkb(LOW_FIRST, [1], [7, -8])[1:],
            wkb(HIGH_FIRST, [4, 1]),
            wkb(LOW_FIRST, [1], [-3, 4]),
        ]
        box = BoundingBox((-3, 7), (-8, 6))
        self.assertEqual(BoundingBox.from_wkb(b"".join(parts)), (box, 1 << 7))

    def test_each_type_has_its_bit_and_its_dimensions(self):
        none = Interval.empty()
        for thousands, known in enumerate([{}, {"z": none}, {"m": none}, {"z": none, "m": none}]):
            box = BoundingBox(self.empty.x, self.empty.y, **known)
            for kind in range(2, 8):
                empty = wkb(LOW_FIRST, [1000 * thousands + kind, 0])
                self.assertEqual(BoundingBox.from_wkb(empty), (box, 1 << 8 * thousands + kind))

    def test_nan_is_passed_over_and_infinities_are_not(self):
        point = wkb(LOW_FIRST, [1], [math.nan, math.nan])
        self.assertEqual(BoundingBox.from_wkb(point), (self.empty, 1 << 1))
        line = wkb(LOW_FIRST, [2, 3], [math.nan, 5, 1, math.nan, math.inf, -6])
        box = BoundingBox((1, math.inf), (-6, 5))
        self.assertEqual(BoundingBox.from_wkb(line), (box, 1 << 2))

    def test_a_record_of_both(self):
        record = GeoStatistics(*BoundingBox.from_wkb(self.point))
        self.assertEqual(record, GeoStatistics(bbox=self.point_box, geometry_types=1 << 1))

    def refused(self, number, data):
        with self.assertRaises(Refusal) as caught:
            BoundingBox.from_wkb(data)
        self.assertEqual(caught.exception.number, number, data[:100])

    def test_bytes_too_few_or_left_over(self):
        good = wkb(HIGH_FIRST, [2, 2], [1, 2, 3, 4])
        for count in range(len(good)):
            self.refused(15, good[:count])
        self.refused(15, good + b"\0")
        self.refused(15, wkb(LOW_FIRST, [2, 2**32 - 1], [1, 2]))

    def test_of_more_than_65_536_bytes_none_is_read(self):
        most = wkb(LOW_FIRST, [3004, 1771]) + 1771 * wkb(LOW_FIRST, [3001], [1, 2, 3, 4])
        self.assertEqual(len(most), 65_536)
        box = BoundingBox((1, 1), (2, 2), z=(3, 3), m=(4, 4))
        self.assertEqual(BoundingBox.from_wkb(most), (box, 1 << 28))
        self.refused(15, wkb(LOW_FIRST, [2, 4096], [1] * 8192))
        self.refused(15, b"\xff" * 65_537)
        self.refused(16, b"\xff" * 65_536)

    def test_a_wrong_byte_order_or_type_code(self):
        self.refused(16, b"\2")
        self.refused(16, b"\2" + self.point[1:])
        # None, curves, a TIN, dimensions that there are not, and EWKB's flags of z and of an SRID.
        for code in (0, 8, 1008, 16, 4001, 0x80000001, 0x20000001):
            self.refused(16, wkb(LOW_FIRST, [code], [1, 2, 3, 4]))
        # A whole that takes no such part, and one with other dimensions.
        for whole, part in [(4, 2), (5, 1), (6, 7), (1004, 1), (7, 1001), (3007, 2001)]:
            self.refused(16, wkb(LOW_FIRST, [whole, 1]) + wkb(LOW_FIRST, [part], [1, 2, 3]))

    def test_a_collection_is_at_most_32_deep(self):
        self.assertEqual(BoundingBox.from_wkb(nest(32)), (self.point_box, 1 << 7))
        self.refused(17, nest(33))

    def test_any_buffer_of_bytes(self):
        part = memoryview(b"\0" + self.point)[1:]
        for data in (bytearray(self.point), memoryview(self.point), array("B", self.point), part):
            self.assertEqual(BoundingBox.from_wkb(data), (self.point_box, 1 << 1))
        for none in (b"", bytearray(), memoryview(b"")):
            self.refused(15, none)

    def test_nothing_stays_lent(self):
        data = bytearray(self.point)
        BoundingBox.from_wkb(data)
        data.append(0)
        self.refused(15, data)
        data.pop()
        self.assertEqual(BoundingBox.from_wkb(data), (self.point_box, 1 << 1))

    def test_turned_away(self):
        for wrong in (self.point.hex(), list(self.point), None, 21):
            with self.assertRaisesRegex(TypeError, "data must be a buffer of bytes, such as"):
                BoundingBox.from_wkb(wrong)
        for wrong in (array("b", self.point[:5]), array("d", [10, 38])):
            with self.assertRaisesRegex(TypeError, "data must be a buffer of bytes .* has item"):
                BoundingBox.from_wkb(wrong)
        with self.assertRaisesRegex(ValueError, "data must be contiguous"):
            BoundingBox.from_wkb(memoryview(self.point)[::2])


if __name__ == "__main__":
    unittest.main()
