"""The scan tariff: fees of records and of lists of sizes."""

import math
import unittest
from array import array

from johikape import BoundingBox, GeoStatistics, Rates, Refusal, fee_of_sizes, fold

GIB = 2**30
HALF = GIB // 2
# The most bytes that have a fee.
MOST = 2**40
HIGHEST = 10_000
FLAT = Rates(1, 1, 1)
FALLING = Rates(7, 5, 3)


def fee_of_record(size, rates):
    return GeoStatistics(total_size_bytes=size).fee(rates)


class Fees(unittest.TestCase):
    def costs(self, cents, size, rates):
        """Both calls, the list with this size alone."""
        self.assertEqual(fee_of_record(size, rates), cents, size)
        self.assertEqual(fee_of_sizes([size], rates), cents, size)

    def test_a_half_is_rounded_upward(self):
        first = Rates(1, 0, 0)
        for size, cents in [(0, 0), (1, 0), (HALF - 1, 0), (HALF, 1), (GIB + HALF - 1, 1)]:
            self.costs(cents, size, first)
        self.costs(2, HALF, Rates(3, 0, 0))

    def test_each_band_ends_at_its_byte(self):
        first, second, third = Rates(1, 0, 0), Rates(0, 1, 0), Rates(0, 0, 1)
        for rates, size, cents in [
            (first, 64 * GIB - HALF - 1, 63),
            (first, 64 * GIB - HALF, 64),
            (first, MOST, 64),
            (second, 64 * GIB + HALF - 1, 0),
            (second, 64 * GIB + HALF, 1),
            (second, 512 * GIB - HALF - 1, 447),
            (second, 512 * GIB - HALF, 448),
            (second, MOST, 448),
            (third, 512 * GIB + HALF - 1, 0),
            (third, 512 * GIB + HALF, 1),
            (third, MOST, 512),
        ]:
            self.costs(cents, size, rates)

    def test_the_bands_are_added(self):
        for count, cents in [(64, 448), (65, 453), (512, 2688), (513, 2691), (1024, 4224)]:
            self.costs(cents, count * GIB, FALLING)
        self.costs(2693, 513 * GIB + HALF, FALLING)

    def test_the_most_bytes_at_the_highest_rates(self):
        self.costs(10_240_000, MOST, Rates(HIGHEST, HIGHEST, HIGHEST))
        self.costs(0, MOST, Rates(0, 0, 0))

    def test_of_a_record_only_the_bytes(self):
        box = BoundingBox((math.nan, 1), (1, 0))
        others = {"bbox": box, "total_geometries": -1, "total_points": 2**63 - 1}
        self.assertEqual(GeoStatistics(total_size_bytes=GIB, **others).fee(FALLING), 7)

    def test_a_folded_record(self):
        sizes = [63 * GIB + HALF, HALF, 3 * GIB]
        folded = fold(GeoStatistics(total_size_bytes=size) for size in sizes)
        self.assertEqual(folded.fee(FALLING), 463)
        self.assertEqual(fee_of_sizes(sizes, FALLING), 463)


class Lists(unittest.TestCase):
    def test_none(self):
        for none in ([], (), array("q")):
            self.assertEqual(fee_of_sizes(none, FALLING), 0)

    def test_the_sum_is_rounded_and_not_each_size(self):
        for sizes in ([HALF] * 2, [HALF - 1, 1], [HALF - 1] * 3):
            self.assertEqual(fee_of_sizes(sizes, FLAT), 1)

    def test_the_most_bytes(self):
        self.assertEqual(fee_of_sizes([MOST // 2] * 2, FLAT), 1024)

    def test_a_thousand(self):
        self.assertEqual(fee_of_sizes([HALF] * 1000, FLAT), 500)
        self.assertEqual(fee_of_sizes([0] * 1000, FLAT), 0)

    def test_whatever_has_ints(self):
        for sizes in (iter([GIB, 0]), {GIB: "monday.parquet"}, array("q", [GIB]), (GIB, True)):
            self.assertEqual(fee_of_sizes(sizes, FALLING), 7)


class Refusals(unittest.TestCase):
    def refused(self, number, call, *arguments):
        with self.assertRaises(Refusal) as caught:
            call(*arguments)
        self.assertEqual(caught.exception.number, number)

    def test_a_size(self):
        for bad in (None, -1, MOST + 1, -(2**63), 2**63 - 1):
            with self.subTest(size=bad):
                self.refused(18, fee_of_record, bad, FLAT)
                for sizes in ([bad], [bad, 1, 1], [1, bad, 1], [1, 1, bad]):
                    self.refused(18, fee_of_sizes, sizes, FLAT)

    def test_the_sum(self):
        for over in ([MOST, 1], [1, MOST], [MOST] * 1000, [2**63 - 1] * 2):
            self.refused(18, fee_of_sizes, over, FLAT)
        # Each size in turn, though the sum is good.
        self.refused(18, fee_of_sizes, [MOST + 1, -1], FLAT)

    def test_more_than_a_thousand(self):
        for size in (0, HALF, None):
            self.refused(18, fee_of_sizes, [size] * 1001, FLAT)

    def test_a_rate(self):
        for over in (HIGHEST + 1, 2**32 - 1):
            for bad in (Rates(over, 0, 0), Rates(0, over, 0), Rates(0, 0, over)):
                with self.subTest(rates=bad):
                    self.refused(19, fee_of_record, 0, bad)
                    self.refused(19, fee_of_record, MOST, bad)
                    self.refused(19, fee_of_sizes, [], bad)
                    self.refused(19, fee_of_sizes, [MOST], bad)

    def test_a_size_before_a_rate(self):
        bad = Rates(HIGHEST + 1, HIGHEST + 1, HIGHEST + 1)
        for size in (None, -1, MOST + 1):
            self.refused(18, fee_of_record, size, bad)
            self.refused(18, fee_of_sizes, [size], bad)
        self.refused(18, fee_of_sizes, [0] * 1001, bad)


class Arguments(unittest.TestCase):
    def test_rates(self):
        for name in ("first", "second", "third"):
            good = {"first": 7, "second": 5, "third": 3}
            for bad in (-1, 2**32):
                with self.assertRaisesRegex(OverflowError, f"{name} must lie between 0 and 429"):
                    Rates(**{**good, name: bad})
            for bad in (7.0, "7", None):
                with self.assertRaisesRegex(TypeError, f"{name} must be a whole number"):
                    Rates(**{**good, name: bad})

    def test_only_rates(self):
        for call in (GeoStatistics(total_size_bytes=0).fee, lambda bad: fee_of_sizes([], bad)):
            with self.assertRaisesRegex(TypeError, "expected Rates, not tuple"):
                call((7, 5, 3))

    def test_sizes(self):
        for bad in (2**63, -(2**63) - 1, 10**5000):
            with self.assertRaisesRegex(OverflowError, "a size must lie between"):
                fee_of_sizes([0, bad], FLAT)
        for bad in (1.0, "1", [1]):
            with self.assertRaisesRegex(TypeError, "a size must be a whole number, not "):
                fee_of_sizes([0, bad], FLAT)
        with self.assertRaises(TypeError):
            fee_of_sizes(GIB, FLAT)


if __name__ == "__main__":
    unittest.main()
