"""Plain intervals, and x."""

import math
import unittest

from johikape import Interval, Refusal, WraparoundInterval

MAX = 1.7976931348623157e308
inf, nan = math.inf, math.nan


class Plain(unittest.TestCase):
    def test_values(self):
        a = Interval(10, 20)
        self.assertTrue(a.intersects_value(10))
        self.assertTrue(a.intersects_value(20))
        self.assertFalse(a.intersects_value(9.999))
        self.assertFalse(a.intersects_value(nan))
        self.assertFalse(Interval(20, 10).intersects_value(15))

    def test_held_against_another(self):
        a = Interval(10, 20)
        self.assertTrue(a.intersects(Interval(20, 30)))
        self.assertFalse(a.intersects(Interval(21, 30)))
        self.assertTrue(a.contains(Interval(10, 20)))
        self.assertFalse(a.contains(Interval(9, 20)))

    def test_empty_and_full(self):
        self.assertEqual(Interval.empty(), Interval(inf, -inf))
        self.assertTrue(Interval.empty().is_empty())
        # hi - lo is -inf, though both are finite.
        self.assertTrue(Interval(MAX, -MAX).is_empty())
        self.assertFalse(Interval(20, 10).is_empty())
        self.assertEqual(Interval.full(), Interval(-inf, inf))
        # By its ends a full one meets an empty one.
        self.assertTrue(Interval.full().intersects(Interval.empty()))

    def test_measures(self):
        self.assertEqual(Interval(1, 4).width(), 3)
        self.assertEqual(Interval(1, 4).mid(), 2.5)
        self.assertEqual(Interval(-MAX, MAX).width(), inf)
        self.assertFalse(Interval(4, 1).is_wraparound())

    def test_made_of_others(self):
        a = Interval(10, 20)
        self.assertEqual(a.merge(Interval(30, 40)), Interval(10, 40))
        self.assertEqual(a.merge_value(5), Interval(5, 20))
        self.assertEqual(a.intersection(Interval(15, 25)), Interval(15, 20))
        self.assertEqual(a.intersection(Interval(21, 25)), Interval.empty())
        self.assertEqual(a.expand_by(5), Interval(5, 25))
        self.assertEqual(a.expand_by(-1), a)
        self.assertEqual(a.expand_by(nan), a)

    def test_zeros_are_plus(self):
        zero = Interval(-0.0, -0.0)
        for given in [
            zero,
            zero.merge(zero),
            zero.merge_value(-0.0),
            Interval(nan, nan).merge_value(-0.0),
            zero.intersection(zero),
            zero.expand_by(nan),
            zero.expand_by(-0.0),
        ]:
            self.assertEqual([math.copysign(1, end) for end in (given.lo, given.hi)], [1, 1], given)
        self.assertTrue(zero.intersects_value(-0.0))

    def test_nan_ends_are_passed_over(self):
        self.assertEqual(Interval(5, nan).merge(Interval(nan, 3)), Interval(5, 3))
        self.assertEqual(Interval(10, 20).merge_value(nan), Interval(10, 20))
        self.assertFalse(Interval(nan, 20).intersects_value(10))
        self.assertFalse(Interval(nan, 20).is_empty())
        self.assertTrue(math.isnan(Interval(nan, 20).width()))


class X(unittest.TestCase):
    strip = WraparoundInterval(170, -170)

    def test_values(self):
        for value in (170, 175, inf, -170, -175, -inf):
            self.assertTrue(self.strip.intersects_value(value), value)
        for value in (0, 169.9, -169.9, nan):
            self.assertFalse(self.strip.intersects_value(value), value)

    def test_wraps(self):
        self.assertTrue(self.strip.is_wraparound())
        self.assertFalse(WraparoundInterval(-170, 170).is_wraparound())
        self.assertFalse(WraparoundInterval.empty().is_wraparound())
        self.assertFalse(WraparoundInterval(nan, 0).is_wraparound())
        self.assertEqual(self.strip.width(), inf)
        self.assertEqual(self.strip.mid(), inf)
        self.assertEqual(WraparoundInterval(1, 4).mid(), 2.5)

    def test_contains_what_lies_in_its_pieces(self):
        for inside in [(-178, -175), (175, 178), (175, -175), (inf, -inf)]:
            self.assertTrue(self.strip.contains(WraparoundInterval(*inside)), inside)
        for outside in [(160, 178), (169, -170), (175, nan), (-inf, inf)]:
            self.assertFalse(self.strip.contains(WraparoundInterval(*outside)), outside)
        self.assertFalse(WraparoundInterval(-180, 180).contains(self.strip))
        self.assertTrue(self.strip.intersects(WraparoundInterval(175, 178)))
        self.assertFalse(self.strip.intersects(WraparoundInterval(-100, 100)))

    def test_merge(self):
        # At equal distances it joins the piece above.
        self.assertEqual(
            self.strip.merge(WraparoundInterval(-100, 100)), WraparoundInterval(-100, -170)
        )
        self.assertEqual(
            WraparoundInterval(-100, -170).merge(WraparoundInterval(-180, 0)),
            WraparoundInterval.full(),
        )
        self.assertEqual(
            self.strip.merge(WraparoundInterval(-160, -150)), WraparoundInterval(170, -150)
        )
        self.assertEqual(self.strip.merge(WraparoundInterval.empty()), self.strip)
        self.assertEqual(self.strip.merge_value(160), WraparoundInterval(160, -170))
        self.assertEqual(self.strip.merge_value(nan), self.strip)

    def test_intersection(self):
        self.assertEqual(
            WraparoundInterval(0, 10).intersection(WraparoundInterval(20, 5)),
            WraparoundInterval(0, 5),
        )
        # What they leave out touches, and 10 is lost.
        self.assertEqual(
            WraparoundInterval(20, 10).intersection(WraparoundInterval(10, 0)),
            WraparoundInterval(20, 0),
        )
        with self.assertRaises(Refusal) as caught:
            WraparoundInterval(0, 30).intersection(WraparoundInterval(20, 5))
        self.assertEqual(caught.exception.number, 1)

    def test_expand(self):
        self.assertEqual(WraparoundInterval(20, 10).expand_by(4), WraparoundInterval(16, 14))
        self.assertEqual(WraparoundInterval(20, 10).expand_by(5), WraparoundInterval.full())

    def test_nan_ends(self):
        odd = WraparoundInterval(nan, 5)
        self.assertFalse(odd.intersects_value(0))
        self.assertFalse(odd.is_empty())
        self.assertFalse(odd.intersects(WraparoundInterval(0, 1)))


class Arguments(unittest.TestCase):
    def test_zeros_are_plus(self):
        zero, empty = WraparoundInterval(-0.0, -0.0), WraparoundInterval.empty()
        for given in [
            zero,
            zero.merge(zero),
            zero.merge(empty),
            empty.merge(zero),
            zero.merge_value(-0.0),
            zero.merge_value(nan),
            zero.expand_by(nan),
            zero.intersection(zero),
        ]:
            self.assertEqual([math.copysign(1, end) for end in (given.lo, given.hi)], [1, 1], given)

    def test_plain_and_x_do_not_mix(self):
        for a, b in [
            (Interval(0, 1), WraparoundInterval(0, 1)),
            (WraparoundInterval(0, 1), Interval(0, 1)),
            (Interval(0, 1), (0, 1)),
        ]:
            for call in (a.intersects, a.contains, a.merge, a.intersection):
                with self.assertRaises(TypeError):
                    call(b)
        self.assertNotEqual(Interval(0, 1), WraparoundInterval(0, 1))

    def test_ends_are_numbers(self):
        for bad in ("1", b"1", None, [1], 1j):
            with self.assertRaisesRegex(TypeError, "lo must be a number"):
                Interval(bad, 2)

    def test_ints_are_not_rounded(self):
        self.assertEqual(Interval(0, 2**53).hi, 9007199254740992.0)
        with self.assertRaisesRegex(ValueError, "hi is 9007199254740993, an int that no float"):
            Interval(0, 2**53 + 1)
        with self.assertRaisesRegex(OverflowError, "hi is an int beyond every float"):
            Interval(0, 10**400)

    def test_frozen(self):
        with self.assertRaises(AttributeError):
            Interval(0, 1).lo = 2
        with self.assertRaises(AttributeError):
            Interval(0, 1).middle = 2


if __name__ == "__main__":
    unittest.main()
