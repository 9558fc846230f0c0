"""The search for a name number."""

import unittest
from array import array

from johikape import NameSearch, find_name

MOST = 2**32 - 1
# Names that differ, and no 0 among them.
NAMES = [k * 0x9E3779B9 & MOST for k in range(1, 901)]


class Found(unittest.TestCase):
    def test_no_names(self):
        for none in ([], (), {}, array("I")):
            self.assertEqual(find_name(none, 0), NameSearch(None, 0))

    def test_each_of_900(self):
        self.assertEqual(find_name(NAMES, NAMES[0]), NameSearch(0, 1))
        self.assertEqual(find_name(NAMES, NAMES[899]), NameSearch(899, 900))
        lent = array("I", NAMES)
        for place, name in enumerate(NAMES):
            self.assertEqual(find_name(lent, name), NameSearch(place, place + 1))

    def test_none_among_900(self):
        self.assertEqual(find_name(NAMES, 0), NameSearch(None, 900))
        # Not even where one bit alone differs.
        for bit in range(32):
            self.assertEqual(find_name([7, 41], 41 ^ 1 << bit), NameSearch(None, 2))

    def test_of_a_name_twice_the_first(self):
        self.assertEqual(find_name([41, 7, 41, 7], 7), NameSearch(1, 2))
        self.assertEqual(find_name([*NAMES[:899], NAMES[0]], NAMES[0]), NameSearch(0, 1))
        self.assertEqual(find_name([MOST] * 900, MOST), NameSearch(0, 1))

    def test_hit(self):
        for names, hit in [([41], True), ([7], False), ([], False)]:
            search = find_name(names, 41)
            self.assertIs(search.hit, hit)
            self.assertIs(bool(search), hit)

    def test_whatever_has_ints(self):
        for names in (iter([6, 41]), {6: "probe", 41: "outline"}, range(40, 42), (True, 41)):
            self.assertEqual(find_name(names, 41), NameSearch(1, 2))


class Buffers(unittest.TestCase):
    def test_read_only(self):
        lent = memoryview(array("I", NAMES).tobytes()).cast("I")
        self.assertEqual(find_name(lent, NAMES[5]), NameSearch(5, 6))
        self.assertEqual(find_name(lent[2:4], NAMES[5]), NameSearch(None, 2))

    def test_nothing_stays_lent(self):
        names = array("I", NAMES)
        find_name(names, 0)
        names.append(0)
        self.assertEqual(find_name(names, 0), NameSearch(900, 901))

    def test_turned_away(self):
        for wrong in (b"\0\0\0\0", array("i", [0]), array("Q", [0]), array("d", [0])):
            with self.assertRaisesRegex(TypeError, "names must be a buffer of .* has item type"):
                find_name(wrong, 0)
        with self.assertRaisesRegex(ValueError, "names must be contiguous"):
            find_name(memoryview(array("I", NAMES))[::2], 0)


class Arguments(unittest.TestCase):
    def test_a_name(self):
        for name in (-1, 2**32):
            with self.assertRaisesRegex(OverflowError, "^name must lie between 0 and 4294967295"):
                find_name([41], name)
        for name in ("degrees", 6.0, None):
            with self.assertRaisesRegex(TypeError, "^name must be a whole number, not "):
                find_name([41], name)

    def test_names(self):
        for name in (-1, 2**32):
            with self.assertRaisesRegex(OverflowError, "a name number must lie between 0 and"):
                find_name([41, name], 41)
        for names in (["degrees"], "degrees", [6.0], [None]):
            with self.assertRaisesRegex(TypeError, "a name number must be a whole number, not "):
                find_name(names, 41)
        with self.assertRaises(TypeError):
            find_name(41, 41)


if __name__ == "__main__":
    unittest.main()
