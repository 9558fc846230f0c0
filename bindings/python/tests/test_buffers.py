"""Buffers: which are taken, which are turned away, and that none is copied."""

import ctypes
import sys
import unittest
from array import array

from johikape import BoundingBox, Evaluation, GeoStatistics, Records, Refusal, evaluate

try:
    import numpy
except ImportError:
    numpy = None

MOST = 2**63 - 1
FLAGS = 1 | 64


def lists(count):
    """The four lists of records of which a box and the points are known."""
    doubles, totals = array("d"), array("q")
    for n in range(count):
        doubles.extend([n, n + 1, 0, 1, 0, 0, 0, 0, 0, 0])
        totals.extend([0, 0, n, 0, 0, 0, 0])
    return {
        "doubles": doubles,
        "totals": totals,
        "types": array("I", [0] * count),
        "flags": array("I", [FLAGS] * count),
    }


def folded(count):
    return GeoStatistics(
        bbox=BoundingBox((0, count), (0, 1)), total_points=count * (count - 1) // 2
    )


class Taken(unittest.TestCase):
    def test_arrays(self):
        self.assertEqual(Records(**lists(3)).fold(), folded(3))

    def test_read_only(self):
        kept = {
            name: memoryview(lent.tobytes()).cast(lent.typecode) for name, lent in lists(3).items()
        }
        self.assertTrue(kept["doubles"].readonly)
        self.assertEqual(Records(**kept).fold(), folded(3))

    def test_ctypes(self):
        types = {"doubles": ctypes.c_double, "totals": ctypes.c_int64}
        kept = {
            name: (types.get(name, ctypes.c_uint32) * len(lent))(*lent)
            for name, lent in lists(3).items()
        }
        self.assertEqual(Records(**kept).fold(), folded(3))
        rows = ((ctypes.c_double * 10) * 3).from_buffer(kept["doubles"])
        self.assertEqual(Records(**{**kept, "doubles": rows}).fold(), folded(3))

    def test_other_codes_of_the_same_items(self):
        same = "l" if array("l").itemsize == 8 else "q"
        kept = lists(3)
        kept["totals"] = array(same, kept["totals"])
        self.assertEqual(Records(**kept).fold(), folded(3))

    def test_more_dimensions(self):
        kept = lists(3)
        kept["doubles"] = memoryview(kept["doubles"]).cast("B").cast("d", shape=[3, 10])
        self.assertEqual(Records(**kept).fold(), folded(3))

    @unittest.skipIf(numpy is None, "numpy is not installed")
    def test_numpy(self):
        kept = lists(3)
        records = Records(
            numpy.array(kept["doubles"]).reshape(3, 10),
            numpy.array(kept["totals"], dtype=numpy.int64).reshape(3, 7),
            numpy.array(kept["types"], dtype=numpy.uint32),
            numpy.array(kept["flags"], dtype=numpy.uint32),
        )
        self.assertEqual(records.fold(), folded(3))
        every_second = numpy.zeros((6, 10))[::2]
        with self.assertRaisesRegex(ValueError, "doubles must be contiguous"):
            Records(**{**kept, "doubles": every_second})
        turned = numpy.zeros((10, 3)).T
        with self.assertRaisesRegex(ValueError, "doubles must be contiguous"):
            Records(**{**kept, "doubles": turned})

    def test_none_at_all(self):
        self.assertEqual(Records(**lists(0)).fold(), GeoStatistics())
        none = array("d"), b"", array("d"), b"", array("I"), b""
        self.assertEqual(evaluate(array("I", [6, 0, 0, 0]), *none), Evaluation.MAY_MATCH)
        self.assertEqual(
            evaluate(array("I", [5, 0, 0, 0]), *none, array("I")), Evaluation.CANNOT_MATCH
        )

    def test_a_hundred_thousand(self):
        self.assertEqual(Records(**lists(100_000)).fold(), folded(100_000))

    def test_nothing_is_copied(self):
        kept = lists(3)
        records = Records(**kept)
        kept["totals"][2] = 1000
        self.assertEqual(records.fold().total_points, 1003)

    def test_lent_while_the_records_are_there(self):
        kept = lists(3)
        records = Records(**kept)
        with self.assertRaises(BufferError):
            kept["totals"].append(0)
        del records
        kept["totals"].append(0)

    def test_nothing_stays_lent_after_a_call(self):
        nodes, box, flag = array("I", [0, 0, 0, 0]), array("d", [0] * 8), bytearray(b"\1")
        types, known = array("I", [0]), bytearray(b"\0")
        owners = (nodes, box, flag, types, known)
        before = [sys.getrefcount(owner) for owner in owners]
        for _ in range(100):
            evaluate(nodes, box, flag, box, flag, types, known)
            with self.assertRaises(Refusal):
                evaluate(nodes, box, flag, box, flag, types, b"")
            with self.assertRaises(TypeError):
                evaluate(nodes, box, flag, box, flag, types, 5)
        self.assertEqual([sys.getrefcount(owner) for owner in owners], before)
        # They may grow again.
        for owner in owners:
            owner.append(0)


class TurnedAway(unittest.TestCase):
    def test_items_of_another_type(self):
        wrong = {
            "doubles": [array("f", [0] * 10), array("q", [0] * 10), b"\0" * 80],
            "totals": [array("d", [0] * 7), array("i", [0] * 7), array("Q", [0] * 7)],
            "types": [array("i", [0]), array("H", [0]), array("d", [0]), b"\0\0\0\0"],
            "flags": [array("i", [1]), array("B", [1]), array("Q", [1])],
        }
        for name, buffers in wrong.items():
            for buffer in buffers:
                words = f"{name} must be a buffer of .* has item type"
                with self.assertRaisesRegex(TypeError, words):
                    Records(**{**lists(1), name: buffer})

    def test_bytes_in_another_order(self):
        orders = {"little": ctypes.c_double.__ctype_be__, "big": ctypes.c_double.__ctype_le__}
        other = orders[sys.byteorder]
        with self.assertRaisesRegex(TypeError, "doubles must be a buffer of doubles"):
            Records(**{**lists(1), "doubles": (other * 10)()})

    def test_no_buffer(self):
        for bad in ([0.0] * 10, None, 5, "text"):
            with self.assertRaisesRegex(
                TypeError, r"doubles must be a buffer of doubles, such as array.array\('d'\), not "
            ):
                Records(**{**lists(1), "doubles": bad})

    def test_not_contiguous(self):
        with self.assertRaisesRegex(ValueError, "doubles must be contiguous"):
            Records(**{**lists(1), "doubles": memoryview(array("d", [0] * 20))[::2]})
        with self.assertRaisesRegex(ValueError, "nodes must be contiguous"):
            nodes = memoryview(array("I", [0] * 8))[::2]
            evaluate(nodes, array("d"), b"", array("d"), b"", array("I"), b"")

    def test_not_aligned(self):
        shifted = memoryview(bytearray(84))[4:].cast("d")
        with self.assertRaisesRegex(ValueError, "not aligned"):
            Records(**{**lists(1), "doubles": shifted}).fold()

    def test_each_table_of_a_filter(self):
        good = {
            "nodes": array("I", [0, 0, 0, 0]),
            "literals": array("d", [0] * 8),
            "literal_flags": b"\1",
            "records": array("d", [0] * 8),
            "record_flags": b"\1",
            "record_types": array("I", [0]),
            "types_known": b"\1",
            "names": array("I", [0]),
        }
        self.assertIs(evaluate(**good), Evaluation.MAY_MATCH)
        for name in good:
            with self.assertRaisesRegex(TypeError, f"{name} must be a buffer of"):
                evaluate(**{**good, name: array("h", [0])})


class WrongLengths(unittest.TestCase):
    def test_refused_by_the_library(self):
        for name, lent in lists(2).items():
            for wrong in (lent[:-1], lent + lent[:1], lent[:0]):
                records = Records(**{**lists(2), name: wrong})
                with self.subTest(name=name, length=len(wrong)):
                    for call in (records.fold, lambda: records[0], lambda: records[:1]):
                        if len(records) == 0 and call != records.fold:
                            continue
                        with self.assertRaises(Refusal) as caught:
                            call()
                        self.assertEqual(caught.exception.number, 8)

    def test_bad_flags(self):
        for flags in (2, 4, 6, 8192, 2**32 - 1):
            records = Records(**{**lists(2), "flags": array("I", [FLAGS, flags])})
            for call in (records.fold, lambda: records[1]):
                with self.assertRaises(Refusal) as caught:
                    call()
                self.assertEqual(caught.exception.number, 8)
            self.assertEqual(records[0].total_points, 0)


class Parts(unittest.TestCase):
    def test_one(self):
        records = Records(**lists(3))
        expected = GeoStatistics(bbox=BoundingBox((2, 3), (0, 1)), total_points=2)
        self.assertEqual(records[2], expected)
        self.assertEqual(records[-1], expected)
        self.assertEqual(len(list(records)), 3)
        for place in (3, -4):
            with self.assertRaises(IndexError):
                records[place]

    def test_slices(self):
        records = Records(**lists(5))
        self.assertEqual(records[1:3].fold().total_points, 3)
        self.assertEqual(records[-2:].fold().total_points, 7)
        self.assertEqual(records[4:2].fold(), GeoStatistics())
        with self.assertRaisesRegex(ValueError, "no step"):
            records[::2]


class FoldInto(unittest.TestCase):
    def setUp(self):
        self.kept = lists(3)
        self.files = Records(**self.kept)

    def test_written_where_it_belongs(self):
        Records(**lists(4)).fold_into(self.files[1:2])
        self.assertEqual(list(self.kept["totals"][7:14]), [0, 0, 6, 0, 0, 0, 0])
        self.assertEqual(self.files[0].total_points, 0)
        self.assertEqual(self.files[1], folded(4))
        self.assertEqual(self.files[2].total_points, 2)

    def test_a_refused_fold_writes_nothing(self):
        before = {name: lent.tobytes() for name, lent in self.kept.items()}
        over = lists(2)
        over["totals"][2], over["totals"][9] = MOST, 1
        with self.assertRaises(Refusal) as caught:
            Records(**over).fold_into(self.files[1:2])
        self.assertEqual(caught.exception.number, 3)
        self.assertEqual({name: lent.tobytes() for name, lent in self.kept.items()}, before)

    def test_read_only(self):
        for name, lent in lists(1).items():
            place = Records(**{**lists(1), name: memoryview(lent).toreadonly()})
            with self.assertRaisesRegex(BufferError, f"{name} is read-only"):
                self.files.fold_into(place)

    def test_over_what_is_read(self):
        with self.assertRaisesRegex(ValueError, "doubles would be written over another buffer"):
            self.files.fold_into(self.files[:1])
        one = array("I", [0])
        with self.assertRaisesRegex(ValueError, "flags would be written over another buffer"):
            self.files.fold_into(Records(**{**lists(1), "types": one, "flags": one}))
        # Side by side in the same buffers is apart.
        self.files[:2].fold_into(self.files[2:])
        self.assertEqual(self.files[2], folded(2))

    def test_room_for_one(self):
        for count in (0, 2):
            with self.assertRaisesRegex(ValueError, "room for one record"):
                self.files.fold_into(Records(**lists(count)))
        short = Records(**{**lists(1), "doubles": array("d", [0] * 9)})
        with self.assertRaisesRegex(ValueError, "room for one record"):
            self.files.fold_into(short)
        with self.assertRaisesRegex(TypeError, "place must be Records"):
            self.files.fold_into(lists(1))


if __name__ == "__main__":
    unittest.main()
