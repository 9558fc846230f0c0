"""Filters, as trees and as tables."""

import pickle
import sys
import unittest
from array import array
from functools import reduce
from math import inf, nan

import johikape
from johikape import (
    BoundingBox,
    Column,
    Evaluation,
    Filter,
    GeoStatistics,
    Interval,
    Refusal,
    Tables,
    fold,
)

MAY, CANNOT = Evaluation.MAY_MATCH, Evaluation.CANNOT_MATCH

FIRST, SECOND = Column(0, 40), Column(1, 41)
LOW = BoundingBox((0, 10), (0, 10))
HIGH = BoundingBox((20, 30), (20, 30))

DEEP = Filter.has_z(FIRST)
POINT, POINT_Z = 1 << 1, 1 << 9
MAX = sys.float_info.max


class Leaves(unittest.TestCase):
    def test_intersects(self):
        wanted = Filter.intersects(FIRST, BoundingBox((5, 15), (5, 15)))
        self.assertIs(wanted.evaluate_by_position([LOW]), MAY)
        self.assertIs(wanted.evaluate_by_position([HIGH]), CANNOT)

    def test_covers_asks_that_the_column_contains_the_literal(self):
        inside = BoundingBox((1, 2), (1, 2))
        self.assertIs(Filter.covers(FIRST, inside).evaluate_by_position([LOW]), MAY)
        self.assertIs(Filter.covers(FIRST, LOW).evaluate_by_position([inside]), CANNOT)

    def test_covers_reaches_across_the_antimeridian(self):
        islands = BoundingBox((170, -170), (0, 10))
        cases = [((175, 178), MAY), ((-178, -175), MAY), ((175, -175), MAY), ((160, 178), CANNOT)]
        for x, answer in cases:
            wanted = Filter.covers(FIRST, BoundingBox(x, (1, 2)))
            self.assertIs(wanted.evaluate_by_position([islands]), answer, x)

    def test_has_z_asks_for_a_type_with_z(self):
        without, with_z = (0, 7, 16, 23), (8, 15, 24, 31)
        cases = [(None, MAY), (0, CANNOT), (0x00FF00FF, CANNOT), (POINT | POINT_Z, MAY)]
        cases += [(1 << bit, CANNOT) for bit in without] + [(1 << bit, MAY) for bit in with_z]
        for types, answer in cases:
            for box in (None, LOW, BoundingBox((0, 1), (0, 1), z=(0.2, 1.4))):
                with self.subTest(types=types, box=box):
                    record = GeoStatistics(bbox=box, geometry_types=types)
                    self.assertIs(DEEP.evaluate_by_position([record]), answer)
                    self.assertIs(DEEP.evaluate_by_name({40: record}), answer)

    def test_has_z_asks_for_a_z_that_is_not_empty(self):
        cases = [((inf, -inf), CANNOT), ((MAX, -MAX), CANNOT)]
        cases += [(z, MAY) for z in [None, (0.2, 1.4), (1.4, 0.2), (inf, inf), (nan, nan)]]
        for z, answer in cases:
            with self.subTest(z=z):
                box = BoundingBox((0, 1), (0, 1), z=z)
                deep = GeoStatistics(bbox=box, geometry_types=POINT_Z)
                flat = GeoStatistics(bbox=box, geometry_types=POINT)
                self.assertIs(DEEP.evaluate_by_position([box]), answer)
                self.assertIs(DEEP.evaluate_by_position([deep]), answer)
                self.assertIs(DEEP.evaluate_by_position([flat]), CANNOT)

    def test_has_z_reads_only_what_is_known(self):
        no_z, types = array("d", [0, 1, 0, 1, inf, -inf, 0, 0]), array("I", [POINT])
        cases = [(0, 0, MAY), (1, 0, MAY), (5, 0, MAY), (3, 0, CANNOT), (0, 1, CANNOT)]
        for flags, known, answer in cases:
            with self.subTest(flags=flags, known=known):
                lent = no_z, bytes([flags]), types, bytes([known])
                self.assertIs(DEEP.compile().evaluate(*lent), answer)
                self.assertIs(DEEP.compile().evaluate(*lent, array("I", [40])), answer)

    def test_has_z_finds_its_row_in_a_fold(self):
        row = GeoStatistics(bbox=BoundingBox((0, 1), (0, 1), z=(0.2, 1.4)), geometry_types=POINT_Z)
        no_z = BoundingBox((0, 1), (0, 1), z=Interval.empty())
        for other in (GeoStatistics(), GeoStatistics(bbox=no_z, geometry_types=POINT)):
            self.assertIs(DEEP.evaluate_by_position([fold([row, other])]), MAY)
            self.assertIs(DEEP.evaluate_by_position([fold([other, row])]), MAY)

    def test_constants(self):
        self.assertIs(Filter.literal_false().evaluate_by_position([]), CANNOT)
        self.assertIs(Filter.unknown().evaluate_by_position([]), MAY)

    def test_without_a_box_anything_may_match(self):
        for leaf in (Filter.intersects(FIRST, LOW), Filter.covers(FIRST, LOW)):
            for record in (None, GeoStatistics(), GeoStatistics(total_points=0)):
                self.assertIs(leaf.evaluate_by_position([record]), MAY)

    def test_records_and_their_boxes_are_alike(self):
        wanted = Filter.intersects(FIRST, HIGH)
        self.assertIs(wanted.evaluate_by_position([GeoStatistics(bbox=LOW)]), CANNOT)
        self.assertIs(wanted.evaluate_by_position([GeoStatistics(bbox=HIGH)]), MAY)


class Trees(unittest.TestCase):
    def test_and_or(self):
        yes, no = Filter.unknown(), Filter.literal_false()
        for a, b in [(yes, yes), (yes, no), (no, yes), (no, no)]:
            both = MAY if (a, b) == (yes, yes) else CANNOT
            one = CANNOT if (a, b) == (no, no) else MAY
            self.assertIs((a & b).evaluate_by_position([]), both)
            self.assertIs((a | b).evaluate_by_position([]), one)
            self.assertEqual(a & b, a.and_(b))
            self.assertEqual(a | b, a.or_(b))

    def test_each_leaf_reads_its_own_column(self):
        wanted = Filter.intersects(FIRST, LOW) & Filter.intersects(SECOND, HIGH)
        self.assertIs(wanted.evaluate_by_position([LOW, HIGH]), MAY)
        self.assertIs(wanted.evaluate_by_position([HIGH, LOW]), CANNOT)
        self.assertIs(wanted.evaluate_by_name({41: HIGH, 40: LOW}), MAY)
        self.assertIs(wanted.evaluate_by_name([(41, LOW), (40, HIGH)]), CANNOT)
        # A HasZ stands between two literals and has none.
        wanted = Filter.intersects(FIRST, LOW) & DEEP & Filter.intersects(SECOND, HIGH)
        flat = GeoStatistics(bbox=LOW, geometry_types=POINT)
        self.assertIs(wanted.evaluate_by_position([LOW, HIGH]), MAY)
        self.assertIs(wanted.evaluate_by_position([LOW, LOW]), CANNOT)
        self.assertIs(wanted.evaluate_by_position([flat, HIGH]), CANNOT)

    def test_the_tree_as_written(self):
        # (a & b) | c and a & (b | c) differ where a and b cannot match and c may.
        a, b, c = Filter.literal_false(), Filter.literal_false(), Filter.unknown()
        self.assertIs(((a & b) | c).evaluate_by_position([]), MAY)
        self.assertIs((a & (b | c)).evaluate_by_position([]), CANNOT)

    def test_a_name_that_is_not_there_may_match(self):
        wanted = Filter.intersects(FIRST, LOW)
        self.assertIs(wanted.evaluate_by_name({}), MAY)
        self.assertIs(wanted.evaluate_by_name({41: HIGH}), MAY)
        self.assertIs(wanted.evaluate_by_name({40: HIGH}), CANNOT)
        flat = GeoStatistics(geometry_types=POINT)
        self.assertIs(DEEP.evaluate_by_name({}), MAY)
        self.assertIs(DEEP.evaluate_by_name({41: flat}), MAY)
        self.assertIs(DEEP.evaluate_by_name({40: flat}), CANNOT)

    def test_filter_box(self):
        wanted = Filter.intersects(FIRST, BoundingBox((0, 10), (0, 10), m=(55, 120)))
        self.assertEqual(wanted.filter_bbox(40), BoundingBox((0, 10), (0, 10), m=(55, 120)))
        everywhere = BoundingBox((-float("inf"), float("inf")), Interval.full())
        self.assertEqual(wanted.filter_bbox(41), everywhere)
        self.assertEqual(
            (wanted | Filter.covers(FIRST, HIGH)).filter_bbox(40), BoundingBox((0, 30), (0, 30))
        )
        self.assertTrue(Filter.literal_false().filter_bbox(40).is_empty())
        self.assertEqual(DEEP.filter_bbox(40), everywhere)
        self.assertEqual((DEEP & Filter.covers(FIRST, HIGH)).filter_bbox(40), HIGH)
        self.assertEqual((DEEP | Filter.covers(FIRST, HIGH)).filter_bbox(40), everywhere)

    def test_may_match_with_an_empty_filter_box(self):
        wanted = Filter.intersects(FIRST, BoundingBox((1, 2), (0, 1))) & Filter.intersects(
            FIRST, BoundingBox((5, 6), (0, 1))
        )
        self.assertIs(wanted.evaluate_by_position([BoundingBox((0, 10), (0, 1))]), MAY)
        box = wanted.filter_bbox(40)
        self.assertTrue(box.x.is_empty())
        self.assertEqual(box.y, Interval(0, 1))

    def test_functions_of_the_same_names(self):
        wanted = Filter.intersects(FIRST, LOW)
        self.assertIs(johikape.evaluate_by_position(wanted, [HIGH]), CANNOT)
        self.assertIs(johikape.evaluate_by_name(wanted, {40: LOW}), MAY)
        self.assertEqual(johikape.filter_bbox(wanted, 40), LOW)

    def test_chains(self):
        # A chain of n pairs has 2n + 1 nodes. The last to pass has 1,023.
        leaf = Filter.intersects(FIRST, LOW)
        chain = reduce(Filter.and_, [leaf] * 512)
        self.assertIs(chain.evaluate_by_position([LOW]), MAY)
        self.assertIs(chain.evaluate_by_position([HIGH]), CANNOT)
        self.assertEqual(chain.filter_bbox(40), LOW)
        right = reduce(lambda chain, leaf: leaf | chain, [leaf] * 512)
        self.assertIs(right.evaluate_by_name({40: HIGH}), CANNOT)
        self.assertEqual(right, pickle.loads(pickle.dumps(right)))
        self.assertEqual(repr(right).count("Filter.intersects"), 512)

    def test_a_hundred_thousand_columns(self):
        records = [None] * 99_999 + [LOW]
        for index, answer in [(99_999, CANNOT), (99_998, MAY)]:
            wanted = Filter.intersects(Column(index, 0), HIGH)
            self.assertIs(wanted.evaluate_by_position(records), answer)

    def test_names_with_the_same_low_bits_are_not_the_same(self):
        for count in (14, 15, 900):
            records = [(k * 65_536, HIGH) for k in range(count - 1)] + [((count - 1) * 65_536, LOW)]
            for k, answer in [(0, MAY), (count - 2, MAY), (count - 1, CANNOT), (count, MAY)]:
                wanted = Filter.intersects(Column(0, k * 65_536), HIGH)
                self.assertIs(wanted.evaluate_by_name(records), answer)


class Refusals(unittest.TestCase):
    def refused(self, number, call, *arguments):
        with self.assertRaises(Refusal) as caught:
            call(*arguments)
        self.assertEqual(caught.exception.number, number)

    def test_too_many_nodes(self):
        chain = reduce(Filter.or_, [Filter.unknown()] * 513)
        self.refused(4, chain.evaluate_by_position, [])
        self.refused(4, chain.evaluate_by_name, {})
        self.refused(4, chain.filter_bbox, 0)

    def test_no_column(self):
        wanted = Filter.intersects(SECOND, LOW)
        self.refused(10, wanted.evaluate_by_position, [LOW])
        self.refused(10, Filter.covers(Column(2**32 - 1, 0), LOW).evaluate_by_position, [LOW])
        deep = Filter.has_z(SECOND)
        self.refused(10, deep.evaluate_by_position, [LOW])
        self.refused(10, (Filter.unknown() | deep).evaluate_by_position, [LOW])

    def test_name_twice(self):
        self.refused(11, Filter.unknown().evaluate_by_name, [(40, LOW), (41, LOW), (40, LOW)])
        for step in (1, 65_536, 1_234_567):
            for count in (14, 15, 900):
                records = [(k * step, LOW) for k in range(count)]
                self.assertIs(Filter.unknown().evaluate_by_name(records), MAY)
                records[-1] = records[0]
                self.refused(11, Filter.unknown().evaluate_by_name, records)
                self.assertIs(Filter.unknown().evaluate_by_name(records[1:]), MAY)

    def test_tables(self):
        literal, flag = [0, 1, 0, 1, 0, 0, 0, 0], [1]
        cases = [
            (4, [], literal, flag),
            (4, [6, 0, 0], literal, flag),
            (4, [6, 0, 0, 0] * 1025, literal, flag),
            (5, [7, 0, 0, 0], literal, flag),
            (7, [3, 0, 0, 0], literal, flag),
            (7, [6, 0, 0, 0, 3, 0, 1, 0], literal, flag),
            (7, [6, 0, 0, 0, 3, 0, 0, 0], literal, flag),
            (7, [6, 0, 0, 0, 6, 0, 0, 0], literal, flag),
            (8, [6, 0, 0, 0], literal[:7], flag),
            (8, [6, 0, 0, 0], literal, []),
            (8, [6, 0, 0, 0], literal, [0]),
            (8, [6, 0, 0, 0], literal, [2]),
            (8, [6, 0, 0, 0], literal, [8]),
            (9, [0, 0, 40, 1], literal, flag),
            (9, [1, 0, 40, 2**32 - 1], literal, flag),
        ]
        for number, nodes, literals, flags in cases:
            with self.subTest(number=number, nodes=nodes[:8]):
                tables = Tables(array("I", nodes), array("d", literals), array("B", flags))
                record = [array("d", literal), array("B", flag), array("I", [0]), b"\0"]
                self.refused(number, tables.evaluate, *record)
                self.refused(number, tables.evaluate, *record, array("I", [40]))
                self.refused(number, tables.filter_bbox, 40)

    def test_records_that_do_not_fit(self):
        tables = Filter.unknown().compile()
        box, types = array("d", [0, 1, 0, 1, 0, 0, 0, 0]), array("I", [POINT])
        cases = [
            (box, b"", types, b"\1"),
            (box[:7], b"\1", types, b"\1"),
            (box, b"\2", types, b"\1"),
            (box, b"\1", types[:0], b"\1"),
            (box, b"\1", types * 2, b"\1"),
            (box, b"\1", types, b""),
            (box, b"\1", types, b"\1\1"),
            (box, b"\1", types, b"\2"),
            (box, b"\1", types, b"\xff"),
        ]
        for case in cases:
            with self.subTest(case=case):
                self.refused(8, tables.evaluate, *case)
                self.refused(8, tables.evaluate, *case, array("I", [40]))
        self.refused(8, tables.evaluate, box, b"\1", types, b"\1", array("I"))
        self.refused(8, tables.evaluate, box, b"\1", types, b"\1", array("I", [1, 2]))
        # A record without a box has the flag 0, and its doubles are there still; so are types that
        # are not known.
        self.assertIs(tables.evaluate(box, b"\0", types, b"\0"), MAY)

    def test_every_number_has_its_sentence(self):
        for number in (1, 3, 4, 5, *range(7, 20)):
            self.assertRegex(str(Refusal(number)), rf"^refused by {number}: [a-z]")
            self.assertNotIn("does not know", Refusal(number).sentence)
        for number in (2, 6, 99):
            self.assertIn("does not know", str(Refusal(number)))


class Arguments(unittest.TestCase):
    def test_columns(self):
        for index, name in [(-1, 0), (2**32, 0), (0, -1), (0, 2**32)]:
            with self.assertRaisesRegex(OverflowError, "must lie between 0 and 4294967295"):
                Column(index, name)
        with self.assertRaisesRegex(TypeError, "name must be a whole number, not str"):
            Column(0, "degrees")

    def test_names(self):
        wanted = Filter.unknown()
        with self.assertRaisesRegex(OverflowError, "a name number must lie between"):
            wanted.evaluate_by_name({-1: LOW})
        with self.assertRaisesRegex(OverflowError, "name must lie between"):
            wanted.filter_bbox(2**32)

    def test_records(self):
        for bad in ([1], [(0, 1, 0, 1)], {40: LOW}):
            with self.assertRaisesRegex(TypeError, "a record must be GeoStatistics, BoundingBox"):
                Filter.unknown().evaluate_by_position(bad)

    def test_leaves(self):
        with self.assertRaisesRegex(TypeError, "column must be a Column, not int"):
            Filter.intersects(0, LOW)
        with self.assertRaisesRegex(TypeError, "bbox must be a BoundingBox, not tuple"):
            Filter.covers(FIRST, (0, 1, 0, 1))
        with self.assertRaisesRegex(TypeError, "bbox must be a BoundingBox, not NoneType"):
            Filter.covers(FIRST, None)
        with self.assertRaisesRegex(TypeError, "column must be a Column, not int"):
            Filter.has_z(0)
        with self.assertRaises(TypeError):
            Filter()

    def test_joined_by_words(self):
        a, b = Filter.unknown(), Filter.literal_false()
        with self.assertRaisesRegex(TypeError, "join filters by & and"):
            a or b
        with self.assertRaisesRegex(TypeError, "join filters by & and"):
            not a
        with self.assertRaisesRegex(TypeError, "joined with a Filter, not bool"):
            a & True

    def test_compiled_tables_are_read_only(self):
        tables = Filter.intersects(FIRST, LOW).compile()
        with self.assertRaises(TypeError):
            tables.nodes[0] = 5


if __name__ == "__main__":
    unittest.main()
