"""Filters held against the records of columns: may a file have a row that is wanted?"""

from __future__ import annotations

from array import array
from ctypes import byref, c_uint8
from dataclasses import dataclass
from enum import Enum, IntEnum
from typing import Any, Iterable, List, Mapping, NamedTuple, Optional, Tuple, Union

from ._buffers import call, view
from ._library import library
from ._values import Value, unsigned
from .bounding_box import BoundingBox, box_of, ends_of, flags_of, new_ends
from .refusal import accept, answer
from .statistics import GeoStatistics

Record = Union[GeoStatistics, BoundingBox, None]
"""What is known of a column: its record, or its box alone, or nothing."""


class Evaluation(Enum):
    """What a filter says of a file. CANNOT_MATCH is false, so that `if` asks whether to read it.

    >>> bool(Evaluation.MAY_MATCH), bool(Evaluation.CANNOT_MATCH)
    (True, False)
    """

    CANNOT_MATCH = 0
    MAY_MATCH = 1

    def __bool__(self) -> bool:
        return self is Evaluation.MAY_MATCH


@dataclass(frozen=True, init=False, repr=False)
class Column(Value):
    """A column that a filter names, by its place and by the number of its name.

    By position the index picks the record; by name the name number does. Both are integers of 32
    bits without a sign; which name a number stands for is the caller's.

    >>> Column(0, 6)
    Column(index=0, name=6)
    """

    __slots__ = ("index", "name")

    index: int
    name: int

    def __init__(self, index: int, name: int) -> None:
        self._set(index=unsigned(index, "index"), name=unsigned(name, "name"))


class _Kind(IntEnum):
    """The kinds of nodes, as the library numbers them."""

    INTERSECTS = 0
    COVERS = 1
    HAS_Z = 2
    AND = 3
    OR = 4
    LITERAL_FALSE = 5
    UNKNOWN = 6


class _Leaf(NamedTuple):
    """A leaf that names a column. The box is None in a HasZ."""

    kind: _Kind
    column: Column
    bbox: Optional[BoundingBox]


class Tables(NamedTuple):
    """A filter as the library reads it: three buffers, lent where they lie.

    `nodes` (item type 'I') has four words a node, and the last node is the root: a kind, and
    0 Intersects or 1 Covers: column index, name number, literal number;
    2 HasZ: column index, name number, and a word that is not read;
    3 And or 4 Or: left node, right node, both below it, and a word that is not read;
    5 LiteralFalse or 6 Unknown: three words that are not read.
    `literals` ('d') are boxes of eight doubles, low and high of x, y, z and m; `literal_flags`
    ('B') say what is known of each: 1 box, 2 its z, 4 its m.

    >>> tables = Filter.unknown().compile()
    >>> list(tables.nodes)
    [6, 0, 0, 0]
    """

    nodes: Any
    literals: Any
    literal_flags: Any

    def evaluate(
        self,
        records: Any,
        record_flags: Any,
        record_types: Any,
        types_known: Any,
        names: Any = None,
    ) -> Evaluation:
        """What the filter says of a file: see `evaluate`."""
        lists = [
            *self._views(),
            view(records, "d", "records"),
            view(record_flags, "B", "record_flags"),
            view(record_types, "I", "record_types"),
            view(types_known, "B", "types_known"),
        ]
        if names is None:
            return Evaluation(answer(call(library.johikape_evaluate_by_position, *lists)))
        lists.append(view(names, "I", "names"))
        return Evaluation(answer(call(library.johikape_evaluate_by_name, *lists)))

    def filter_bbox(self, name: int) -> BoundingBox:
        """The filter's box for a column: see `Filter.filter_bbox`."""
        ends, flags = new_ends(), c_uint8()
        number = unsigned(name, "name")
        accept(call(library.johikape_filter_bbox, *self._views(), number, ends, byref(flags)))
        return box_of(ends, flags.value)

    def _views(self) -> Tuple[memoryview, ...]:
        return (
            view(self.nodes, "I", "nodes"),
            view(self.literals, "d", "literals"),
            view(self.literal_flags, "B", "literal_flags"),
        )


class Filter:
    """A filter, as a tree: leaves that ask a column for a box or for z, joined by `&` and `|`.

    >>> probes, roads = Column(0, 6), Column(1, 7)
    >>> near = BoundingBox((10, 20), (38, 46))
    >>> wanted = Filter.intersects(probes, near) & Filter.intersects(roads, near)
    >>> wanted.evaluate_by_position([near, BoundingBox((50, 60), (38, 46))])
    <Evaluation.CANNOT_MATCH: 0>
    >>> (wanted | Filter.unknown()).evaluate_by_position([near, None])
    <Evaluation.MAY_MATCH: 1>

    A filter is never changed. It is turned into its tables once, at its first use, so one filter
    may be held against any number of files, by any number of threads. With more than 1,024 nodes it
    is refused by 4, when it is used.
    """

    # The nodes with each pair behind its two sides, so that no depth is too deep for Python.
    __slots__ = ("_nodes", "_tables")
    _nodes: Tuple[Union[_Leaf, _Kind], ...]
    _tables: Optional[Tables]

    def __init__(self) -> None:
        raise TypeError("write Filter.intersects, covers, has_z, literal_false or unknown")

    @classmethod
    def _of(cls, *nodes: Union[_Leaf, _Kind]) -> Filter:
        made = object.__new__(cls)
        made._nodes = nodes
        made._tables = None
        return made

    @classmethod
    def _leaf(cls, kind: _Kind, column: Column, bbox: Optional[BoundingBox]) -> Filter:
        if not isinstance(column, Column):
            raise TypeError(f"column must be a Column, not {type(column).__name__}")
        if kind is not _Kind.HAS_Z and not isinstance(bbox, BoundingBox):
            raise TypeError(f"bbox must be a BoundingBox, not {type(bbox).__name__}")
        return cls._of(_Leaf(kind, column, bbox))

    @classmethod
    def intersects(cls, column: Column, bbox: BoundingBox) -> Filter:
        """May match where the column's box and the literal intersect, or the column has no box."""
        return cls._leaf(_Kind.INTERSECTS, column, bbox)

    @classmethod
    def covers(cls, column: Column, bbox: BoundingBox) -> Filter:
        """May match where the column's box contains the literal, or the column has no box."""
        return cls._leaf(_Kind.COVERS, column, bbox)

    @classmethod
    def has_z(cls, column: Column) -> Filter:
        """May match unless the column's z is known and empty, or its types are known and none of
        them has z: no bit from 8 to 15 or from 24 to 31 is set.

        It wants rows with a box, a type with z, and a z that is missing or runs low to high. Such a
        row is found in any fold that has its record: its box beside a known type set with its
        type's bit.

        >>> deep = Filter.has_z(Column(0, 6))
        >>> points, points_with_z = 1 << 1, 1 << 9
        >>> deep.evaluate_by_position([GeoStatistics(geometry_types=points)])
        <Evaluation.CANNOT_MATCH: 0>
        >>> deep.evaluate_by_position([GeoStatistics(geometry_types=points | points_with_z)])
        <Evaluation.MAY_MATCH: 1>
        """
        return cls._leaf(_Kind.HAS_Z, column, None)

    @classmethod
    def literal_false(cls) -> Filter:
        """Never matches."""
        return cls._of(_Kind.LITERAL_FALSE)

    @classmethod
    def unknown(cls) -> Filter:
        """May always match: for what a filter cannot say."""
        return cls._of(_Kind.UNKNOWN)

    def and_(self, other: Filter) -> Filter:
        """May match where both may. Each side is held against the records alone. Also `&`."""
        return self._pair(other, _Kind.AND)

    def or_(self, other: Filter) -> Filter:
        """May match where one of them may. Also `|`."""
        return self._pair(other, _Kind.OR)

    def _pair(self, other: Filter, kind: _Kind) -> Filter:
        if not isinstance(other, Filter):
            raise TypeError(f"a filter is joined with a Filter, not {type(other).__name__}")
        return self._of(*self._nodes, *other._nodes, kind)

    __and__ = and_
    __or__ = or_

    def __bool__(self) -> bool:
        # `a or b` would give a alone, and files would be skipped that b wants.
        raise TypeError("a filter is neither true nor false: join filters by & and |")

    def evaluate_by_position(self, records: Iterable[Record]) -> Evaluation:
        """Whether a file may have a row that the filter wants.

        `records` has what is known of each column of the file, in their order: a GeoStatistics,
        whose box and types are read, a BoundingBox, or None. Without a box a column may match any
        literal, and without types too it may match anything. `Refusal` 10 where a leaf's column
        index is past the records.

        >>> hot = Filter.intersects(Column(0, 6), BoundingBox((10, 20), (38, 46), m=(55, 120)))
        >>> hot.evaluate_by_position([BoundingBox((12, 19), (40, 45), m=(31.5, 51.5))])
        <Evaluation.CANNOT_MATCH: 0>
        >>> hot.evaluate_by_position([None])
        <Evaluation.MAY_MATCH: 1>
        """
        return self.compile().evaluate(*_lent(records))

    def evaluate_by_name(
        self, records: Union[Mapping[int, Record], Iterable[Tuple[int, Record]]]
    ) -> Evaluation:
        """The same, where a leaf's name number picks the record.

        `records` maps name numbers to what is known of the columns, or has pairs of both. A name
        number that is not there counts as a record without a box and without types. `Refusal` 11
        where one is there twice.

        >>> hot = Filter.intersects(Column(0, 6), BoundingBox((10, 20), (38, 46), m=(55, 120)))
        >>> hot.evaluate_by_name({6: BoundingBox((12, 19), (40, 45), m=(31.5, 51.5))})
        <Evaluation.CANNOT_MATCH: 0>
        >>> hot.evaluate_by_name({})
        <Evaluation.MAY_MATCH: 1>
        """
        pairs = list(records.items() if isinstance(records, Mapping) else records)
        names = array("I", [unsigned(name, "a name number") for name, _ in pairs])
        return self.compile().evaluate(*_lent(record for _, record in pairs), names)

    def filter_bbox(self, name: int) -> BoundingBox:
        """The filter's box for the column of a name number: what an index scan looks up.

        It can be empty where a file may match: no one value is in both sides of this And.

        >>> column = Column(0, 4)
        >>> apart = Filter.intersects(column, BoundingBox((1, 2), (0, 1))) & Filter.intersects(
        ...     column, BoundingBox((5, 6), (0, 1))
        ... )
        >>> apart.evaluate_by_position([BoundingBox((0, 10), (0, 1))])
        <Evaluation.MAY_MATCH: 1>
        >>> apart.filter_bbox(4).x.is_empty()
        True
        """
        return self.compile().filter_bbox(name)

    def compile(self) -> Tables:
        """The filter's tables, read-only."""
        if self._tables is None:
            self._tables = self._compiled()
        return self._tables

    def _compiled(self) -> Tables:
        nodes, literals, literal_flags = array("I"), array("d"), array("B")
        # The numbers of the nodes that are not yet used as a side.
        sides: List[int] = []
        for number, node in enumerate(self._nodes):
            if isinstance(node, _Leaf):
                nodes.extend((node.kind, node.column.index, node.column.name, len(literal_flags)))
                # A HasZ has no literal, and its last word is not read.
                if node.bbox is not None:
                    literals.extend(ends_of(node.bbox))
                    literal_flags.append(flags_of(node.bbox))
            elif node in (_Kind.AND, _Kind.OR):
                right, left = sides.pop(), sides.pop()
                nodes.extend((node, left, right, 0))
            else:
                nodes.extend((node, 0, 0, 0))
            sides.append(number)
        tables: List[Any] = [nodes, literals, literal_flags]
        return Tables(*(memoryview(table).toreadonly() for table in tables))

    def __eq__(self, other: object) -> bool:
        if not isinstance(other, Filter):
            return NotImplemented
        return self._nodes == other._nodes

    def __hash__(self) -> int:
        return hash(self._nodes)

    def __reduce__(self) -> Any:
        return Filter._of, self._nodes

    def __repr__(self) -> str:
        sides: List[str] = []
        for node in self._nodes:
            if isinstance(node, _Leaf):
                shown = ", ".join(repr(part) for part in node[1:] if part is not None)
                sides.append(f"Filter.{node.kind.name.lower()}({shown})")
            elif node in (_Kind.AND, _Kind.OR):
                right, left = sides.pop(), sides.pop()
                sides.append(f"({left} {'&' if node is _Kind.AND else '|'} {right})")
            else:
                sides.append(f"Filter.{node.name.lower()}()")
        return sides[0]


def evaluate(
    nodes: Any,
    literals: Any,
    literal_flags: Any,
    records: Any,
    record_flags: Any,
    record_types: Any,
    types_known: Any,
    names: Any = None,
) -> Evaluation:
    """What a filter says of a file, all of it in buffers: see `Tables` for the first three.

    `records` (item type 'd') has eight doubles a column, `record_flags` ('B') what is known of
    each, 0 where it has no box. `record_types` ('I') has a type set a column, `types_known` ('B') 1
    where it is known, else 0. With `names` ('I'), one for each record, it is by name; else by
    position. `Refusal` 4, 5 or 7 to 11 where the tables are no filter, or do not fit.

    >>> evaluate(
    ...     nodes=array("I", [0, 0, 6, 0]),
    ...     literals=array("d", [10, 20, 38, 46, 0, 0, 55, 120]),
    ...     literal_flags=bytes([5]),
    ...     records=array("d", [12, 19, 40, 45, 0, 0, 31.5, 51.5]),
    ...     record_flags=bytes([5]),
    ...     record_types=array("I", [0]),
    ...     types_known=bytes([0]),
    ... )
    <Evaluation.CANNOT_MATCH: 0>
    """
    return Tables(nodes, literals, literal_flags).evaluate(
        records, record_flags, record_types, types_known, names
    )


def _lent(records: Iterable[Record]) -> Tuple[Any, Any, Any, Any]:
    """The boxes and types of records, as the library reads them."""
    ends, flags, types, types_known = array("d"), array("B"), array("I"), array("B")
    for record in records:
        bbox = record.bbox if isinstance(record, GeoStatistics) else record
        known = record.geometry_types if isinstance(record, GeoStatistics) else None
        if not (bbox is None or isinstance(bbox, BoundingBox)):
            raise TypeError(
                f"a record must be GeoStatistics, BoundingBox or None, not {type(bbox).__name__}"
            )
        ends.extend(ends_of(bbox))
        flags.append(flags_of(bbox))
        types.append(known or 0)
        types_known.append(known is not None)
    return ends, flags, types, types_known
