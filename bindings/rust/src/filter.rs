//! Filters: trees that people write, and the tables that the library reads.

use crate::bounding_box::BoundingBox;
use crate::calls;
use crate::layout::{Boxes, Columns, Ends};
use crate::refusal::Refusal;
use crate::statistics::GeoStatistics;

// The kinds of nodes.
const INTERSECTS: u32 = 0;
const COVERS: u32 = 1;
const HAS_Z: u32 = 2;
const AND: u32 = 3;
const OR: u32 = 4;
const LITERAL_FALSE: u32 = 5;
const UNKNOWN: u32 = 6;

/// The column that a leaf of a filter speaks of.
///
/// The index is read by position, the name number by name and for the filter box. Name numbers are
/// the caller's own: any numbers will do that differ from column to column.
///
/// ```
/// use johikape::Column;
///
/// assert_eq!(Column::at(2), Column { index: 2, name: 2 });
/// assert_eq!(Column::named(2, 41), Column { index: 2, name: 41 });
/// ```
#[derive(Clone, Copy, Debug, PartialEq, Eq, Hash)]
pub struct Column {
    /// Its place among the records, from 0.
    pub index: u32,
    /// Its name number.
    pub name: u32,
}

impl Column {
    /// The column at an index, which is its name number too.
    pub const fn at(index: u32) -> Column {
        Column::named(index, index)
    }

    /// The column at an index, with a name number of its own. A filter that is only held by name
    /// may give any index.
    pub const fn named(index: u32, name: u32) -> Column {
        Column { index, name }
    }
}

/// What a filter says of a file.
#[derive(Clone, Copy, Debug, PartialEq, Eq, Hash)]
pub enum Evaluation {
    /// The file may have a row that is wanted: it has to be read.
    MayMatch,
    /// The file has no row that is wanted: it may be skipped. [`Filter`] says what this rests on.
    CannotMatch,
}

/// What is wanted of a file, as far as boxes and types can tell.
///
/// The records of a file are the [`GeoStatistics`] of its columns, of which the boxes are read, and
/// by a [`has_z`](Filter::has_z) the types, and nothing else. To hold a filter against a bare box,
/// make a record of it by `GeoStatistics::from(bbox)`.
///
/// ```
/// use johikape::{BoundingBox, Column, Evaluation, Filter, GeoStatistics};
///
/// let pile = BoundingBox::xy((10.0, 20.0), (38.0, 46.0));
/// let probe = Column::at(0);
/// let filter = Filter::intersects(probe, pile.with_m((55.0, 120.0)))
///     .or(Filter::intersects(probe, pile.with_z((2.0, 3.0))));
///
/// let cold = BoundingBox::xy((12.0, 19.0), (40.0, 45.0)).with_z((0.2, 1.4)).with_m((31.5, 51.5));
/// let hot = cold.with_m((36.0, 63.5));
/// assert_eq!(filter.evaluate_by_position(&[cold.into()])?, Evaluation::CannotMatch);
/// assert_eq!(filter.evaluate_by_position(&[hot.into()])?, Evaluation::MayMatch);
/// assert_eq!(
///     filter.evaluate_by_position(&[GeoStatistics::UNSPECIFIED])?,
///     Evaluation::MayMatch
/// );
/// # Ok::<(), johikape::Refusal>(())
/// ```
///
/// # What can be relied on
///
/// Let each record be the [`fold`](crate::fold) of records that have all rows of its column. Then a
/// file that has a wanted row may match: it is never skipped. Records and literals may have any x,
/// wrapped around, empty or with a NaN end. Of a column under a [`has_z`](Filter::has_z) this asks
/// that the record of a row that this leaf wants is its box beside a known type set with its type's
/// bit; else a file with such a row may be skipped, for the types that other records know.
///
/// # Size
///
/// A filter has at most 1,024 nodes, leaves and joins counted. So at most 512 leaves can be joined
/// by [`and`](Filter::and) and [`or`](Filter::or). A larger filter can be written; where it is used
/// it is refused by [`Refusal::Words`].
#[derive(Clone, Debug, PartialEq)]
pub struct Filter {
    /// The tree as a list: a join stands behind its left side and its right side, the root last. So
    /// a deep tree costs no stack to build, to compile or to drop.
    nodes: Vec<Node>,
}

#[derive(Clone, Debug, PartialEq)]
enum Node {
    Intersects(Column, BoundingBox),
    Covers(Column, BoundingBox),
    HasZ(Column),
    /// A join, with how many nodes its right side has.
    And(usize),
    Or(usize),
    LiteralFalse,
    Unknown,
}

impl Filter {
    /// Wants rows whose box in the column intersects the literal. May match where the record's box
    /// does, or where the record has none.
    pub fn intersects(column: Column, literal: BoundingBox) -> Filter {
        Filter::leaf(Node::Intersects(column, literal))
    }

    /// Wants rows whose box in the column contains the literal: the column covers it. May match
    /// where the record's box does, or where the record has none.
    ///
    /// ```
    /// # use johikape::{BoundingBox, Column, Evaluation, Filter};
    /// let filter = Filter::covers(Column::at(0), BoundingBox::xy((2.0, 3.0), (2.0, 3.0)));
    /// let around = BoundingBox::xy((0.0, 9.0), (0.0, 9.0));
    /// let beside = BoundingBox::xy((2.5, 9.0), (0.0, 9.0));
    /// assert_eq!(filter.evaluate_by_position(&[around.into()])?, Evaluation::MayMatch);
    /// assert_eq!(filter.evaluate_by_position(&[beside.into()])?, Evaluation::CannotMatch);
    /// # Ok::<(), johikape::Refusal>(())
    /// ```
    pub fn covers(column: Column, literal: BoundingBox) -> Filter {
        Filter::leaf(Node::Covers(column, literal))
    }

    /// Wants rows that have a box in the column, a type with z, and a z that is missing or runs low
    /// to high. May match unless the record's z is known and empty, or its `geometry_types` are
    /// known and none of them has z: no bit from 8 to 15 or from 24 to 31 is set.
    ///
    /// ```
    /// # use johikape::{Column, Evaluation, Filter, GeoStatistics};
    /// let filter = Filter::has_z(Column::at(0));
    /// let (points, points_with_z) = (1 << 1, 1 << 9);
    /// let file = |types| GeoStatistics { geometry_types: Some(types), ..Default::default() };
    /// let (flat, mixed) = (file(points), file(points | points_with_z));
    /// assert_eq!(filter.evaluate_by_position(&[flat])?, Evaluation::CannotMatch);
    /// assert_eq!(filter.evaluate_by_position(&[mixed])?, Evaluation::MayMatch);
    /// # Ok::<(), johikape::Refusal>(())
    /// ```
    pub fn has_z(column: Column) -> Filter {
        Filter::leaf(Node::HasZ(column))
    }

    /// Wants nothing: never matches.
    pub fn literal_false() -> Filter {
        Filter::leaf(Node::LiteralFalse)
    }

    /// Wants what boxes and types cannot tell: may always match.
    pub fn unknown() -> Filter {
        Filter::leaf(Node::Unknown)
    }

    /// Wants what both want: may match where both may.
    #[must_use]
    pub fn and(self, other: Filter) -> Filter {
        self.join(other, Node::And)
    }

    /// Wants what either wants: may match where one of them may.
    #[must_use]
    pub fn or(self, other: Filter) -> Filter {
        self.join(other, Node::Or)
    }

    fn leaf(node: Node) -> Filter {
        Filter { nodes: vec![node] }
    }

    fn join(mut self, right: Filter, node: fn(usize) -> Node) -> Filter {
        let size = right.nodes.len();
        self.nodes.extend(right.nodes);
        self.nodes.push(node(size));
        self
    }

    /// The filter as the table that the library reads, to be held against many files.
    ///
    /// ```
    /// # use johikape::{BoundingBox, Column, Evaluation, Filter};
    /// let files = [
    ///     ("monday.parquet", BoundingBox::xy((0.0, 4.0), (0.0, 4.0))),
    ///     ("tuesday.parquet", BoundingBox::xy((6.0, 9.0), (0.0, 4.0))),
    /// ];
    /// let pile = BoundingBox::xy((5.0, 7.0), (1.0, 2.0));
    /// let wanted = Filter::intersects(Column::at(0), pile).compile();
    /// let mut to_read = Vec::new();
    /// for (name, bbox) in files {
    ///     if wanted.evaluate_by_position(&[bbox.into()])? == Evaluation::MayMatch {
    ///         to_read.push(name);
    ///     }
    /// }
    /// assert_eq!(to_read, ["tuesday.parquet"]);
    /// # Ok::<(), johikape::Refusal>(())
    /// ```
    pub fn compile(&self) -> CompiledFilter {
        let mut table = CompiledFilter {
            nodes: Vec::with_capacity(self.nodes.len()),
            literals: Boxes::default(),
        };
        for node in &self.nodes {
            let words = table.words(node);
            table.nodes.push(words);
        }
        table
    }

    /// Whether a file may have a row that is wanted, its records found by position: compiles the
    /// filter for one call of [`CompiledFilter::evaluate_by_position`], which says how and what is
    /// refused.
    pub fn evaluate_by_position(&self, records: &[GeoStatistics]) -> Result<Evaluation, Refusal> {
        self.compile().evaluate_by_position(records)
    }

    /// The same, its records found by name: compiles the filter for one call of
    /// [`CompiledFilter::evaluate_by_name`].
    pub fn evaluate_by_name(
        &self,
        records: &[(u32, GeoStatistics)],
    ) -> Result<Evaluation, Refusal> {
        self.compile().evaluate_by_name(records)
    }

    /// What an index scan looks up in a column: compiles the filter for one call of
    /// [`CompiledFilter::filter_bbox`].
    pub fn filter_bbox(&self, name: u32) -> Result<BoundingBox, Refusal> {
        self.compile().filter_bbox(name)
    }
}

/// A filter turned into its table, by [`Filter::compile`]. Threads may share it.
#[derive(Clone, Debug, PartialEq)]
pub struct CompiledFilter {
    nodes: Vec<[u32; 4]>,
    literals: Boxes,
}

impl CompiledFilter {
    /// The words of the next node. A number that is cut to fit its word belongs to a table of far
    /// more than 1,024 nodes, which is refused before the word is read.
    fn words(&mut self, node: &Node) -> [u32; 4] {
        let next = self.nodes.len();
        // The right side ends just below its join, and the left side just below the right.
        let sides = |right_size| ((next - 1 - right_size) as u32, (next - 1) as u32);
        match *node {
            Node::Intersects(column, literal) => {
                [INTERSECTS, column.index, column.name, self.lend(&literal)]
            }
            Node::Covers(column, literal) => {
                [COVERS, column.index, column.name, self.lend(&literal)]
            }
            Node::HasZ(column) => [HAS_Z, column.index, column.name, 0],
            Node::And(right_size) => {
                let (left, right) = sides(right_size);
                [AND, left, right, 0]
            }
            Node::Or(right_size) => {
                let (left, right) = sides(right_size);
                [OR, left, right, 0]
            }
            Node::LiteralFalse => [LITERAL_FALSE, 0, 0, 0],
            Node::Unknown => [UNKNOWN, 0, 0, 0],
        }
    }

    /// Puts a literal among the others, and gives its number.
    fn lend(&mut self, literal: &BoundingBox) -> u32 {
        let number = self.literals.flags.len() as u32;
        self.literals.push(Ends::of(literal));
        number
    }

    /// Whether a file may have a row that is wanted. Each leaf looks at the record at its column
    /// index.
    ///
    /// # Errors
    ///
    /// [`Refusal::Words`] where the filter has more than 1,024 nodes, else [`Refusal::NoColumn`]
    /// where an index has no record.
    pub fn evaluate_by_position(&self, records: &[GeoStatistics]) -> Result<Evaluation, Refusal> {
        calls::evaluate_by_position(&self.nodes, &self.literals, &Columns::of(records.iter()))
    }

    /// Whether a file may have a row that is wanted. Each leaf looks at the record beside its name
    /// number; a number that is not there counts as a record without a box and without types.
    ///
    /// A leaf's number is sought from the first record on, as [`find_name`](crate::find_name) does.
    /// Numbers that ascend are seen to differ in one pass. Of others it takes time that grows with the
    /// number of records, and with its square only where many numbers share a mark of 15 mixed bits.
    ///
    /// # Errors
    ///
    /// [`Refusal::Words`] where the filter has more than 1,024 nodes, else [`Refusal::NameTwice`]
    /// where two records have one name number.
    ///
    /// ```
    /// # use johikape::{BoundingBox, Column, Evaluation, Filter};
    /// const PROBE: u32 = 6;
    /// const OUTLINE: u32 = 7;
    /// let pile = BoundingBox::xy((0.0, 1.0), (0.0, 1.0));
    /// let wanted = Filter::intersects(Column::named(0, PROBE), pile);
    /// let far = BoundingBox::xy((4.0, 5.0), (4.0, 5.0));
    /// assert_eq!(wanted.evaluate_by_name(&[(PROBE, far.into())])?, Evaluation::CannotMatch);
    /// assert_eq!(wanted.evaluate_by_name(&[(OUTLINE, far.into())])?, Evaluation::MayMatch);
    /// # Ok::<(), johikape::Refusal>(())
    /// ```
    pub fn evaluate_by_name(
        &self,
        records: &[(u32, GeoStatistics)],
    ) -> Result<Evaluation, Refusal> {
        let names: Vec<u32> = records.iter().map(|(name, _)| *name).collect();
        let columns = Columns::of(records.iter().map(|(_, record)| record));
        calls::evaluate_by_name(&self.nodes, &self.literals, &columns, &names)
    }

    /// The filter's box for the column of a name number: what an index scan looks up.
    ///
    /// An Intersects or Covers of that column gives its literal, any other leaf and Unknown all x
    /// and y, and LiteralFalse nothing. And gives what the boxes of its sides both hold, or all x
    /// and y where that of x has two parts. Or gives a box around both. z and m stay known only
    /// where both sides know them.
    ///
    /// It contains each wanted row that is a point without NaN, where each leaf has the name number
    /// of its column, no two columns share one, and all literals run low to high. It is for points
    /// alone: no point is in two literals that lie apart, and the box is empty; yet an area may
    /// touch both, and the file may match.
    ///
    /// # Errors
    ///
    /// [`Refusal::Words`] where the filter has more than 1,024 nodes.
    ///
    /// ```
    /// # use johikape::{BoundingBox, Column, Filter};
    /// let probe = Column::at(0);
    /// let wanted = Filter::intersects(probe, BoundingBox::xy((0.0, 4.0), (0.0, 1.0)))
    ///     .and(Filter::intersects(probe, BoundingBox::xy((3.0, 9.0), (0.0, 1.0))));
    /// assert_eq!(wanted.filter_bbox(probe.name)?, BoundingBox::xy((3.0, 4.0), (0.0, 1.0)));
    /// # Ok::<(), johikape::Refusal>(())
    /// ```
    pub fn filter_bbox(&self, name: u32) -> Result<BoundingBox, Refusal> {
        Ok(calls::filter_bbox(&self.nodes, &self.literals, name)?.bounding_box())
    }
}
