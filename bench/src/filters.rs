//! Rows of filters: may a file match, and the filter's box.

use crate::draws::Draws;
use crate::layout::{Columns, Ends, Filter};
use crate::timing::{Bench, Row};
use oracle::bounding_box::BoundingBox;
use oracle::interval::{Interval, IntervalTrait};
use oracle::shims::datafusion_common::Result;
use oracle::shims::datafusion_physical_expr::expressions::Column;
use oracle::spatial_filter::{SpatialFilter, TableGeoStatistics};
use oracle::statistics::GeoStatistics;
use oracle::types::GeometryTypeAndDimensionsSet;

pub fn rows(bench: &Bench) {
    let small = [
        Query::new(1, 1, &[0]),
        Query::new(4, 2, &[0, 1]),
        Query::new(16, 6, &[0, 1, 2, 3, 4, 5]),
    ];
    for query in &small {
        query.time_by_position(bench);
    }
    Query::of(SpatialFilter::HasZ(column(0)), 1, &[0]).time_by_position(bench);
    for query in &small {
        query.time_by_name(bench, query.name("evaluate by name"));
    }
    for columns in [10, 100, 900] {
        let query = Query::new(4, columns, &[0, columns - 1]);
        query.time_by_name(bench, query.name("evaluate by name"));
    }
    for query in &small[1..] {
        query.time_filter_bbox(bench);
    }
}

/// Files of each answer that a query is asked about.
const FILES: usize = 10;

/// A filter, on both sides, and files it is asked about: half of them cannot match, where it wants
/// columns that are there.
pub struct Query {
    tree: SpatialFilter,
    filter: Filter,
    columns: usize,
    files: Vec<File>,
}

/// A file's statistics, on both sides.
struct File {
    by_position: TableGeoStatistics,
    by_name: TableGeoStatistics,
    records: Columns,
    names: Vec<u32>,
}

impl Query {
    /// A query of so many leaves, for files of so many columns, of which it wants some.
    fn new(leaves: usize, columns: usize, wanted: &[usize]) -> Query {
        Query::of(tree(leaves, wanted), columns, wanted)
    }

    fn of(tree: SpatialFilter, columns: usize, wanted: &[usize]) -> Query {
        let names: Vec<u32> = (0..columns as u32).collect();
        Query {
            filter: Filter::of(&tree),
            files: files(&tree, &names, wanted),
            tree,
            columns,
        }
    }

    /// A query of one leaf, for the name at a place. The last name is that of no column: where it is
    /// wanted every file may match, and the files are those for the first name.
    pub fn of_name(names: &[u32], place: usize) -> Query {
        let columns = names.len() - 1;
        let at = |place: usize| leaf(0, Column::new(&name(names[place]), place));
        let (tree, there) = (at(place), place % columns);
        // All other columns are drawn as one, so that the answers tell whether the right one is found.
        let other = (there + 1) % columns;
        Query {
            filter: Filter::of(&tree),
            files: files(&at(there), &names[..columns], &[other, there]),
            tree,
            columns,
        }
    }

    fn nodes(&self) -> String {
        match self.tree {
            SpatialFilter::HasZ(_) => "a HasZ".to_string(),
            _ => count(self.filter.nodes.len(), "node"),
        }
    }

    fn name(&self, call: &str) -> String {
        let (nodes, columns) = (self.nodes(), count(self.columns, "column"));
        format!("{call}, {nodes}, {columns}")
    }

    fn row(&self, name: String) -> Row<'_, File> {
        Row {
            name,
            inputs: &self.files,
            parts: 1,
        }
    }

    fn time_by_position(&self, bench: &Bench) {
        bench.row(
            self.row(self.name("evaluate by position")),
            |file| self.tree.evaluate(&file.by_position),
            answer,
            |library| {
                let evaluate = library.evaluate_by_position()?;
                Some(move |file: &File| evaluate(&self.filter, &file.records))
            },
        );
    }

    pub fn time_by_name(&self, bench: &Bench, name: String) {
        bench.row(
            self.row(name),
            |file| self.tree.evaluate(&file.by_name),
            answer,
            |library| {
                let evaluate = library.evaluate_by_name()?;
                Some(move |file: &File| evaluate(&self.filter, &file.records, &file.names))
            },
        );
    }

    fn time_filter_bbox(&self, bench: &Bench) {
        let names: Vec<(String, u32)> = (0..self.columns as u32).map(|k| (name(k), k)).collect();
        bench.row(
            Row {
                name: format!("filter_bbox, {}", self.nodes()),
                inputs: &names,
                parts: 1,
            },
            |(name, _)| self.tree.filter_bbox(name),
            |bbox| (0, Ends::of(bbox)),
            |library| {
                let filter_bbox = library.filter_bbox()?;
                Some(move |(_, number): &(String, u32)| filter_bbox(&self.filter, *number))
            },
        );
    }
}

/// The Rust's answer as the library's number.
fn answer(evaluated: &Result<bool>) -> u32 {
    u32::from(*evaluated.as_ref().expect(LENT))
}

const LENT: &str = "each wanted column is there";

fn count(number: usize, what: &str) -> String {
    let s = if number == 1 { "" } else { "s" };
    format!("{number} {what}{s}")
}

fn name(number: u32) -> String {
    format!("c{number}")
}

/// The column at an index, which is its name's number too.
fn column(index: usize) -> Column {
    Column::new(&name(index as u32), index)
}

/// A balanced tree of so many leaves over the wanted columns in turn: every fifth leaf is a Covers,
/// and every second pair an Or.
fn tree(leaves: usize, wanted: &[usize]) -> SpatialFilter {
    let mut level: Vec<SpatialFilter> = (0..leaves)
        .map(|k| leaf(k, column(wanted[k % wanted.len()])))
        .collect();
    while level.len() > 1 {
        let mut nodes = level.into_iter();
        level = Vec::new();
        while let (Some(left), Some(right)) = (nodes.next(), nodes.next()) {
            let pair = match level.len() % 2 {
                0 => SpatialFilter::And,
                _ => SpatialFilter::Or,
            };
            level.push(pair(Box::new(left), Box::new(right)));
        }
    }
    level.remove(0)
}

/// No x of a literal wraps: in the filter's box such a one can have two parts in common with
/// another, and the Rust would be timed at the text of its error.
fn leaf(k: usize, column: Column) -> SpatialFilter {
    let x = [(0.0, 10.0), (-60.0, 60.0), (-20.0, 30.0), (5.0, 8.0)][k % 4];
    let (z, m) = (Interval::new(0.0, 5.0), Interval::new(55.0, 80.0));
    let bbox = BoundingBox::xyzm(x, (0.0, 10.0), Some(z), Some(m));
    match k % 5 {
        4 => SpatialFilter::Covers(column, bbox),
        _ => SpatialFilter::Intersects(column, bbox),
    }
}

/// The types of one file and the next: points, and points with z.
const TYPES: [u32; 2] = [1 << 1, 1 << 9];

/// Draws files until there are enough of both answers, and puts the answers in turns. Only the wanted
/// columns are drawn, so that rows of different widths ask the same question; all others are as the
/// first of these.
fn files(tree: &SpatialFilter, names: &[u32], wanted: &[usize]) -> Vec<File> {
    let mut draws = Draws::new();
    let mut types = TYPES.into_iter().cycle();
    let [mut cannot, mut may] = [Vec::new(), Vec::new()];
    while cannot.len() < FILES || may.len() < FILES {
        let types = types.next().map(GeometryTypeAndDimensionsSet::from_bits);
        let points = GeoStatistics::unspecified().with_geometry_types(types);
        let record = |_| points.clone().with_bbox(Some(draws.bounding_box()));
        let drawn: Vec<GeoStatistics> = wanted.iter().map(record).collect();
        let mut records = vec![drawn[0].clone(); names.len()];
        for (column, record) in wanted.iter().zip(drawn) {
            records[*column] = record;
        }
        let by_position = TableGeoStatistics::ByPosition(records.clone());
        let matches = tree.evaluate(&by_position).expect(LENT);
        let list = if matches { &mut may } else { &mut cannot };
        if list.len() < FILES {
            list.push(file(by_position, &records, names));
        }
    }
    let pairs = cannot.into_iter().zip(may);
    pairs.flat_map(|(cannot, may)| [cannot, may]).collect()
}

fn file(by_position: TableGeoStatistics, records: &[GeoStatistics], names: &[u32]) -> File {
    let texts = names.iter().map(|number| name(*number));
    File {
        by_position,
        by_name: TableGeoStatistics::ByName(texts.zip(records.iter().cloned()).collect()),
        records: Columns::of(records),
        names: names.to_vec(),
    }
}
