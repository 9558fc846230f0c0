//! Random cases over all calls.

use crate::calls::Call;
use crate::filters::{MOST_WORDS, Tables};
use crate::operands::{Kind, MISSING};
use crate::records::{SIZE_BYTES, TOTALS};
use crate::tariff::write_size;
use crate::text::{write_bytes, write_line, write_operands};

/// Filter calls, those of the two layouts, those over many columns and those of bytes, which are
/// not in the table of calls. The last count for more than two, since their cases are so many.
const FILTER_CALLS: usize = 3;
const LAYOUT_CALLS: usize = 2;
const MANY_CALLS: usize = 2;
const WKB_CALLS: usize = 8;

/// One in so many cases is of the tariff; these come last.
const ONE_TARIFF_IN: usize = 8;

/// The word of a record that has its bytes, behind a box and a type set.
const SIZE_WORD: usize = 9 + SIZE_BYTES;

/// The most bytes that are spelled, in a line of less than 1,000.
const MOST_SPELLED: usize = 460;

/// What a box may know besides x and y, as flags: nothing, z, m, or both.
const FLAGS: [u8; 4] = [1, 3, 5, 7];

/// The empty interval, and one that is empty because its width rounds to -inf.
const EMPTY: [[f64; 2]; 2] = [[f64::INFINITY, f64::NEG_INFINITY], [f64::MAX, f64::MIN]];

/// `count` cases, the same ones for the same seed. Doubles of note are drawn from `values`.
pub fn cases(calls: &[Call], values: &[f64], seed: u64, count: usize) -> String {
    let mut random = Random::new(seed, values);
    let layouts = calls.len() + FILTER_CALLS;
    let many = layouts + LAYOUT_CALLS;
    let wkb = many + MANY_CALLS;
    let others = count - count / ONE_TARIFF_IN;
    let cases = (0..count).map(|case| {
        if case >= others {
            return random.tariff_case();
        }
        let place = random.below(wkb + WKB_CALLS);
        match calls.get(place) {
            Some(call) => write_line(&call.name, &random.words(&call.operands)),
            None if place < layouts => random.filter_case(),
            None if place < many => random.layout_case(),
            None if place < wkb => random.many_case(),
            None => random.wkb_case(),
        }
    });
    cases.collect()
}

/// Draws from a seed; doubles of note are drawn from `values`.
pub struct Random<'a> {
    state: u64,
    values: &'a [f64],
}

impl Random<'_> {
    pub fn new(seed: u64, values: &[f64]) -> Random<'_> {
        Random {
            state: seed,
            values,
        }
    }

    /// The next 64 bits (splitmix64).
    pub fn bits(&mut self) -> u64 {
        self.state = self.state.wrapping_add(0x9e37_79b9_7f4a_7c15);
        let z = self.state;
        let z = (z ^ (z >> 30)).wrapping_mul(0xbf58_476d_1ce4_e5b9);
        let z = (z ^ (z >> 27)).wrapping_mul(0x94d0_49bb_1331_11eb);
        z ^ (z >> 31)
    }

    pub fn below(&mut self, bound: usize) -> usize {
        // Far faster than a division.
        let scaled = u128::from(self.bits()) * bound as u128;
        (scaled >> 64) as usize
    }

    /// The words of operands of these kinds.
    fn words(&mut self, kinds: &[Kind]) -> Vec<String> {
        let count = kinds.iter().map(|kind| kind.width()).sum();
        let first = kinds.first().map_or(0, |kind| kind.width());
        let mut words = write_operands(&self.doubles(count, first.max(Kind::Box.width())));
        let mut rest = &mut words[..];
        for kind in kinds {
            let (own, others) = rest.split_at_mut(kind.width());
            match kind {
                Kind::Double => {}
                Kind::Box => own[4..].chunks_exact_mut(2).for_each(|z| self.lose(z)),
                Kind::Set => own[0] = self.set().to_string(),
                Kind::Record => self.shape_record(own),
            }
            rest = others;
        }
        words
    }

    /// The filter calls and the search for a name over drawn tables, half of the time with doubles of
    /// every kind.
    fn filter_case(&mut self) -> String {
        let mut tables = self.tables_of_lines();
        if self.below(2) == 0 {
            self.redraw(&mut tables);
        }
        let calls = "SpatialFilter::evaluate_by_position\nSpatialFilter::evaluate_by_name\n";
        let name = [self.name().to_string()];
        tables.lines()
            + calls
            + &write_line("SpatialFilter::filter_bbox", &name)
            + &write_line("sedona_expr::find_name", &name)
    }

    /// Tables whose nodes fit into a line.
    fn tables_of_lines(&mut self) -> Tables {
        let mut tables = self.tables();
        while tables.nodes.len() > MOST_WORDS {
            tables = self.tables();
        }
        tables
    }

    /// The calls over many columns.
    fn many_case(&mut self) -> String {
        let many = self.many();
        let names = many.names();
        let mut tables = self.tables_of_lines();
        self.ask(&mut tables, &names);
        let mut words = vec![self.one_of(&names).to_string()];
        words.extend(many.words());
        tables.lines()
            + &write_line("sedona_expr::find_name_of_many", &words)
            + &write_line("SpatialFilter::evaluate_by_name_of_many", &words[1..])
    }

    /// The calls of the two layouts, each of its own.
    fn layout_case(&mut self) -> String {
        let (ends, flag) = self.flagged_box();
        let mut words = write_operands(&ends);
        words.push(flag.to_string());
        let array = write_operands(&self.array());
        write_line("geoparquet_bbox::to_geoparquet", &words)
            + &write_line("geoparquet_bbox::from_geoparquet", &array)
    }

    /// The call of a geometry's bytes; of 32 one is of a long geometry.
    fn wkb_case(&mut self) -> String {
        if self.below(32) == 0 {
            return self.padded_case();
        }
        let mut bytes = self.wkb();
        while bytes.len() > MOST_SPELLED {
            bytes = self.wkb();
        }
        write_line("sedona_wkb::wkb_bounds", &write_bytes(&bytes))
    }

    /// The call of bytes of which the zeros at the end are not spelled.
    fn padded_case(&mut self) -> String {
        let mut bytes = self.padded_wkb();
        while without_zeros(&bytes).len() > MOST_SPELLED {
            bytes = self.padded_wkb();
        }
        let mut words = vec![bytes.len().to_string()];
        words.extend(write_bytes(without_zeros(&bytes)));
        write_line("sedona_wkb::wkb_bounds_of_padded", &words)
    }

    /// The calls of the tariff, at the same rates.
    fn tariff_case(&mut self) -> String {
        let rates = self.rates().map(|rate| rate.to_string());
        let mut record = self.words(&[Kind::Record]);
        record[SIZE_WORD] = write_size(self.size());
        let record = [&rates[..], &record].concat();
        let mut sizes = self.sizes();
        while rates.len() + sizes.len() > MOST_WORDS {
            sizes = self.sizes();
        }
        let sizes: Vec<String> = sizes.into_iter().map(write_size).collect();
        let sizes = [&rates[..], &sizes].concat();
        let many = [&rates[..], &self.many_sizes().words()].concat();
        write_line("scan_tariff::fee_of_record", &record)
            + &write_line("scan_tariff::fee_of_sizes", &sizes)
            + &write_line("scan_tariff::fee_of_sizes_of_many", &many)
    }

    /// The ends of a box, and its flag.
    pub fn flagged_box(&mut self) -> (Vec<f64>, u8) {
        (self.doubles(8, 8), FLAGS[self.below(FLAGS.len())])
    }

    /// A `bbox` array: lows and then highs, of two or three dimensions; of six one has any number of
    /// numbers up to nine.
    pub fn array(&mut self) -> Vec<f64> {
        let count = match self.below(6) {
            0 => self.below(10),
            n => 4 + n % 2 * 2,
        };
        let doubles = self.doubles(count, 8);
        let lows = doubles.iter().step_by(2);
        let highs = doubles.iter().skip(1).step_by(2);
        lows.chain(highs).copied().collect()
    }

    /// Doubles, two and two shaped as intervals. Of a second operand, which comes behind a `first`
    /// of so many words, half of the intervals are those of the first.
    pub fn doubles(&mut self, count: usize, first: usize) -> Vec<f64> {
        let mut doubles = Vec::with_capacity(count);
        for _ in 0..count {
            doubles.push(self.double(&doubles));
        }
        for ends in doubles.chunks_exact_mut(2) {
            self.shape(ends);
        }
        for at in (first..count - count % 2).step_by(2) {
            if self.below(2) == 0 {
                doubles.copy_within(at - first..at - first + 2, at);
            }
        }
        doubles
    }

    /// A double: half of the time one that has to do with an earlier operand.
    fn double(&mut self, earlier: &[f64]) -> f64 {
        let known = if earlier.is_empty() {
            self.values
        } else {
            earlier
        };
        let near = known[self.below(known.len())];
        match self.below(10) {
            0..2 => self.values[self.below(self.values.len())],
            2..4 => self.below(41) as f64 - 20.0,
            4 => f64::from_bits(self.bits()),
            5 => near,
            6 => -near,
            7 => near.next_up(),
            8 => near.next_down(),
            _ => near * (1.0 + f64::powi(2.0, self.below(113) as i32 - 52)),
        }
    }

    /// Has half of the intervals run low to high and most others fall; a few are empty or have a
    /// NaN end.
    fn shape(&mut self, ends: &mut [f64]) {
        match self.below(16) {
            0..8 => ends.sort_by(f64::total_cmp),
            8..14 => ends.sort_by(|a, b| b.total_cmp(a)),
            14 => ends.copy_from_slice(&EMPTY[self.below(EMPTY.len())]),
            _ => ends[self.below(2)] = f64::NAN,
        }
    }

    /// Has a third of the z and m missing.
    fn lose(&mut self, ends: &mut [String]) {
        if self.below(3) == 0 {
            ends.fill(MISSING.to_string());
        }
    }

    /// Makes doubles the words of a record: its z and m can be missing, as can each of its parts. A
    /// third of the records have totals at the ends of their range.
    fn shape_record(&mut self, words: &mut [String]) {
        let (bounds, rest) = words.split_at_mut(Kind::Box.width());
        bounds[4..].chunks_exact_mut(2).for_each(|z| self.lose(z));
        if self.below(6) == 0 {
            bounds.fill(MISSING.to_string());
        }
        rest[0] = self.set().to_string();
        let at_ends = self.below(3) == 0;
        for word in &mut rest[1..=TOTALS.len()] {
            *word = self.total(at_ends).to_string();
        }
        for word in rest {
            if self.below(8) == 0 {
                *word = MISSING.to_string();
            }
        }
    }

    /// A total: a small one, or one near the ends of its range.
    pub fn total(&mut self, at_ends: bool) -> i64 {
        let small = self.below(2001) as i64 - 1000;
        match self.below(24) {
            0..12 if at_ends => [-1, 0, 1][self.below(3)],
            12 if at_ends => i64::MAX,
            13 if at_ends => i64::MAX - 1,
            14 if at_ends => i64::MIN,
            15 if at_ends => i64::MIN + 1,
            16 if at_ends => self.bits().cast_signed(),
            _ => small,
        }
    }

    /// A type set: of any bits, of few, of one or of a list.
    pub fn set(&mut self) -> u32 {
        let bits = self.bits() as u32;
        match self.below(4) {
            0 => bits,
            1 => bits & (self.bits() & self.bits()) as u32,
            2 => 1 << (bits % 32),
            _ => [0, 1, 0x8000_0000, u32::MAX][self.below(4)],
        }
    }
}

/// Bytes without the zeros at their end.
fn without_zeros(bytes: &[u8]) -> &[u8] {
    let last = bytes.iter().rposition(|byte| *byte != 0);
    &bytes[..last.map_or(0, |last| last + 1)]
}
