//! Answers a case file line by line. `CALL V V ..` is one case, and `sweep CALL` makes the call with
//! every tuple of operands from the last lines `values V V ..`, `intervals LO HI ..` and
//! `sets S S ..`. A filter call is over the tables of the last lines `nodes W W ..` and so on, as is a
//! search for a name. Comments and empty lines are copied.

use crate::answer::Answer;
use crate::calls::Call;
use crate::filters::{Lookup, MOST_WORDS, Tables, bounds, read_flag, read_list};
use crate::layouts::{from_geoparquet, to_geoparquet};
use crate::names::{Many, find_name};
use crate::operands::Lists;
use crate::records;
use crate::tariff::{ManySizes, Rates, fee_of_record, fee_of_sizes, read_size};
use crate::text::{read, read_bytes, read_set};
use crate::wkb::{MOST_BYTES, wkb_bounds};

/// The longest line that is no comment.
const MOST_LINE: usize = 1023;

/// The case file with the answers behind its lines.
pub fn answers(calls: &[Call], cases: &str) -> String {
    let mut reader = Reader {
        calls,
        lists: Lists::default(),
        tables: Tables::default(),
    };
    let answered = cases
        .split_terminator('\n')
        .map(|line| match reader.take(line) {
            Line::Copied => format!("{line}\n"),
            Line::Answered(answer) => format!("{line} = {answer}\n"),
            Line::Unknown => format!("{line} = ?\n"),
        });
    answered.collect()
}

/// What becomes of a line.
enum Line {
    Copied,
    Answered(String),
    Unknown,
}

struct Reader<'a> {
    calls: &'a [Call],
    lists: Lists,
    tables: Tables,
}

impl Reader<'_> {
    fn take(&mut self, line: &str) -> Line {
        if line.is_empty() || line.starts_with('#') {
            return Line::Copied;
        }
        if line.len() > MOST_LINE {
            return Line::Unknown;
        }
        let words: Vec<&str> = line.split(' ').collect();
        let answer = match words[..] {
            ["values", ref words @ ..] => return copied(self.lists.set_values(words)),
            ["intervals", ref words @ ..] => return copied(self.lists.set_intervals(words)),
            ["sets", ref words @ ..] => return copied(self.lists.set_sets(words)),
            ["sweep", name] => self.sweep(name),
            ["chain", words] => return copied(self.chain(words)),
            [name, ref operands @ ..] if !name.contains(':') => {
                return copied(self.tables.set(name, operands));
            }
            [name, ref operands @ ..] => self
                .filter(name, operands)
                .or_else(|| self.search(name, operands))
                .or_else(|| layout(name, operands))
                .or_else(|| wkb(name, operands))
                .or_else(|| tariff(name, operands))
                .or_else(|| self.single(name, operands)),
            [] => None,
        };
        answer.map_or(Line::Unknown, Line::Answered)
    }

    fn chain(&mut self, words: &str) -> Option<()> {
        self.tables.set_chain(read_set(words)? as usize)
    }

    /// A filter call over the tables, or over many columns.
    fn filter(&self, name: &str, operands: &[&str]) -> Option<String> {
        let answer = match (name.strip_prefix("SpatialFilter::")?, operands) {
            ("evaluate_by_position", []) => self.tables.evaluate(Lookup::ByPosition),
            ("evaluate_by_name", []) => self.tables.evaluate(Lookup::ByName),
            ("evaluate_by_name_of_many", many) => {
                let tables = self.tables.over(Many::read(many)?.names());
                tables.evaluate(Lookup::ByName)
            }
            ("filter_bbox", [name]) => self.tables.filter_bbox(read_set(name)?),
            _ => return None,
        };
        Some(answer.text())
    }

    /// A search for a name, among those of the tables or those of many columns.
    fn search(&self, name: &str, operands: &[&str]) -> Option<String> {
        let search = match (name.strip_prefix("sedona_expr::")?, operands) {
            ("find_name", [name]) => find_name(&self.tables.names, read_set(name)?),
            ("find_name_of_many", [name, many @ ..]) => {
                find_name(&Many::read(many)?.names(), read_set(name)?)
            }
            _ => return None,
        };
        Some(Answer::from(search).text())
    }

    fn sweep(&self, name: &str) -> Option<String> {
        let call = self.call(name).filter(|call| call.is_swept())?;
        let (count, digest) = call.sweep(&self.lists);
        Some(format!("{count} {digest}"))
    }

    fn single(&self, name: &str, operands: &[&str]) -> Option<String> {
        let answer = self.call(name)?.answer(operands)?;
        Some(answer.text())
    }

    fn call(&self, name: &str) -> Option<&Call> {
        self.calls.iter().find(|call| call.name == name)
    }
}

/// A call of the two layouts: of eight ends and a flag, or of an array.
fn layout(name: &str, operands: &[&str]) -> Option<String> {
    let answer = match (name.strip_prefix("geoparquet_bbox::")?, operands) {
        ("to_geoparquet", [ends @ .., flag]) if ends.len() == 8 => {
            let flag = read_flag(flag).filter(|flag| [1, 3, 5, 7].contains(flag))?;
            Answer::laid_out(to_geoparquet(&bounds(&read_list(ends, read)?, flag)))
        }
        ("from_geoparquet", array) => Answer::boxed(from_geoparquet(&read_list(array, read)?)),
        _ => return None,
    };
    Some(answer.text())
}

/// The call of a geometry's bytes, which are all spelled, or have zeros behind those that are.
fn wkb(name: &str, operands: &[&str]) -> Option<String> {
    let bytes = match (name.strip_prefix("sedona_wkb::")?, operands) {
        ("wkb_bounds", words) => read_bytes(words)?,
        ("wkb_bounds_of_padded", [length, words @ ..]) => {
            padded(read_bytes(words)?, read_set(length)? as usize)?
        }
        _ => return None,
    };
    Some(Answer::typed(wkb_bounds(&bytes)).text())
}

/// Bytes with zeros behind them. They can be one more than a geometry may have.
fn padded(mut bytes: Vec<u8>, length: usize) -> Option<Vec<u8>> {
    if length < bytes.len() || length > MOST_BYTES + 1 {
        return None;
    }
    bytes.resize(length, 0);
    Some(bytes)
}

/// A call of the tariff: of a record, of sizes that are spelled, or of many.
fn tariff(name: &str, operands: &[&str]) -> Option<String> {
    let call = name.strip_prefix("scan_tariff::")?;
    let (rates, of) = operands.split_first_chunk()?;
    let rates = read_rates(rates)?;
    let fee = match call {
        "fee_of_record" => fee_of_record(&records::read(of)?, rates),
        "fee_of_sizes" if operands.len() <= MOST_WORDS => {
            fee_of_sizes(&read_list(of, read_size)?, rates)
        }
        "fee_of_sizes_of_many" => fee_of_sizes(&ManySizes::read(of)?.sizes(), rates),
        _ => return None,
    };
    Some(Answer::priced(fee).text())
}

fn read_rates(words: &[&str; 3]) -> Option<Rates> {
    read_list(words, read_set)?.try_into().ok()
}

/// A line with a list that was taken, or was none.
fn copied(taken: Option<()>) -> Line {
    taken.map_or(Line::Unknown, |()| Line::Copied)
}
