//! The search for a name, which is not in the Rust, written after the paper's words; and the names of
//! many columns, more than a line can spell.

use crate::filters::read_list;
use crate::text::read_set;

/// The most columns of a call of many.
pub const MOST_COLUMNS: u32 = 1024;

/// What a search gives.
#[derive(Debug, PartialEq)]
pub struct Search {
    pub is_hit: bool,
    /// Counted from 0; how many names there are, where there is no hit.
    pub place: usize,
    /// How many names it compared.
    pub compared: usize,
}

/// Compares from the first name on, and ends at the first hit.
pub fn find_name(names: &[u32], name: u32) -> Search {
    let place = names.iter().position(|other| *other == name);
    Search {
        is_hit: place.is_some(),
        place: place.unwrap_or(names.len()),
        compared: place.map_or(names.len(), |place| place + 1),
    }
}

/// Many columns. Their names go up from 0 by a step, but for the last.
pub struct Many {
    pub count: u32,
    pub step: u32,
    pub last: u32,
}

impl Many {
    /// `COUNT STEP LAST`; none where these are no such words, or columns too many.
    pub fn read(words: &[&str]) -> Option<Many> {
        match read_list(words, read_set)?[..] {
            [count, step, last] if count <= MOST_COLUMNS => Some(Many { count, step, last }),
            _ => None,
        }
    }

    pub fn words(&self) -> Vec<String> {
        let numbers = [self.count, self.step, self.last];
        numbers.iter().map(u32::to_string).collect()
    }

    pub fn names(&self) -> Vec<u32> {
        let steps = (0..self.count).map(|column| column.wrapping_mul(self.step));
        let mut names: Vec<u32> = steps.collect();
        if let Some(name) = names.last_mut() {
            *name = self.last;
        }
        names
    }
}

#[cfg(test)]
mod tests {
    use super::*;

    #[test]
    fn searches_end_at_the_first_hit() {
        let searches: [(&[u32], _); 6] = [
            (&[], (false, 0, 0)),
            (&[4], (true, 0, 1)),
            (&[3], (false, 1, 1)),
            (&[3, 4, 5], (true, 1, 2)),
            (&[3, 5, 4, 4], (true, 2, 3)),
            (&[3, 5, 0], (false, 3, 3)),
        ];
        for (names, (is_hit, place, compared)) in searches {
            let search = Search {
                is_hit,
                place,
                compared,
            };
            assert_eq!(find_name(names, 4), search, "{names:?}");
        }
    }

    #[test]
    fn names_of_many() {
        let many: [(&str, &[u32]); 5] = [
            ("0 1 7", &[]),
            ("1 1 7", &[7]),
            ("4 3 9", &[0, 3, 6, 9]),
            ("4 2147483648 5", &[0, 1 << 31, 0, 5]),
            ("3 4294967295 0", &[0, u32::MAX, 0]),
        ];
        for (line, names) in many {
            let words: Vec<&str> = line.split(' ').collect();
            let many = Many::read(&words).expect(line);
            assert_eq!(many.words(), words);
            assert_eq!(many.names(), names);
        }
        for line in ["", "4 3", "4 3 9 1", "4 -3 9", "4 3 4294967296", "1025 1 0"] {
            let words: Vec<&str> = line.split(' ').collect();
            assert!(Many::read(&words).is_none(), "{line}");
        }
    }
}
