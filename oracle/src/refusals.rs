//! Which number refuses a filter call. The Rust has no such check: this one is written after the
//! paper's table of numbers and the order that it sets, not after the code that it tests.

use crate::filters::{Boxes, Lookup, Tables};

/// Node words none, not in fours, or over `MOST_WORDS`.
const WORDS: u64 = 4;
const MOST_WORDS: usize = 4096;
/// A kind over `LAST_KIND`.
const KIND: u64 = 5;
const LAST_KIND: u32 = 6;
/// A child not below its parent, or a node but the root not used exactly once.
const TREE: u64 = 7;
/// Doubles not eight a flag, bad flags, not as many types or known bytes as records, a known byte
/// over `LAST_KNOWN`, or, by name, not as many names as records.
const BOXES: u64 = 8;
const LAST_KNOWN: u8 = 1;
/// A literal that is not lent.
const LITERAL: u64 = 9;
/// By position: a column that is not lent.
const COLUMN: u64 = 10;
/// By name: a name twice.
const TWICE: u64 = 11;

/// The first number that refuses a call, if one does.
pub fn check(tables: &Tables, lookup: Lookup) -> Result<(), u64> {
    let words = tables.nodes.len();
    let is_cut = !words.is_multiple_of(4);
    refuse(words == 0 || is_cut || words > MOST_WORDS, WORDS)?;
    refuse(!are_boxes(&tables.literals, &[1, 3, 5, 7]), BOXES)?;
    if lookup != Lookup::Nothing {
        refuse(!are_boxes(&tables.records, &[0, 1, 3, 5, 7]), BOXES)?;
        refuse(!are_types(tables), BOXES)?;
    }
    if lookup == Lookup::ByName {
        let names = &tables.names;
        refuse(names.len() != tables.records.flags.len(), BOXES)?;
        let is_again = |place: usize| names[..place].contains(&names[place]);
        refuse((0..names.len()).any(is_again), TWICE)?;
    }
    for node in 0..words / 4 {
        check_node(tables, lookup, node)?;
    }
    check_uses(&tables.nodes)
}

fn refuse(is_met: bool, number: u64) -> Result<(), u64> {
    if is_met { Err(number) } else { Ok(()) }
}

fn are_boxes(boxes: &Boxes, flags: &[u8]) -> bool {
    let is_good = |flag| flags.contains(flag);
    boxes.ends.len() == 8 * boxes.flags.len() && boxes.flags.iter().all(is_good)
}

fn are_types(tables: &Tables) -> bool {
    let (types, known) = (&tables.record_types, &tables.types_known);
    let is_good = |byte: &u8| *byte <= LAST_KNOWN;
    [types.len(), known.len()] == [tables.records.flags.len(); 2] && known.iter().all(is_good)
}

fn check_node(tables: &Tables, lookup: Lookup, node: usize) -> Result<(), u64> {
    let [kind, first, second, third] = tables.node(node);
    refuse(kind > LAST_KIND, KIND)?;
    if kind == 3 || kind == 4 {
        refuse(first.max(second) as usize >= node, TREE)?;
    }
    if kind == 0 || kind == 1 {
        refuse(third as usize >= tables.literals.flags.len(), LITERAL)?;
    }
    if kind <= 2 {
        let is_lent = (first as usize) < tables.records.flags.len();
        refuse(lookup == Lookup::ByPosition && !is_lent, COLUMN)?;
    }
    Ok(())
}

/// Every child stands below its parent, and so it is a node.
fn check_uses(nodes: &[u32]) -> Result<(), u64> {
    let mut uses = vec![0; nodes.len() / 4];
    for node in nodes.chunks(4).filter(|node| matches!(node[0], 3 | 4)) {
        uses[node[1] as usize] += 1;
        uses[node[2] as usize] += 1;
    }
    uses.pop();
    refuse(uses.iter().any(|count| *count != 1), TREE)
}
