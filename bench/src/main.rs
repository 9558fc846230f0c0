//! Times the proved library, through its C functions, beside the Rust that it was written after, on
//! the same inputs in one process, and prints a table in Markdown.
//!
//! `bench [WORD]..`: only rows whose name has one of the words. BENCH_MS: milliseconds a row.
//! BENCH_BEFORE: the shared library of an earlier version, timed too in each row. BENCH_NOW: that of this
//! one, which is loaded then, and else linked.

mod boxes;
mod draws;
mod filters;
mod layout;
mod library;
mod names;
mod records;
mod timing;
mod wkb;

fn main() {
    let bench = timing::Bench::from_environment();
    bench.head();
    filters::rows(&bench);
    names::rows(&bench);
    records::rows(&bench);
    boxes::rows(&bench);
    wkb::rows(&bench);
}
