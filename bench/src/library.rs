//! The C functions that are timed, of the library that is linked or of one that is loaded, over tables
//! made beforehand. The crate of bindings/rust makes its tables at each call; here the library alone is
//! timed. A row takes its function out of the library before it is timed, so that two libraries are
//! called by the same code.

use crate::layout::{Columns, Ends, Filter, Record, Records};
use johikape::Interval;
use johikape::raw::*;
use std::ffi::{CString, c_char, c_int, c_void};
use std::mem;

/// `Library`, with a field for each function, by its name and type as johikape.h has them. Those of the
/// first list `raw` declares, with the same types or this does not compile; it keeps those of the second
/// to itself, so they are declared here.
macro_rules! library {
    (
        declared { $($known:ident: $type:ty;)* }
        lists { $($list:ident($($argument:ty),*) -> $answer:ty;)* }
    ) => {
        // SAFETY: the declarations are those of johikape.h.
        unsafe extern "C" {
            $(fn $list($(_: $argument),*) -> $answer;)*
        }

        /// One library's functions; nothing where it lacks one.
        pub struct Library {
            $(pub $known: Option<$type>,)*
            $($list: Option<unsafe extern "C" fn($($argument),*) -> $answer>,)*
        }

        impl Library {
            /// The library that is linked.
            pub fn linked() -> Library {
                Library {
                    $($known: Some($known),)*
                    $($list: Some($list),)*
                }
            }

            /// The shared library at a path, whose header declares each function that it has as this
            /// one does.
            pub fn loaded(path: &str) -> Library {
                let library = open(path);
                // SAFETY: each field has the type of the function of its name.
                unsafe {
                    Library {
                        $($known: function(library, stringify!($known)),)*
                        $($list: function(library, stringify!($list)),)*
                    }
                }
            }
        }
    };
}

library! {
    declared {
        johikape_box_intersects: extern "C" fn(&[f64; 8], u8, &[f64; 8], u8) -> u32;
        johikape_box_contains: extern "C" fn(&[f64; 8], u8, &[f64; 8], u8) -> u32;
        johikape_box_merge: extern "C" fn(&mut [f64; 8], &mut u8, &[f64; 8], u8) -> u32;
        johikape_box_intersection: extern "C" fn(&mut [f64; 8], &mut u8, &[f64; 8], u8) -> u32;
        johikape_box_expand_by: extern "C" fn(&mut [f64; 8], &mut u8, f64) -> u32;
        johikape_x_contains: extern "C" fn(Interval, Interval) -> bool;
        johikape_x_merge: extern "C" fn(Interval, Interval) -> Interval;
        johikape_x_intersection: extern "C" fn(Interval, Interval, &mut f64, &mut f64) -> u32;
        johikape_interval_merge: extern "C" fn(Interval, Interval) -> Interval;
    }
    lists {
        johikape_box_from_wkb(*const u8, usize, &mut [f64; 8], &mut u8, &mut u32) -> u32;
        johikape_fold(
            *const f64, usize, *const i64, usize, *const u32, usize, *const u32, usize,
            &mut [f64; 10], &mut [i64; 7], &mut u32, &mut u32
        ) -> u32;
        johikape_evaluate_by_position(
            *const u32, usize, *const f64, usize, *const u8, usize,
            *const f64, usize, *const u8, usize, *const u32, usize, *const u8, usize
        ) -> u32;
        johikape_evaluate_by_name(
            *const u32, usize, *const f64, usize, *const u8, usize,
            *const f64, usize, *const u8, usize, *const u32, usize, *const u8, usize,
            *const u32, usize
        ) -> u32;
        johikape_find_name(*const u32, usize, u32, &mut usize, &mut usize) -> bool;
        johikape_filter_bbox(
            *const u32, usize, *const f64, usize, *const u8, usize, u32, &mut [f64; 8], &mut u8
        ) -> u32;
    }
}

// SAFETY: the declarations are those of dlfcn.h.
unsafe extern "C" {
    fn dlopen(path: *const c_char, flags: c_int) -> *mut c_void;
    fn dlsym(library: *mut c_void, name: *const c_char) -> *mut c_void;
}

const RTLD_NOW: c_int = 2;

fn text(text: &str) -> CString {
    CString::new(text).expect("paths and names have no NUL")
}

fn open(path: &str) -> *mut c_void {
    // SAFETY: the path ends in a NUL. The library is never unloaded.
    let library = unsafe { dlopen(text(path).as_ptr(), RTLD_NOW) };
    assert!(!library.is_null(), "{path} cannot be loaded");
    library
}

/// SAFETY, of the caller: `dlopen` gave the library, and `F` is the type of its function of that name.
unsafe fn function<F: Copy>(library: *mut c_void, name: &str) -> Option<F> {
    const { assert!(size_of::<F>() == size_of::<*mut c_void>()) };
    // SAFETY: the name ends in a NUL. The address of a function is a pointer to it.
    unsafe {
        let address = dlsym(library, text(name).as_ptr());
        (!address.is_null()).then(|| mem::transmute_copy(&address))
    }
}

/// Calls a function with slices, each as a pointer and a count, and with what stands behind the `;`.
macro_rules! call {
    ($function:ident($($slice:expr),*; $($other:expr),*)) => {
        // SAFETY: each pointer and count are those of one slice, which is only read. What is written is
        // borrowed by the call alone.
        unsafe { $function($(<[_]>::as_ptr($slice), <[_]>::len($slice),)* $($other),*) }
    };
}

/// What takes lists. Each answers a function over slices, or nothing where the library lacks it.
impl Library {
    /// The box of a geometry, and its type set.
    pub fn box_from_wkb(&self) -> Option<impl Fn(&[u8]) -> (u32, Ends, u32)> {
        let function = self.johikape_box_from_wkb?;
        Some(move |bytes: &[u8]| {
            let (mut out, mut types) = (Ends::default(), 0);
            let number = call!(function(bytes; &mut out.doubles, &mut out.flags, &mut types));
            (number, out, types)
        })
    }

    pub fn fold(&self) -> Option<impl Fn(&Records) -> (u32, Record)> {
        let function = self.johikape_fold?;
        Some(move |records: &Records| {
            let mut out = Record::default();
            let number = call!(function(
                records.doubles.as_flattened(),
                records.totals.as_flattened(),
                &records.types,
                &records.flags;
                &mut out.doubles,
                &mut out.totals,
                &mut out.types,
                &mut out.flags
            ));
            (number, out)
        })
    }

    pub fn evaluate_by_position(&self) -> Option<impl Fn(&Filter, &Columns) -> u32> {
        let function = self.johikape_evaluate_by_position?;
        Some(move |filter: &Filter, columns: &Columns| {
            call!(function(
                filter.nodes.as_flattened(),
                filter.literals.doubles.as_flattened(),
                &filter.literals.flags,
                columns.boxes.doubles.as_flattened(),
                &columns.boxes.flags,
                &columns.types,
                &columns.types_known;
            ))
        })
    }

    pub fn evaluate_by_name(&self) -> Option<impl Fn(&Filter, &Columns, &[u32]) -> u32> {
        let function = self.johikape_evaluate_by_name?;
        Some(move |filter: &Filter, columns: &Columns, names: &[u32]| {
            call!(function(
                filter.nodes.as_flattened(),
                filter.literals.doubles.as_flattened(),
                &filter.literals.flags,
                columns.boxes.doubles.as_flattened(),
                &columns.boxes.flags,
                &columns.types,
                &columns.types_known,
                names;
            ))
        })
    }

    /// Whether there is a hit, its place, and how many names were compared.
    pub fn find_name(&self) -> Option<impl Fn(&[u32], u32) -> (bool, usize, usize)> {
        let function = self.johikape_find_name?;
        Some(move |names: &[u32], name| {
            let (mut place, mut compared) = (0, 0);
            let hit = call!(function(names; name, &mut place, &mut compared));
            (hit, place, compared)
        })
    }

    pub fn filter_bbox(&self) -> Option<impl Fn(&Filter, u32) -> (u32, Ends)> {
        let function = self.johikape_filter_bbox?;
        Some(move |filter: &Filter, name| {
            let mut out = Ends::default();
            let number = call!(function(
                filter.nodes.as_flattened(),
                filter.literals.doubles.as_flattened(),
                &filter.literals.flags;
                name,
                &mut out.doubles,
                &mut out.flags
            ));
            (number, out)
        })
    }
}
