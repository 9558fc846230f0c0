//! The search for a name number.

use johikape::{NameSearch, find_name};

/// 900 names that differ, and no 0 among them.
fn names() -> Vec<u32> {
    (1..=900_u32).map(|k| k.wrapping_mul(0x9e37_79b9)).collect()
}

fn hit(place: usize) -> NameSearch {
    NameSearch {
        place: Some(place),
        compared: place + 1,
    }
}

fn none(compared: usize) -> NameSearch {
    NameSearch {
        place: None,
        compared,
    }
}

#[test]
fn among_no_names_there_is_none() {
    assert_eq!(find_name(&[], 0), none(0));
    assert_eq!(find_name(&[], u32::MAX), none(0));
}

#[test]
fn each_of_900_names_is_found_at_its_place() {
    let names = names();
    assert_eq!(find_name(&names, names[0]), hit(0));
    assert_eq!(find_name(&names, names[899]), hit(899));
    for (place, name) in names.iter().enumerate() {
        assert_eq!(find_name(&names, *name), hit(place));
    }
}

#[test]
fn a_name_that_is_not_there_is_compared_with_all() {
    let names = names();
    assert_eq!(find_name(&names, 0), none(900));
    // Not even where one bit alone differs.
    for bit in 0..32 {
        assert_eq!(find_name(&[7, 41], 41 ^ (1 << bit)), none(2));
    }
}

#[test]
fn of_a_name_twice_the_first_is_the_hit() {
    assert_eq!(find_name(&[41, 7, 41, 7], 7), hit(1));
    let mut names = names();
    names[899] = names[0];
    assert_eq!(find_name(&names, names[899]), hit(0));
    assert_eq!(find_name(&[u32::MAX; 900], u32::MAX), hit(0));
}

#[test]
fn a_search_says_whether_there_is_a_hit() {
    assert!(find_name(&[41], 41).hit());
    assert!(!find_name(&[41], 7).hit());
    assert!(!find_name(&[], 41).hit());
}
