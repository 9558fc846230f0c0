//! The search for a name number.

use crate::calls;

/// What [`find_name`] found.
#[derive(Clone, Copy, Debug, PartialEq, Eq, Hash)]
pub struct NameSearch {
    /// The place of the hit, counted from 0, where there is one.
    pub place: Option<usize>,
    /// How many names were compared: the hit's place counted from 1, or all where there is none.
    pub compared: usize,
}

impl NameSearch {
    /// Whether the name is there.
    pub const fn hit(&self) -> bool {
        self.place.is_some()
    }
}

/// Seeks a name number among others, as
/// [`evaluate_by_name`](crate::CompiledFilter::evaluate_by_name) does at each leaf: from the first
/// name on, until one is the same. Nothing is refused. Of a name that comes twice the first is the
/// hit.
///
/// ```
/// use johikape::find_name;
///
/// const PROBE: u32 = 6;
/// const OUTLINE: u32 = 7;
/// let names = [41, PROBE, 12];
/// let found = find_name(&names, PROBE);
/// assert!(found.hit());
/// assert_eq!((found.place, found.compared), (Some(1), 2));
/// let found = find_name(&names, OUTLINE);
/// assert_eq!((found.place, found.compared), (None, 3));
/// ```
pub fn find_name(names: &[u32], name: u32) -> NameSearch {
    calls::find_name(names, name)
}
