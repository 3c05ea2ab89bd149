//! The planner of rings and trees of contexts (RULES 11.1 to 11.4). Ancestors are found as pairs,
//! straight from what an ancestor is; bits come in only where a place is written.

use std::collections::BTreeSet;

/// A plan has a place for each domain, and a list may have as many contexts.
pub const PLACES: usize = 16;

/// What stands in a list for a context without a parent (RULES 11.1).
pub const NONE: u8 = 255;

/// The planner's number and the global context of each place.
#[derive(Clone, Copy, Debug, PartialEq, Eq)]
pub struct Planned {
    pub number: u8,
    pub contexts: [u16; PLACES],
}

impl Planned {
    /// A refused plan has nothing in any place (RULES 11.3).
    pub fn refused(number: u8) -> Planned {
        Planned { number, contexts: [0; PLACES] }
    }
}

/// The parent of each context, or none.
pub fn parents(list: &[u8]) -> Vec<Option<usize>> {
    list.iter().map(|&entry| (entry != NONE).then_some(usize::from(entry))).collect()
}

/// Every pair of a context and an ancestor of it (RULES 11.2): each context with its parent, and then,
/// until that adds nothing, with the parent of an ancestor. It adds at most one pair for any two
/// contexts, so it ends on a cycle too. Every parent is below the count.
pub fn ancestry(parents: &[Option<usize>]) -> BTreeSet<(usize, usize)> {
    let of_contexts = parents.iter().enumerate();
    let mut pairs: BTreeSet<_> = of_contexts.filter_map(|(context, &parent)| Some((context, parent?))).collect();
    loop {
        let before = pairs.len();
        let further = pairs.iter().filter_map(|&(context, ancestor)| Some((context, parents[ancestor]?)));
        let further: Vec<_> = further.collect();
        pairs.extend(further);
        if pairs.len() == before {
            return pairs;
        }
    }
}

/// The plan of a list. The checks come in the order of their numbers.
pub fn plan(list: &[u8]) -> Planned {
    let count = list.len();
    if count == 0 || count > PLACES {
        return Planned::refused(30);
    }
    let parents = parents(list);
    if parents.iter().flatten().any(|&parent| parent >= count) {
        return Planned::refused(31);
    }
    let ancestry = ancestry(&parents);
    if (0..count).any(|context| ancestry.contains(&(context, context))) {
        return Planned::refused(32);
    }
    let mut contexts = [0; PLACES];
    for (context, place) in contexts.iter_mut().enumerate().take(count) {
        // The context itself and its descendants. Each owns one domain, so no bit is added twice.
        let owners = (0..count).filter(|&owner| owner == context || ancestry.contains(&(owner, context)));
        *place = owners.map(|owner| 2_u16.pow(owner as u32)).sum();
    }
    Planned { number: 0, contexts }
}
