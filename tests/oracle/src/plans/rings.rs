//! Rings (RULES 11.5): the parent of a context is the one after it, and the last has none. And the
//! same with the numbers the other way round, which is a chain too, but no ring.

use super::{downward, upward, Plans, NO};
use crate::planner::PLACES;

pub fn add(plans: &mut Plans) {
    for count in 1..=16 {
        plans.accepted(&format!("the ring of {count}"), &upward(count, NO), in_ring(count));
    }
    plans.refused(30, "the ring of 17", &upward(17, NO));
    // Of one context it is the ring of 1 again.
    for count in 2..=16 {
        let purpose = format!("the chain of {count} with context 0 above all");
        plans.accepted(&purpose, &downward(count, NO), in_other_chain(count));
    }
    plans.refused(30, "the chain of 17 with context 0 above all", &downward(17, NO));
}

/// Context i has the bits 0 to i.
fn in_ring(count: u8) -> [u16; PLACES] {
    let mut contexts = [0; PLACES];
    for (i, place) in contexts.iter_mut().enumerate().take(count.into()) {
        *place = (2_u32.pow(i as u32 + 1) - 1) as u16;
    }
    contexts
}

/// Context i has the bits from i on, below the count.
fn in_other_chain(count: u8) -> [u16; PLACES] {
    let mut contexts = [0; PLACES];
    for (i, place) in contexts.iter_mut().enumerate().take(count.into()) {
        *place = (2_u32.pow(count.into()) - 2_u32.pow(i as u32)) as u16;
    }
    contexts
}
