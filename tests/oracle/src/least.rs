//! The least mask for a subroutine (RULES 12.1 to 12.5), straight from its definition: of all masks
//! there are, those within the context, of which the machine's own access is asked for every pair.

use crate::machine::{bit, Domain, Machine, Mode, Width, DOMAINS};
use std::collections::BTreeSet;

/// A longer list is refused (RULES 12.4).
pub const MOST_PAIRS: usize = 64;

/// A right and a page as one number (RULES 12.1).
pub const fn pair(right: u16, page: u16) -> u32 {
    right as u32 * 65_536 + page as u32
}

pub fn right_of(pair: u32) -> u16 {
    (pair / 65_536) as u16
}

pub fn page_of(pair: u32) -> u16 {
    (pair % 65_536) as u16
}

/// A number and a mask beside it.
#[derive(Clone, Copy, Debug, PartialEq, Eq)]
pub struct Least {
    pub number: u8,
    pub mask: u16,
}

impl Least {
    pub fn found(mask: u16) -> Least {
        Least { number: 0, mask }
    }

    /// A refusal has no domain beside it (RULES 12.5).
    pub fn refused(number: u8) -> Least {
        Least { number, mask: 0 }
    }
}

/// Whether a mask allows a pair (RULES 12.2): the access of one byte for that right to that page, in user
/// mode with the flag clear. All bytes of a page are judged alike, so that the first one is asked. Mode,
/// flag and mask that the machine came with are replaced, and a violation is left behind, so that it has to
/// be a copy. Only for a pair that is not bad on a sound machine.
fn allows(copy: &mut Machine, mask: u16, pair: u32) -> bool {
    copy.mode = Mode::User;
    copy.pending = false;
    copy.mask = mask;
    let first = u64::from(page_of(pair)) * copy.page_size();
    copy.access(Width::One, right_of(pair) as u8, first as u32).is_ok()
}

/// What is refused before any mask is looked for, in order (RULES 12.4). The list is gone through once,
/// so that the first bad pair decides, whatever is bad about it.
fn refusal(machine: &Machine, list: &[u32]) -> Option<u8> {
    if !machine.sound() {
        return Some(1);
    }
    if list.len() > MOST_PAIRS {
        return Some(33);
    }
    for &pair in list {
        if right_of(pair) > 1 {
            return Some(2);
        }
        if usize::from(page_of(pair)) >= machine.pages.len() {
            return Some(4);
        }
    }
    None
}

/// The fewest domains, and of those masks the smallest number (RULES 12.3); 34 where there is none.
fn best(masks: impl Iterator<Item = u16>) -> Least {
    masks.min_by_key(|mask| (mask.count_ones(), *mask)).map_or(Least::refused(34), Least::found)
}

/// Every mask within the live global context.
fn within(context: u16) -> impl Iterator<Item = u16> {
    (0..=0xFFFF).filter(move |mask| mask & !context == 0)
}

/// The least mask. An empty list asks for nothing, so that mask 0 will do (RULES 12.5).
pub fn least(machine: &Machine, list: &[u32]) -> Least {
    if let Some(number) = refusal(machine, list) {
        return Least::refused(number);
    }
    let mut copy = machine.clone();
    best(within(machine.context).filter(|&mask| list.iter().all(|&pair| allows(&mut copy, mask, pair))))
}

/// For each pair the domains of the context that allow it by themselves. The access is asked for every
/// domain and every pair. Only for pairs that are not bad on a sound machine.
pub fn givers(machine: &Machine, list: &[u32]) -> BTreeSet<u16> {
    let mut copy = machine.clone();
    let mut alone = |pair: u32, domain: u16| machine.context & domain != 0 && allows(&mut copy, domain, pair);
    let domains: Vec<u16> = (0..DOMAINS).map(|s| bit(Domain(s))).collect();
    list.iter().map(|&pair| domains.iter().filter(|&&domain| alone(pair, domain)).sum()).collect()
}

/// All masks that will do, the other way: each pair must have one of its givers in the mask. Only for
/// pairs that are not bad on a sound machine.
pub fn doing(machine: &Machine, list: &[u32]) -> impl Iterator<Item = u16> {
    let givers = givers(machine, list);
    within(machine.context).filter(move |mask| givers.iter().all(|giver| giver & mask != 0))
}

/// The least mask from the givers, without asking the access for every mask. The tests hold it to `least`
/// and use it where many are needed.
pub fn quick(machine: &Machine, list: &[u32]) -> Least {
    match refusal(machine, list) {
        Some(number) => Least::refused(number),
        None => best(doing(machine, list)),
    }
}
