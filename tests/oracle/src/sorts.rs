//! Sorts of calls that a count of answers alone would not tell apart, each of which has to be tried
//! often: two-byte accesses across a page edge by which of the two pages gives the right (RULES 3.2),
//! mask commands by what the mask shares with the context (RULES 3.8), and accesses under an empty
//! local context by what made it empty (RULES 1.7).

use crate::machine::{Domain, Machine, Width};
use crate::run::{decode, Call};

/// What the sorts of two-byte accesses are called, each at its own place.
#[cfg(any(test, feature = "linked"))]
pub const SORTS: [&str; 4] =
    ["0, both pages give", "9, the first page alone denies", "9, the second page alone denies", "9, both pages deny"];

/// The right and both bytes of a record that is to be stepped on this machine next. It is none for
/// all but an access of two bytes that is left to what its two pages give.
fn across(machine: &Machine, record: &[u8]) -> Option<(u8, u64, u64)> {
    let Some(Call::Access { width: Width::Two, right, address }) = decode(record) else {
        return None;
    };
    let (first, second) = (u64::from(address), u64::from(address) + 1);
    let decided_before = right > 1 || second >= machine.memory() || machine.privileged() || machine.pending;
    if decided_before || machine.page_of(first) == machine.page_of(second) {
        return None;
    }
    Some((right, first, second))
}

/// The right and the sort of such a record.
#[cfg(any(test, feature = "linked"))]
pub fn sort(machine: &Machine, record: &[u8]) -> Option<(u8, usize)> {
    let (right, first, second) = across(machine, record)?;
    let sort = match (machine.gives(right, first), machine.gives(right, second)) {
        (true, true) => 0,
        (false, true) => 1,
        (true, false) => 2,
        (false, false) => 3,
    };
    Some((right, sort))
}

/// What the first page and the second would name where both give the right to such a record: the
/// first byte's domain has to be told from the second's, and from the one of higher level.
pub fn givers(machine: &Machine, record: &[u8]) -> Option<(Domain, Domain)> {
    let (right, first, second) = across(machine, record)?;
    machine.giver(right, first).zip(machine.giver(right, second))
}

/// What the sorts of mask commands are called, each at its own place. Those that are done can be of
/// several sorts at once.
#[cfg(any(test, feature = "linked"))]
pub const MASK_SORTS: [&str; 9] = [
    "6, nothing shared with the context",
    "8, nothing shared with the context",
    "19, the context is empty",
    "19, the mask is 0, the context is not",
    "19, neither is 0",
    "0, one domain shared, several in the context",
    "0, several domains shared",
    "0, bits outside the context",
    "0, nothing shared with the mask before",
];

/// Whether a record that is to be stepped on this machine next is of each sort of mask commands.
#[cfg(any(test, feature = "linked"))]
pub fn mask_sorts(machine: &Machine, record: &[u8]) -> [bool; MASK_SORTS.len()] {
    let Some(Call::Mask { mask }) = decode(record) else {
        return [false; MASK_SORTS.len()];
    };
    let context = machine.context;
    let shared = (mask & context).count_ones();
    let in_turn = !machine.privileged() && !machine.pending;
    let refused = in_turn && shared == 0;
    let done = in_turn && shared > 0;
    [
        machine.privileged() && shared == 0,
        machine.pending && shared == 0,
        refused && context == 0,
        refused && context != 0 && mask == 0,
        refused && context != 0 && mask != 0,
        done && shared == 1 && context.count_ones() > 1,
        done && shared > 1,
        done && mask & !context != 0,
        done && mask & machine.mask == 0,
    ]
}

/// What can leave a program an empty local context: an image, and the kinds 7, 9 and 10. The mask
/// command cannot.
#[cfg(any(test, feature = "linked"))]
pub const WAYS: [&str; 4] =
    ["as in the image", "emptied by a switch", "emptied by the context store", "emptied by the mask store"];

/// Follows a run to tell by which way the local context that an access meets became empty.
#[cfg(any(test, feature = "linked"))]
#[derive(Default)]
pub struct Emptied {
    way: usize,
}

#[cfg(any(test, feature = "linked"))]
impl Emptied {
    /// The way, for a record that is to be stepped on this machine next. It is none for all but an
    /// access that is denied, though the page has domains for the right, because the local context
    /// has none.
    pub fn denies(&self, machine: &Machine, record: &[u8]) -> Option<usize> {
        let Some(Call::Access { width, right, address }) = decode(record) else {
            return None;
        };
        let outside = width.touched(address).iter().any(|&byte| byte >= machine.memory());
        let decided_before = right > 1 || outside || machine.privileged() || machine.pending;
        if decided_before || machine.local_context() != 0 {
            return None;
        }
        let field = machine.field(right, machine.page_of(u64::from(address)));
        (field != 0).then_some(self.way)
    }

    /// To be told of every record, with the machine and the number that it gave.
    pub fn after(&mut self, machine: &Machine, record: &[u8], number: u8) {
        if number != 0 || machine.local_context() != 0 {
            return;
        }
        match decode(record) {
            Some(Call::Switch { .. }) => self.way = 1,
            Some(Call::StoreContext { .. }) => self.way = 2,
            Some(Call::StoreMask { .. }) => self.way = 3,
            Some(Call::Mask { .. }) => panic!("a mask command was done and left no domain"),
            _ => {}
        }
    }
}
