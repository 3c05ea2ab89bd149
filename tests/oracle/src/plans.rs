//! The stored plans, in a fixed order, and the files that the program `plans` reads. Each plan has
//! its length in 2 bytes, high byte first, before it.
//!
//! Every list of up to four contexts is there. The other plans say what they are for and, by hand
//! from the rules, what is due; the unit tests hold the planner to it.

mod cycles;
pub mod many;
mod refused;
mod rings;
mod small;
mod trees;

use crate::planner::{plan, Planned, NONE, PLACES};

/// The program reads no more than this, and every file is shorter.
pub const LONGEST_FILE: usize = 65_536;

pub struct Plan {
    pub purpose: String,
    pub list: Vec<u8>,
    /// What the planner is to give. The lists that are there because all are have nothing here.
    pub due: Option<Planned>,
}

impl Plan {
    /// The planner against what is due.
    pub fn check(&self, number: usize) {
        if let Some(due) = self.due {
            assert_eq!(plan(&self.list), due, "plan {number}: {}", self.purpose);
        }
    }
}

#[derive(Default)]
struct Plans {
    list: Vec<Plan>,
}

impl Plans {
    fn add(&mut self, purpose: String, list: &[u8], due: Option<Planned>) {
        self.list.push(Plan { purpose, list: list.to_vec(), due });
    }

    fn accepted(&mut self, purpose: &str, list: &[u8], contexts: [u16; PLACES]) {
        self.add(format!("0: {purpose}"), list, Some(Planned { number: 0, contexts }));
    }

    fn refused(&mut self, number: u8, purpose: &str, list: &[u8]) {
        self.add(format!("{number}: {purpose}"), list, Some(Planned::refused(number)));
    }
}

/// No parent, as short as a number of two digits.
const NO: u8 = NONE;

/// Each context's own bit.
const OWN: [u16; PLACES] = [
    0x0001, 0x0002, 0x0004, 0x0008, 0x0010, 0x0020, 0x0040, 0x0080, 0x0100, 0x0200, 0x0400, 0x0800, 0x1000, 0x2000,
    0x4000, 0x8000,
];

/// The contexts of a plan of so many, all of which have no child but these.
fn leaves_but(count: usize, others: &[(usize, u16)]) -> [u16; PLACES] {
    let mut contexts = [0; PLACES];
    contexts[..count].copy_from_slice(&OWN[..count]);
    for &(context, bits) in others {
        contexts[context] = bits;
    }
    contexts
}

/// The same list with other parents for some contexts.
fn with(list: &[u8], changes: &[(usize, u8)]) -> Vec<u8> {
    let mut list = list.to_vec();
    for &(context, parent) in changes {
        list[context] = parent;
    }
    list
}

/// So many contexts, none of which has a parent but these.
fn alone_but(count: usize, others: &[(usize, u8)]) -> Vec<u8> {
    with(&vec![NO; count], others)
}

/// The parent of a context is the one after it; that of the last one is given.
fn upward(count: u8, last: u8) -> Vec<u8> {
    (1..count).chain([last]).collect()
}

/// Each context has the one before as its parent, and the first the given one.
fn downward(count: u8, first: u8) -> Vec<u8> {
    [first].into_iter().chain(0..count - 1).collect()
}

pub fn all() -> Vec<Plan> {
    let mut plans = Plans::default();
    small::add(&mut plans);
    rings::add(&mut plans);
    trees::add(&mut plans);
    cycles::add(&mut plans);
    refused::add(&mut plans);
    plans.list
}

/// The file of these lists.
pub fn file<'a>(lists: impl IntoIterator<Item = &'a [u8]>) -> Vec<u8> {
    let mut file = Vec::new();
    for list in lists {
        let length = u16::try_from(list.len()).expect("a list is not too long for its length");
        file.extend(length.to_be_bytes());
        file.extend(list);
    }
    file
}

/// The whole lists of a file. One that the file cuts off is left out.
pub fn lists(mut file: &[u8]) -> Vec<&[u8]> {
    let mut lists = Vec::new();
    while let Some((&length, rest)) = file.split_first_chunk() {
        let Some((list, rest)) = rest.split_at_checked(u16::from_be_bytes(length).into()) else {
            break;
        };
        lists.push(list);
        file = rest;
    }
    lists
}

/// The line of a plan with so many before it.
fn line(before: usize, planned: Planned) -> String {
    let contexts: String = planned.contexts.iter().map(|context| format!(" {context:04x}")).collect();
    format!("{} {}{contexts}\n", before + 1, planned.number)
}

/// What must be printed for a file of plans.
pub fn text(file: &[u8]) -> String {
    lists(file).into_iter().enumerate().map(|(before, list)| line(before, plan(list))).collect()
}

/// The stored file.
pub fn input() -> Vec<u8> {
    file(all().iter().map(|plan| &plan.list[..]))
}

/// What must be printed for the stored file. Nothing comes out where the planner and what was
/// written by hand disagree.
pub fn output() -> String {
    for (before, plan) in all().iter().enumerate() {
        plan.check(before + 1);
    }
    text(&input())
}

/// One line for each plan, for people: its number, length and purpose.
pub fn listing() -> String {
    let all = all();
    let lines = all.iter().enumerate();
    lines.map(|(before, plan)| format!("{:4} {:4}  {}\n", before + 1, plan.list.len(), plan.purpose)).collect()
}
