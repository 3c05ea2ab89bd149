//! The stored runs, in a fixed order. Each says what it is for and, by hand from
//! the rules, which answers are due; the unit tests hold the oracle to them. Some
//! also say, by hand again, which domain each call is to name.
//!
//! A run starts from a loaded machine, which is sound, and every call keeps it so; a violation
//! is stored by a program of the table with a right and an address that were found good before.
//! So no case has answer 1. None has answer 10, since nothing gives it (RULES 9.2).

mod commands;
mod empty_masks;
mod kernel;
mod lengths;
mod loader;
pub mod many;
mod named;
mod questions;
mod sample;
mod two_bytes;

use crate::histories;
use crate::machine::{Domain, Named};
use crate::random::Random;
use crate::run;
use crate::write::*;

pub struct Case {
    pub purpose: String,
    pub input: Vec<u8>,
    /// The answers as the bench gets them. The random runs at the end have none written here.
    pub due: Option<Vec<u8>>,
    /// The domain that each call names or none, where that is written by hand too.
    pub named: Option<Vec<Named>>,
}

impl Case {
    /// The oracle's answers and named domains against those due.
    pub fn check(&self, number: usize) {
        if let Some(due) = &self.due {
            assert_eq!(&run::answers(&self.input), due, "case {number}: {}", self.purpose);
        }
        if let Some(due) = &self.named {
            let run = run::run(&self.input).expect("the input is not too long");
            let named: Vec<Named> = run.calls.iter().map(|call| call.named()).collect();
            assert_eq!(&named, due, "case {number}: {}, the domains", self.purpose);
        }
    }
}

/// A call and the answer due to it.
pub type Step = (Record, u8);

/// A call, the answer due to it, and the number of the domain that it names, or none.
pub type NamedStep = (Record, u8, Option<u16>);

/// The same steps, none of which names a domain.
pub fn naming_none(steps: &[Step]) -> Vec<NamedStep> {
    steps.iter().map(|&(record, answer)| (record, answer, None)).collect()
}

/// The same steps without what they name.
pub fn without_names(steps: &[NamedStep]) -> Vec<Step> {
    steps.iter().map(|&(record, answer, _)| (record, answer)).collect()
}

pub fn names(numbers: &[Option<u16>]) -> Vec<Named> {
    numbers.iter().map(|number| number.map(Domain)).collect()
}

#[derive(Default)]
pub struct Cases {
    pub list: Vec<Case>,
}

impl Cases {
    /// An input as it stands, with the answers due.
    fn input(&mut self, purpose: &str, input: Vec<u8>, due: &[u8]) {
        self.list.push(Case { purpose: purpose.to_string(), input, due: Some(due.to_vec()), named: None });
    }

    /// A legal image and calls on it.
    fn run(&mut self, purpose: &str, plan: &Plan, steps: &[Step]) {
        let records: Vec<Record> = steps.iter().map(|step| step.0).collect();
        let mut due = vec![0];
        due.extend(steps.iter().map(|step| step.1));
        self.input(purpose, input(&plan.image(), &records.concat()), &due);
    }

    /// A legal image and calls on it, with what each of them names.
    fn named_run(&mut self, purpose: &str, plan: &Plan, steps: &[NamedStep]) {
        self.run(purpose, plan, &without_names(steps));
        let numbers: Vec<Option<u16>> = steps.iter().map(|step| step.2).collect();
        self.list.last_mut().expect("a case was added").named = Some(names(&numbers));
    }

    /// An image and the answer of its load. One call follows, which shows that a refused load stops.
    fn load(&mut self, purpose: &str, image: &[u8], answer: u8) {
        let due: &[u8] = if answer == 0 { &[0, 0] } else { &[answer] };
        self.input(&format!("load {answer}: {purpose}"), input(image, &entry_call()), due);
    }
}

pub fn all() -> Vec<Case> {
    let mut cases = Cases::default();
    sample::add(&mut cases);
    commands::add(&mut cases);
    kernel::add(&mut cases);
    questions::add(&mut cases);
    two_bytes::add(&mut cases);
    named::add(&mut cases);
    empty_masks::add(&mut cases);
    loader::add(&mut cases);
    lengths::add(&mut cases);
    for seed in 1..=12 {
        let input = histories::legal(&mut Random::new(seed), 120);
        cases.list.push(Case { purpose: format!("a random run, seed {seed}"), input, due: None, named: None });
    }
    cases.list
}

/// The sample node: 3 pages of 256 bytes, two programs.
pub fn sample() -> Plan {
    Plan {
        exponent: 8,
        pages: vec![(0x0009, 0x0000), (0x000A, 0x0002), (0x000C, 0x0004)],
        programs: vec![(0x0007, 0x0003, 0), (0x0008, 0xFFFF, 0)],
    }
}

/// One program in user mode with the given context and mask, pages of 32 bytes.
pub fn small(pages: &[(u16, u16)], context: u16, mask: u16) -> Plan {
    Plan { exponent: 5, pages: pages.to_vec(), programs: vec![(context, mask, 0)] }
}

/// Entry and return: from user mode back to user mode, with the flag clear.
pub fn clear_flag() -> Vec<Step> {
    vec![(entry_call(), 0), (return_call(), 0)]
}

/// Turn of another program: entry, switch to it and return.
pub fn turn(program: u16) -> Vec<Step> {
    vec![(entry_call(), 0), (switch(program), 0), (return_call(), 0)]
}

/// From user mode below depth 8, shows that a field holds these bits and no others:
/// all other domains together are denied, and each of its domains alone is allowed.
/// The live context and mask are lost.
fn field_is(right: u8, page: u16, exponent: u8, bits: u16) -> Vec<Step> {
    let address = u32::from(page) << exponent;
    let mut steps = vec![(entry_call(), 0), (store_mask(0xFFFF), 0), (store_context(!bits), 0)];
    steps.extend([(return_call(), 0), (access(right, address), 9)]);
    for one in ones(bits) {
        steps.extend([(entry_call(), 0), (store_context(one), 0), (return_call(), 0)]);
        steps.push((access(right, address), 0));
    }
    steps
}

/// The same for the live mask, seen through READ of page 0, which is lost with the context.
fn mask_is(bits: u16) -> Vec<Step> {
    live_is(store_context(0xFFFF), bits)
}

/// The same for the live global context; the mask and READ of page 0 are lost.
fn context_is(bits: u16) -> Vec<Step> {
    live_is(store_mask(0xFFFF), bits)
}

fn live_is(open_other: Record, bits: u16) -> Vec<Step> {
    let mut steps = vec![(entry_call(), 0), (open_other, 0), (store_field(READ, 0, !bits), 0)];
    steps.extend([(return_call(), 0), (read(0), 9)]);
    for one in ones(bits) {
        steps.extend([(entry_call(), 0), (store_field(READ, 0, one), 0), (return_call(), 0)]);
        steps.push((read(0), 0));
    }
    steps
}

/// Each set bit alone.
fn ones(bits: u16) -> Vec<u16> {
    (0..16).map(|s| 1 << s).filter(|one| bits & one != 0).collect()
}
