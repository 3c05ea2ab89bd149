//! The stored cases of writing, in a fixed order. Each says what it is for and, by hand from
//! the rules, what is due in its two rounds: the answers, the line of each question for the last
//! violation, the writer's number and count, and bytes of the buffer, all of them or those that
//! matter. Some also say which domain each call names.

mod empty_masks;
mod inputs;
mod live;
pub mod many;
mod named;
mod questions;
mod rest;
mod shapes;
mod switches;
mod two_bytes;

use crate::cases::{names, sample, Step};
use crate::machine::Named;
use crate::random::Random;
use crate::rounds::{self, Round, FILLING};
use crate::write::*;
use crate::writer::Written;

/// Bytes due from a place of the buffer on, in hexadecimal.
pub type Bytes<'a> = (usize, &'a str);

pub struct Due {
    pub load: u8,
    pub calls: Vec<u8>,
    /// The line of each question, in the order of the calls.
    pub hand_outs: Vec<String>,
    /// The domain that each call names or none, where that is written by hand too.
    pub named: Option<Vec<Named>>,
    pub written: Written,
    pub bytes: Vec<(usize, Vec<u8>)>,
}

pub struct Case {
    pub purpose: String,
    /// The room and the input, as they stand in the file.
    pub bytes: Vec<u8>,
    /// What is due in each round. The random cases at the end have nothing written here.
    pub due: Option<[Due; 2]>,
}

impl Due {
    fn new(load: u8, calls: Vec<u8>, number: u8, count: usize, bytes: &[Bytes]) -> Due {
        let bytes = bytes.iter().map(|&(at, text)| (at, from_hex(text))).collect();
        Due { load, calls, hand_outs: vec![], named: None, written: Written { number, count }, bytes }
    }

    /// The second round after a refused write: an empty image.
    fn of_nothing() -> Due {
        Due::new(20, vec![], 1, 0, &[])
    }

    fn check(&self, round: &Round, room: usize, what: &str) {
        assert_eq!(round.load, self.load, "{what}: load");
        assert_eq!(round.numbers(), self.calls, "{what}: calls");
        assert_eq!(round.hand_outs(), self.hand_outs, "{what}: what the questions handed out");
        if let Some(named) = &self.named {
            assert_eq!(&round.named(), named, "{what}: the domains that the calls name");
        }
        assert_eq!(round.written, self.written, "{what}: write");
        assert_eq!(round.buffer.len(), room, "{what}: buffer");
        for (at, bytes) in &self.bytes {
            assert_eq!(&round.buffer[*at..at + bytes.len()], bytes, "{what}: bytes from place {at} on");
        }
        // Past the image, and after a refusal everywhere, the buffer is as it was (RULES 5.16).
        for (at, &byte) in round.buffer.iter().enumerate().skip(self.written.count) {
            assert_eq!(byte, FILLING, "{what}: place {at}, which nobody may write");
        }
    }

    /// Whether every byte of a written image stands here.
    #[cfg(test)]
    pub fn whole(&self) -> bool {
        let mut given = vec![false; self.written.count];
        for (at, bytes) in &self.bytes {
            given.iter_mut().skip(*at).take(bytes.len()).for_each(|place| *place = true);
        }
        self.written.number == 0 && given.iter().all(|&place| place)
    }
}

impl Case {
    /// The oracle's rounds against what is due.
    pub fn check(&self, number: usize) {
        let Some(due) = &self.due else {
            return;
        };
        let (room, _) = rounds::take_apart(&self.bytes);
        for (before, (due, round)) in due.iter().zip(rounds::rounds(&self.bytes)).enumerate() {
            due.check(&round, room, &format!("case {number}, {}, round {}", self.purpose, before + 1));
        }
    }

    fn due(&mut self) -> &mut [Due; 2] {
        self.due.as_mut().expect("the case has something due")
    }

    /// Says what is due in the second round where it is not what was due in the first.
    fn then(&mut self, calls: &[u8], number: u8, count: usize, bytes: &[Bytes]) -> &mut Case {
        self.due()[1] = Due::new(0, calls.to_vec(), number, count, bytes);
        self
    }

    /// Says what the questions hand out, in every round that has calls.
    fn handing_out(&mut self, lines: &[&str]) -> &mut Case {
        for due in self.due().iter_mut().filter(|due| due.load == 0) {
            due.hand_outs = lines.iter().map(|line| line.to_string()).collect();
        }
        self
    }

    /// Says what each call names, in every round that has calls.
    fn naming(&mut self, numbers: &[Option<u16>]) -> &mut Case {
        for due in self.due().iter_mut().filter(|due| due.load == 0) {
            due.named = Some(names(numbers));
        }
        self
    }

    /// Says what each call of the second round names where it is not the same.
    fn then_naming(&mut self, numbers: &[Option<u16>]) -> &mut Case {
        self.due()[1].named = Some(names(numbers));
        self
    }

    /// Says what the questions of the second round hand out where it is not the same.
    fn then_handing_out(&mut self, lines: &[&str]) {
        self.due()[1].hand_outs = lines.iter().map(|line| line.to_string()).collect();
    }
}

#[derive(Default)]
struct Writes {
    list: Vec<Case>,
}

impl Writes {
    fn add(&mut self, purpose: &str, bytes: Vec<u8>, due: [Due; 2]) -> &mut Case {
        self.list.push(Case { purpose: purpose.to_string(), bytes, due: Some(due) });
        self.list.last_mut().expect("a case was added")
    }

    /// A run that is written. The second round, on what the first wrote, is due to be the
    /// same, unless the case says more.
    fn written(
        &mut self,
        purpose: &str,
        room: u16,
        plan: &Plan,
        steps: &[Step],
        count: usize,
        bytes: &[Bytes],
    ) -> &mut Case {
        let calls = || steps.iter().map(|step| step.1).collect();
        let due = [Due::new(0, calls(), 0, count, bytes), Due::new(0, calls(), 0, count, bytes)];
        self.add(&format!("0: {purpose}"), of_plan(room, plan, steps), due)
    }

    /// A run whose write is refused with 26 or 27.
    fn refused(&mut self, purpose: &str, room: u16, plan: &Plan, steps: &[Step], number: u8) -> &mut Case {
        let calls = steps.iter().map(|step| step.1).collect();
        let due = [Due::new(0, calls, number, 0, &[]), Due::of_nothing()];
        self.add(&format!("{number}: {purpose}"), of_plan(room, plan, steps), due)
    }

    /// An input whose image is refused with the number `load`, so that the write answers 1.
    fn not_loaded(&mut self, purpose: &str, bytes: Vec<u8>, load: u8) {
        let due = [Due::new(load, vec![], 1, 0, &[]), Due::of_nothing()];
        self.add(&format!("1: {purpose}, load {load}"), bytes, due);
    }

    /// The sample node with room for its image exactly, written after these calls: all its
    /// bytes, of which the contents and the shape cannot change.
    fn sample(&mut self, purpose: &str, plan: &Plan, steps: &[Step], pages: &str, programs: &str) -> &mut Case {
        let bytes = [(0, SAMPLE_CONTENTS), (18, SAMPLE_SHAPE), (22, pages), (34, programs)];
        self.written(purpose, 44, plan, steps, 44, &bytes)
    }
}

const SAMPLE_CONTENTS: &str = "01 00 00 12 00 04  02 00 00 16 00 0C  03 00 00 22 00 0A";
const SAMPLE_SHAPE: &str = "03 08 02 00";
const SAMPLE_PAGES: &str = "00 09 00 00  00 0A 00 02  00 0C 00 04";
const SAMPLE_PROGRAMS: &str = "00 07 00 03 00  00 08 FF FF 00";

fn from_hex(text: &str) -> Vec<u8> {
    text.split_whitespace().map(|byte| u8::from_str_radix(byte, 16).expect("two digits a byte")).collect()
}

/// The bytes of a case.
fn of_input(room: u16, input: &[u8]) -> Vec<u8> {
    [&room.to_be_bytes(), input].concat()
}

fn of_plan(room: u16, plan: &Plan, steps: &[Step]) -> Vec<u8> {
    let records: Vec<Record> = steps.iter().map(|step| step.0).collect();
    of_input(room, &input(&plan.image(), &records.concat()))
}

/// The sample with program 0 stored in privileged mode, so that it starts in it.
fn privileged_first() -> Plan {
    let mut plan = sample();
    plan.programs[0].2 = 1;
    plan
}

/// The sample with program 1 stored in privileged mode.
fn privileged_second() -> Plan {
    let mut plan = sample();
    plan.programs[1].2 = 1;
    plan
}

/// Eight entries that differ in every byte but the mode.
fn eight_programs() -> Vec<(u16, u16, u8)> {
    vec![
        (0x0123, 0x4567, 0),
        (0x89AB, 0xCDEF, 1),
        (0xFEDC, 0xBA98, 0),
        (0x7654, 0x3210, 1),
        (0x1357, 0x9BDF, 0),
        (0x0246, 0x8ACE, 0),
        (0xF0E1, 0xD2C3, 1),
        (0xB4A5, 0x9687, 0),
    ]
}

pub fn all() -> Vec<Case> {
    let mut writes = Writes::default();
    live::add(&mut writes);
    switches::add(&mut writes);
    rest::add(&mut writes);
    shapes::add(&mut writes);
    inputs::add(&mut writes);
    questions::add(&mut writes);
    two_bytes::add(&mut writes);
    named::add(&mut writes);
    empty_masks::add(&mut writes);
    for seed in 1..=8 {
        let bytes = many::case(&mut Random::new(seed));
        writes.list.push(Case { purpose: format!("a random case, seed {seed}"), bytes, due: None });
    }
    writes.list
}
