//! The record decoder and the whole run: the answers, the text, the bench's answers.

use crate::image::load;
use crate::machine::{Answer, Domain, Machine, Named, Page, Violation, Width};

pub const LONGEST_INPUT: usize = 32_768;
pub const RECORD: usize = 6;
/// The kinds from 1 to this one are calls (RULES 6.5).
pub const LAST_KIND: u8 = 13;

/// Kinds 1 and 13 are one call of two widths. The question for the last violation takes nothing
/// from its record.
#[derive(Clone, Copy, PartialEq, Eq, Debug)]
pub enum Call {
    Access { width: Width, right: u8, address: u32 },
    Grant { right: u8, page: Page, domain: Domain },
    Revoke { right: u8, page: Page, domain: Domain },
    Mask { mask: u16 },
    Entry,
    Return,
    Switch { program: u16 },
    StoreField { right: u8, page: Page, bits: u16 },
    StoreContext { context: u16 },
    StoreMask { mask: u16 },
    StoreMode { number: u16 },
    Question,
}

/// What a record gives. All give a number. An access also names a domain or none, and none where
/// it is refused (RULES 2.13, 3.3). The question also hands out the last violation or none, and none
/// where it is refused (RULES 3.25).
#[derive(Clone, Copy, PartialEq, Eq, Debug)]
pub enum Outcome {
    Number(u8),
    Access(u8, Named),
    Question(u8, Option<Violation>),
}

impl Outcome {
    pub fn number(self) -> u8 {
        match self {
            Outcome::Number(number) | Outcome::Access(number, _) | Outcome::Question(number, _) => number,
        }
    }

    /// Nothing but an access can name a domain.
    pub fn named(self) -> Named {
        match self {
            Outcome::Access(_, named) => named,
            Outcome::Number(_) | Outcome::Question(..) => None,
        }
    }

    /// The line of a call, of which so many came before: which one it is, counted from 1, its number,
    /// and the domain that it names or a dash (RULES 8.3).
    pub fn line(self, before: usize) -> String {
        let named = match self.named() {
            Some(Domain(s)) => s.to_string(),
            None => String::from("-"),
        };
        format!("{} {} {named}\n", before + 1, self.number())
    }
}

/// Reads six bytes: kind, right, A, B. A kind outside 1 to 13 is no call (RULES 6.5, 6.6).
pub fn decode(record: &[u8]) -> Option<Call> {
    let right = record[1];
    let a = u16::from(record[2]) * 256 + u16::from(record[3]);
    let b = u16::from(record[4]) * 256 + u16::from(record[5]);
    let address = u32::from(a) * 65_536 + u32::from(b);
    match record[0] {
        1 => Some(Call::Access { width: Width::One, right, address }),
        2 => Some(Call::Grant { right, page: Page(a), domain: Domain(b) }),
        3 => Some(Call::Revoke { right, page: Page(a), domain: Domain(b) }),
        4 => Some(Call::Mask { mask: b }),
        5 => Some(Call::Entry),
        6 => Some(Call::Return),
        7 => Some(Call::Switch { program: b }),
        8 => Some(Call::StoreField { right, page: Page(a), bits: b }),
        9 => Some(Call::StoreContext { context: b }),
        10 => Some(Call::StoreMask { mask: b }),
        11 => Some(Call::StoreMode { number: b }),
        12 => Some(Call::Question),
        13 => Some(Call::Access { width: Width::Two, right, address }),
        _ => None,
    }
}

fn obey(machine: &mut Machine, call: Call) -> Outcome {
    let number_alone = |answer: Answer| Outcome::Number(answer.err().unwrap_or(0));
    match call {
        Call::Access { width, right, address } => match machine.access(width, right, address) {
            Ok(named) => Outcome::Access(0, named),
            Err(number) => Outcome::Access(number, None),
        },
        Call::Grant { right, page, domain } => number_alone(machine.grant(right, page, domain)),
        Call::Revoke { right, page, domain } => number_alone(machine.revoke(right, page, domain)),
        Call::Mask { mask } => number_alone(machine.mask_command(mask)),
        Call::Entry => number_alone(machine.interrupt_entry()),
        Call::Return => number_alone(machine.return_from_interrupt()),
        Call::Switch { program } => number_alone(machine.switch(program)),
        Call::StoreField { right, page, bits } => number_alone(machine.store_field(right, page, bits)),
        Call::StoreContext { context } => number_alone(machine.store_context(context)),
        Call::StoreMask { mask } => number_alone(machine.store_mask(mask)),
        Call::StoreMode { number } => number_alone(machine.store_mode(number)),
        Call::Question => match machine.question() {
            Ok(last_violation) => Outcome::Question(0, last_violation),
            Err(number) => Outcome::Question(number, None),
        },
    }
}

/// One record: what it gives, with the machine changed as it says.
pub fn step(machine: &mut Machine, record: &[u8]) -> Outcome {
    match decode(record) {
        Some(call) => obey(machine, call),
        None => Outcome::Number(18),
    }
}

/// The image and the bytes after it (RULES 6.1 to 6.3). Where the input ends early, the
/// bytes that are there are the image; of an input of 0 or 1 byte it is empty.
pub fn split(input: &[u8]) -> (&[u8], &[u8]) {
    if input.len() < 2 {
        return (&[], &[]);
    }
    let declared = usize::from(input[0]) * 256 + usize::from(input[1]);
    let rest = &input[2..];
    rest.split_at(declared.min(rest.len()))
}

/// A run gives the number of each call and the domain it names. What a question hands out is
/// printed by no run.
pub struct Run {
    pub load: u8,
    /// One for each whole record.
    pub calls: Vec<Outcome>,
    /// Whether a remainder of 1 to 5 bytes was met. After a refused load nothing more is read.
    pub cut: bool,
}

/// The whole run over an input, or nothing where the input is too long.
pub fn run(input: &[u8]) -> Option<Run> {
    if input.len() > LONGEST_INPUT {
        return None;
    }
    let (image, records) = split(input);
    let mut machine = match load(image) {
        Ok(machine) => machine,
        Err(number) => return Some(Run { load: number, calls: Vec::new(), cut: false }),
    };
    let whole = records.chunks_exact(RECORD);
    let cut = !whole.remainder().is_empty();
    let calls = whole.map(|record| step(&mut machine, record)).collect();
    Some(Run { load: 0, calls, cut })
}

/// What `pagerun` prints.
pub fn text(input: &[u8]) -> String {
    let Some(run) = run(input) else {
        return String::from("long\n");
    };
    let mut text = format!("load {}\n", run.load);
    for (before, call) in run.calls.iter().enumerate() {
        text += &call.line(before);
    }
    if run.cut {
        text += "cut\n";
    }
    text
}

/// What the bench gets where its buffer is long enough: none for an input that is too long. It has
/// the numbers alone, and never a domain (RULES 7.2).
pub fn answers(input: &[u8]) -> Vec<u8> {
    let Some(run) = run(input) else {
        return Vec::new();
    };
    let mut answers = vec![run.load];
    answers.extend(run.calls.iter().map(|call| call.number()));
    answers
}
