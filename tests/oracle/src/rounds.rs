//! What is printed for a case of writing: two rounds of load, calls and write, the second on the
//! bytes that the first wrote.

use crate::image::load;
use crate::machine::{Machine, Named, Violation};
use crate::run::{split, step, Outcome, RECORD};
use crate::writer::{write_image, Written};

/// A buffer is never longer than this, whatever room a case names.
pub const MOST_ROOM: usize = 640;

/// What every place of a buffer holds before a write.
pub const FILLING: u8 = 0xEE;

pub struct Round {
    pub load: u8,
    /// One for each call; none after a refused load.
    pub calls: Vec<Outcome>,
    pub written: Written,
    /// All of the buffer after the write.
    pub buffer: Vec<u8>,
}

/// The line for what a question handed out.
fn line(handed_out: Option<Violation>) -> String {
    match handed_out {
        Some(Violation { program, right, address }) => format!("denied {program} {right} {address}"),
        None => String::from("none"),
    }
}

impl Round {
    pub fn numbers(&self) -> Vec<u8> {
        self.calls.iter().map(|call| call.number()).collect()
    }

    /// The domain that each call names.
    pub fn named(&self) -> Vec<Named> {
        self.calls.iter().map(|call| call.named()).collect()
    }

    /// The line of each question, in the order of the calls.
    pub fn hand_outs(&self) -> Vec<String> {
        let handed_out = self.calls.iter().filter_map(|&call| match call {
            Outcome::Question(_, handed_out) => Some(handed_out),
            Outcome::Number(_) | Outcome::Access(..) => None,
        });
        handed_out.map(line).collect()
    }

    pub fn text(&self) -> String {
        let mut text = format!("load {}\n", self.load);
        for (before, call) in self.calls.iter().enumerate() {
            text += &call.line(before);
            if let Outcome::Question(_, handed_out) = *call {
                text += &format!("{}\n", line(handed_out));
            }
        }
        text += &format!("write {} {}\n", self.written.number, self.written.count);
        let bytes: Vec<String> = self.buffer.iter().map(|byte| format!("{byte:02X}")).collect();
        text += &bytes.join(" ");
        text += "\n";
        text
    }
}

fn round(image: &[u8], records: &[u8], room: usize) -> Round {
    let mut buffer = vec![FILLING; room];
    // A refused load leaves the all-zero machine. No call is made on it, but it is written.
    let (load, mut machine, records) = match load(image) {
        Ok(machine) => (0, machine, records),
        Err(number) => (number, Machine::all_zero(), &[][..]),
    };
    let calls = records.chunks_exact(RECORD).map(|record| step(&mut machine, record)).collect();
    let written = write_image(&machine, &mut buffer);
    Round { load, calls, written, buffer }
}

/// The room that a case names, as far as its bytes go, and the input after it.
pub fn take_apart(case: &[u8]) -> (usize, &[u8]) {
    let byte = |at: usize| case.get(at).map_or(0, |&byte| usize::from(byte));
    let named = byte(0) * 256 + byte(1);
    (named.min(MOST_ROOM), case.get(2..).unwrap_or(&[]))
}

/// Both rounds of a case.
pub fn rounds(case: &[u8]) -> [Round; 2] {
    let (room, input) = take_apart(case);
    let (image, records) = split(input);
    let first = round(image, records, room);
    // A refused write wrote 0 bytes: the second round then has the empty image.
    let second = round(&first.buffer[..first.written.count], records, room);
    [first, second]
}

/// What is printed for a case.
pub fn text(case: &[u8]) -> String {
    rounds(case).iter().map(Round::text).collect()
}
