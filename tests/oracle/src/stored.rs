//! The file of stored cases, which the program `cases` reads: the runs, and after them the cases
//! of writing. Each has its kind in 1 byte and its length in 3 bytes, high byte first, before it.

use crate::{cases, rounds, run, writes};

/// A run: the bytes are a `pagerun` input. Every kind but `WRITING` is one.
pub const RUN: u8 = 0;
/// A case of writing: the bytes are a room and a `pagerun` input.
pub const WRITING: u8 = 1;

/// A kind and the bytes of a case.
pub type Case<'a> = (u8, &'a [u8]);

/// The file of these cases.
pub fn file<'a>(cases: impl IntoIterator<Item = Case<'a>>) -> Vec<u8> {
    let mut file = Vec::new();
    for (kind, bytes) in cases {
        let [0, length @ ..] = (bytes.len() as u32).to_be_bytes() else {
            panic!("a case of {} bytes is too long", bytes.len());
        };
        file.push(kind);
        file.extend(length);
        file.extend(bytes);
    }
    file
}

/// The whole cases of a file. One that the file cuts off is left out.
pub fn cases(mut file: &[u8]) -> Vec<Case<'_>> {
    let mut cases = Vec::new();
    while let Some((&[kind, high, middle, low], rest)) = file.split_first_chunk() {
        let length = u32::from_be_bytes([0, high, middle, low]) as usize;
        let Some((bytes, rest)) = rest.split_at_checked(length) else {
            break;
        };
        cases.push((kind, bytes));
        file = rest;
    }
    cases
}

/// What must be printed for a file of cases.
pub fn text(file: &[u8]) -> String {
    let mut text = String::new();
    for (before, (kind, bytes)) in cases(file).into_iter().enumerate() {
        text += &format!("case {}\n", before + 1);
        text += &if kind == WRITING { rounds::text(bytes) } else { run::text(bytes) };
    }
    text
}

/// The stored file.
pub fn input() -> Vec<u8> {
    let (runs, writes) = (cases::all(), writes::all());
    let runs = runs.iter().map(|case| (RUN, &case.input[..]));
    file(runs.chain(writes.iter().map(|case| (WRITING, &case.bytes[..]))))
}

/// What must be printed for the stored file. Nothing comes out where the oracle and what was
/// written by hand disagree.
pub fn output() -> String {
    let (runs, writes) = (cases::all(), writes::all());
    for (before, case) in runs.iter().enumerate() {
        case.check(before + 1);
    }
    for (before, case) in writes.iter().enumerate() {
        case.check(runs.len() + before + 1);
    }
    text(&input())
}

/// One line for each case, for people: its number, kind, length and purpose.
pub fn listing() -> String {
    let (runs, writes) = (cases::all(), writes::all());
    let runs = runs.iter().map(|case| (RUN, case.input.len(), &case.purpose));
    let all = runs.chain(writes.iter().map(|case| (WRITING, case.bytes.len(), &case.purpose)));
    let lines = all
        .enumerate()
        .map(|(before, (kind, length, purpose))| format!("{:4} {kind} {length:6}  {purpose}\n", before + 1));
    lines.collect()
}
