//! The stored cases of the least mask, in a fixed order, and the files that the program `leastmask` reads.
//!
//! A case is an image with its length in 2 bytes before it, a program (2 bytes), the count of pairs (2
//! bytes) and the pairs, 4 bytes each: the right and the page. Everything has its high byte first. Each
//! stored case says what it is for and, by hand from the rules, what is due; the unit tests hold the least
//! mask to it.

mod alone;
mod contexts;
mod fewest;
pub mod many;
mod pages;
mod refused;
mod starts;
mod ties;

use crate::image::load;
use crate::least::{least, pair, Least};
use crate::machine::Machine;
use crate::write::Plan;

/// The program reads no more than this, and every file is shorter.
pub const LONGEST_FILE: usize = 65_536;

/// What a case of a file holds.
#[derive(Clone, Debug, PartialEq, Eq, PartialOrd, Ord)]
pub struct Asked {
    pub image: Vec<u8>,
    pub program: u16,
    pub list: Vec<u32>,
}

impl Asked {
    /// How the node starts, and the machine that is asked: the loaded one after a turn of the kernel that
    /// makes the program current, or the all-zero one.
    pub fn start(&self) -> (u8, Machine) {
        let started = || {
            let mut machine = load(&self.image)?;
            machine.interrupt_entry()?;
            machine.switch(self.program)?;
            machine.return_from_interrupt()?;
            Ok(machine)
        };
        match started() {
            Ok(machine) => (0, machine),
            Err(number) => (number, Machine::all_zero()),
        }
    }

    fn bytes(&self) -> Vec<u8> {
        let count = |of: usize| u16::try_from(of).expect("not too many for two bytes").to_be_bytes();
        let mut bytes = count(self.image.len()).to_vec();
        bytes.extend(&self.image);
        bytes.extend(self.program.to_be_bytes());
        bytes.extend(count(self.list.len()));
        bytes.extend(self.list.iter().flat_map(|pair| pair.to_be_bytes()));
        bytes
    }
}

pub struct Case {
    pub purpose: String,
    pub asked: Asked,
    /// How the node is to start.
    pub start: u8,
    /// What is to be found.
    pub due: Least,
}

impl Case {
    /// The start and the least mask, which are what is due.
    pub fn check(&self, number: usize) -> (u8, Least) {
        let (start, machine) = self.asked.start();
        let found = least(&machine, &self.asked.list);
        assert_eq!((start, found), (self.start, self.due), "case {number}: {}", self.purpose);
        (start, found)
    }
}

/// An image and the program that is to be current.
#[derive(Clone)]
struct Node {
    image: Vec<u8>,
    program: u16,
}

#[derive(Default)]
struct Cases {
    list: Vec<Case>,
}

impl Cases {
    fn add(&mut self, purpose: String, node: &Node, list: &[u32], start: u8, due: Least) {
        let asked = Asked { image: node.image.clone(), program: node.program, list: list.to_vec() };
        self.list.push(Case { purpose, asked, start, due });
    }

    /// This mask.
    fn found(&mut self, purpose: &str, node: &Node, list: &[u32], mask: u16) {
        self.add(format!("0: {purpose}"), node, list, 0, Least::found(mask));
    }

    fn refused(&mut self, number: u8, purpose: &str, node: &Node, list: &[u32]) {
        self.add(format!("{number}: {purpose}"), node, list, 0, Least::refused(number));
    }

    /// A node that does not start: the machine that is asked is not sound.
    fn unstarted(&mut self, start: u8, purpose: &str, node: &Node, list: &[u32]) {
        self.add(format!("1: start {start}, {purpose}"), node, list, start, Least::refused(1));
    }

    /// One pair for each of these fields, all of them within one context.
    fn fields(&mut self, purpose: &str, context: u16, fields: &[u16], mask: u16) {
        self.found(purpose, &with_fields(context, fields), &each(fields.len()), mask);
    }
}

const fn read(page: u16) -> u32 {
    pair(0, page)
}

const fn write(page: u16) -> u32 {
    pair(1, page)
}

/// A program of such a node.
fn program_of(plan: &Plan, program: u16) -> Node {
    Node { image: plan.image(), program }
}

/// A node of one program with this context, in user mode. Its stored mask is 0, which denies everything
/// and must not matter.
fn node(context: u16, pages: &[(u16, u16)]) -> Node {
    stored(context, 0, 0, pages)
}

/// A node of one program with this context, mask and mode.
fn stored(context: u16, mask: u16, mode: u8, pages: &[(u16, u16)]) -> Node {
    program_of(&Plan { exponent: 5, pages: pages.to_vec(), programs: vec![(context, mask, mode)] }, 0)
}

/// A node with these fields: READ of page 0, WRITE of page 0, READ of page 1 and so on. A field that is
/// left over is empty.
fn with_fields(context: u16, fields: &[u16]) -> Node {
    let pages: Vec<_> = fields.chunks(2).map(|both| (both[0], both.get(1).copied().unwrap_or(0))).collect();
    node(context, &pages)
}

/// The pairs of so many fields in the same order.
fn each(count: usize) -> Vec<u32> {
    (0..count as u16).map(|place| pair(place % 2, place / 2)).collect()
}

/// The field of these domains.
fn of<const COUNT: usize>(domains: [u16; COUNT]) -> u16 {
    domains.iter().map(|&domain| OWN[usize::from(domain)]).sum()
}

/// Each domain's own bit.
const OWN: [u16; 16] = [
    0x0001, 0x0002, 0x0004, 0x0008, 0x0010, 0x0020, 0x0040, 0x0080, 0x0100, 0x0200, 0x0400, 0x0800, 0x1000, 0x2000,
    0x4000, 0x8000,
];

pub fn all() -> Vec<Case> {
    let mut cases = Cases::default();
    alone::add(&mut cases);
    ties::add(&mut cases);
    fewest::add(&mut cases);
    contexts::add(&mut cases);
    pages::add(&mut cases);
    refused::add(&mut cases);
    starts::add(&mut cases);
    cases.list
}

/// The file of these cases.
pub fn file<'a>(cases: impl IntoIterator<Item = &'a Asked>) -> Vec<u8> {
    cases.into_iter().flat_map(Asked::bytes).collect()
}

/// Two bytes as a number, and the rest.
fn word(bytes: &[u8]) -> Option<(u16, &[u8])> {
    let (&number, rest) = bytes.split_first_chunk()?;
    Some((u16::from_be_bytes(number), rest))
}

/// The first case of a file, and the rest of it. It is none where the file cuts it.
fn first(file: &[u8]) -> Option<(Asked, &[u8])> {
    let (length, rest) = word(file)?;
    let (image, rest) = rest.split_at_checked(length.into())?;
    let (program, rest) = word(rest)?;
    let (count, mut rest) = word(rest)?;
    let mut list = Vec::new();
    for _ in 0..count {
        let (right, after) = word(rest)?;
        let (page, after) = word(after)?;
        list.push(pair(right, page));
        rest = after;
    }
    Some((Asked { image: image.to_vec(), program, list }, rest))
}

/// The whole cases of a file. One that the file cuts is left out.
pub fn cases(mut file: &[u8]) -> Vec<Asked> {
    let mut cases = Vec::new();
    while let Some((asked, rest)) = first(file) {
        cases.push(asked);
        file = rest;
    }
    cases
}

/// The line of a case with so many before it.
fn line(before: usize, start: u8, found: Least) -> String {
    let domains = (0..16).filter(|&domain| found.mask & OWN[domain] != 0);
    let mut domains: String = domains.map(|domain| format!(" {domain}")).collect();
    if found.mask == 0 {
        domains = String::from(" -");
    }
    format!("{} start {start} mask {} {:04x}{domains}\n", before + 1, found.number, found.mask)
}

/// What must be printed for a file of cases.
pub fn text(file: &[u8]) -> String {
    let of = |(before, asked): (usize, Asked)| {
        let (start, machine) = asked.start();
        line(before, start, least(&machine, &asked.list))
    };
    cases(file).into_iter().enumerate().map(of).collect()
}

/// The stored file.
pub fn input() -> Vec<u8> {
    file(all().iter().map(|case| &case.asked))
}

/// What must be printed for the stored file. Nothing comes out where the least mask and what was written
/// by hand disagree.
pub fn output() -> String {
    let of = |(before, case): (usize, &Case)| {
        let (start, found) = case.check(before + 1);
        line(before, start, found)
    };
    all().iter().enumerate().map(of).collect()
}

/// One line for each case, for people: its number, the count of its pairs and its purpose.
pub fn listing() -> String {
    let all = all();
    let lines = all.iter().enumerate();
    lines.map(|(before, case)| format!("{:4} {:4}  {}\n", before + 1, case.asked.list.len(), case.purpose)).collect()
}
