//! The stored inputs of the program `rightsum`, in a fixed order. Each holds the images of a site, says what
//! it is for and, by hand from the rules, what is due; the unit tests hold the text to it.

pub mod compare;
mod cut;
mod domains;
mod full;
pub mod many;
mod refused;
mod shapes;
mod small;

use crate::cases::sample;
use crate::write::{input, Plan};

pub struct Case {
    pub purpose: String,
    pub input: Vec<u8>,
    /// All that is to be printed.
    pub due: String,
}

/// A domain with its READ and WRITE rights.
type Line = (u16, u32, u32);

/// The whole text where only these domains have rights. Both sums are written by hand too.
fn lines(rights: &[Line], total: (u32, u32), refused: u32) -> String {
    let mut lines = String::new();
    for domain in 0..16 {
        let (_, read, write) = rights.iter().find(|line| line.0 == domain).unwrap_or(&(0, 0, 0));
        lines += &format!("{domain} {read} {write}\n");
    }
    lines + &format!("total {} {}\nrefused {refused}\n", total.0, total.1)
}

#[derive(Default)]
struct Cases {
    list: Vec<Case>,
}

impl Cases {
    fn add(&mut self, purpose: &str, input: Vec<u8>, due: String) {
        self.list.push(Case { purpose: purpose.to_string(), input, due });
    }

    /// These domains have rights and no others, and all images load.
    fn loaded(&mut self, purpose: &str, input: Vec<u8>, rights: &[Line], total: (u32, u32)) {
        self.add(purpose, input, lines(rights, total, 0));
    }

    /// The same with so many images that do not load.
    fn some(&mut self, purpose: &str, input: Vec<u8>, rights: &[Line], total: (u32, u32), refused: u32) {
        self.add(purpose, input, lines(rights, total, refused));
    }

    /// No domain has a right, and so many images do not load.
    fn none(&mut self, purpose: &str, input: Vec<u8>, refused: u32) {
        self.add(purpose, input, lines(&[], (0, 0), refused));
    }

    fn long(&mut self, purpose: &str, input: Vec<u8>) {
        self.add(purpose, input, String::from("long\n"));
    }
}

/// Each image with its own length before it.
fn site<Image: AsRef<[u8]>>(images: &[Image]) -> Vec<u8> {
    images.iter().flat_map(|image| input(image.as_ref(), &[])).collect()
}

/// An image of one program with these pages. All domains are in the program's context and mask, which are
/// no rights.
fn image(pages: &[(u16, u16)]) -> Vec<u8> {
    Plan { exponent: 5, pages: pages.to_vec(), programs: vec![(0xFFFF, 0xFFFF, 0)] }.image()
}

/// An image with some bytes replaced.
fn with(mut image: Vec<u8>, changes: &[(usize, u8)]) -> Vec<u8> {
    for &(at, byte) in changes {
        image[at] = byte;
    }
    image
}

/// The sample's image has READ fields 0x0009, 0x000A, 0x000C and WRITE fields 0x0000, 0x0002, 0x0004. These
/// are the lines and sums of so many of them.
fn samples(count: u32) -> ([Line; 4], (u32, u32)) {
    ([(0, count, 0), (1, count, count), (2, count, count), (3, 3 * count, 0)], (6 * count, 2 * count))
}

/// The same line for every domain.
fn each(read: u32, write: u32) -> Vec<Line> {
    (0..16).map(|domain| (domain, read, write)).collect()
}

/// Each domain's own bit.
const OWN: [u16; 16] = [
    0x0001, 0x0002, 0x0004, 0x0008, 0x0010, 0x0020, 0x0040, 0x0080, 0x0100, 0x0200, 0x0400, 0x0800, 0x1000, 0x2000,
    0x4000, 0x8000,
];

pub fn all() -> Vec<Case> {
    let mut cases = Cases::default();
    small::add(&mut cases);
    domains::add(&mut cases);
    shapes::add(&mut cases);
    refused::add(&mut cases);
    cut::add(&mut cases);
    full::add(&mut cases);
    cases.list
}

/// One line for each case, for people: its number, length and purpose.
pub fn listing() -> String {
    let all = all();
    let lines = all.iter().enumerate();
    lines.map(|(before, case)| format!("{:4} {:6}  {}\n", before + 1, case.input.len(), case.purpose)).collect()
}
