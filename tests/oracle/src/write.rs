//! Writes images, records and inputs, for the stored cases and the random inputs.

pub use crate::machine::{READ, WRITE};

pub type Record = [u8; 6];

/// What an image is to say. Nothing here is checked, so that a wrong shape can be written too.
#[derive(Clone)]
pub struct Plan {
    pub exponent: u8,
    /// READ and WRITE of each page.
    pub pages: Vec<(u16, u16)>,
    /// Global context, mask and mode byte of each program.
    pub programs: Vec<(u16, u16, u8)>,
}

fn high(word: u16) -> u8 {
    (word / 256) as u8
}

fn low(word: u16) -> u8 {
    (word % 256) as u8
}

fn entry(image: &mut Vec<u8>, kind: u8, offset: usize, length: usize) {
    let (offset, length) = (offset as u16, length as u16);
    image.extend([kind, 0, high(offset), low(offset), high(length), low(length)]);
}

impl Plan {
    pub fn image(&self) -> Vec<u8> {
        let pages_length = 4 * self.pages.len();
        let programs_length = 5 * self.programs.len();
        let mut image = Vec::new();
        entry(&mut image, 1, 18, 4);
        entry(&mut image, 2, 22, pages_length);
        entry(&mut image, 3, 22 + pages_length, programs_length);
        image.extend([self.pages.len() as u8, self.exponent, self.programs.len() as u8, 0]);
        for &(read, write) in &self.pages {
            image.extend([high(read), low(read), high(write), low(write)]);
        }
        for &(context, mask, mode) in &self.programs {
            image.extend([high(context), low(context), high(mask), low(mask), mode]);
        }
        image
    }
}

/// An input whose declared image length is the given one, right or wrong.
pub fn declaring(length: u16, image: &[u8], rest: &[u8]) -> Vec<u8> {
    [&[high(length), low(length)], image, rest].concat()
}

/// An input with its image's own length declared.
pub fn input(image: &[u8], rest: &[u8]) -> Vec<u8> {
    declaring(image.len() as u16, image, rest)
}

pub fn record(kind: u8, right: u8, a: u16, b: u16) -> Record {
    [kind, right, high(a), low(a), high(b), low(b)]
}

/// An access of one byte, kind 1, or of two, kind 13: their records are alike but for the kind.
pub fn access_of_kind(kind: u8, right: u8, address: u32) -> Record {
    record(kind, right, (address / 65_536) as u16, (address % 65_536) as u16)
}

pub fn access(right: u8, address: u32) -> Record {
    access_of_kind(1, right, address)
}

pub fn read(address: u32) -> Record {
    access(READ, address)
}

pub fn write(address: u32) -> Record {
    access(WRITE, address)
}

pub fn access_two(right: u8, address: u32) -> Record {
    access_of_kind(13, right, address)
}

pub fn read_two(address: u32) -> Record {
    access_two(READ, address)
}

pub fn write_two(address: u32) -> Record {
    access_two(WRITE, address)
}

pub fn grant(right: u8, page: u16, domain: u16) -> Record {
    record(2, right, page, domain)
}

pub fn revoke(right: u8, page: u16, domain: u16) -> Record {
    record(3, right, page, domain)
}

pub fn mask(bits: u16) -> Record {
    record(4, 0, 0, bits)
}

pub fn entry_call() -> Record {
    record(5, 0, 0, 0)
}

pub fn return_call() -> Record {
    record(6, 0, 0, 0)
}

pub fn switch(program: u16) -> Record {
    record(7, 0, 0, program)
}

pub fn store_field(right: u8, page: u16, bits: u16) -> Record {
    record(8, right, page, bits)
}

pub fn store_context(bits: u16) -> Record {
    record(9, 0, 0, bits)
}

pub fn store_mask(bits: u16) -> Record {
    record(10, 0, 0, bits)
}

pub fn store_mode(number: u16) -> Record {
    record(11, 0, 0, number)
}

/// The question for the last violation.
pub fn question() -> Record {
    record(12, 0, 0, 0)
}
