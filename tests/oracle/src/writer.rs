//! The writer: fills a lent buffer with the image that would start a machine as it stands
//! (RULES 5.14 to 5.18). It is the loader's counterpart and shares nothing with the helper
//! that makes images for test inputs.

use crate::machine::{Machine, Mode, Program};
use std::iter;

const CONTENTS: usize = 18;
const CONTENTS_ENTRY: usize = 6;
const SHAPE: usize = 4;
const PAGE: usize = 4;
const PROGRAM: usize = 5;

/// The writer's number, and how many bytes of the buffer it filled: none where it refused.
#[derive(Clone, Copy, PartialEq, Eq, Debug)]
pub struct Written {
    pub number: u8,
    pub count: usize,
}

pub fn write_image(machine: &Machine, buffer: &mut [u8]) -> Written {
    match image_part(machine, buffer) {
        Ok(image) => {
            fill(machine, image);
            Written { number: 0, count: image.len() }
        }
        Err(number) => Written { number, count: 0 },
    }
}

/// The part of the buffer that the image takes, or the number that refuses (RULES 5.15).
/// All is decided here, before the first byte is written, so a refused buffer keeps its
/// bytes; and what lies past the part is out of reach afterwards (RULES 5.16).
fn image_part<'a>(machine: &Machine, buffer: &'a mut [u8]) -> Result<&'a mut [u8], u8> {
    if !machine.sound() {
        return Err(1);
    }
    // A loaded machine is at rest on program 0, so no image could start any other.
    let at_rest = machine.current == 0 && machine.depth() == 0 && !machine.pending;
    if !at_rest {
        return Err(26);
    }
    let length = CONTENTS + SHAPE + PAGE * machine.pages.len() + PROGRAM * machine.programs.len();
    buffer.get_mut(..length).ok_or(27)
}

/// Only for a sound machine and a part as long as its image (RULES 5.14). The last violation
/// has no place in an image, so it is not looked at.
fn fill(machine: &Machine, image: &mut [u8]) {
    let (contents, bodies) = image.split_at_mut(CONTENTS);
    let (shape, bodies) = bodies.split_at_mut(SHAPE);
    let (pages, programs) = bodies.split_at_mut(PAGE * machine.pages.len());

    // The bodies stand one behind another, so each starts where those in front of it end.
    let mut offset = CONTENTS;
    let lengths = [shape.len(), pages.len(), programs.len()];
    for (kind, (entry, length)) in (1..).zip(contents.chunks_exact_mut(CONTENTS_ENTRY).zip(lengths)) {
        entry[0] = kind;
        entry[1] = 0;
        put_word(&mut entry[2..4], offset as u16);
        put_word(&mut entry[4..6], length as u16);
        offset += length;
    }

    shape.copy_from_slice(&[machine.pages.len() as u8, machine.exponent as u8, machine.programs.len() as u8, 0]);

    for (place, fields) in pages.chunks_exact_mut(PAGE).zip(&machine.pages) {
        put_word(&mut place[0..2], fields.read);
        put_word(&mut place[2..4], fields.write);
    }

    // Program 0 is the one that runs. What the table holds for it is from its last switch or
    // from the load, and may be old; the live registers stand in for it.
    let live = Program { context: machine.context, mask: machine.mask, mode: machine.mode };
    let table = iter::once(&live).chain(&machine.programs[1..]);
    for (place, program) in programs.chunks_exact_mut(PROGRAM).zip(table) {
        put_word(&mut place[0..2], program.context);
        put_word(&mut place[2..4], program.mask);
        place[4] = match program.mode {
            Mode::User => 0,
            Mode::Privileged => 1,
        };
    }
}

/// High byte first. Only for a place of two bytes.
fn put_word(place: &mut [u8], word: u16) {
    place.copy_from_slice(&word.to_be_bytes());
}
