//! Images: each refusal for each separate reason, the order of the refusals, the edges of the shape.

use super::{context_is, field_is, mask_is, sample, turn, Cases};
use crate::write::*;

pub fn add(cases: &mut Cases) {
    lengths(cases);
    contents(cases);
    shapes(cases);
    bodies(cases);
    order(cases);
    loaded(cases);
}

fn plan(exponent: u8, page_count: usize, program_count: usize) -> Plan {
    Plan { exponent, pages: vec![(1, 1); page_count], programs: vec![(1, 1, 0); program_count] }
}

/// The sample's image with some bytes replaced.
fn sample_with(changes: &[(usize, u8)]) -> Vec<u8> {
    let mut image = sample().image();
    for &(at, byte) in changes {
        image[at] = byte;
    }
    image
}

fn lengths(cases: &mut Cases) {
    let least = plan(5, 1, 1).image();
    let most = plan(9, 128, 8).image();
    cases.load("0 bytes", &[], 20);
    cases.load("1 byte", &least[..1], 20);
    cases.load("18 bytes, the table of contents alone", &least[..18], 20);
    cases.load("30 bytes, the least image without its last byte", &least[..30], 20);
    cases.load("31 bytes, the least image", &least, 0);
    cases.load("32 bytes, the least image and one byte", &[&least[..], &[0]].concat(), 24);
    cases.load("573 bytes, the greatest image without its last byte", &most[..573], 24);
    cases.load("574 bytes, the greatest image", &most, 0);
    cases.load("575 bytes, the greatest image and one byte", &[&most[..], &[0]].concat(), 20);
    cases.load("574 bytes, a lesser image and zeros", &[plan(9, 127, 8).image(), vec![0; 4]].concat(), 24);
    // 27 bytes would be its own length: too short comes first.
    cases.load("page count 0 and one program, 27 bytes", &plan(5, 0, 1).image(), 20);
}

fn contents(cases: &mut Cases) {
    for (at, name, kinds, zero) in [(0, "shape", [0, 2], 1), (6, "pages", [1, 130], 128), (12, "programs", [2, 4], 255)]
    {
        for kind in kinds {
            cases.load(&format!("the entry of the {name} has kind {kind}"), &sample_with(&[(at, kind)]), 21);
        }
        cases.load(&format!("the entry of the {name} has zero byte {zero}"), &sample_with(&[(at + 1, zero)]), 21);
    }
    cases.load("kinds 1, 3, 2", &sample_with(&[(6, 3), (12, 2)]), 21);
    for (at, byte, what) in [
        (2, 1, "offset 0x0112"),
        (3, 17, "offset 17"),
        (3, 19, "offset 19"),
        (4, 1, "length 0x0104"),
        (5, 3, "length 3"),
        (5, 5, "length 5"),
    ] {
        cases.load(&format!("the shape has {what}"), &sample_with(&[(at, byte)]), 22);
    }
    cases.load("the shape's offset low byte first", &sample_with(&[(2, 0x12), (3, 0)]), 22);
    cases.load("the shape's length low byte first", &sample_with(&[(4, 4), (5, 0)]), 22);
}

fn shapes(cases: &mut Cases) {
    cases.load("page count 0", &plan(5, 0, 2).image(), 23);
    cases.load("page count 128", &plan(5, 128, 1).image(), 0);
    cases.load("page count 129", &plan(5, 129, 1).image(), 23);
    cases.load("page count 255", &sample_with(&[(18, 255)]), 23);
    cases.load("exponent 4", &plan(4, 1, 1).image(), 23);
    cases.load("exponent 12", &plan(12, 1, 1).image(), 0);
    cases.load("exponent 13", &plan(13, 1, 1).image(), 23);
    cases.load("exponent 64", &plan(64, 1, 1).image(), 23);
    cases.load("exponent 255", &plan(255, 1, 1).image(), 23);
    cases.load("program count 0", &plan(5, 3, 0).image(), 23);
    cases.load("program count 1", &plan(8, 3, 1).image(), 0);
    cases.load("program count 8", &plan(5, 1, 8).image(), 0);
    cases.load("program count 9", &plan(5, 1, 9).image(), 23);
    cases.load("program count 255", &sample_with(&[(20, 255)]), 23);
    cases.load("the shape's fourth byte 1", &sample_with(&[(21, 1)]), 23);
    cases.load("the shape's fourth byte 255", &sample_with(&[(21, 255)]), 23);
    // Memory of exactly 65,536 bytes is among the cases of access.
    for (exponent, page_count) in [(10, 65), (10, 128), (11, 33), (12, 17), (12, 128)] {
        cases.load(
            &format!("{page_count} pages with exponent {exponent}, memory too large"),
            &plan(exponent, page_count, 1).image(),
            23,
        );
    }
}

fn bodies(cases: &mut Cases) {
    // The sample's pages stand at 0x0016 for 0x000C bytes, its programs at 0x0022 for 0x000A.
    for (at, byte, what) in [
        (8, 1, "pages have offset 0x0116"),
        (9, 0x15, "pages have offset 21"),
        (9, 0x12, "pages have offset 18"),
        (10, 1, "pages have length 0x010C"),
        (11, 0x0B, "pages have length 11"),
        (11, 0x10, "pages have length 16, one page too many"),
        (14, 1, "programs have offset 0x0122"),
        (15, 0x21, "programs have offset 33"),
        (15, 0x16, "programs have offset 22"),
        (16, 1, "programs have length 0x010A"),
        (17, 0x09, "programs have length 9"),
        (17, 0x0F, "programs have length 15, one program too many"),
        (18, 2, "page count 2 with the bodies of three"),
        (18, 4, "page count 4 with the bodies of three"),
        (20, 1, "program count 1 with the bodies of two"),
        (20, 3, "program count 3 with the bodies of two"),
    ] {
        cases.load(what, &sample_with(&[(at, byte)]), 24);
    }
    cases.load("pages' offset low byte first", &sample_with(&[(8, 0x16), (9, 0)]), 24);
    cases.load("pages' length low byte first", &sample_with(&[(10, 0x0C), (11, 0)]), 24);
    cases.load("programs' offset low byte first", &sample_with(&[(14, 0x22), (15, 0)]), 24);
    cases.load("programs' length low byte first", &sample_with(&[(16, 0x0A), (17, 0)]), 24);
    cases.load("one byte after the last body", &[sample().image(), vec![0]].concat(), 24);
    cases.load("a whole program after the last body", &[sample().image(), vec![0, 8, 0, 8, 0]].concat(), 24);
    cases.load("one byte less than the last body", &sample().image()[..43], 24);
    cases.load("31 bytes, the last of two programs missing whole", &plan(5, 1, 2).image()[..31], 24);
    for mode in [2, 255] {
        cases.load(&format!("the first program's mode byte {mode}"), &sample_with(&[(38, mode)]), 25);
        cases.load(&format!("the last program's mode byte {mode}"), &sample_with(&[(43, mode)]), 25);
    }
    cases.load("mode bytes 1 and 1", &sample_with(&[(38, 1), (43, 1)]), 0);
    let mut eight = plan(9, 128, 8);
    eight.programs[7].2 = 2;
    cases.load("the eighth program's mode byte 2 in the greatest image", &eight.image(), 25);
}

fn order(cases: &mut Cases) {
    cases.load("30 zeros, 20 before 21", &[0; 30], 20);
    cases.load("31 zeros, 21 before the rest", &[0; 31], 21);
    cases.load("574 times 255, 21 before the rest", &[255; 574], 21);
    cases.load("575 times 255, 20 before 21", &[255; 575], 20);
    cases.load("last entry's kind and shape's offset, 21 before 22", &sample_with(&[(12, 4), (3, 19)]), 21);
    cases.load("last entry's zero byte and page count, 21 before 23", &sample_with(&[(13, 1), (18, 0)]), 21);
    cases.load("zero byte and pages' length, 21 before 24", &sample_with(&[(1, 1), (11, 0)]), 21);
    cases.load("kind and mode byte, 21 before 25", &sample_with(&[(6, 9), (38, 2)]), 21);
    cases.load("shape's length and exponent, 22 before 23", &sample_with(&[(5, 5), (19, 4)]), 22);
    cases.load("shape's offset and pages' offset, 22 before 24", &sample_with(&[(3, 22), (9, 18)]), 22);
    cases.load("shape's offset and mode byte, 22 before 25", &sample_with(&[(2, 1), (43, 2)]), 22);
    cases.load("exponent and pages' offset, 23 before 24", &sample_with(&[(19, 13), (9, 0)]), 23);
    cases.load("fourth byte and programs' length, 23 before 24", &sample_with(&[(21, 1), (17, 0)]), 23);
    cases.load("memory too large and pages' length, 23 before 24", &sample_with(&[(18, 128), (19, 12)]), 23);
    cases.load("program count and mode byte, 23 before 25", &sample_with(&[(20, 0), (38, 2)]), 23);
    cases.load("programs' offset and mode byte, 24 before 25", &sample_with(&[(15, 0), (38, 2)]), 24);
    cases.load("image too long and mode byte, 24 before 25", &[sample_with(&[(43, 2)]), vec![0]].concat(), 24);
}

fn loaded(cases: &mut Cases) {
    // Every 16-bit field has two different halves, and no two fields are the same.
    let uneven = Plan {
        exponent: 6,
        pages: vec![(0x0102, 0x0408), (0x1020, 0x4080), (0x0380, 0xC001)],
        programs: vec![(0x0103, 0xFE07, 0), (0x7005, 0x2C31, 0)],
    };
    cases.run("loaded: READ of page 0 high byte first", &uneven, &field_is(READ, 0, 6, 0x0102));
    cases.run("loaded: WRITE of page 0 high byte first", &uneven, &field_is(WRITE, 0, 6, 0x0408));
    cases.run("loaded: READ of page 1 high byte first", &uneven, &field_is(READ, 1, 6, 0x1020));
    cases.run("loaded: WRITE of page 2 high byte first", &uneven, &field_is(WRITE, 2, 6, 0xC001));
    cases.run("loaded: program 0's context high byte first", &uneven, &context_is(0x0103));
    cases.run("loaded: program 0's mask high byte first", &uneven, &mask_is(0xFE07));
    cases.run("loaded: program 1's context high byte first", &uneven, &[turn(1), context_is(0x7005)].concat());
    cases.run("loaded: program 1's mask high byte first", &uneven, &[turn(1), mask_is(0x2C31)].concat());
}
