//! Inputs by their length: short ones, remainders, wrong declared lengths, long ones.

use super::{sample, sample::sample_steps, Cases};
use crate::run::LONGEST_INPUT;
use crate::write::*;

pub fn add(cases: &mut Cases) {
    short(cases);
    remainders(cases);
    declared(cases);
    long(cases);
}

fn sample_records() -> Vec<u8> {
    sample_steps().iter().flat_map(|step| step.0).collect()
}

fn short(cases: &mut Cases) {
    cases.input("input of 0 bytes, an empty image", vec![], &[20]);
    cases.input("input of 1 byte, an empty image", vec![0], &[20]);
    cases.input("input of 1 byte 44, an empty image", vec![44], &[20]);
    cases.input("input of 2 bytes, length 0", vec![0, 0], &[20]);
    cases.input("input of 2 bytes, length 44 and no image", vec![0, 44], &[20]);
    cases.input("input of 2 bytes, length 65535 and no image", vec![255, 255], &[20]);
    cases.input("the sample's image and no call", input(&sample().image(), &[]), &[0]);
}

fn remainders(cases: &mut Cases) {
    let image = sample().image();
    let next = entry_call();
    for left in 1..=5 {
        cases.input(&format!("no call and a remainder of {left}"), input(&image, &next[..left]), &[0]);
        let records = [&read(0x10)[..], &read(0x0200), &next[..left]].concat();
        cases.input(&format!("two calls and a remainder of {left}"), input(&image, &records), &[0, 0, 9]);
    }
    cases.input("a remainder of zeros", input(&image, &[&read(0)[..], &[0, 0, 0]].concat()), &[0, 0]);
    let mut wrong = image.clone();
    wrong[43] = 2;
    cases.input("a refused load with a remainder of 3, which prints nothing", input(&wrong, &[5, 0, 0]), &[25]);
    cases.input("a refused load, calls and a remainder", input(&wrong, &[&sample_records()[..], &[5]].concat()), &[25]);
}

fn declared(cases: &mut Cases) {
    let image = sample().image();
    let calls = sample_records();
    cases.input("length 45 and 44 bytes are there: they load", declaring(45, &image, &[]), &[0]);
    cases.input("length 575 and 44 bytes are there: they load", declaring(575, &image, &[]), &[0]);
    cases.input("length 65535 and 44 bytes are there: they load", declaring(65_535, &image, &[]), &[0]);
    cases.input(
        "length low byte first, 0x2C00, and 44 bytes are there: they load",
        declaring(0x2C00, &image, &[]),
        &[0],
    );
    cases.input(
        "length low byte first, 0x2C00, and calls follow: they count as image",
        declaring(0x2C00, &image, &calls),
        &[24],
    );
    cases.input("length 44 and 43 bytes are there", declaring(44, &image[..43], &[]), &[24]);
    cases.input("length 44 and 31 bytes are there", declaring(44, &image[..31], &[]), &[24]);
    cases.input("length 44 and 30 bytes are there", declaring(44, &image[..30], &[]), &[20]);
    cases.input("length 45 takes a byte of the first call", declaring(45, &image, &calls), &[24]);
    cases.input("length 50 takes the first call", declaring(50, &image, &calls), &[24]);
    cases.input("length 43 leaves a byte of the image to the calls", declaring(43, &image, &calls), &[24]);
    cases.input("length 30", declaring(30, &image, &calls), &[20]);
    cases.input("length 0 and an image", declaring(0, &image, &calls), &[20]);
    cases.input("length 0x012C, 256 more than the image has", declaring(0x012C, &image, &calls), &[24]);
    cases.input("length 600 and 600 bytes are there", declaring(600, &image, &[0; 556]), &[20]);
}

/// One page and two programs: 36 bytes of image leave room for whole records up to 32,768.
fn long_plan() -> Plan {
    Plan { exponent: 5, pages: vec![(0x0101, 0x0002)], programs: vec![(0x0003, 0x0001, 0), (0x0100, 0xFFFF, 0)] }
}

fn long(cases: &mut Cases) {
    let image = long_plan().image();
    let cycle = [
        (read(31), 0),
        (write(0), 9),
        (grant(READ, 0, 9), 8),
        (entry_call(), 0),
        (switch(1), 0),
        (return_call(), 0),
        (revoke(READ, 0, 9), 11),
        (read(0), 0),
        (entry_call(), 0),
        (switch(0), 0),
        (return_call(), 0),
    ];
    let room = LONGEST_INPUT - 2 - image.len();
    let steps: Vec<_> = cycle.iter().cycle().take(room / 6).collect();
    let records: Vec<u8> = steps.iter().flat_map(|step| step.0).collect();
    let due = [vec![0], steps.iter().map(|step| step.1).collect()].concat();
    let full = input(&image, &records);
    assert_eq!(full.len(), LONGEST_INPUT);

    cases.input("input of 32,768 bytes, whole records to the end", full.clone(), &due);
    cases.input("input of 32,769 bytes, the image would load", [&full[..], &[5]].concat(), &[]);
    cases.input("input of 32,769 bytes, the load would be refused", vec![0; 32_769], &[]);
    cases.input("input of 32,768 bytes, length 65535: the load is refused", vec![255; 32_768], &[20]);
}
