//! Nodes that do not start: 20 to 25 for a refused image, 16 for a program that is not there. The machine
//! that is asked is then the all-zero one, so that 1 comes before everything else (RULES 12.4).

use super::{pair, program_of, read, write, Cases, Node};
use crate::cases::sample;
use crate::write::Plan;

pub fn add(cases: &mut Cases) {
    refused_images(cases);
    other_images(cases);
    missing_programs(cases);
    image_first(cases);
}

/// The sample's image with one byte replaced.
fn sample_with(at: usize, byte: u8) -> Vec<u8> {
    let mut image = sample().image();
    image[at] = byte;
    image
}

/// A good list, and all that is refused on a sound machine.
fn lists() -> [(&'static str, Vec<u32>); 7] {
    [
        ("two good pairs", vec![read(1), write(1)]),
        ("no pair", vec![]),
        ("a wrong right", vec![pair(2, 0)]),
        ("a wrong page", vec![read(0), read(3)]),
        ("right and page wrong", vec![pair(65_535, 65_535)]),
        ("65 pairs", vec![read(1); 65]),
        ("a pair that no mask allows", vec![write(0)]),
    ]
}

/// Each number with good pairs, with none, and with one of the other lists.
fn refused_images(cases: &mut Cases) {
    let (whole, lists) = (sample().image(), lists());
    for (start, what, image, other) in [
        (20, "30 bytes", whole[..30].to_vec(), 5),
        (21, "a wrong kind", sample_with(6, 3), 2),
        (22, "a wrong length of the shape", sample_with(5, 3), 3),
        (23, "page count 0", sample_with(18, 0), 5),
        (24, "one byte too few", whole[..43].to_vec(), 4),
        (25, "mode byte 2 of program 1", sample_with(43, 2), 6),
    ] {
        let node = Node { image, program: 0 };
        for (list, pairs) in [&lists[0], &lists[1], &lists[other]] {
            cases.unstarted(start, &format!("{what}, {list}"), &node, pairs);
        }
    }
}

fn other_images(cases: &mut Cases) {
    let mut image = |start: u8, what: &str, image: Vec<u8>| {
        cases.unstarted(start, what, &Node { image, program: 0 }, &[read(0)]);
    };
    image(20, "no byte", vec![]);
    image(20, "575 bytes", vec![0; 575]);
    image(23, "exponent 13", sample_with(19, 13));
    image(24, "one byte too many", [sample().image(), vec![0]].concat());
    image(25, "mode byte 255 of program 0", sample_with(38, 255));
}

fn missing_programs(cases: &mut Cases) {
    for (list, pairs) in lists() {
        cases.unstarted(16, &format!("program 2 of two, {list}"), &program_of(&sample(), 2), &pairs);
    }
    // 256 and 257 are programs for those who look at the low byte only, 8 for those who look at three
    // bits only.
    for program in [3, 8, 256, 257, 65_535] {
        let node = program_of(&sample(), program);
        cases.unstarted(16, &format!("program {program} of two"), &node, &[read(1), write(1)]);
    }
    let one = Plan { exponent: 5, pages: vec![(1, 1)], programs: vec![(1, 1, 1)] };
    cases.unstarted(16, "program 1 of one, in privileged mode", &program_of(&one, 1), &[read(0)]);
    let eight = Plan { exponent: 5, pages: vec![(1, 1)], programs: vec![(1, 1, 0); 8] };
    cases.found("program 7 of eight", &program_of(&eight, 7), &[read(0)], 0x0001);
    cases.unstarted(16, "program 8 of eight", &program_of(&eight, 8), &[read(0)]);
}

/// Both wrong: the load's number is the start.
fn image_first(cases: &mut Cases) {
    for (start, image) in [(20, vec![]), (23, sample_with(20, 9)), (25, sample_with(38, 2))] {
        let node = Node { image, program: 65_535 };
        cases.unstarted(start, "program 65,535 of a refused image", &node, &[read(0)]);
    }
}
