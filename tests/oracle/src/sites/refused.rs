//! Images that do not load, with rights that would show if they were counted (RULES 13.3). Each of the load's
//! refusals stands between two images that load.

use super::{image, sample, samples, site, with, Cases, Line};
use crate::write::Plan;

pub fn add(cases: &mut Cases) {
    between(cases);
    other_places(cases);
    several(cases);
    images_inside(cases);
}

/// Domains 8 to 15 have READ of every page, domains 12 to 15 WRITE.
fn plan(exponent: u8, page_count: usize, program_count: usize) -> Plan {
    Plan { exponent, pages: vec![(0xFF00, 0xF000); page_count], programs: vec![(0xFFFF, 0xFFFF, 0); program_count] }
}

/// The purpose starts with the load's number.
fn images() -> Vec<(&'static str, Vec<u8>)> {
    let three = || plan(5, 3, 2).image();
    let longer = |image: Vec<u8>, more: &[u8]| [&image[..], more].concat();
    vec![
        ("20: 30 bytes, the least image without its last", plan(5, 1, 1).image()[..30].to_vec()),
        ("20: 26 bytes, which end with the only page", plan(5, 1, 1).image()[..26].to_vec()),
        ("20: 575 bytes, the greatest image and one more", longer(plan(5, 128, 8).image(), &[0])),
        ("20: 600 bytes", longer(plan(5, 128, 8).image(), &[0; 26])),
        ("21: the pages' entry has kind 3", with(three(), &[(6, 3)])),
        ("21: the programs' entry has zero byte 1", with(three(), &[(13, 1)])),
        ("22: the shape's offset is 19", with(three(), &[(3, 19)])),
        ("22: the shape's length is 5", with(three(), &[(5, 5)])),
        ("23: page count 0", with(three(), &[(18, 0)])),
        ("23: 129 pages", plan(5, 129, 1).image()),
        ("23: exponent 4", plan(4, 3, 2).image()),
        ("23: exponent 13", plan(13, 3, 2).image()),
        ("23: no program", plan(5, 3, 0).image()),
        ("23: nine programs", plan(5, 3, 9).image()),
        ("23: the shape's fourth byte is 1", with(three(), &[(21, 1)])),
        ("23: 17 pages of 4,096 bytes, memory too large", plan(12, 17, 1).image()),
        ("24: the pages' offset is 18", with(three(), &[(9, 18)])),
        ("24: the pages' length is 8", with(three(), &[(11, 8)])),
        ("24: the programs' length is 5", with(three(), &[(17, 5)])),
        ("24: page count 2 with the bodies of three", with(three(), &[(18, 2)])),
        ("24: one byte behind the last body", longer(three(), &[0])),
        ("24: one byte less than the last body", three()[..43].to_vec()),
        ("25: the first program's mode byte is 2", with(three(), &[(38, 2)])),
        ("25: the last program's mode byte is 255", with(three(), &[(43, 255)])),
        ("25: the eighth program's mode byte is 2", with(plan(5, 128, 8).image(), &[(573, 2)])),
    ]
}

/// One of each number.
fn six() -> [Vec<u8>; 6] {
    let three = || plan(5, 3, 2).image();
    [
        three()[..30].to_vec(),
        with(three(), &[(0, 2)]),
        with(three(), &[(2, 1)]),
        with(three(), &[(19, 255)]),
        with(three(), &[(15, 0)]),
        with(three(), &[(38, 3)]),
    ]
}

fn first() -> Vec<u8> {
    image(&[(0x0005, 0x0002)])
}

fn last() -> Vec<u8> {
    image(&[(0x0008, 0x0000), (0x0001, 0x0001)])
}

/// The rights of these two.
const BOTH: ([Line; 4], (u32, u32)) = ([(0, 2, 1), (1, 0, 1), (2, 1, 0), (3, 1, 0)], (4, 2));

fn between(cases: &mut Cases) {
    let (rights, total) = BOTH;
    for (what, refused) in images() {
        let purpose = format!("{what}, between two that load");
        cases.some(&purpose, site(&[first(), refused, last()]), &rights, total, 1);
    }
}

fn other_places(cases: &mut Cases) {
    let (rights, total) = BOTH;
    let [_, wrong_kind, _, _, wrong_offset, wrong_mode] = six();
    cases.none("21: a wrong kind, alone", site(&[&wrong_kind]), 1);
    cases.none("25: mode byte 3, alone", site(&[&wrong_mode]), 1);
    cases.some("25: mode byte 3, before two that load", site(&[&wrong_mode, &first(), &last()]), &rights, total, 1);
    cases.some("25: mode byte 3, behind two that load", site(&[&first(), &last(), &wrong_mode]), &rights, total, 1);
    cases.some(
        "24: a wrong offset, before two that load",
        site(&[&wrong_offset, &first(), &last()]),
        &rights,
        total,
        1,
    );
    cases.some(
        "24: a wrong offset, behind two that load",
        site(&[&first(), &last(), &wrong_offset]),
        &rights,
        total,
        1,
    );
}

fn several(cases: &mut Cases) {
    let six = six();
    cases.none("one image of each refusal", site(&six), 6);
    let (lines, total) = samples(7);
    let good = sample().image();
    let [a, b, c, d, e, f] = &six;
    let turns = site(&[&good, a, &good, b, &good, c, &good, d, &good, e, &good, f, &good]);
    cases.some("one image of each refusal, each between two samples", turns, &lines, total, 6);
    let (lines, total) = samples(1);
    cases.some("one image of each refusal, then the sample", site(&[a, b, c, d, e, f, &good]), &lines, total, 6);
    cases.some("the sample, then one image of each refusal", site(&[&good, a, b, c, d, e, f]), &lines, total, 6);
    let (lines, total) = samples(2);
    let twice = site(&[&good, f, f, &good, f]);
    cases.some("the same refused image three times among two samples", twice, &lines, total, 3);
}

/// What is inside a refused image is passed over, whatever it would be by itself.
fn images_inside(cases: &mut Cases) {
    let (rights, total) = BOTH;
    let good = sample().image();
    let mut inside = |what: &str, refused: &[u8]| {
        let purpose = format!("{what}, between two that load");
        cases.some(&purpose, site(&[&first()[..], refused, &last()]), &rights, total, 1);
    };
    inside("21: the sample with its length, both as an image", &site(&[&good]));
    inside("20: 13 samples with their lengths, all as an image", &site(&[&good; 13]));
    inside("24: the sample and the sample under one length", &[&good[..], &good].concat());
    inside("24: the sample and the sample with its length under one length", &[&good, &site(&[&good])[..]].concat());
    inside("21: an empty image's length and the sample under one length", &[&[0, 0], &good[..]].concat());
    inside("21: zeros before the sample's image", &[&[0; 20], &good[..]].concat());
}
