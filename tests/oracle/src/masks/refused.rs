//! 33, 2, 4 and 34 at their edges, and their order (RULES 12.4). All nodes here start.

use super::{node, pair, read, write, Cases, Node};

pub fn add(cases: &mut Cases) {
    long_lists(cases);
    long_lists_first(cases);
    rights(cases);
    pages(cases);
    both_in_one_pair(cases);
    first_bad_pair(cases);
    bad_places(cases);
    bad_pairs_before_34(cases);
    none_will_do(cases);
}

/// Two pages. READ of page 1 needs domain 2, which is outside the context; the others are given.
fn two_pages() -> Node {
    node(0x0003, &[(0x0001, 0x0002), (0x0004, 0x0003)])
}

/// What cannot be had of it.
const DENIED: u32 = read(1);

/// Both rights in turns, so many in all: mask 0x0003 would do.
fn good(count: usize) -> Vec<u32> {
    [read(0), write(0)].into_iter().cycle().take(count).collect()
}

/// Such a list with another pair at some places.
fn good_but(count: usize, others: &[(usize, u32)]) -> Vec<u32> {
    let mut list = good(count);
    for &(place, pair) in others {
        list[place] = pair;
    }
    list
}

/// The counts from 256 on are 0, 1, 64 and 65 for those who look at their low byte only.
fn long_lists(cases: &mut Cases) {
    let node = two_pages();
    cases.found("64 pairs of both rights", &node, &good(64), 0x0003);
    for count in [65, 128, 256, 257, 320, 321] {
        cases.refused(33, &format!("{count} good pairs"), &node, &good(count));
    }
    cases.refused(33, "65 pairs alike", &node, &[read(0); 65]);
}

fn long_lists_first(cases: &mut Cases) {
    let node = two_pages();
    for (what, bad) in [("right 2", pair(2, 0)), ("page 2", read(2)), ("a pair that no mask allows", DENIED)] {
        cases.refused(33, &format!("65 pairs, the first with {what}"), &node, &good_but(65, &[(0, bad)]));
        cases.refused(33, &format!("65 pairs, the 65th with {what}"), &node, &good_but(65, &[(64, bad)]));
    }
    cases.refused(33, "65 pairs, all with right 2", &node, &[pair(2, 0); 65]);
    cases.refused(33, "65 pairs, all with page 2", &node, &[write(2); 65]);
    cases.refused(33, "65 pairs that no mask allows", &node, &[DENIED; 65]);
    cases.refused(33, "65 pairs without a context", &super::node(0x0000, &[(0xFFFF, 0xFFFF)]), &good(65));
    cases.refused(33, "256 pairs, the first with right 2", &node, &good_but(256, &[(0, pair(2, 0))]));
}

/// 256 and 257 are READ and WRITE for those who look at the low byte only, 2 and 3 for those who look at
/// the low bit only.
fn rights(cases: &mut Cases) {
    let node = two_pages();
    for right in [2, 3, 255, 256, 257, 32_768, 65_535] {
        cases.refused(2, &format!("right {right}"), &node, &[pair(right, 0)]);
    }
    for right in [2, 256] {
        cases.refused(2, &format!("right {right} after a good pair"), &node, &[write(0), pair(right, 1)]);
    }
}

/// 256 and 257 are pages for those who look at the low byte only, 128 and 129 for those who look at seven
/// bits only.
fn pages(cases: &mut Cases) {
    let node = two_pages();
    for page in [2, 127, 128, 129, 256, 257, 65_535] {
        cases.refused(4, &format!("READ of page {page} of two"), &node, &[read(page)]);
    }
    for page in [2, 257] {
        cases.refused(4, &format!("WRITE of page {page} of two, after a good pair"), &node, &[read(0), write(page)]);
    }
    // Page 0 gives nothing here, so that no other page can be taken for it.
    let first_empty = super::node(0xFFFF, &[(0, 0), (0xFFFF, 0xFFFF)]);
    cases.refused(4, "READ of page 256 of two, page 0 giving nothing", &first_empty, &[read(256)]);
    cases.refused(34, "READ of page 0 of two, which gives nothing", &first_empty, &[read(0)]);
}

fn both_in_one_pair(cases: &mut Cases) {
    let node = two_pages();
    for (right, page) in [(2, 2), (2, 65_535), (257, 257), (65_535, 65_535)] {
        cases.refused(2, &format!("right {right} and page {page} in one pair"), &node, &[pair(right, page)]);
    }
    cases.refused(2, "right 2 and page 2 in the last pair", &node, &[read(0), write(1), pair(2, 2)]);
}

fn first_bad_pair(cases: &mut Cases) {
    let node = two_pages();
    let (right, page, both) = (pair(2, 0), read(2), pair(2, 2));
    cases.refused(4, "a wrong page, then a wrong right", &node, &[page, right]);
    cases.refused(2, "a wrong right, then a wrong page", &node, &[right, page]);
    cases.refused(4, "a wrong page, then right and page wrong", &node, &[page, both]);
    cases.refused(2, "right and page wrong, then a wrong page", &node, &[both, page]);
    cases.refused(4, "a good pair, a wrong page, a wrong right", &node, &[read(0), page, right]);
    cases.refused(2, "a good pair, a wrong right, a wrong page", &node, &[read(0), right, page]);
    cases.refused(4, "a wrong page, a good pair, a wrong right", &node, &[page, write(0), right]);
    cases.refused(2, "a wrong right, a good pair, a wrong page", &node, &[right, write(0), page]);
    let mut of_64 = |number: u8, what: &str, others: &[(usize, u32)]| {
        cases.refused(number, &format!("64 pairs, {what}"), &node, &good_but(64, others));
    };
    of_64(4, "a wrong page first and a wrong right last", &[(0, page), (63, right)]);
    of_64(2, "a wrong right first and a wrong page last", &[(0, right), (63, page)]);
    of_64(4, "a wrong page 63rd and a wrong right 64th", &[(62, page), (63, right)]);
    of_64(2, "a wrong right 63rd and a wrong page 64th", &[(62, right), (63, page)]);
}

fn bad_places(cases: &mut Cases) {
    let node = two_pages();
    for (number, what, bad) in [(2, "a wrong right", pair(2, 1)), (4, "a wrong page", write(2))] {
        for (place, count) in [(0, 3), (2, 3), (31, 64), (63, 64)] {
            let purpose = format!("{what} in pair {} of {count}", place + 1);
            cases.refused(number, &purpose, &node, &good_but(count, &[(place, bad)]));
        }
    }
}

fn bad_pairs_before_34(cases: &mut Cases) {
    let node = two_pages();
    for (number, what, bad) in [(2, "a wrong right", pair(2, 0)), (4, "a wrong page", read(2))] {
        cases.refused(number, &format!("a pair that no mask allows, then {what}"), &node, &[DENIED, bad]);
        cases.refused(number, &format!("{what}, then a pair that no mask allows"), &node, &[bad, DENIED]);
        let list = good_but(64, &[(0, DENIED), (63, bad)]);
        cases.refused(number, &format!("64 pairs, the first allowed by no mask, the last with {what}"), &node, &list);
        let none = super::node(0x0000, &[(0xFFFF, 0xFFFF), (0, 0)]);
        cases.refused(number, &format!("no context, a good pair and {what}"), &none, &[read(0), bad]);
    }
    let list = [DENIED, read(2), pair(2, 0)];
    cases.refused(4, "a pair that no mask allows, a wrong page, a wrong right", &node, &list);
}

fn none_will_do(cases: &mut Cases) {
    let node = two_pages();
    for (place, count) in [(0, 3), (1, 3), (2, 3), (62, 64)] {
        let purpose = format!("pair {} of {count} is allowed by no mask", place + 1);
        cases.refused(34, &purpose, &node, &good_but(count, &[(place, DENIED)]));
    }
    cases.found("all that some mask allows", &node, &[read(0), write(0), write(1)], 0x0003);
}
