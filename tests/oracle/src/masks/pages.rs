//! Pages and their edges: page counts from 1 to 128, the last page, every page size, and lists of 64 pairs of
//! which each place decides.

use super::{pair, program_of, read, with_fields, write, Cases, Node, OWN};
use crate::write::Plan;

pub fn add(cases: &mut Cases) {
    last_pages(cases);
    sizes(cases);
    most_pages(cases);
    every_place(cases);
    last_place(cases);
}

fn of_size(exponent: u8, context: u16, pages: Vec<(u16, u16)>) -> Node {
    program_of(&Plan { exponent, pages, programs: vec![(context, 0, 0)] }, 0)
}

/// All pages but the last have domain 0 for both rights; the last has 1 for READ and 2 for WRITE.
fn with_last(exponent: u8, count: usize) -> Node {
    let mut pages = vec![(0x0001, 0x0001); count];
    pages[count - 1] = (0x0002, 0x0004);
    of_size(exponent, 0xFFFF, pages)
}

fn last_pages(cases: &mut Cases) {
    for count in [1, 4, 16] {
        let (node, last) = (with_last(5, count), count as u16 - 1);
        cases.found(&format!("READ of page {last}, page count {count}"), &node, &[read(last)], 0x0002);
        cases.found(&format!("WRITE of page {last}, page count {count}"), &node, &[write(last)], 0x0004);
        cases.refused(4, &format!("READ of page {count}, page count {count}"), &node, &[read(last + 1)]);
        cases.refused(4, &format!("WRITE of page {count}, page count {count}"), &node, &[write(last + 1)]);
    }
    let node = with_last(5, 127);
    cases.found("READ of page 126, the last of 127", &node, &[read(126)], 0x0002);
    cases.refused(4, "READ of page 127 of 127", &node, &[read(127)]);
    let node = with_last(9, 128);
    cases.found("both rights of page 127, the last byte being address 65,535", &node, &[read(127), write(127)], 0x0006);
    cases.refused(4, "READ of page 128 of 128", &node, &[read(128)]);
}

fn sizes(cases: &mut Cases) {
    for exponent in [5, 7, 9, 11, 12] {
        let node = of_size(exponent, 0xFFFF, vec![(0x0001, 0x0010), (0x0002, 0x0020), (0x0004, 0x0040)]);
        let purpose = format!("READ of page 1 and WRITE of page 2, pages of 2 to the power {exponent}");
        cases.found(&purpose, &node, &[read(1), write(2)], 0x0042);
    }
    let node = with_last(12, 16);
    cases.found("WRITE of page 15 of 4,096 bytes, and READ of page 0", &node, &[write(15), read(0)], 0x0005);
    cases.refused(4, "READ of page 16 of 4,096 bytes, at address 65,536", &node, &[read(16)]);
}

/// READ of page p through domain p modulo 16, WRITE through domain p divided by 16.
fn most_pages(cases: &mut Cases) {
    let pages: Vec<_> = (0..128).map(|page| (OWN[page % 16], OWN[page / 16])).collect();
    let node = of_size(9, 0xFFFF, pages);
    cases.found("READ of page 127 of 128", &node, &[read(127)], 0x8000);
    cases.found("READ of page 64 and WRITE of page 63", &node, &[read(64), write(63)], 0x0009);
    let of = |right: u16, pages: std::ops::Range<u16>| pages.map(|page| pair(right, page)).collect::<Vec<_>>();
    cases.found("READ of pages 64 to 127, 64 pairs", &node, &of(0, 64..128), 0xFFFF);
    cases.found("WRITE of pages 64 to 127, 64 pairs", &node, &of(1, 64..128), 0x00F0);
    cases.found("WRITE of pages 0 to 63, 64 pairs", &node, &of(1, 0..64), 0x000F);
    cases.refused(33, "READ of pages 63 to 127, 65 pairs", &node, &of(0, 63..128));
    cases.refused(33, "both rights of all 128 pages", &node, &[of(0, 0..128), of(1, 0..128)].concat());
    cases.refused(4, "WRITE of pages 65 to 128, the 64th being no page", &node, &of(1, 65..129));
}

/// Sixteen pairs of 64 that need a domain each, at each quarter of the list. The others are given by all.
fn every_place(cases: &mut Cases) {
    let fields = [&OWN[..], &[0xFFFF]].concat();
    let node = with_fields(0xFFFF, &fields);
    let needed = super::each(16);
    for quarter in 0..4 {
        let mut list = vec![read(8); 64];
        list[16 * quarter..16 * quarter + 16].copy_from_slice(&needed);
        let (from, to) = (16 * quarter + 1, 16 * quarter + 16);
        cases.found(&format!("64 pairs of which {from} to {to} need a domain each"), &node, &list, 0xFFFF);
    }
}

fn last_place(cases: &mut Cases) {
    let node = with_fields(0x000F, &[0x0003, 0x0002, 0x0008, 0x0010]);
    let list = |pair: u32| [&[read(0); 63][..], &[pair]].concat();
    cases.found("the 64th pair needs domain 1, which does for all", &node, &list(write(0)), 0x0002);
    cases.found("the 64th pair needs one domain more", &node, &list(read(1)), 0x0009);
    cases.refused(34, "the 64th pair has no domain of the context", &node, &list(write(1)));
    let list = |pair: u32| [&[pair][..], &[read(0); 63]].concat();
    cases.found("the first of 64 pairs needs domain 1, which does for all", &node, &list(write(0)), 0x0002);
    let mut list = vec![read(0); 64];
    list[31] = write(1);
    cases.refused(34, "the 32nd of 64 pairs has no domain of the context", &node, &list);
}
