//! The domain that an allowed access in user mode names, and everything that names none (RULES
//! 1.17, 2.13, 3.3, 8.3). The third part of a step is the domain, written by hand as the answer is.
//!
//! The words are chosen so that other readings come out with other domains: the lowest of the
//! field, the context, the mask or any two of them alone, the highest-numbered, the other right's,
//! the other page's, the lower of two pages' and the one that two pages share.

use super::{clear_flag, naming_none, small, turn, Cases, NamedStep};
use crate::write::*;

pub fn add(cases: &mut Cases) {
    every_domain(cases);
    three_words(cases);
    edges(cases);
    around(cases);
    modes(cases);
    commands(cases);
    own_commands(cases);
    stores(cases);
    eight_programs(cases);
    large_pages(cases);
    histories(cases);
    remainder(cases);
}

pub fn cleared() -> Vec<NamedStep> {
    naming_none(&clear_flag())
}

pub fn turn_of(program: u16) -> Vec<NamedStep> {
    naming_none(&turn(program))
}

/// Each field has an even domain and an odd one, and 14 and 15. Program 0 has the even domains by
/// its mask, program 1 the odd ones by its context, so that each page gives through two domains,
/// one to each program.
fn every_domain(cases: &mut Cases) {
    let node = Plan {
        exponent: 5,
        pages: vec![
            (0xC001, 0xC180), // READ 0 and 15, WRITE 8 and 7
            (0xC002, 0xC240), // READ 14 and 1, WRITE 6 and 9
            (0xE004, 0xC420), // READ 2 and 13, WRITE 10 and 5
            (0xD008, 0xC810), // READ 12 and 3, WRITE 4 and 11
            (0xC810, 0xD008), // READ 4 and 11, WRITE 12 and 3
            (0xC420, 0xE004), // READ 10 and 5, WRITE 2 and 13
            (0xC240, 0xC002), // READ 6 and 9, WRITE 14 and 1
            (0xC180, 0xC001), // READ 8 and 7, WRITE 0 and 15
        ],
        programs: vec![(0xFFFF, 0x5555, 0), (0xAAAA, 0xFFFF, 0)],
    };
    let even = [(0, 8), (14, 6), (2, 10), (12, 4), (4, 12), (10, 2), (6, 14), (8, 0)];
    let odd = [(15, 7), (1, 9), (13, 5), (3, 11), (11, 3), (5, 13), (9, 1), (7, 15)];
    // Of two bytes the second is in the next page, but for the last page, which has none behind it.
    let two_from = [31, 63, 95, 127, 159, 191, 223, 254];
    let all_pages = |names: [(u16, u16); 8]| -> Vec<NamedStep> {
        let pages = (0..8).zip(names).zip(two_from);
        pages
            .flat_map(|((page, (by_read, by_write)), two)| {
                [
                    (read(32 * page), 0, Some(by_read)),
                    (write(32 * page + 31), 0, Some(by_write)),
                    (read_two(two), 0, Some(by_read)),
                    (write_two(two), 0, Some(by_write)),
                ]
            })
            .collect()
    };
    cases.named_run(
        "named: every domain, for READ and WRITE, by one byte and by two",
        &node,
        &[all_pages(even), turn_of(1), all_pages(odd)].concat(),
    );
}

/// The context holds 1, 3, 4 and 6 to 10, the mask 2, 3 and 5 to 10, both together 3 and 6 to 10.
fn three_words(cases: &mut Cases) {
    for (right, name) in [(READ, "READ"), (WRITE, "WRITE")] {
        let other = 1 - right;
        // The right that is looked at, and the other one.
        let fields = [
            (0x0501, 0x0208), // 0, 8, 10; 3, 9
            (0x0271, 0x0286), // 0, 4, 5, 6, 9; 1, 2, 7, 9
            (0x0430, 0x0211), // 4, 5, 10; 0, 4, 9
        ];
        let pages =
            fields.map(|(looked_at, beside)| if right == READ { (looked_at, beside) } else { (beside, looked_at) });
        cases.named_run(
            &format!("named: field, context and mask all count, {name}, and then mask commands"),
            &small(&pages, 0x07DA, 0x07EC),
            &[
                vec![
                    (access(right, 40), 0, Some(6)),
                    (access(other, 40), 0, Some(7)),
                    (access(right, 31), 0, Some(8)),
                    (access(right, 32), 0, Some(6)),
                    (access(right, 63), 0, Some(6)),
                    (access(right, 64), 0, Some(10)),
                    (access(other, 31), 0, Some(3)),
                    (access(other, 64), 0, Some(9)),
                    (access_two(right, 40), 0, Some(6)),
                    (access_two(right, 62), 0, Some(6)),
                    (access_two(right, 63), 0, Some(6)), // the second page: 10
                    (access_two(right, 31), 0, Some(8)), // the second page: 6
                    (access_two(other, 31), 0, Some(3)), // the second page: 7
                    (access_two(other, 63), 0, Some(7)), // the second page: 9, which both hold
                    (mask(0xFFFF), 0, None),
                    (access(right, 40), 0, Some(4)),
                    (access(other, 40), 0, Some(1)),
                    (access_two(right, 31), 0, Some(8)), // the second page: 4
                    (access_two(right, 63), 0, Some(4)), // the second page: 4
                    (mask(0x0600), 0, None),
                    (access(right, 40), 0, Some(9)),
                    (access(right, 64), 0, Some(10)),
                    (access_two(right, 31), 0, Some(10)), // the second page: 9
                    (access_two(right, 63), 0, Some(9)),  // the second page: 10
                    (mask(0x0200), 0, None),
                    (access(right, 40), 0, Some(9)),
                    (access_two(right, 31), 9, None), // the second page alone: 9
                ],
                cleared(),
                vec![
                    (access(right, 40), 0, Some(9)),
                    (access_two(right, 63), 9, None), // the first page alone: 9
                    (access(right, 40), 8, None),
                ],
                cleared(),
                // No bit of the mask is in the context: only the kernel may store it.
                vec![(mask(0xF825), 19, None), (access(right, 40), 0, Some(9))],
                in_interrupt(store_mask(0xF825)),
                vec![(access(right, 40), 9, None)],
            ]
            .concat(),
        );
    }
}

/// The context holds 2, 5, 7, 9 and 11.
fn edges(cases: &mut Cases) {
    let pages = [
        (0x0084, 0x0800), // READ 2, 7; WRITE 11
        (0x00A0, 0x0A00), // READ 5, 7; WRITE 9, 11
        (0x0084, 0x8800), // READ 2, 7; WRITE 11, 15
        (0x0A00, 0x0080), // READ 9, 11; WRITE 7
    ];
    cases.named_run(
        "named: two bytes across an edge name the first one's domain, with a shared domain and without one",
        &small(&pages, 0x0AA4, 0xFFFF),
        &[
            vec![
                (read_two(31), 0, Some(2)),   // the second page: 5, both: 7
                (read_two(63), 0, Some(5)),   // the second page: 2, both: 7
                (read_two(95), 0, Some(2)),   // the second page: 9, both: none
                (write_two(31), 0, Some(11)), // the second page: 9, both: 11
                (write_two(63), 0, Some(9)),  // the second page: 11, both: 11
                (write_two(95), 0, Some(11)), // the second page: 7, both: none
                (read_two(127), 3, None),
                // Two bytes of one page.
                (read_two(0), 0, Some(2)),
                (read_two(30), 0, Some(2)),
                (read_two(32), 0, Some(5)),
                (read_two(62), 0, Some(5)),
                (read_two(126), 0, Some(9)),
                (write_two(33), 0, Some(9)),
                (write_two(94), 0, Some(11)),
                (write_two(126), 0, Some(7)),
                // Single bytes on both sides of an edge.
                (read(31), 0, Some(2)),
                (read(32), 0, Some(5)),
                (write(95), 0, Some(11)),
                (write(96), 0, Some(7)),
                (mask(0x0080), 0, None), // 7
                (read_two(31), 0, Some(7)),
                (read_two(63), 0, Some(7)),
                (read_two(95), 9, None),
            ],
            cleared(),
            vec![
                (mask(0x00A0), 0, None),    // 5, 7
                (read_two(31), 0, Some(7)), // the second page: 5
                (read_two(63), 0, Some(5)), // the second page: 7
                (mask(0x0024), 0, None),    // 2, 5
                (read_two(31), 0, Some(2)), // the second page: 5, both: none
                (read_two(63), 0, Some(5)), // the second page: 2, both: none
                (mask(0x0004), 0, None),    // 2
                (read_two(31), 9, None),    // the first page alone gives
                (read_two(31), 8, None),
            ],
            cleared(),
            vec![(read(31), 0, Some(2)), (read_two(63), 9, None), (read(31), 8, None)],
        ]
        .concat(),
    );
}

/// The same calls around accesses that name domain 12 and around such that name domain 0, so that
/// neither 0 nor the name before can stand for none. Program 0 reads page 0 and writes both pages.
fn around(cases: &mut Cases) {
    for (domain, pages, context) in [
        (12, vec![(0x1002, 0x3000), (0x0002, 0x1000)], 0x3000), // READ 1, 12 and 1; WRITE 12, 13 and 12
        (0, vec![(0x1001, 0x2001), (0x0002, 0x0001)], 0x2001),  // READ 0, 12 and 1; WRITE 0, 13 and 0
    ] {
        let node = Plan { exponent: 5, pages, programs: vec![(context, 0xFFFF, 0), (context, 0xFFFF, 1)] };
        let named = Some(domain);
        // Each call comes straight after an access that was allowed.
        let after_access = |calls: &[(Record, u8)]| -> Vec<NamedStep> {
            calls.iter().flat_map(|&(call, answer)| [(write(0), 0, named), (call, answer, None)]).collect()
        };
        cases.named_run(
            &format!("named: domain {domain}, and none by what is refused and by every other call after it"),
            &node,
            &[
                vec![
                    (read(0), 0, named),
                    (access(2, 0), 2, None),
                    (read_two(0), 0, named),
                    (access_two(255, 0), 2, None),
                    (write(63), 0, named),
                    (read(64), 3, None),
                    (write_two(62), 0, named),
                    (write_two(63), 3, None),
                    (write_two(31), 0, named),
                    (read_two(31), 9, None), // the first page alone gives
                    (read(0), 8, None),
                    (read_two(0), 8, None),
                    (write(0), 8, None),
                    (access(2, 0), 2, None),
                    (read(64), 3, None),
                    (grant(WRITE, 0, 14), 8, None),
                    (mask(0xFFFF), 8, None),
                    (record(0, 0, 0, 0), 18, None),
                ],
                cleared(),
                vec![(read(0), 0, named), (read(32), 9, None)],
                cleared(),
                after_access(&[
                    (grant(WRITE, 0, 14), 0),
                    (revoke(WRITE, 0, 14), 0),
                    (grant(WRITE, 0, domain), 12),
                    (revoke(READ, 1, 13), 11),
                    (mask(0xFFFF), 0),
                    (mask(0x0FFE), 19),
                    (record(0, 0, 0, 0), 18),
                    (record(14, 0, 0, 0), 18),
                    (record(255, 1, 0, 0), 18),
                    (question(), 7),
                    (return_call(), 7),
                    (switch(1), 7),
                    (store_field(READ, 0, 0xFFFF), 7),
                    (store_context(0xFFFF), 7),
                    (store_mask(0xFFFF), 7),
                    (store_mode(0), 7),
                    (entry_call(), 0),
                ]),
                vec![
                    (write(0), 0, None),
                    (write_two(31), 0, None),
                    (read(32), 0, None),
                    (read_two(31), 0, None),
                    (access(2, 0), 2, None),
                    (read_two(63), 3, None),
                    (question(), 0, None),
                    (store_field(READ, 1, 0x0002), 0, None),
                    (store_context(context), 0, None),
                    (store_mask(0xFFFF), 0, None),
                    (store_mode(1), 0, None),
                    (grant(WRITE, 0, 14), 6, None),
                    (record(14, 0, 0, 0), 18, None),
                    (switch(0), 0, None),
                    (return_call(), 0, None),
                    (write(0), 0, named),
                ],
                // The same registers in privileged mode.
                turn_of(1),
                vec![(write(0), 0, None), (write_two(31), 0, None), (read(0), 0, None)],
                turn_of(0),
                vec![(write(0), 0, named)],
            ]
            .concat(),
        );
    }
}

/// Programs 0 and 2 are stored in privileged mode, program 1 in user mode. Each has one domain.
fn modes(cases: &mut Cases) {
    let node = Plan {
        exponent: 5,
        pages: vec![(0x000E, 0x000E), (0x000E, 0x000E)],
        programs: vec![(0x0002, 0xFFFF, 1), (0x0004, 0xFFFF, 0), (0x0008, 0xFFFF, 1)],
    };
    cases.named_run(
        "named: none in privileged mode, stored, entered by an interrupt or set by the kernel",
        &node,
        &[
            vec![
                (read(0), 0, None),
                (write_two(31), 0, None),
                (store_mode(0), 0, None),
                (read(0), 0, Some(1)),
                (write_two(31), 0, Some(1)),
                (entry_call(), 0, None),
                (read(0), 0, None),
                (entry_call(), 0, None),
                (read_two(0), 0, None),
                (return_call(), 0, None),
                (read(0), 0, None),
                (return_call(), 0, None),
                (read(0), 0, Some(1)),
            ],
            turn_of(2),
            vec![(read(0), 0, None), (write_two(31), 0, None)],
            turn_of(1),
            vec![(read(0), 0, Some(2)), (write_two(31), 0, Some(2))],
            turn_of(2),
            vec![(write(0), 0, None), (store_mode(0), 0, None), (write(0), 0, Some(3))],
            // Program 0 was left in user mode.
            turn_of(0),
            vec![
                (write(0), 0, Some(1)),
                (entry_call(), 0, None),
                (store_mode(1), 0, None),
                (write(0), 0, None),
                (store_mode(0), 0, None),
                (write(0), 0, Some(1)),
                (return_call(), 7, None),
                (read_two(31), 0, Some(1)),
            ],
        ]
        .concat(),
    );
}

/// Program 0 holds 2 and 3, which prevail, and program 1 holds 5, 9 and 14.
fn commands(cases: &mut Cases) {
    let node = Plan {
        exponent: 5,
        pages: vec![(0x4204, 0x0208)], // READ 2, 9, 14; WRITE 3, 9
        programs: vec![(0x000C, 0xFFFF, 0), (0x4220, 0xFFFF, 0)],
    };
    cases.named_run(
        "named: program 0 grants and revokes, and program 1's accesses name other domains",
        &node,
        &[
            vec![(read(0), 0, Some(2)), (write(0), 0, Some(3))],
            turn_of(1),
            vec![(read(0), 0, Some(9)), (write(0), 0, Some(9))],
            turn_of(0),
            vec![(grant(READ, 0, 5), 0, None), (read(0), 0, Some(2)), (write_two(0), 0, Some(3))],
            turn_of(1),
            vec![(read(0), 0, Some(5)), (write(0), 0, Some(9))],
            turn_of(0),
            vec![(revoke(READ, 0, 9), 0, None)],
            turn_of(1),
            vec![(read(0), 0, Some(5))],
            turn_of(0),
            vec![(revoke(READ, 0, 5), 0, None), (grant(WRITE, 0, 5), 0, None)],
            turn_of(1),
            vec![(read(0), 0, Some(14)), (write(0), 0, Some(5)), (write_two(30), 0, Some(5))],
            vec![(mask(0x4200), 0, None), (read_two(30), 0, Some(14)), (write(0), 0, Some(9))],
            turn_of(0),
            vec![(revoke(WRITE, 0, 9), 0, None), (grant(READ, 0, 9), 0, None), (read(0), 0, Some(2))],
            turn_of(1),
            // The mask of the last turn is still there.
            vec![(read(0), 0, Some(9)), (mask(0x0020), 0, None), (write(0), 0, Some(5)), (read(0), 9, None)],
        ]
        .concat(),
    );
}

/// A program that grants to its own domains sees them only where it masks the prevailing one.
fn own_commands(cases: &mut Cases) {
    cases.named_run(
        "named: a program's own grant and revoke, under the mask it had and under lesser ones",
        &small(&[(0x0204, 0x0000)], 0x1224, 0xFFFF), // READ 2, 9; context 2, 5, 9, 12
        &[
            (mask(0x1220), 0, None),
            (read(0), 0, Some(9)),
            (grant(READ, 0, 5), 11, None),
            (read(0), 0, Some(9)),
            (mask(0xFFFF), 0, None),
            (read(0), 0, Some(2)),
            (grant(READ, 0, 5), 0, None),
            (grant(READ, 0, 12), 0, None),
            (read(0), 0, Some(2)),
            (mask(0x1220), 0, None),
            (read(0), 0, Some(5)),
            (mask(0x1000), 0, None),
            (read(0), 0, Some(12)),
            (mask(0x1224), 0, None),
            (revoke(READ, 0, 5), 0, None),
            (read(0), 0, Some(2)),
            (mask(0x1220), 0, None),
            (read_two(0), 0, Some(9)),
            (mask(0x0020), 0, None),
            (read(0), 9, None),
        ],
    );
}

pub fn in_interrupt(call: Record) -> Vec<NamedStep> {
    vec![(entry_call(), 0, None), (call, 0, None), (return_call(), 0, None)]
}

fn stores(cases: &mut Cases) {
    cases.named_run(
        "named: after the kernel's stores of fields, context and mask, and a switch to itself",
        &small(&[(0x0850, 0x2040)], 0x2850, 0xFFFF), // READ 4, 6, 11; WRITE 6, 13; context 4, 6, 11, 13
        &[
            vec![(read(0), 0, Some(4)), (write(0), 0, Some(6))],
            in_interrupt(store_field(READ, 0, 0x0801)), // 0, 11
            vec![(read(0), 0, Some(11)), (write(0), 0, Some(6))],
            in_interrupt(store_field(WRITE, 0, 0x2004)), // 2, 13
            vec![(read(0), 0, Some(11)), (write(0), 0, Some(13))],
            in_interrupt(store_context(0xF805)), // 0, 2, 11 to 15
            vec![(read(0), 0, Some(0)), (write(0), 0, Some(2)), (read_two(7), 0, Some(0))],
            in_interrupt(store_mask(0x2804)), // 2, 11, 13
            vec![(read(0), 0, Some(11)), (write(0), 0, Some(2)), (write_two(7), 0, Some(2))],
            in_interrupt(switch(0)),
            vec![(read(0), 0, Some(11)), (write(0), 0, Some(2))],
            in_interrupt(store_context(0x2001)), // 0, 13
            vec![(write(0), 0, Some(13)), (read(0), 9, None)],
            in_interrupt(store_mask(0x0001)),
            vec![(read(0), 0, Some(0)), (write(0), 9, None)],
        ]
        .concat(),
    );
}

/// All may read the page, and those that hold one of domains 8 to 15 may write it. What a program has
/// of its own is what context and mask leave it together.
fn eight_programs(cases: &mut Cases) {
    let node = Plan {
        exponent: 5,
        pages: vec![(0xFFFF, 0xFF00)],
        programs: vec![
            (0x0203, 0xFFFE, 0), // 1, 9
            (0x8410, 0xFFFF, 0), // 4, 10, 15
            (0xFFFF, 0x4008, 0), // 3, 14
            (0x1800, 0xF7FF, 0), // 12
            (0x0864, 0xFFBB, 0), // 5, 11
            (0x0180, 0x0F80, 0), // 7, 8
            (0x2001, 0x2001, 0), // 0, 13
            (0x8040, 0xC040, 0), // 6, 15
        ],
    };
    let both = |by_read: u16, by_write: u16| -> Vec<NamedStep> {
        vec![(read(31), 0, Some(by_read)), (write_two(0), 0, Some(by_write))]
    };
    cases.named_run(
        "named: the turns of eight programs, each through domains of its own, two with a mask command",
        &node,
        &[
            both(1, 9),
            turn_of(3),
            both(12, 12),
            turn_of(7),
            both(6, 15),
            turn_of(1),
            both(4, 10),
            vec![(mask(0x8000), 0, None)],
            both(15, 15),
            turn_of(5),
            both(7, 8),
            vec![(mask(0xFF00), 0, None)],
            both(8, 8),
            turn_of(6),
            both(0, 13),
            turn_of(2),
            both(3, 14),
            turn_of(4),
            both(5, 11),
            turn_of(1),
            both(15, 15),
            turn_of(0),
            both(1, 9),
            turn_of(5),
            both(8, 8),
        ]
        .concat(),
    );
}

/// READ of a page is given through the domain of its number, WRITE through the domain as far from 15.
fn large_pages(cases: &mut Cases) {
    let pages = (0..16).map(|page| (1 << page, 0x8000 >> page)).collect();
    cases.named_run(
        "named: 16 pages of 4,096 bytes, each with a domain of its own for each right",
        &Plan { exponent: 12, pages, programs: vec![(0xFFFF, 0xFFFF, 0)] },
        &[
            (read(0x0000), 0, Some(0)),
            (read(0x0FFF), 0, Some(0)),
            (read(0x1000), 0, Some(1)),
            (write(0x00FF), 0, Some(15)),
            (write(0x1234), 0, Some(14)),
            (read(0x8123), 0, Some(8)),
            (read(0xFFFF), 0, Some(15)),
            (write(0xF000), 0, Some(0)),
            (read_two(0x0FFF), 0, Some(0)),
            (write_two(0x0FFF), 0, Some(15)),
            (read_two(0x10FF), 0, Some(1)),
            (read_two(0x7FFF), 0, Some(7)),
            (write_two(0x7FFF), 0, Some(8)),
            (read_two(0x9FFF), 0, Some(9)),
            (write_two(0x5FFF), 0, Some(10)),
            (read_two(0xEFFF), 0, Some(14)),
            (write_two(0xEFFF), 0, Some(1)),
            (read_two(0xFFFE), 0, Some(15)),
            (read_two(0xFFFF), 3, None),
            (read(0x0001_0000), 3, None),
        ],
    );
}

/// Two histories of one image that are alike for program 0 (RULES 4.6), which holds 0 and 1. Program
/// 1 holds 2 to 4, and of these only 2 prevails anywhere. So what program 0's accesses name must be
/// the same in both.
fn histories(cases: &mut Cases) {
    let node = Plan {
        exponent: 5,
        // READ 0, 1, 2, 3; 1, 2, 4; 2. WRITE 1, 3; 0, 1, 3; 2, 3.
        pages: vec![(0x000F, 0x000A), (0x0016, 0x000B), (0x0004, 0x000C)],
        programs: vec![(0x0003, 0xFFFF, 0), (0x001C, 0xFFFF, 0)],
    };
    let opening = vec![(read_two(31), 0, Some(0)), (write_two(31), 0, Some(1)), (read_two(63), 9, None)];
    let second = vec![(mask(0x0002), 0, None), (read_two(31), 0, Some(1)), (write(32), 0, Some(1))];
    let third = vec![(read(0), 0, Some(1)), (mask(0x0003), 0, None), (read(0), 0, Some(0)), (write(32), 0, Some(0))];
    cases.named_run(
        "named: in the turns of program 0 alone",
        &node,
        &[opening.clone(), turn_of(0), second.clone(), turn_of(0), third.clone()].concat(),
    );
    cases.named_run(
        "named: the same domains in the same turns of program 0, with turns of program 1 between them",
        &node,
        &[
            opening,
            turn_of(1),
            vec![(read_two(31), 0, Some(2)), (grant(READ, 2, 4), 0, None), (write_two(63), 0, Some(3))],
            vec![(mask(0x0010), 0, None), (read_two(63), 0, Some(4))],
            turn_of(0),
            second,
            turn_of(1),
            vec![(mask(0x000C), 0, None), (revoke(WRITE, 2, 3), 0, None), (write_two(63), 0, Some(3))],
            turn_of(1),
            vec![(mask(0x0008), 0, None), (read(0), 0, Some(3)), (read(32), 9, None)],
            turn_of(0),
            third,
        ]
        .concat(),
    );
}

/// A domain of two digits in the last line before `cut`, and no line for what is cut.
fn remainder(cases: &mut Cases) {
    cases.named_run(
        "named: domain 15, and a remainder of 5 that begins the same access",
        &small(&[(0x8000, 0x0000)], 0xFFFF, 0xFFFF),
        &[(read(0), 0, Some(15))],
    );
    cases.list.last_mut().expect("a case was added").input.extend(&read(0)[..5]);
}
