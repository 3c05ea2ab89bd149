//! Accesses of two bytes and the last violation: one violation for the access, with the address of
//! its first byte, whichever page denied it (RULES 3.3).

use super::live::in_interrupt;
use super::questions::{ask, asked_after_each, eight_in_user_mode, question_after_each, EIGHT_BYTES};
use super::*;
use crate::cases::{clear_flag, small, turn};

pub fn add(writes: &mut Writes) {
    first_byte(writes);
    exponents(writes);
    high_addresses(writes);
    programs(writes);
    kept(writes);
    rounds_apart(writes);
}

/// The sample, which comes out as it went in. Its program 0 may read pages 0 and 1 and write page 1.
fn unchanged(writes: &mut Writes, purpose: &str, steps: &[Step], lines: &[&str]) {
    let case = writes.sample(&format!("two bytes, {purpose}"), &sample(), steps, SAMPLE_PAGES, SAMPLE_PROGRAMS);
    case.handing_out(lines);
}

fn first_byte(writes: &mut Writes) {
    unchanged(
        writes,
        "denied by the second page twice, by the first, and by one page for both bytes: the first byte's address",
        &asked_after_each(&[
            (read_two(511), 9),
            (write_two(511), 9),
            (write_two(255), 9),
            (write_two(254), 9),
            (read_two(766), 9),
        ]),
        &["denied 0 0 511", "denied 0 1 511", "denied 0 1 255", "denied 0 1 254", "denied 0 0 766"],
    );
    unchanged(
        writes,
        "violations of one byte and of two take each other's place",
        &asked_after_each(&[
            (read_two(511), 9),
            (read(512), 9),
            (write(255), 9),
            (write_two(255), 9),
            (write_two(511), 9),
            (write(512), 9),
        ]),
        &["denied 0 0 511", "denied 0 0 512", "denied 0 1 255", "denied 0 1 255", "denied 0 1 511", "denied 0 1 512"],
    );
}

/// Two pages: READ of the first and WRITE of the second are open, so that the second page denies
/// the read and the first page the write.
fn exponents(writes: &mut Writes) {
    for (exponent, last_of_page_0) in [(5, 31), (7, 127), (10, 1_023)] {
        let plan = Plan { exponent, ..small(&[(0x0001, 0x0000), (0x0000, 0x0001)], 0x0001, 0x0001) };
        let shape = format!("02 {exponent:02X} 01 00");
        writes
            .written(
                &format!("two bytes across an edge, pages with exponent {exponent}"),
                35,
                &plan,
                &asked_after_each(&[(read_two(last_of_page_0), 9), (write_two(last_of_page_0), 9)]),
                35,
                &[
                    (0, "01 00 00 12 00 04  02 00 00 16 00 08  03 00 00 1E 00 05"),
                    (18, &shape),
                    (22, "00 01 00 00  00 00 00 01  00 01 00 01 00"),
                ],
            )
            .handing_out(&[&format!("denied 0 0 {last_of_page_0}"), &format!("denied 0 1 {last_of_page_0}")]);
    }
}

/// 65,536 bytes: READ of the even pages and WRITE of the odd ones are open.
fn high_addresses(writes: &mut Writes) {
    let pages = (0..16).map(|page| if page % 2 == 0 { (0x8000, 0x0000) } else { (0x0000, 0x8000) }).collect();
    writes
        .written(
            "two bytes, 65,536 bytes in 16 pages: the second byte has other high digits than the first",
            91,
            &Plan { exponent: 12, pages, programs: vec![(0x8000, 0x8001, 0)] },
            &asked_after_each(&[
                (read_two(0x0FFF), 9),
                (write_two(0x7FFF), 9),
                (read_two(0x7FFF), 9),
                (read_two(0x80FF), 0),
                (read_two(0xEFFF), 9),
                (write_two(0x00FF), 9),
                (read_two(0xFFFE), 9),
                (read_two(0xFFFF), 3),
                (write_two(0x0001_00FF), 3),
            ]),
            91,
            &[
                (0, "01 00 00 12 00 04  02 00 00 16 00 40  03 00 00 56 00 05  10 0C 01 00"),
                (22, "80 00 00 00  00 00 80 00  80 00 00 00  00 00 80 00"),
                (38, "80 00 00 00  00 00 80 00  80 00 00 00  00 00 80 00"),
                (54, "80 00 00 00  00 00 80 00  80 00 00 00  00 00 80 00"),
                (70, "80 00 00 00  00 00 80 00  80 00 00 00  00 00 80 00"),
                (86, "80 00 80 01 00"),
            ],
        )
        .handing_out(&[
            "denied 0 0 4095",
            "denied 0 1 32767",
            "denied 0 0 32767",
            "denied 0 0 32767",
            "denied 0 0 61439",
            "denied 0 1 255",
            "denied 0 0 65534",
            "denied 0 0 65534",
            "denied 0 0 65534",
        ]);
}

fn programs(writes: &mut Writes) {
    unchanged(
        writes,
        "program 1 is denied by both pages, and program 0 after it by the second",
        &[
            turn(1),
            vec![(read_two(511), 0), (write_two(255), 9), (entry_call(), 0), (question(), 0), (switch(0), 0)],
            vec![(question(), 0), (return_call(), 0), (read_two(511), 9), (question(), 7)],
            ask(),
        ]
        .concat(),
        &["denied 1 1 255", "denied 1 1 255", "none", "denied 0 0 511"],
    );
    // All eight may read the first page and write the second.
    let denied = [(7, read_two(31)), (3, write_two(31)), (5, read_two(62)), (2, write_two(30))];
    let mut steps: Vec<Step> = Vec::new();
    for (program, access) in denied {
        steps.extend([turn(program), vec![(access, 9)], ask()].concat());
    }
    steps.extend(turn(0));
    writes
        .written("two bytes, four of eight programs, 7 first", 70, &eight_in_user_mode(), &steps, 70, &EIGHT_BYTES)
        .handing_out(&["denied 7 0 31", "denied 3 1 31", "denied 5 0 62", "denied 2 1 30"]);
}

fn kept(writes: &mut Writes) {
    let others = asked_after_each(&[
        (access_two(2, 511), 2),
        (read_two(767), 3),
        (write_two(0xFFFF_FFFF), 3),
        (read_two(255), 0),
    ]);
    unchanged(
        writes,
        "none after 0, 2 and 3, and the violation after the same",
        &[&others[..], &[(read_two(511), 9)], &clear_flag(), &others].concat(),
        &[["none"; 4], ["denied 0 0 511"; 4]].concat(),
    );
    unchanged(
        writes,
        "with the flag set 2, 3 and 8 set nothing, and privileged accesses set nothing",
        &[
            vec![(write_two(255), 9), (read_two(511), 8), (write(5), 8), (read_two(255), 8)],
            ask(),
            vec![(write(9), 9), (read_two(511), 8), (read_two(767), 3), (access_two(2, 511), 2)],
            in_interrupt(&question_after_each(&[(write_two(255), 0), (read_two(511), 0), (read_two(767), 3)])),
        ]
        .concat(),
        &["denied 0 1 255", "denied 0 1 9", "denied 0 1 9", "denied 0 1 9"],
    );
}

fn rounds_apart(writes: &mut Writes) {
    // Page 2 is open in the second round from the start.
    writes
        .sample(
            "two bytes, kept by the field store that opens the second page",
            &sample(),
            &[
                vec![(read_two(511), 9)],
                in_interrupt(&[(question(), 0), (store_field(READ, 2, 0x0001), 0), (question(), 0)]),
                vec![(read_two(511), 0)],
                ask(),
            ]
            .concat(),
            "00 09 00 00  00 0A 00 02  00 01 00 04",
            SAMPLE_PROGRAMS,
        )
        .then(&[0, 0, 0, 0, 0, 0, 0, 0, 0, 0], 0, 44, &[(30, "00 01 00 04"), (34, SAMPLE_PROGRAMS)])
        .handing_out(&["denied 0 0 511", "denied 0 0 511", "denied 0 0 511"])
        .then_handing_out(&["none", "none", "none"]);
    writes.refused("two bytes, the second page denies and the flag is set", 44, &sample(), &[(read_two(511), 9)], 26);
}
