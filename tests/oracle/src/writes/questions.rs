//! The question for the last violation: what it hands out after violations of each sort, and
//! after all the calls that must leave the last violation alone (RULES 1.16, 3.3, 3.24, 3.25).
//! It is asked in an interrupt, since only privileged mode may ask and the entry clears the flag.

use super::live::in_interrupt;
use super::*;
use crate::cases::{clear_flag, small, turn};

pub fn add(writes: &mut Writes) {
    first_and_last(writes);
    addresses(writes);
    exponents(writes);
    programs(writes);
    user_mode(writes);
    kept_by_kernel_calls(writes);
    kept_by_commands(writes);
    refused_in_user_mode(writes);
    refused_with_the_flag_set(writes);
    refused_in_privileged_mode(writes);
    accesses(writes);
    asked_again(writes);
    depths(writes);
    second_rounds(writes);
    not_written(writes);
}

/// An interrupt in which nothing is done but asked.
pub fn ask() -> Vec<Step> {
    in_interrupt(&[(question(), 0)])
}

/// From user mode with the flag clear or set: each step, and after each an interrupt that asks.
pub fn asked_after_each(steps: &[Step]) -> Vec<Step> {
    steps.iter().flat_map(|&step| [vec![step], ask()].concat()).collect()
}

/// In privileged mode: each step, and a question after each.
pub fn question_after_each(steps: &[Step]) -> Vec<Step> {
    steps.iter().flat_map(|&step| [step, (question(), 0)]).collect()
}

/// The sample, which comes out as it went in: only what was handed out is of interest.
fn unchanged<'a>(writes: &'a mut Writes, purpose: &str, steps: &[Step], lines: &[&str]) -> &'a mut Case {
    writes.sample(&format!("question, {purpose}"), &sample(), steps, SAMPLE_PAGES, SAMPLE_PROGRAMS).handing_out(lines)
}

fn first_and_last(writes: &mut Writes) {
    unchanged(
        writes,
        "none after a load, also in the second round, and READ after a denied read",
        &[ask(), vec![(read(700), 9)], ask()].concat(),
        &["none", "denied 0 0 700"],
    );
    unchanged(
        writes,
        "none after a load, also in the second round, and WRITE after a denied write",
        &[ask(), vec![(write(5), 9)], ask()].concat(),
        &["none", "denied 0 1 5"],
    );
    writes
        .written(
            "question, program 0, READ and address 0 are not none",
            31,
            &small(&[(0x0000, 0x0000)], 0xFFFF, 0xFFFF),
            &[ask(), vec![(read(0), 9)], ask()].concat(),
            31,
            &[
                (0, "01 00 00 12 00 04  02 00 00 16 00 04  03 00 00 1A 00 05  01 05 01 00"),
                (22, "00 00 00 00  FF FF FF FF 00"),
            ],
        )
        .handing_out(&["none", "denied 0 0 0"]);
    // From each violation to the next the right or the address stays, so that neither is kept alone.
    unchanged(
        writes,
        "the last of four violations each time",
        &asked_after_each(&[(read(700), 9), (write(700), 9), (write(3), 9), (read(767), 9)]),
        &["denied 0 0 700", "denied 0 1 700", "denied 0 1 3", "denied 0 0 767"],
    );
    unchanged(
        writes,
        "two violations and one question: the last, not the first",
        &[vec![(read(513), 9)], clear_flag(), vec![(write(200), 9)], ask()].concat(),
        &["denied 0 1 200"],
    );
    unchanged(
        writes,
        "a write and then a read at lower and higher addresses: neither the greatest nor the least",
        &[vec![(write(250), 9)], clear_flag(), vec![(read(760), 9)], clear_flag(), vec![(read(600), 9)], ask()]
            .concat(),
        &["denied 0 0 600"],
    );
    unchanged(
        writes,
        "the same violation twice",
        &asked_after_each(&[(read(600), 9), (read(600), 9)]),
        &["denied 0 0 600", "denied 0 0 600"],
    );
}

fn addresses(writes: &mut Writes) {
    unchanged(
        writes,
        "first and last byte of a page and those between: the address, not the page",
        &asked_after_each(&[
            (read(512), 9),
            (read(767), 9),
            (write(0), 9),
            (write(255), 9),
            (write(1), 9),
            (write(2), 9),
            (read(640), 9),
        ]),
        &[
            "denied 0 0 512",
            "denied 0 0 767",
            "denied 0 1 0",
            "denied 0 1 255",
            "denied 0 1 1",
            "denied 0 1 2",
            "denied 0 0 640",
        ],
    );
    writes
        .written(
            "question, pages of 32 bytes",
            43,
            &small(&[(1, 0), (0, 1), (1, 0), (0, 1)], 0x0001, 0xFFFF),
            &asked_after_each(&[
                (read(32), 9),
                (read(45), 9),
                (read(63), 9),
                (write(64), 9),
                (write(95), 9),
                (write(7), 9),
                (read(127), 9),
            ]),
            43,
            &[
                (0, "01 00 00 12 00 04  02 00 00 16 00 10  03 00 00 26 00 05  04 05 01 00"),
                (22, "00 01 00 00  00 00 00 01  00 01 00 00  00 00 00 01  00 01 FF FF 00"),
            ],
        )
        .handing_out(&[
            "denied 0 0 32",
            "denied 0 0 45",
            "denied 0 0 63",
            "denied 0 1 64",
            "denied 0 1 95",
            "denied 0 1 7",
            "denied 0 0 127",
        ]);
    // 0xFFFF and 0x8000 would be negative in 16 bits, and 0x0102 is another number low byte first.
    writes
        .written(
            "question, 65,536 bytes in 16 pages: all 16 bits of the address, and 3 past the last",
            92,
            &Plan { exponent: 12, pages: vec![(0x0000, 0x8000); 16], programs: vec![(0x8000, 0x8001, 0)] },
            &asked_after_each(&[
                (read(0xFFFF), 9),
                (read(0x0001_0000), 3),
                (read(0x8000), 9),
                (read(0x7FFF), 9),
                (read(0x0102), 9),
                (read(40_000), 9),
                (read(0x0001_0102), 3),
                (read(0x0100), 9),
                (read(0xFF00), 9),
            ]),
            91,
            &[
                (0, "01 00 00 12 00 04  02 00 00 16 00 40  03 00 00 56 00 05  10 0C 01 00"),
                (22, "00 00 80 00  00 00 80 00  00 00 80 00  00 00 80 00"),
                (38, "00 00 80 00  00 00 80 00  00 00 80 00  00 00 80 00"),
                (54, "00 00 80 00  00 00 80 00  00 00 80 00  00 00 80 00"),
                (70, "00 00 80 00  00 00 80 00  00 00 80 00  00 00 80 00"),
                (86, "80 00 80 01 00  EE"),
            ],
        )
        .handing_out(&[
            "denied 0 0 65535",
            "denied 0 0 65535",
            "denied 0 0 32768",
            "denied 0 0 32767",
            "denied 0 0 258",
            "denied 0 0 40000",
            "denied 0 0 40000",
            "denied 0 0 256",
            "denied 0 0 65280",
        ]);
    let greatest = Plan {
        exponent: 9,
        pages: vec![(0x0001, 0x0000); 128],
        programs: (0..8).map(|program| (1 << program, 0xFFFF, 0)).collect(),
    };
    writes
        .written(
            "question, greatest shape: program 7, WRITE and the last byte, all three at their ends",
            574,
            &greatest,
            &[
                turn(7),
                vec![(write(65_535), 9), (entry_call(), 0), (question(), 0), (switch(0), 0), (question(), 0)],
                vec![(return_call(), 0), (read(65_535), 0)],
                ask(),
            ]
            .concat(),
            574,
            &[
                (0, "01 00 00 12 00 04  02 00 00 16 02 00  03 00 02 16 00 28  80 09 08 00  00 01 00 00"),
                (530, "00 01 00 00  00 01 FF FF 00  00 02 FF FF 00  00 04 FF FF 00  00 08 FF FF 00"),
                (554, "00 10 FF FF 00  00 20 FF FF 00  00 40 FF FF 00  00 80 FF FF 00"),
            ],
        )
        .handing_out(&["denied 7 1 65535", "denied 7 1 65535", "denied 7 1 65535"]);
}

/// Two pages: READ of the first and WRITE of the second are open.
fn exponents(writes: &mut Writes) {
    for (exponent, in_page_1, end_of_page_0) in [
        (5, 35, 31),
        (6, 67, 63),
        (7, 131, 127),
        (8, 259, 255),
        (9, 515, 511),
        (10, 1_027, 1_023),
        (11, 2_051, 2_047),
        (12, 4_099, 4_095),
    ] {
        let plan = Plan { exponent, ..small(&[(0x0001, 0x0000), (0x0000, 0x0001)], 0x0001, 0x0001) };
        let shape = format!("02 {exponent:02X} 01 00");
        writes
            .written(
                &format!("question, pages with exponent {exponent}"),
                35,
                &plan,
                &asked_after_each(&[(read(in_page_1), 9), (write(end_of_page_0), 9)]),
                35,
                &[
                    (0, "01 00 00 12 00 04  02 00 00 16 00 08  03 00 00 1E 00 05"),
                    (18, &shape),
                    (22, "00 01 00 00  00 00 00 01  00 01 00 01 00"),
                ],
            )
            .handing_out(&[&format!("denied 0 0 {in_page_1}"), &format!("denied 0 1 {end_of_page_0}")]);
    }
}

/// All may read page 0 and write page 1, none may do the other.
pub fn eight_in_user_mode() -> Plan {
    Plan {
        exponent: 5,
        pages: vec![(0x00FF, 0x0000), (0x0000, 0x00FF)],
        programs: (0..8).map(|program| (1 << program, 0xFFFF, 0)).collect(),
    }
}

pub const EIGHT_BYTES: [Bytes; 3] = [
    (0, "01 00 00 12 00 04  02 00 00 16 00 08  03 00 00 1E 00 28  02 05 08 00  00 FF 00 00  00 00 00 FF"),
    (30, "00 01 FF FF 00  00 02 FF FF 00  00 04 FF FF 00  00 08 FF FF 00"),
    (50, "00 10 FF FF 00  00 20 FF FF 00  00 40 FF FF 00  00 80 FF FF 00"),
];

fn programs(writes: &mut Writes) {
    unchanged(
        writes,
        "program 1 was denied: asked in its interrupt, after the switch to 0, and in 0's interrupt",
        &[
            turn(1),
            vec![(write(300), 9), (entry_call(), 0), (question(), 0), (switch(0), 0), (question(), 0)],
            vec![(return_call(), 0)],
            ask(),
        ]
        .concat(),
        &["denied 1 1 300", "denied 1 1 300", "denied 1 1 300"],
    );
    unchanged(
        writes,
        "program 0 was denied: asked after the switch to 1 too",
        &[
            vec![(read(700), 9), (entry_call(), 0), (question(), 0), (switch(1), 0), (question(), 0)],
            vec![(return_call(), 0), (question(), 7)],
            in_interrupt(&[(question(), 0), (switch(0), 0), (question(), 0)]),
        ]
        .concat(),
        &["denied 0 0 700", "denied 0 0 700", "none", "denied 0 0 700", "denied 0 0 700"],
    );
    unchanged(
        writes,
        "the last violation is the machine's, not the current program's",
        &[
            vec![(read(700), 9)],
            turn(1),
            vec![(write(5), 9), (entry_call(), 0), (question(), 0), (switch(0), 0), (question(), 0)],
            vec![(return_call(), 0), (read(600), 9), (entry_call(), 0), (question(), 0), (switch(1), 0)],
            vec![(question(), 0), (switch(0), 0), (question(), 0), (return_call(), 0)],
        ]
        .concat(),
        &["denied 1 1 5", "denied 1 1 5", "denied 0 0 600", "denied 0 0 600", "denied 0 0 600"],
    );
    unchanged(
        writes,
        "both programs are denied the same: only the program tells",
        &[
            vec![(write(520), 9), (entry_call(), 0), (question(), 0), (switch(1), 0), (return_call(), 0)],
            vec![(write(520), 9), (entry_call(), 0), (question(), 0), (switch(0), 0), (return_call(), 0)],
            vec![(write(520), 9)],
            ask(),
        ]
        .concat(),
        &["denied 0 1 520", "denied 1 1 520", "denied 0 1 520"],
    );
    unchanged(
        writes,
        "switches that are refused name program 0 and 2, but program 1 was denied",
        &[
            turn(1),
            in_interrupt(&[(switch(2), 16)]),
            vec![(switch(0), 7), (write(256), 9), (switch(0), 7), (entry_call(), 0), (question(), 0)],
            vec![(switch(2), 16), (question(), 0), (entry_call(), 0), (switch(0), 15), (question(), 0)],
            vec![(return_call(), 0), (switch(0), 0), (question(), 0), (return_call(), 0)],
        ]
        .concat(),
        &["denied 1 1 256", "denied 1 1 256", "denied 1 1 256", "denied 1 1 256"],
    );
    unchanged(
        writes,
        "a switch to 1 and back, and one to itself, before the violation: program 0 was denied",
        &[
            in_interrupt(&[(switch(1), 0), (switch(0), 0)]),
            vec![(read(520), 9)],
            in_interrupt(&[(question(), 0), (switch(0), 0), (question(), 0)]),
            vec![(write(6), 9)],
            ask(),
        ]
        .concat(),
        &["denied 0 0 520", "denied 0 0 520", "denied 0 1 6"],
    );
    unchanged(
        writes,
        "program 1 was denied: program 0's calls do not make it their own",
        &[
            turn(1),
            vec![(write(300), 9)],
            turn(0),
            asked_after_each(&[(grant(READ, 0, 3), 0), (revoke(WRITE, 1, 9), 0), (mask(0x0003), 0), (read(0), 0)]),
            in_interrupt(&question_after_each(&[
                (store_field(READ, 0, 0x0009), 0),
                (store_context(0x0007), 0),
                (store_mask(0x0003), 0),
                (store_mode(1), 0),
            ])),
        ]
        .concat(),
        &["denied 1 1 300"; 8],
    );
    // Domain 3, the highest of READ, is program 1's and not program 0's.
    let mut two = small(&[(0x0008, 0x0000)], 0x0001, 0xFFFF);
    two.programs.push((0x0008, 0xFFFF, 0));
    writes
        .written(
            "question, program 0 was denied: program 1's calls do not make it their own",
            36,
            &two,
            &[
                vec![(read(3), 9), (entry_call(), 0)],
                question_after_each(&[
                    (switch(1), 0),
                    (store_field(WRITE, 0, 0x0010), 0),
                    (store_context(0x0018), 0),
                    (store_mask(0x00FF), 0),
                    (store_mode(1), 0),
                ]),
                vec![(return_call(), 0)],
                asked_after_each(&[
                    (grant(READ, 0, 9), 0),
                    (revoke(READ, 0, 9), 0),
                    (mask(0x000F), 0),
                    (read(3), 0),
                    (grant(READ, 0, 3), 12),
                ]),
                in_interrupt(&[(switch(0), 0), (question(), 0)]),
            ]
            .concat(),
            36,
            &[
                (0, "01 00 00 12 00 04  02 00 00 16 00 04  03 00 00 1A 00 0A  01 05 02 00"),
                (22, "00 08 00 10  00 01 FF FF 00  00 18 00 0F 00"),
            ],
        )
        .handing_out(&["denied 0 0 3"; 11]);
    // Each is asked for in its own interrupt and, after the switch, in that of the next turn.
    let denied = [
        (7, write(7)),
        (3, write(13)),
        (0, read(32)),
        (5, write(31)),
        (1, write(0)),
        (6, read(38)),
        (2, read(63)),
        (4, read(50)),
    ];
    let mut steps = Vec::new();
    for (program, access) in denied {
        steps.extend([(entry_call(), 0), (switch(program), 0), (question(), 0), (return_call(), 0), (access, 9)]);
        steps.extend(ask());
    }
    steps.extend(in_interrupt(&[(switch(0), 0), (question(), 0)]));
    writes
        .written("question, each of eight programs, 7 first", 70, &eight_in_user_mode(), &steps, 70, &EIGHT_BYTES)
        .handing_out(&[
            "none",
            "denied 7 1 7",
            "denied 7 1 7",
            "denied 3 1 13",
            "denied 3 1 13",
            "denied 0 0 32",
            "denied 0 0 32",
            "denied 5 1 31",
            "denied 5 1 31",
            "denied 1 1 0",
            "denied 1 1 0",
            "denied 6 0 38",
            "denied 6 0 38",
            "denied 2 0 63",
            "denied 2 0 63",
            "denied 4 0 50",
            "denied 4 0 50",
        ]);
    writes
        .written(
            "question, program 7 of eight was denied, asked after switches to all others",
            71,
            &eight_in_user_mode(),
            &[
                turn(7),
                vec![(read(44), 9), (entry_call(), 0)],
                question_after_each(&[6, 5, 4, 3, 2, 1, 0].map(|program| (switch(program), 0))),
                vec![(return_call(), 0)],
            ]
            .concat(),
            70,
            &[&EIGHT_BYTES[..], &[(70, "EE")]].concat(),
        )
        .handing_out(&["denied 7 0 44"; 7]);
}

fn user_mode(writes: &mut Writes) {
    unchanged(
        writes,
        "7 hands out none: before a violation, with the flag set, and after the interrupt",
        &[
            vec![(question(), 7), (read(700), 9), (question(), 7), (question(), 7)],
            ask(),
            vec![(question(), 7), (read(0), 0), (question(), 7)],
            ask(),
        ]
        .concat(),
        &["none", "none", "none", "denied 0 0 700", "none", "none", "denied 0 0 700"],
    );
    unchanged(
        writes,
        "7 hands out none to program 1, whose own violation it is",
        &[turn(1), vec![(write(44), 9), (question(), 7)], clear_flag(), vec![(question(), 7)], turn(0)].concat(),
        &["none", "none"],
    );
    // In the second round program 0 is in user mode from the start: the read is denied, and the write has 8.
    writes
        .sample(
            "question, in privileged mode at depth 0, then in user mode with 7",
            &privileged_first(),
            &[
                vec![(question(), 0), (read(700), 0), (question(), 0), (store_mode(0), 0), (question(), 7)],
                vec![(write(70), 9), (question(), 7)],
                ask(),
                vec![(question(), 7)],
            ]
            .concat(),
            SAMPLE_PAGES,
            SAMPLE_PROGRAMS,
        )
        .then(&[7, 9, 7, 7, 7, 8, 7, 0, 0, 0, 7], 0, 44, &[(22, SAMPLE_PAGES), (34, SAMPLE_PROGRAMS)])
        .handing_out(&["none", "none", "none", "none", "denied 0 1 70", "none"])
        .then_handing_out(&["none", "none", "none", "none", "denied 0 0 700", "none"]);
    writes
        .sample(
            "question, a program stored in privileged mode asks at depth 0, and may access what it likes",
            &privileged_second(),
            &[
                vec![(read(700), 9)],
                turn(1),
                vec![(question(), 0), (write(5), 0), (question(), 0), (return_call(), 14), (question(), 0)],
                turn(0),
                vec![(question(), 7)],
            ]
            .concat(),
            SAMPLE_PAGES,
            "00 07 00 03 00  00 08 FF FF 01",
        )
        .handing_out(&["denied 0 0 700", "denied 0 0 700", "denied 0 0 700", "none"]);
}

fn kept_by_kernel_calls(writes: &mut Writes) {
    unchanged(
        writes,
        "kept by entries and returns",
        &[
            vec![(read(700), 9)],
            question_after_each(&[
                (entry_call(), 0),
                (entry_call(), 0),
                (entry_call(), 0),
                (return_call(), 0),
                (return_call(), 0),
            ]),
            vec![(return_call(), 0)],
            clear_flag(),
            ask(),
        ]
        .concat(),
        &["denied 0 0 700"; 6],
    );
    unchanged(
        writes,
        "kept by switches: to 1, to itself and to 0",
        &[
            vec![(write(77), 9), (entry_call(), 0)],
            question_after_each(&[(switch(1), 0), (switch(1), 0), (switch(0), 0), (switch(0), 0)]),
            vec![(return_call(), 0)],
        ]
        .concat(),
        &["denied 0 1 77"; 4],
    );
    writes
        .sample(
            "question, kept by each of the four stores",
            &sample(),
            &[
                vec![(read(700), 9), (entry_call(), 0)],
                question_after_each(&[
                    (store_field(READ, 1, 0x1234), 0),
                    (store_field(WRITE, 0, 0x5670), 0),
                    (store_context(0x0103), 0),
                    (store_mask(0x00FF), 0),
                    (store_mode(1), 0),
                ]),
                vec![(return_call(), 0)],
            ]
            .concat(),
            "00 09 56 70  12 34 00 02  00 0C 00 04",
            "01 03 00 FF 00  00 08 FF FF 00",
        )
        .handing_out(&["denied 0 0 700"; 5]);
    // What was denied once is allowed afterwards, in the second round from the start.
    writes
        .sample(
            "question, kept by the field store that opens the page",
            &sample(),
            &[
                vec![(read(700), 9)],
                in_interrupt(&[(question(), 0), (store_field(READ, 2, 0x0001), 0), (question(), 0)]),
                vec![(read(700), 0)],
                ask(),
            ]
            .concat(),
            "00 09 00 00  00 0A 00 02  00 01 00 04",
            SAMPLE_PROGRAMS,
        )
        .then(&[0, 0, 0, 0, 0, 0, 0, 0, 0, 0], 0, 44, &[(30, "00 01 00 04"), (34, SAMPLE_PROGRAMS)])
        .handing_out(&["denied 0 0 700", "denied 0 0 700", "denied 0 0 700"])
        .then_handing_out(&["none", "none", "none"]);
    writes
        .refused(
            "question, kept by the mode store to user mode at depth 1, where it is denied something else",
            44,
            &sample(),
            &[
                vec![(read(700), 9), (entry_call(), 0), (store_mode(0), 0), (question(), 7)],
                ask(),
                vec![(write(8), 9), (question(), 7)],
                ask(),
            ]
            .concat(),
            26,
        )
        .handing_out(&["none", "denied 0 0 700", "none", "denied 0 1 8"]);
}

fn kept_by_commands(writes: &mut Writes) {
    writes
        .sample(
            "question, kept by a grant, a revoke and a mask command",
            &sample(),
            &[
                vec![(read(700), 9)],
                clear_flag(),
                asked_after_each(&[(grant(WRITE, 1, 5), 0), (revoke(READ, 0, 3), 0), (mask(0x0103), 0)]),
            ]
            .concat(),
            "00 01 00 00  00 0A 00 22  00 0C 00 04",
            "00 07 01 03 00  00 08 FF FF 00",
        )
        .handing_out(&["denied 0 0 700"; 3]);
    writes
        .sample(
            "question, none is kept by a grant, a revoke and a mask command",
            &sample(),
            &asked_after_each(&[(grant(READ, 1, 6), 0), (revoke(WRITE, 1, 9), 0), (mask(0x0003), 0)]),
            "00 09 00 00  00 4A 00 02  00 0C 00 04",
            SAMPLE_PROGRAMS,
        )
        .handing_out(&["none"; 3]);
    // In the second round the mask opens page 2 from the start and leaves page 0 shut.
    writes
        .sample(
            "question, kept by the mask command that opens the page, until it shuts another",
            &sample(),
            &[vec![(read(700), 9)], ask(), vec![(mask(0x0004), 0), (read(700), 0)], ask(), vec![(read(10), 9)], ask()]
                .concat(),
            SAMPLE_PAGES,
            "00 07 00 04 00  00 08 FF FF 00",
        )
        .then(&[0, 0, 0, 0, 0, 0, 0, 0, 0, 9, 0, 0, 0], 0, 44, &[(34, "00 07 00 04 00  00 08 FF FF 00")])
        .handing_out(&["denied 0 0 700", "denied 0 0 700", "denied 0 0 10"])
        .then_handing_out(&["none", "none", "denied 0 0 10"]);
}

/// What is refused in user mode at depth 0 with the flag clear: each number for each call that
/// has it, but the question's own 7. Page 2 has domain 2 as its highest, which program 0 masks
/// out, and domain 0 is the highest of page 0.
fn user_refusals() -> Vec<Step> {
    vec![
        (access(2, 700), 2),
        (access(255, 5), 2),
        (read(768), 3),
        (write(0x0001_0005), 3),
        (read(0xFFFF_FFFF), 3),
        (grant(2, 0, 5), 2),
        (grant(WRITE, 3, 5), 4),
        (grant(READ, 0, 16), 5),
        (grant(READ, 2, 5), 11),
        (grant(WRITE, 0, 5), 11),
        (grant(READ, 0, 0), 12),
        (revoke(3, 0, 5), 2),
        (revoke(WRITE, 65_535, 5), 4),
        (revoke(WRITE, 1, 17), 5),
        (revoke(WRITE, 2, 5), 11),
        (revoke(WRITE, 1, 1), 12),
        (mask(0xFFF8), 19),
        (return_call(), 7),
        (switch(1), 7),
        (store_field(2, 0, 1), 2),
        (store_field(READ, 3, 1), 4),
        (store_field(WRITE, 0, 1), 7),
        (store_context(1), 7),
        (store_mask(1), 7),
        (store_mode(1), 7),
        (store_mode(2), 17),
        (record(0, 1, 0, 5), 18),
        (record(14, 1, 0, 5), 18),
        (record(255, 1, 0, 5), 18),
    ]
}

fn refused_in_user_mode(writes: &mut Writes) {
    let refusals = user_refusals();
    unchanged(
        writes,
        "none after each refusal in user mode",
        &asked_after_each(&refusals),
        &vec!["none"; refusals.len()],
    );
    unchanged(
        writes,
        "the violation after each refusal in user mode",
        &[vec![(write(9), 9)], clear_flag(), asked_after_each(&refusals)].concat(),
        &vec!["denied 0 1 9"; refusals.len()],
    );
}

/// The last violation's own access is another one each time, so that one kept too long would show.
fn refused_with_the_flag_set(writes: &mut Writes) {
    let refused = |violation: Record, steps: &[Step]| [vec![(violation, 9)], steps.to_vec(), ask()].concat();
    unchanged(
        writes,
        "8 sets nothing, whichever call has it",
        &[
            refused(read(700), &[(read(520), 8)]),
            refused(read(701), &[(write(5), 8)]),
            refused(read(702), &[(read(256), 8), (write(511), 8)]),
            refused(write(33), &[(grant(READ, 0, 5), 8)]),
            refused(write(34), &[(revoke(READ, 0, 3), 8)]),
            refused(write(35), &[(mask(0x0107), 8)]),
        ]
        .concat(),
        &["denied 0 0 700", "denied 0 0 701", "denied 0 0 702", "denied 0 1 33", "denied 0 1 34", "denied 0 1 35"],
    );
    unchanged(
        writes,
        "with the flag set 2, 3, 4, 5, 7, 17 and 18 set nothing either",
        &[
            refused(read(703), &[(access(2, 5), 2), (access(128, 768), 2)]),
            refused(read(704), &[(write(768), 3), (read(0x0001_02BC), 3)]),
            refused(read(705), &[(grant(2, 0, 5), 2), (grant(READ, 3, 5), 4), (grant(READ, 0, 16), 5)]),
            refused(write(36), &[(revoke(2, 0, 5), 2), (revoke(READ, 3, 5), 4), (revoke(READ, 0, 16), 5)]),
            refused(write(37), &[(return_call(), 7), (switch(1), 7), (question(), 7)]),
            refused(write(38), &[(store_field(READ, 0, 1), 7), (store_context(1), 7), (store_mask(1), 7)]),
            refused(write(39), &[(store_mode(0), 7), (store_mode(3), 17), (record(200, 0, 0, 5), 18)]),
        ]
        .concat(),
        &[
            "denied 0 0 703",
            "denied 0 0 704",
            "denied 0 0 705",
            "denied 0 1 36",
            "none",
            "denied 0 1 37",
            "denied 0 1 38",
            "denied 0 1 39",
        ],
    );
    unchanged(
        writes,
        "8 in the turn of program 1 sets nothing",
        &[
            turn(1),
            vec![(write(258), 9), (write(2), 8), (read(700), 8), (entry_call(), 0), (question(), 0)],
            vec![(switch(0), 0), (return_call(), 0)],
        ]
        .concat(),
        &["denied 1 1 258"],
    );
}

/// What is refused in privileged mode at depth 1, each number at least once.
fn privileged_refusals() -> Vec<Step> {
    vec![
        (access(2, 700), 2),
        (read(768), 3),
        (write(0x0001_0005), 3),
        (grant(2, 2, 5), 2),
        (grant(READ, 3, 5), 4),
        (grant(READ, 2, 16), 5),
        (grant(READ, 2, 5), 6),
        (revoke(WRITE, 0, 5), 6),
        (mask(0x0007), 6),
        (switch(2), 16),
        (store_field(2, 2, 1), 2),
        (store_field(READ, 3, 1), 4),
        (store_mode(2), 17),
        (record(0, 0, 0, 700), 18),
        (record(14, 0, 0, 700), 18),
    ]
}

fn refused_in_privileged_mode(writes: &mut Writes) {
    let refusals = privileged_refusals();
    unchanged(
        writes,
        "none after each refusal in privileged mode",
        &in_interrupt(&question_after_each(&refusals)),
        &vec!["none"; refusals.len()],
    );
    unchanged(
        writes,
        "the violation after each refusal in privileged mode",
        &[vec![(write(11), 9)], in_interrupt(&question_after_each(&refusals))].concat(),
        &vec!["denied 0 1 11"; refusals.len()],
    );
    unchanged(
        writes,
        "13 at depth 8 and 15 above depth 1, before a violation and after one",
        &[
            [(entry_call(), 0); 8].to_vec(),
            question_after_each(&[(entry_call(), 13), (switch(1), 15)]),
            [(return_call(), 0); 8].to_vec(),
            vec![(read(650), 9)],
            [(entry_call(), 0); 8].to_vec(),
            question_after_each(&[(entry_call(), 13), (switch(1), 15)]),
            [(return_call(), 0); 8].to_vec(),
        ]
        .concat(),
        &["none", "none", "denied 0 0 650", "denied 0 0 650"],
    );
    writes
        .sample(
            "question, 14 and 15 in privileged mode at depth 0",
            &privileged_second(),
            &[
                turn(1),
                question_after_each(&[(return_call(), 14), (switch(0), 15)]),
                turn(0),
                vec![(write(90), 9)],
                turn(1),
                question_after_each(&[(return_call(), 14), (switch(0), 15)]),
                turn(0),
            ]
            .concat(),
            SAMPLE_PAGES,
            "00 07 00 03 00  00 08 FF FF 01",
        )
        .handing_out(&["none", "none", "denied 0 1 90", "denied 0 1 90"]);
}

fn accesses(writes: &mut Writes) {
    unchanged(
        writes,
        "a privileged access to what user mode is denied sets nothing",
        &[
            in_interrupt(&question_after_each(&[(read(700), 0), (write(5), 0), (write(767), 0)])),
            vec![(write(12), 9)],
            in_interrupt(&question_after_each(&[(read(700), 0), (write(5), 0), (read(767), 0)])),
        ]
        .concat(),
        &["none", "none", "none", "denied 0 1 12", "denied 0 1 12", "denied 0 1 12"],
    );
    writes
        .sample(
            "question, a program in privileged mode is denied nothing",
            &privileged_first(),
            &question_after_each(&[(read(700), 0), (write(5), 0), (read(0), 0), (write(300), 0)]),
            SAMPLE_PAGES,
            "00 07 00 03 01  00 08 FF FF 00",
        )
        .handing_out(&["none"; 4]);
    unchanged(
        writes,
        "an allowed access in user mode sets nothing and clears nothing",
        &[
            asked_after_each(&[(read(3), 0), (write(300), 0)]),
            vec![(read(700), 9)],
            clear_flag(),
            asked_after_each(&[(read(3), 0), (write(300), 0), (read(511), 0)]),
        ]
        .concat(),
        &["none", "none", "denied 0 0 700", "denied 0 0 700", "denied 0 0 700"],
    );
}

fn asked_again(writes: &mut Writes) {
    unchanged(
        writes,
        "asked again and again, in one interrupt and in the next",
        &[vec![(read(700), 9)], in_interrupt(&[(question(), 0); 4]), ask(), ask()].concat(),
        &["denied 0 0 700"; 6],
    );
    unchanged(
        writes,
        "none asked again and again",
        &[vec![(question(), 7), (question(), 7)], in_interrupt(&[(question(), 0); 3]), ask()].concat(),
        &["none"; 6],
    );
    unchanged(
        writes,
        "right, A and B of its record are ignored and are not handed out",
        &[
            vec![(record(12, 1, 0, 5), 7)],
            in_interrupt(&[(record(12, 1, 0, 5), 0), (record(12, 255, 0xFFFF, 0xFFFF), 0)]),
            vec![(read(700), 9), (record(12, 1, 0, 5), 7)],
            in_interrupt(&[
                (record(12, 1, 0, 5), 0),
                (record(12, 2, 0x0001, 0x0000), 0),
                (record(12, 255, 0xFFFF, 0xFFFF), 0),
                (question(), 0),
            ]),
        ]
        .concat(),
        &["none", "none", "none", "none", "denied 0 0 700", "denied 0 0 700", "denied 0 0 700", "denied 0 0 700"],
    );
    unchanged(
        writes,
        "the sample run, with questions in its interrupt and in one more",
        &[
            vec![(read(0x0010), 0), (read(0x0200), 9), (mask(0x0007), 8), (entry_call(), 0), (question(), 0)],
            vec![(switch(1), 0), (question(), 0), (return_call(), 0), (read(0x0200), 0), (write(0x0000), 9)],
            in_interrupt(&[(question(), 0), (switch(0), 0), (question(), 0)]),
        ]
        .concat(),
        &["denied 0 0 512", "denied 0 0 512", "denied 1 1 0", "denied 1 1 0"],
    );
}

fn depths(writes: &mut Writes) {
    unchanged(
        writes,
        "at every depth, down and up again",
        &[
            vec![(read(700), 9)],
            [(entry_call(), 0), (question(), 0)].repeat(8),
            [(return_call(), 0), (question(), 0)].repeat(7),
            vec![(return_call(), 0), (question(), 7)],
        ]
        .concat(),
        &[vec!["denied 0 0 700"; 15], vec!["none"]].concat(),
    );
    writes
        .refused(
            "question, a violation in user mode at depth 7, asked at depth 8",
            44,
            &sample(),
            &[
                [(entry_call(), 0); 7].to_vec(),
                vec![(question(), 0), (store_mode(0), 0), (write(555), 9), (question(), 7)],
                vec![(entry_call(), 0), (question(), 0)],
            ]
            .concat(),
            26,
        )
        .handing_out(&["none", "none", "denied 0 1 555"]);
    writes
        .refused(
            "question, a violation in user mode at depth 8, where none is handed out any more",
            44,
            &sample(),
            &[
                [(entry_call(), 0); 8].to_vec(),
                vec![(question(), 0), (store_mode(0), 0), (write(555), 9), (question(), 7)],
                vec![(entry_call(), 13), (question(), 7)],
            ]
            .concat(),
            26,
        )
        .handing_out(&["none", "none", "none"]);
    writes
        .refused(
            "question, a violation of program 1 in user mode at depth 1",
            44,
            &sample(),
            &[
                vec![(entry_call(), 0), (switch(1), 0), (store_mode(0), 0), (write(600), 9)],
                in_interrupt(&[(question(), 0), (switch(0), 15), (question(), 0)]),
            ]
            .concat(),
            26,
        )
        .handing_out(&["denied 1 1 600", "denied 1 1 600"]);
}

/// A load leaves none, whatever the machine before it had.
fn second_rounds(writes: &mut Writes) {
    writes
        .sample(
            "question, a violation in the first round alone: the second has none to the end",
            &sample(),
            &[ask(), vec![(read(700), 9)], ask(), vec![(mask(0x0007), 0)], ask()].concat(),
            SAMPLE_PAGES,
            "00 07 00 07 00  00 08 FF FF 00",
        )
        .then(&[0, 0, 0, 0, 0, 0, 0, 0, 0, 0, 0], 0, 44, &[(34, "00 07 00 07 00  00 08 FF FF 00")])
        .handing_out(&["none", "denied 0 0 700", "denied 0 0 700"])
        .then_handing_out(&["none", "none", "none"]);
    writes
        .sample(
            "question, a violation in the second round alone, whose user mode meets it",
            &privileged_first(),
            &[vec![(read(700), 0), (store_mode(0), 0)], ask()].concat(),
            SAMPLE_PAGES,
            SAMPLE_PROGRAMS,
        )
        .then(&[9, 7, 0, 0, 0], 0, 44, &[(34, SAMPLE_PROGRAMS)])
        .handing_out(&["none"])
        .then_handing_out(&["denied 0 0 700"]);
    writes
        .sample(
            "question, each round has a violation of another right",
            &sample(),
            &[
                vec![(read(700), 9)],
                ask(),
                in_interrupt(&[(store_context(0x0004), 0), (store_mask(0xFFFF), 0)]),
                vec![(write(700), 0)],
                ask(),
                in_interrupt(&[(store_context(0x0005), 0), (store_field(WRITE, 2, 0x0008), 0)]),
            ]
            .concat(),
            "00 09 00 00  00 0A 00 02  00 0C 00 08",
            "00 05 FF FF 00  00 08 FF FF 00",
        )
        .then(
            &[0, 0, 0, 0, 0, 0, 0, 0, 9, 0, 0, 0, 0, 0, 0, 0],
            0,
            44,
            &[(22, "00 09 00 00  00 0A 00 02  00 0C 00 08"), (34, "00 05 FF FF 00  00 08 FF FF 00")],
        )
        .handing_out(&["denied 0 0 700", "denied 0 0 700"])
        .then_handing_out(&["none", "denied 0 1 700"]);
}

/// What was handed out stands there also where the image is not written.
fn not_written(writes: &mut Writes) {
    let asked = [ask(), vec![(read(700), 9)], ask()].concat();
    for room in [43, 31, 0] {
        writes
            .refused(&format!("question, room {room}"), room, &sample(), &asked, 27)
            .handing_out(&["none", "denied 0 0 700"]);
    }
    let image = [(0, SAMPLE_CONTENTS), (18, SAMPLE_SHAPE), (22, SAMPLE_PAGES), (34, SAMPLE_PROGRAMS)];
    writes
        .written("question, room 50", 50, &sample(), &asked, 44, &[&image[..], &[(44, "EE EE EE EE EE EE")]].concat())
        .handing_out(&["none", "denied 0 0 700"]);
    writes
        .refused(
            "question, the flag is set again",
            44,
            &sample(),
            &[&asked[..], &[(write(7), 9), (question(), 7)]].concat(),
            26,
        )
        .handing_out(&["none", "denied 0 0 700", "none"]);
    writes
        .refused(
            "question, asked last and still in the interrupt",
            43,
            &sample(),
            &[&asked[..], &[(write(7), 9), (entry_call(), 0), (question(), 0)]].concat(),
            26,
        )
        .handing_out(&["none", "denied 0 0 700", "denied 0 1 7"]);
    writes
        .refused(
            "question, program 1 is current and was denied",
            60,
            &sample(),
            &[turn(1), vec![(write(400), 9)], ask()].concat(),
            26,
        )
        .handing_out(&["denied 1 1 400"]);
    let mut wrong = sample().image();
    wrong[18] = 0;
    writes.not_loaded(
        "question, page count 0: it is not asked",
        of_input(44, &input(&wrong, &[entry_call(), question()].concat())),
        23,
    );
    let begun = [&entry_call()[..], &question(), &return_call(), &question()[..5]].concat();
    let due = || Due::new(0, vec![0, 0, 0], 0, 44, &[(0, SAMPLE_CONTENTS), (22, SAMPLE_PAGES), (34, SAMPLE_PROGRAMS)]);
    writes
        .add(
            "0: question, a remainder of 5 that begins one hands out nothing",
            of_input(44, &input(&sample().image(), &begun)),
            [due(), due()],
        )
        .handing_out(&["none"]);
}
