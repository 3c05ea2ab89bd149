//! Switches away and back: the other programs' entries are written as the switches left them,
//! program 0's three are the live ones.

use super::live::in_interrupt;
use super::*;
use crate::cases::{small, turn};

pub fn add(writes: &mut Writes) {
    two_programs(writes);
    modes(writes);
    more_programs(writes);
}

fn two_programs(writes: &mut Writes) {
    let mut programs = |purpose: &str, steps: &[Step], programs: &str| {
        writes.sample(purpose, &sample(), steps, SAMPLE_PAGES, programs);
    };
    programs("program 1's turn and back", &[turn(1), turn(0)].concat(), SAMPLE_PROGRAMS);
    programs(
        "a mask command in each program's turn",
        &[vec![(mask(0x0007), 0)], turn(1), vec![(mask(0x00F8), 0)], turn(0)].concat(),
        "00 07 00 07 00  00 08 00 F8 00",
    );
    programs(
        "a mask command in each program's turn and one more after it: live, entry and image all differ",
        &[vec![(mask(0x0007), 0)], turn(1), vec![(mask(0x00F8), 0)], turn(0), vec![(mask(0x0001), 0)]].concat(),
        "00 07 00 01 00  00 08 00 F8 00",
    );
    programs("away and back in one interrupt", &in_interrupt(&[(switch(1), 0), (switch(0), 0)]), SAMPLE_PROGRAMS);
    programs(
        "stores for program 1 between two switches of one interrupt",
        &in_interrupt(&[(switch(1), 0), (store_context(0x1357), 0), (store_mask(0x2468), 0), (switch(0), 0)]),
        "00 07 00 03 00  13 57 24 68 00",
    );
    programs(
        "stores for program 0 before the switch away and after the one back",
        &in_interrupt(&[
            (store_context(0x0A0B), 0),
            (store_mask(0x0C0D), 0),
            (switch(1), 0),
            (switch(0), 0),
            (store_context(0x0102), 0),
        ]),
        "01 02 0C 0D 00  00 08 FF FF 00",
    );
    programs(
        "a violation in program 1's turn, which the entry of program 0's turn clears",
        &[turn(1), vec![(write(0), 9), (mask(0x0001), 8)], turn(0)].concat(),
        SAMPLE_PROGRAMS,
    );
    programs(
        "switches that are refused: 7, 15 and 16",
        &[
            (switch(1), 7),
            (entry_call(), 0),
            (switch(2), 16),
            (switch(256), 16),
            (entry_call(), 0),
            (switch(1), 15),
            (return_call(), 0),
            (return_call(), 0),
        ],
        SAMPLE_PROGRAMS,
    );
    let mut shared = small(&[(0x0008, 0x0000), (0x0009, 0x0008)], 0x0001, 0xFFFF);
    shared.programs.push((0x0008, 0xFFFF, 0));
    writes.written(
        "program 1 grants in its turn, and 11 where it does not prevail",
        40,
        &shared,
        &[turn(1), vec![(grant(READ, 0, 12), 0), (grant(WRITE, 1, 4), 0), (revoke(READ, 1, 3), 11)], turn(0)].concat(),
        40,
        &[
            (0, "01 00 00 12 00 04  02 00 00 16 00 08  03 00 00 1E 00 0A  02 05 02 00"),
            (22, "10 08 00 00  00 09 00 18  00 01 FF FF 00  00 08 FF FF 00"),
        ],
    );
}

fn modes(writes: &mut Writes) {
    writes.sample(
        "program 1 privileged: its turn and back",
        &privileged_second(),
        &[turn(1), turn(0)].concat(),
        SAMPLE_PAGES,
        "00 07 00 03 00  00 08 FF FF 01",
    );
    writes.sample(
        "program 1 privileged, with stores in its turn",
        &privileged_second(),
        &[turn(1), vec![(store_context(0x8001), 0), (store_mask(0x7FFE), 0)], turn(0)].concat(),
        SAMPLE_PAGES,
        "00 07 00 03 00  80 01 7F FE 01",
    );
    writes
        .sample(
            "program 1 privileged, until it goes to user mode in its turn",
            &privileged_second(),
            &[turn(1), vec![(store_mode(0), 0)], turn(0)].concat(),
            SAMPLE_PAGES,
            SAMPLE_PROGRAMS,
        )
        .then(&[0, 0, 0, 7, 0, 0, 0], 0, 44, &[(22, SAMPLE_PAGES), (34, SAMPLE_PROGRAMS)]);
    writes.sample(
        "program 0 privileged, program 1 not: each keeps its mode",
        &privileged_first(),
        &[turn(1), vec![(mask(0x0008), 0)], turn(0)].concat(),
        SAMPLE_PAGES,
        "00 07 00 03 01  00 08 00 08 00",
    );
    writes.sample(
        "program 0 privileged: stores after the turn back are live alone",
        &privileged_first(),
        &[vec![(store_mask(0x1111), 0)], turn(1), turn(0), vec![(store_context(0x2223), 0)]].concat(),
        SAMPLE_PAGES,
        "22 23 11 11 01  00 08 FF FF 00",
    );
}

fn more_programs(writes: &mut Writes) {
    let mut three = sample();
    three.programs.push((0x0C30, 0xF00F, 0));
    writes.written(
        "three programs, a mask command in each turn",
        50,
        &three,
        &[turn(2), vec![(mask(0x1122), 0)], turn(1), vec![(mask(0x334C), 0)], turn(0), vec![(mask(0x5566), 0)]]
            .concat(),
        49,
        &[
            (0, "01 00 00 12 00 04  02 00 00 16 00 0C  03 00 00 22 00 0F  03 08 03 00"),
            (22, SAMPLE_PAGES),
            (34, "00 07 55 66 00  00 08 33 4C 00  0C 30 11 22 00  EE"),
        ],
    );
    let eight = Plan { exponent: 5, pages: vec![(0x1234, 0xFEDC)], programs: eight_programs() };
    let head = "01 00 00 12 00 04  02 00 00 16 00 04  03 00 00 1A 00 28  01 05 08 00  12 34 FE DC";
    writes.written(
        "eight programs, all different",
        66,
        &eight,
        &[],
        66,
        &[
            (0, head),
            (26, "01 23 45 67 00  89 AB CD EF 01  FE DC BA 98 00  76 54 32 10 01"),
            (46, "13 57 9B DF 00  02 46 8A CE 00  F0 E1 D2 C3 01  B4 A5 96 87 00"),
        ],
    );
    writes
        .written(
            "eight programs, changes in the turns of 7, 1 and 6, and of 0 afterwards",
            66,
            &eight,
            &[
                turn(7),
                vec![(mask(0x1112), 0)],
                turn(1),
                vec![(store_context(0x2223), 0)],
                turn(6),
                vec![(store_mask(0x3334), 0), (store_mode(0), 0), (mask(0x4445), 0)],
                turn(0),
                vec![(mask(0x5556), 0)],
            ]
            .concat(),
            66,
            &[
                (0, head),
                (26, "01 23 55 56 00  22 23 CD EF 01  FE DC BA 98 00  76 54 32 10 01"),
                (46, "13 57 9B DF 00  02 46 8A CE 00  F0 E1 44 45 00  B4 A5 11 12 00"),
            ],
        )
        // Program 6 is in user mode from the start now.
        .then(
            &[0, 0, 0, 0, 0, 0, 0, 0, 0, 0, 0, 7, 7, 0, 0, 0, 0, 0],
            0,
            66,
            &[(26, "01 23 55 56 00  22 23 CD EF 01"), (56, "F0 E1 44 45 00  B4 A5 11 12 00")],
        );
}
