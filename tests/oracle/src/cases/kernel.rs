//! Entry, return, switch, the kernel stores and unknown kinds.

use super::{clear_flag, context_is, field_is, mask_is, sample, small, turn, Cases, Step};
use crate::write::*;

pub fn add(cases: &mut Cases) {
    entry_and_return(cases);
    switch_refusals(cases);
    switches(cases);
    field_stores(cases);
    register_stores(cases);
    unknown_kinds(cases);
}

/// The sample with program 0 stored in privileged mode.
pub fn privileged_first() -> Plan {
    let mut plan = sample();
    plan.programs[0].2 = 1;
    plan
}

/// The sample with program 1 stored in privileged mode.
pub fn privileged_second() -> Plan {
    let mut plan = sample();
    plan.programs[1].2 = 1;
    plan
}

pub fn times(count: usize, step: Step) -> Vec<Step> {
    vec![step; count]
}

/// A mask that shares domains with the context of either program of the sample, and leaves each the
/// local context that it starts with.
const MASK_OF_EITHER: u16 = 0x000B;

/// The mask command tells the mode: 6 in privileged mode, 0 in user mode with the flag clear.
pub fn in_privileged_mode() -> Step {
    (mask(MASK_OF_EITHER), 6)
}

pub fn in_user_mode() -> Step {
    (mask(MASK_OF_EITHER), 0)
}

fn entry_and_return(cases: &mut Cases) {
    cases.run(
        "entry and return from user mode",
        &sample(),
        &[
            in_user_mode(),
            (entry_call(), 0),
            in_privileged_mode(),
            (return_call(), 0),
            in_user_mode(),
            (return_call(), 7),
        ],
    );
    cases.run(
        "depth 8: eight entries, then 13, then eight returns down to user mode",
        &sample(),
        &[
            times(8, (entry_call(), 0)),
            vec![(entry_call(), 13), (entry_call(), 13), in_privileged_mode()],
            [(return_call(), 0), in_privileged_mode()].repeat(7),
            vec![(return_call(), 0), in_user_mode(), (return_call(), 7)],
        ]
        .concat(),
    );
    cases.run(
        "depth 8 from a program in privileged mode, and 14 after the last return",
        &privileged_first(),
        &[
            times(8, (entry_call(), 0)),
            vec![(entry_call(), 13)],
            times(8, (return_call(), 0)),
            vec![(return_call(), 14), in_privileged_mode(), (write(0), 0)],
        ]
        .concat(),
    );
    cases.run(
        "depth 8, one return, and one more entry fits",
        &sample(),
        &[
            times(8, (entry_call(), 0)),
            vec![(entry_call(), 13), (return_call(), 0), (entry_call(), 0), (entry_call(), 13)],
        ]
        .concat(),
    );
    cases.run(
        "13 in user mode keeps the flag and the mode",
        &sample(),
        &[
            times(8, (entry_call(), 0)),
            vec![(store_mode(0), 0), (read(0), 0), (entry_call(), 13), (read(0), 0), (write(0), 9), (read(0), 8)],
            vec![(entry_call(), 13), (read(0), 8), (return_call(), 7), (switch(0), 7), (store_mode(1), 7)],
        ]
        .concat(),
    );
    cases.run(
        "return 14: privileged mode at depth 0",
        &privileged_first(),
        &[(return_call(), 14), in_privileged_mode(), (return_call(), 14)],
    );
    cases.run(
        "return 7 comes before 14, and at depth 1 too",
        &sample(),
        &[(return_call(), 7), (entry_call(), 0), (store_mode(0), 0), (return_call(), 7), in_user_mode()],
    );
    cases.run(
        "the last saved mode comes back first: user, privileged, user were saved",
        &sample(),
        &[
            (entry_call(), 0),
            (entry_call(), 0),
            (store_mode(0), 0),
            in_user_mode(),
            (entry_call(), 0),
            in_privileged_mode(),
            (return_call(), 0),
            in_user_mode(),
            (entry_call(), 0),
            (return_call(), 0),
            in_user_mode(),
        ],
    );
    cases.run(
        "an entry saves the mode of now in a place used before",
        &privileged_first(),
        &[
            (entry_call(), 0),
            (return_call(), 0),
            in_privileged_mode(),
            (store_mode(0), 0),
            (entry_call(), 0),
            (return_call(), 0),
            in_user_mode(),
        ],
    );
    cases.run(
        "entry and return: right, A and B are ignored",
        &sample(),
        &[
            (record(5, 0xFF, 0xFFFF, 0xFFFF), 0),
            in_privileged_mode(),
            (record(6, 0xFF, 0xFFFF, 0xFFFF), 0),
            in_user_mode(),
            (record(5, 2, 0x0100, 0x0001), 0),
            (record(6, 2, 0x0100, 0x0001), 0),
        ],
    );
    cases.run("entry and return leave context and mask", &sample(), &[clear_flag(), context_is(0x0007)].concat());
}

fn switch_refusals(cases: &mut Cases) {
    cases.run(
        "switch 7: in user mode, also to a program that is not there",
        &sample(),
        &[(switch(1), 7), (switch(2), 7), (read(0), 0)],
    );
    cases.run(
        "switch 7: in user mode at depth 1",
        &sample(),
        &[(entry_call(), 0), (store_mode(0), 0), (switch(1), 7), (switch(2), 7), (read(0), 0)],
    );
    cases.run(
        "switch 15: privileged mode at depth 0, before 16",
        &privileged_first(),
        &[(switch(1), 15), (switch(0), 15), (switch(2), 15), (switch(65_535), 15)],
    );
    cases.run(
        "switch 15: depth 2, before 16; back at depth 1 it is done",
        &sample(),
        &[
            (entry_call(), 0),
            (entry_call(), 0),
            (switch(1), 15),
            (switch(2), 15),
            (return_call(), 0),
            (switch(1), 0),
            (return_call(), 0),
            (read(512), 0),
        ],
    );
    cases.run(
        "switch 15: depth 8",
        &sample(),
        &[
            times(8, (entry_call(), 0)),
            vec![(switch(1), 15)],
            times(8, (return_call(), 0)),
            vec![(read(256), 0), (read(512), 9)],
        ]
        .concat(),
    );
    cases.run(
        "switch 16: programs 2, 8, 256, 257 and 65535 of two, and nothing changes",
        &sample(),
        &[
            (entry_call(), 0),
            (switch(2), 16),
            (switch(8), 16),
            (switch(256), 16),
            (switch(257), 16),
            (switch(65_535), 16),
            (return_call(), 0),
            (write(256), 0),
            (read(512), 9),
        ],
    );
    cases.run(
        "switch: 16 for program 1 of one, 0 for program 0",
        &small(&[(1, 1)], 1, 1),
        &[(entry_call(), 0), (switch(1), 16), (switch(0), 0), (return_call(), 0), (read(0), 0)],
    );
}

fn switches(cases: &mut Cases) {
    cases.run(
        "switch: there and back, right and A are ignored",
        &sample(),
        &[
            (entry_call(), 0),
            (record(7, 0xFF, 0xFFFF, 1), 0),
            (return_call(), 0),
            (read(767), 0),
            (entry_call(), 0),
            (record(7, 2, 0x0100, 0), 0),
            (return_call(), 0),
            (write(256), 0),
            (read(767), 9),
        ],
    );
    cases.run(
        "switch to itself keeps the live mask, which is newer than its entry",
        &sample(),
        &[vec![(mask(0x0104), 0)], turn(0), vec![(read(512), 0)], mask_is(0x0104)].concat(),
    );
    cases.run(
        "switch to itself keeps the live context, which is newer than its entry",
        &sample(),
        &[vec![(entry_call(), 0), (store_context(0x0F0C), 0), (switch(0), 0), (return_call(), 0)], context_is(0x0F0C)]
            .concat(),
    );
    cases.run(
        "switch to itself keeps the saved mode",
        &privileged_first(),
        &[
            (store_mode(0), 0),
            (entry_call(), 0),
            (switch(0), 0),
            (return_call(), 0),
            in_user_mode(),
            (entry_call(), 0),
            (switch(1), 0),
            (switch(0), 0),
            (return_call(), 0),
            in_user_mode(),
        ],
    );
    cases.run(
        "switch: each program gets its own mask back, the one from the kernel too, which leaves it nothing",
        &sample(),
        &[
            vec![(mask(0x0002), 0)],
            vec![(entry_call(), 0), (switch(1), 0), (store_mask(0x0000), 0), (return_call(), 0)],
            turn(0),
            vec![(read(256), 0), (read(0), 9)],
            turn(1),
            vec![(read(0), 9)],
            turn(0),
            mask_is(0x0002),
        ]
        .concat(),
    );
    cases.run(
        "switch: each program gets its own context back, changed by the kernel meanwhile",
        &sample(),
        &[
            vec![(entry_call(), 0), (store_context(0x1205), 0), (switch(1), 0), (return_call(), 0), (read(512), 0)],
            turn(0),
            context_is(0x1205),
        ]
        .concat(),
    );
    cases.run(
        "switch saves the mode that the interrupt saved, not the live one",
        &sample(),
        &[turn(1), vec![in_user_mode()], turn(0), vec![in_user_mode()], turn(1), vec![in_user_mode()]].concat(),
    );
    cases.run(
        "switch to a program stored in privileged mode, and from it",
        &privileged_second(),
        &[
            turn(1),
            vec![(write(0), 0), in_privileged_mode(), (return_call(), 14), (switch(0), 15)],
            turn(0),
            vec![in_user_mode(), (write(0), 9)],
            turn(1),
            vec![in_privileged_mode(), (write(0), 0), (store_mode(0), 0), in_user_mode()],
            turn(0),
            vec![in_user_mode()],
            turn(1),
            vec![in_user_mode()],
        ]
        .concat(),
    );
    cases.run(
        "switch twice in one interrupt: the modes go with their programs",
        &privileged_second(),
        &[
            vec![(entry_call(), 0), (switch(1), 0), (switch(0), 0), (return_call(), 0), in_user_mode()],
            vec![(entry_call(), 0), (switch(1), 0), (switch(1), 0), (return_call(), 0), in_privileged_mode()],
        ]
        .concat(),
    );
    cases.run(
        "switch keeps the live mode privileged and the depth 1",
        &sample(),
        &[
            (entry_call(), 0),
            (switch(1), 0),
            (write(0), 0),
            (mask(0), 6),
            (entry_call(), 0),
            (switch(0), 15),
            (return_call(), 0),
            (return_call(), 0),
            (return_call(), 7),
        ],
    );
    // Eight programs with asymmetric registers; program p opens page p alone.
    let eight = Plan {
        exponent: 5,
        pages: (0..8).map(|p| (0x0100 << p, 0x0001 << p)).collect(),
        programs: (0..8).map(|p| (0x0101 << p, if p % 2 == 0 { 0xFF00 } else { 0x00FF }, 0)).collect(),
    };
    let mut steps = vec![(entry_call(), 0), (switch(8), 16), (return_call(), 0)];
    for p in [7, 2, 5, 0, 3, 6, 1, 4] {
        let right = if p % 2 == 0 { READ } else { WRITE };
        steps.extend(turn(p));
        steps.push((access(right, 32 * u32::from(p)), 0));
        steps.push((access(1 - right, 32 * u32::from(p)), 9));
        steps.push((access(right, 32 * u32::from(p)), 8));
        steps.extend(clear_flag());
        steps.push((access(right, 32 * u32::from((p + 1) % 8)), 9));
    }
    cases.run("switch among eight programs, 7 is the last", &eight, &steps);
}

fn field_stores(cases: &mut Cases) {
    cases.run(
        "field store 0: all 16 bits, high byte first",
        &sample(),
        &[vec![(entry_call(), 0), (store_field(READ, 2, 0x8103), 0), (return_call(), 0)], field_is(READ, 2, 8, 0x8103)]
            .concat(),
    );
    cases.run(
        "field store: READ and WRITE of a page are two fields",
        &sample(),
        &[
            vec![
                (entry_call(), 0),
                (store_field(READ, 1, 0x0240), 0),
                (store_field(WRITE, 1, 0x1080), 0),
                (return_call(), 0),
            ],
            field_is(READ, 1, 8, 0x0240),
            field_is(WRITE, 1, 8, 0x1080),
            field_is(READ, 0, 8, 0x0009),
            field_is(WRITE, 2, 8, 0x0004),
        ]
        .concat(),
    );
    cases.run(
        "field store: an emptied field has no prevailing domain, a filled one has its lowest",
        &sample(),
        &[
            vec![
                (entry_call(), 0),
                (store_field(READ, 0, 0), 0),
                (store_field(WRITE, 0, 0x0006), 0),
                (return_call(), 0),
            ],
            vec![
                (grant(READ, 0, 5), 11),
                (grant(WRITE, 0, 1), 12),
                (grant(WRITE, 0, 2), 0),
                (write(0), 0),
                (read(0), 9),
            ],
        ]
        .concat(),
    );
    cases.run(
        "field store: 2 before 4 and 7, 4 before 7, then 7; nothing is stored",
        &sample(),
        &[
            vec![(store_field(2, 3, 0xFFFF), 2), (store_field(2, 0, 0xFFFF), 2), (store_field(255, 0, 0xFFFF), 2)],
            vec![(store_field(READ, 3, 0xFFFF), 4), (store_field(WRITE, 0, 0xFFFF), 7), (write(0), 9)],
            field_is(WRITE, 0, 8, 0),
        ]
        .concat(),
    );
    cases.run(
        "field store in privileged mode: 2 for rights 2 and 255, 4 for pages 3, 128, 256 and 65535",
        &sample(),
        &[
            (entry_call(), 0),
            (store_field(2, 3, 1), 2),
            (store_field(255, 0, 1), 2),
            (store_field(READ, 3, 1), 4),
            (store_field(READ, 128, 1), 4),
            (store_field(WRITE, 256, 1), 4),
            (store_field(WRITE, 65_535, 1), 4),
            (store_field(WRITE, 2, 1), 0),
        ],
    );
    cases.run(
        "field store: page 127 of 128, and 4 for page 128",
        &small(&[(0, 0); 128], 0x0180, 0xFFFF),
        &[
            (entry_call(), 0),
            (store_field(WRITE, 127, 0x0100), 0),
            (store_field(READ, 127, 0x0080), 0),
            (store_field(READ, 128, 0x0080), 4),
            (return_call(), 0),
            (write(4095), 0),
            (read(4064), 0),
            (read(4063), 9),
        ],
    );
}

fn register_stores(cases: &mut Cases) {
    cases.run(
        "context store 7 in user mode, 0 in privileged mode with all 16 bits",
        &sample(),
        &[
            vec![
                (store_context(0xFFFF), 7),
                (read(512), 9),
                (entry_call(), 0),
                (store_context(0x4A10), 0),
                (return_call(), 0),
            ],
            context_is(0x4A10),
        ]
        .concat(),
    );
    cases.run(
        "context store 7 leaves the context",
        &sample(),
        &[vec![(store_context(0x1234), 7)], context_is(0x0007)].concat(),
    );
    cases.run(
        "mask store 7 in user mode, 0 in privileged mode with all 16 bits",
        &sample(),
        &[
            vec![
                (store_mask(0xFFFF), 7),
                (read(512), 9),
                (entry_call(), 0),
                (store_mask(0x9210), 0),
                (return_call(), 0),
            ],
            mask_is(0x9210),
        ]
        .concat(),
    );
    cases.run("mask store 7 leaves the mask", &sample(), &[vec![(store_mask(0x1234), 7)], mask_is(0x0003)].concat());
    cases.run(
        "context store and mask store: right and A are ignored",
        &sample(),
        &[
            (entry_call(), 0),
            (record(9, 0xFF, 0xFFFF, 0x0C00), 0),
            (record(10, 2, 0x0100, 0x0600), 0),
            (store_field(WRITE, 1, 0x0400), 0),
            (store_field(READ, 1, 0xFBFF), 0),
            (return_call(), 0),
            (write(256), 0),
            (read(256), 9),
        ],
    );
    cases.run(
        "mode store 17 in user mode: 2, 256, 257 and 65535; 7 for 0 and 1",
        &sample(),
        &[
            (store_mode(2), 17),
            (store_mode(256), 17),
            (store_mode(257), 17),
            (store_mode(65_535), 17),
            (store_mode(0), 7),
            (store_mode(1), 7),
            in_user_mode(),
        ],
    );
    cases.run(
        "mode store in privileged mode: 17 for 2, 255, 256 and 65535; 1 keeps it, 0 leaves it",
        &sample(),
        &[
            (entry_call(), 0),
            (store_mode(2), 17),
            (store_mode(255), 17),
            (store_mode(256), 17),
            (store_mode(65_535), 17),
            in_privileged_mode(),
            (store_mode(1), 0),
            in_privileged_mode(),
            (record(11, 0xFF, 0xFFFF, 0), 0),
            in_user_mode(),
            (store_mode(1), 7),
        ],
    );
    cases.run(
        "mode store leaves the saved modes alone",
        &privileged_first(),
        &[
            (entry_call(), 0),
            (entry_call(), 0),
            (store_mode(0), 0),
            (entry_call(), 0),
            (store_mode(1), 0),
            (return_call(), 0),
            in_user_mode(),
            (entry_call(), 0),
            (switch(0), 15),
        ],
    );
    cases.run(
        "a program stored in privileged mode runs in it from the load on, and leaves it by the mode store",
        &privileged_first(),
        &[
            (write(0), 0),
            (grant(READ, 0, 3), 6),
            (store_field(WRITE, 0, 0x0002), 0),
            (store_mode(0), 0),
            (write(0), 0),
            (grant(READ, 0, 3), 0),
            (return_call(), 7),
            (read(512), 9),
        ],
    );
    cases.run(
        "stores stay live only: the entry gets them at the switch",
        &sample(),
        &[
            vec![
                (entry_call(), 0),
                (store_context(0x000C), 0),
                (store_mask(0x0004), 0),
                (return_call(), 0),
                (read(512), 0),
            ],
            vec![(read(0), 9)],
            turn(1),
            vec![(read(0), 0)],
            turn(0),
            vec![(write(512), 0), (read(256), 9)],
        ]
        .concat(),
    );
}

fn unknown_kinds(cases: &mut Cases) {
    // 129, 140 and 141 are known but for their highest bit.
    for kind in [0, 14, 15, 129, 140, 141, 255] {
        cases.run(
            &format!("18: kind {kind} in user mode, in privileged mode and with the flag set; nothing changes"),
            &sample(),
            &[
                (record(kind, 0, 0, 0), 18),
                (record(kind, 0xFF, 0xFFFF, 0xFFFF), 18),
                (read(0), 0),
                (entry_call(), 0),
                (record(kind, 0, 0, 0), 18),
                (write(0), 0),
                (return_call(), 0),
                (read(512), 9),
                (record(kind, 2, 3, 16), 18),
                (read(0), 8),
            ],
        );
    }
}
