//! The sample as it stands in buffers of several lengths, and what one program changes: the
//! live registers, which are written as program 0's, and the fields.

use super::*;
use crate::cases::clear_flag;

pub fn add(writes: &mut Writes) {
    unchanged(writes);
    registers(writes);
    fields(writes);
    privileged_mode(writes);
}

/// Steps within one interrupt.
pub fn in_interrupt(steps: &[Step]) -> Vec<Step> {
    [&[(entry_call(), 0)], steps, &[(return_call(), 0)]].concat()
}

fn unchanged(writes: &mut Writes) {
    writes.sample("the sample, room exact", &sample(), &[], SAMPLE_PAGES, SAMPLE_PROGRAMS);
    let head = [(0, SAMPLE_CONTENTS), (18, SAMPLE_SHAPE), (22, SAMPLE_PAGES), (34, SAMPLE_PROGRAMS)];
    writes.refused("the sample, one byte short", 43, &sample(), &[], 27);
    writes.written("the sample, one byte more", 45, &sample(), &[], 44, &[&head[..], &[(44, "EE")]].concat());
    writes.written(
        "the sample, much more room",
        100,
        &sample(),
        &[],
        44,
        &[&head[..], &[(44, "EE EE EE EE"), (98, "EE EE")]].concat(),
    );
    for room in [0, 1, 18, 22, 31, 34, 39] {
        writes.refused(&format!("the sample, room {room}"), room, &sample(), &[], 27);
    }
    writes.written(
        "the sample, room 300, which takes both bytes of the room",
        300,
        &sample(),
        &[],
        44,
        &[&head[..], &[(254, "EE EE EE EE"), (299, "EE")]].concat(),
    );
}

fn registers(writes: &mut Writes) {
    let mut sample_registers = |purpose: &str, steps: &[Step], program_0: &str| {
        let programs = format!("{program_0}  00 08 FF FF 00");
        writes.sample(purpose, &sample(), steps, SAMPLE_PAGES, &programs);
    };
    sample_registers("a mask command", &[(mask(0x0007), 0)], "00 07 00 07 00");
    sample_registers(
        "a mask command with bits outside the context, none trimmed",
        &[(mask(0xA5C3), 0)],
        "00 07 A5 C3 00",
    );
    sample_registers(
        "two mask commands, the last one counts",
        &[(mask(0x00FF), 0), (mask(0x1201), 0)],
        "00 07 12 01 00",
    );
    sample_registers("context store", &in_interrupt(&[(store_context(0x1234), 0)]), "12 34 00 03 00");
    sample_registers("mask store", &in_interrupt(&[(store_mask(0xFEDC), 0)]), "00 07 FE DC 00");
    sample_registers(
        "context store and mask store",
        &in_interrupt(&[(store_context(0x1234), 0), (store_mask(0x5678), 0)]),
        "12 34 56 78 00",
    );
    sample_registers(
        "context and mask stored empty",
        &in_interrupt(&[(store_context(0), 0), (store_mask(0), 0)]),
        "00 00 00 00 00",
    );
    sample_registers(
        "context and mask stored full",
        &in_interrupt(&[(store_context(0xFFFF), 0), (store_mask(0xFFFF), 0)]),
        "FF FF FF FF 00",
    );
    sample_registers(
        "mode store within an interrupt: the return brings the program's own mode back",
        &in_interrupt(&[(store_mode(1), 0)]),
        "00 07 00 03 00",
    );
    sample_registers(
        "a switch to itself between two context stores: the entry has the first, the second is live",
        &in_interrupt(&[(store_context(0x4321), 0), (switch(0), 0), (store_context(0x1234), 0)]),
        "12 34 00 03 00",
    );
    sample_registers(
        "a switch to itself, then mask commands: the entry has the old mask",
        &[
            in_interrupt(&[(store_mask(0x00AA), 0), (switch(0), 0)]),
            vec![(mask(0x0BAD), 0)],
            clear_flag(),
            vec![(mask(0xAA01), 0)],
        ]
        .concat(),
        "00 07 AA 01 00",
    );
    // On the first machine domain 2 is masked out; on the one read back it no longer is.
    writes
        .sample(
            "the second round starts with the live mask",
            &sample(),
            &[(grant(READ, 2, 14), 11), (mask(0x0007), 0)],
            SAMPLE_PAGES,
            "00 07 00 07 00  00 08 FF FF 00",
        )
        .then(&[0, 0], 0, 44, &[(30, "40 0C 00 04"), (34, "00 07 00 07 00  00 08 FF FF 00")]);
    let first = [vec![(grant(READ, 0, 9), 0)], in_interrupt(&[(store_context(0x0006), 0)])].concat();
    writes
        .sample(
            "the second round starts with the live context",
            &sample(),
            &first,
            "02 09 00 00  00 0A 00 02  00 0C 00 04",
            "00 06 00 03 00  00 08 FF FF 00",
        )
        .then(&[11, 0, 0, 0], 0, 44, &[(22, "02 09 00 00"), (34, "00 06 00 03 00")]);
    writes.sample(
        "calls that are refused change nothing of it",
        &sample(),
        &[
            (access(2, 0), 2),
            (read(768), 3),
            (grant(READ, 3, 4), 4),
            (grant(READ, 0, 16), 5),
            (grant(READ, 0, 0), 12),
            (revoke(WRITE, 0, 3), 11),
            (revoke(READ, 2, 3), 11),
            (mask(0xFFF8), 19),
            (return_call(), 7),
            (switch(1), 7),
            (store_field(READ, 0, 0xFFFF), 7),
            (store_context(0xFFFF), 7),
            (store_mask(0xFFFF), 7),
            (store_mode(1), 7),
            (store_mode(2), 17),
        ],
        SAMPLE_PAGES,
        SAMPLE_PROGRAMS,
    );
    writes.sample(
        "accesses that are allowed change nothing of it",
        &sample(),
        &[(read(0), 0), (read(511), 0), (write(256), 0)],
        SAMPLE_PAGES,
        SAMPLE_PROGRAMS,
    );
}

fn fields(writes: &mut Writes) {
    let mut sample_fields = |purpose: &str, steps: &[Step], pages: &str| {
        writes.sample(purpose, &sample(), steps, pages, SAMPLE_PROGRAMS);
    };
    sample_fields(
        "field stores, READ of page 1 and WRITE of page 2",
        &in_interrupt(&[(store_field(READ, 1, 0x1234), 0), (store_field(WRITE, 2, 0xABCD), 0)]),
        "00 09 00 00  12 34 00 02  00 0C AB CD",
    );
    sample_fields(
        "field stores, every field different",
        &in_interrupt(&[
            (store_field(READ, 0, 0x0102), 0),
            (store_field(WRITE, 0, 0x0304), 0),
            (store_field(READ, 1, 0x0506), 0),
            (store_field(WRITE, 1, 0x0708), 0),
            (store_field(READ, 2, 0x090A), 0),
            (store_field(WRITE, 2, 0x0B0C), 0),
        ]),
        "01 02 03 04  05 06 07 08  09 0A 0B 0C",
    );
    sample_fields(
        "field stores, empty and full",
        &in_interrupt(&[(store_field(READ, 0, 0), 0), (store_field(WRITE, 0, 0xFFFF), 0)]),
        "00 00 FF FF  00 0A 00 02  00 0C 00 04",
    );
    sample_fields("grant on READ", &[(grant(READ, 1, 15), 0)], "00 09 00 00  80 0A 00 02  00 0C 00 04");
    sample_fields("grant on WRITE", &[(grant(WRITE, 1, 8), 0)], "00 09 00 00  00 0A 01 02  00 0C 00 04");
    sample_fields("revoke on READ", &[(revoke(READ, 0, 3), 0)], "00 01 00 00  00 0A 00 02  00 0C 00 04");
    sample_fields(
        "revoke on WRITE of one of two grants",
        &[(grant(WRITE, 1, 9), 0), (grant(WRITE, 1, 2), 0), (revoke(WRITE, 1, 9), 0)],
        "00 09 00 00  00 0A 00 06  00 0C 00 04",
    );
    sample_fields(
        "a grant of what is there and a revoke of what is not",
        &[(grant(READ, 0, 3), 0), (revoke(WRITE, 1, 7), 0)],
        SAMPLE_PAGES,
    );
    let mut full = sample();
    full.pages[1] = (0x000A, 0xFF02);
    writes.sample(
        "revoke on WRITE of what the image had, domains 15 and 8",
        &full,
        &[(revoke(WRITE, 1, 15), 0), (revoke(WRITE, 1, 8), 0)],
        "00 09 00 00  00 0A 7E 02  00 0C 00 04",
        SAMPLE_PROGRAMS,
    );
    writes.sample(
        "mask, grant, revoke and stores together",
        &sample(),
        &[
            vec![(mask(0x0007), 0), (grant(READ, 2, 12), 0), (revoke(READ, 0, 3), 0)],
            in_interrupt(&[(store_context(0x0107), 0), (store_field(WRITE, 0, 0x0180), 0)]),
            vec![(mask(0x0F01), 0)],
        ]
        .concat(),
        "00 01 01 80  00 0A 00 02  10 0C 00 04",
        "01 07 0F 01 00  00 08 FF FF 00",
    );
}

fn privileged_mode(writes: &mut Writes) {
    let mut first = |purpose: &str, steps: &[Step], program_0: &str| {
        let programs = format!("{program_0}  00 08 FF FF 00");
        writes.sample(purpose, &privileged_first(), steps, SAMPLE_PAGES, &programs);
    };
    first("privileged live mode, unchanged", &[], "00 07 00 03 01");
    first(
        "privileged live mode, context and mask stored: the entry has the old ones",
        &[(store_context(0x1234), 0), (store_mask(0x5678), 0)],
        "12 34 56 78 01",
    );
    first("privileged live mode, mode store 1", &[(store_mode(1), 0)], "00 07 00 03 01");
    first("privileged live mode, entry and return", &clear_flag(), "00 07 00 03 01");
    first(
        "privileged live mode, a switch to itself between two mask stores",
        &in_interrupt(&[(store_mask(0x00AA), 0), (switch(0), 0), (store_mask(0xAA00), 0)]),
        "00 07 AA 00 01",
    );
    writes.sample(
        "privileged live mode, fields stored without an interrupt, and 6 for the commands",
        &privileged_first(),
        &[
            (store_field(READ, 2, 0x2030), 0),
            (grant(READ, 0, 4), 6),
            (store_field(WRITE, 0, 0x4050), 0),
            (mask(0xFFFF), 6),
        ],
        "00 09 40 50  00 0A 00 02  20 30 00 04",
        "00 07 00 03 01  00 08 FF FF 00",
    );
    // Program 0 starts in privileged mode in the first round alone.
    writes
        .sample(
            "user mode by the mode store: the entry still has privileged",
            &privileged_first(),
            &[(store_mode(0), 0)],
            SAMPLE_PAGES,
            SAMPLE_PROGRAMS,
        )
        .then(&[7], 0, 44, &[(22, SAMPLE_PAGES), (34, SAMPLE_PROGRAMS)]);
    writes
        .sample(
            "all three live registers changed, none of the entry's left",
            &privileged_first(),
            &[(store_context(0x0203), 0), (store_mode(0), 0), (mask(0x0405), 0)],
            SAMPLE_PAGES,
            "02 03 04 05 00  00 08 FF FF 00",
        )
        .then(&[7, 7, 0], 0, 44, &[(34, "02 03 04 05 00  00 08 FF FF 00")]);
    writes
        .sample(
            "written in the first round, 26 in the second, whose user mode meets a violation",
            &privileged_first(),
            &[(read(512), 0), (store_mode(0), 0)],
            SAMPLE_PAGES,
            SAMPLE_PROGRAMS,
        )
        .then(&[9, 7], 26, 0, &[]);
}
