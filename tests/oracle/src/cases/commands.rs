//! Access, grant, revoke, the mask command, and every call with the flag set.

use super::{clear_flag, context_is, field_is, mask_is, sample, small, turn, Cases, Step};
use crate::write::*;

pub fn add(cases: &mut Cases) {
    access_answers(cases);
    access_addresses(cases);
    access_contexts(cases);
    for command in [Command { name: "grant", record: grant }, Command { name: "revoke", record: revoke }] {
        command_refusals(cases, &command);
        command_order(cases, &command);
        command_levels(cases, &command);
    }
    grants_and_revokes(cases);
    masks(cases);
    flag_set(cases);
}

fn access_answers(cases: &mut Cases) {
    cases.run(
        "access 0: first and last byte of each page that the local context opens",
        &sample(),
        &[(read(0), 0), (read(255), 0), (read(256), 0), (read(511), 0), (write(256), 0), (write(511), 0)],
    );
    cases.run(
        "access 2: rights 2, 3, 128, 129 and 255, and the flag stays clear",
        &sample(),
        &[
            (access(2, 0), 2),
            (access(3, 0), 2),
            (access(128, 0), 2),
            (access(129, 256), 2),
            (access(255, 0), 2),
            (read(0), 0),
        ],
    );
    cases.run(
        "access: 2 before 3, and the flag stays clear after 3",
        &sample(),
        &[(access(2, 768), 2), (access(255, 0xFFFF_FFFF), 2), (write(768), 3), (read(0), 0)],
    );
    cases.run(
        "access: 9 sets the flag, then 8 for allowed and denied pages alike",
        &sample(),
        &[(read(512), 9), (read(512), 8), (read(0), 8), (write(256), 8), (write(0), 8)],
    );
    cases.run(
        "access: 2 before 8, 3 before 8",
        &sample(),
        &[(write(0), 9), (access(2, 0), 2), (read(768), 3), (access(2, 768), 2), (read(0), 8)],
    );
    cases.run(
        "access in privileged mode: allowed in all of memory, 2 and 3 stay",
        &sample(),
        &[
            (entry_call(), 0),
            (write(0), 0),
            (read(512), 0),
            (write(767), 0),
            (access(2, 0), 2),
            (access(2, 768), 2),
            (read(768), 3),
            (write(0x0001_0000), 3),
            (read(0), 0),
        ],
    );
    cases.run(
        "access: a violation is cleared by entry and return, and comes again",
        &sample(),
        &[vec![(read(512), 9), (read(0), 8)], clear_flag(), vec![(read(0), 0), (read(512), 9), (read(0), 8)]].concat(),
    );
    let one_right = small(&[(0x0001, 0), (0, 0x0001)], 0x0001, 0xFFFF);
    cases.run(
        "access: READ alone does not open WRITE, nor WRITE alone READ",
        &one_right,
        &[vec![(read(0), 0), (write(32), 0), (write(0), 9)], clear_flag(), vec![(read(32), 9)]].concat(),
    );
}

fn access_addresses(cases: &mut Cases) {
    let open = Plan { programs: vec![(0xFFFF, 0xFFFF, 0)], ..sample() };
    cases.run(
        "access: last address of memory 0, first past it 3",
        &open,
        &[(read(767), 0), (read(768), 3), (write(767), 0), (write(768), 3), (read(0x0300), 3), (read(0x02FF), 0)],
    );
    cases.run(
        "access 3: the high half of the address counts",
        &open,
        &[
            (read(0x0001_0010), 3),
            (read(0x0100_0010), 3),
            (read(0x8000_0000), 3),
            (read(0xFFFF_FFFF), 3),
            (read(0xFFFF_0000), 3),
            (write(0x0001_0100), 3),
            (read(0x0000_0010), 0),
        ],
    );
    // Pages 0 and 1 differ in both rights, so the boundary shows from both sides.
    for exponent in 5..=12 {
        let size = 1u32 << exponent;
        let plan = Plan { exponent, pages: vec![(1, 0), (0, 1), (1, 1)], programs: vec![(1, 1, 0)] };
        let edges = vec![(read(size - 1), 0), (write(size), 0), (write(2 * size - 1), 0), (read(3 * size - 1), 0)];
        let past = vec![(read(3 * size), 3), (read(size), 9)];
        let back = vec![(write(size - 1), 9)];
        cases.run(
            &format!("access: page boundaries with exponent {exponent}"),
            &plan,
            &[edges, past, clear_flag(), back, clear_flag(), vec![(read(2 * size - 1), 9)]].concat(),
        );
    }
    for (exponent, count) in [(9, 128usize), (10, 64), (11, 32), (12, 16)] {
        let mut pages = vec![(0x0000, 0x8000); count];
        pages[count - 1] = (0x0001, 0x0000);
        let plan = Plan { exponent, pages, programs: vec![(0x8001, 0xFFFF, 0)] };
        cases.run(
            &format!("access: memory of exactly 65,536 bytes, {count} pages with exponent {exponent}"),
            &plan,
            &[
                (read(0xFFFF), 0),
                (read(0x0001_0000), 3),
                (read(0x0001_FFFF), 3),
                (write(0), 0),
                (read(0xFFFF_FFFF), 3),
                (write(0xFFFF), 9),
                (read(0xFFFF), 8),
            ],
        );
    }
    let mut pages = vec![(0, 0); 17];
    pages[8] = (1, 0);
    pages[16] = (0, 1);
    cases.run(
        "access: byte order in the address, 0x0100 is page 8 and 0x0200 page 16",
        &small(&pages, 1, 1),
        &[vec![(read(0x0100), 0), (write(0x0200), 0), (read(0x0001), 9)], clear_flag(), vec![(write(0x0002), 9)]]
            .concat(),
    );
    let mut pages = vec![(0, 0); 128];
    pages[127] = (0x0100, 0x0200);
    cases.run(
        "access: page 127 of 128, pages of 32 bytes",
        &small(&pages, 0x0300, 0xFFFF),
        &[(read(4064), 0), (write(4095), 0), (read(4096), 3), (read(4063), 9)],
    );
}

/// Sixteen pages, page s open to domain s alone, so that each access shows one bit.
fn bit_by_bit(right: u8, bits: u16) -> Vec<Step> {
    let mut steps = Vec::new();
    for s in 0..16u32 {
        if bits & (1 << s) != 0 {
            steps.push((access(right, 32 * s), 0));
        } else {
            steps.push((access(right, 32 * s + 31), 9));
            steps.extend(clear_flag());
        }
    }
    steps
}

fn access_contexts(cases: &mut Cases) {
    let staircase: Vec<(u16, u16)> = (0..16).map(|s| (1 << s, 1 << (15 - s))).collect();
    let reversed = 0xA53Cu16.reverse_bits();
    cases.run("access: the context bit by bit, READ", &small(&staircase, 0xA53C, 0xFFFF), &bit_by_bit(READ, 0xA53C));
    cases.run(
        "access: the context bit by bit, WRITE",
        &small(&staircase, 0xA53C, 0xFFFF),
        &bit_by_bit(WRITE, reversed),
    );
    cases.run("access: the mask bit by bit", &small(&staircase, 0xFFFF, 0x1E72), &bit_by_bit(READ, 0x1E72));
    cases.run("access: context AND mask bit by bit", &small(&staircase, 0x7A1F, 0xC6F3), &bit_by_bit(READ, 0x4213));
    cases.run(
        "access 9: no domain in the mask",
        &small(&[(0xFFFF, 0xFFFF)], 0xFFFF, 0x0000),
        &[(read(0), 9), (write(0), 8)],
    );
    cases.run(
        "access 9: no domain in the context",
        &small(&[(0xFFFF, 0xFFFF)], 0x0000, 0xFFFF),
        &[(write(0), 9), (read(0), 8)],
    );
    cases.run(
        "access 9: context and mask have no domain in common",
        &small(&[(0xFFFF, 0xFFFF)], 0xF0F0, 0x0F0F),
        &[(read(0), 9)],
    );
    cases.run(
        "access 9: an empty field, all domains in the local context",
        &small(&[(0, 0xFFFF)], 0xFFFF, 0xFFFF),
        &[(read(0), 9)],
    );
}

/// Grant and revoke refuse alike, so their refusals are written once.
struct Command {
    name: &'static str,
    record: fn(u8, u16, u16) -> Record,
}

fn command_refusals(cases: &mut Cases, command: &Command) {
    let (name, call) = (command.name, command.record);
    cases.run(
        &format!("{name} 2: rights 2, 128 and 255, and the flag stays clear"),
        &sample(),
        &[(call(2, 0, 3), 2), (call(128, 0, 3), 2), (call(255, 0, 3), 2), (read(0), 0)],
    );
    cases.run(
        &format!("{name} 4: pages 3, 128, 256, 512 and 65535; page 2 is the last"),
        &sample(),
        &[
            (call(READ, 3, 3), 4),
            (call(WRITE, 128, 3), 4),
            (call(READ, 256, 3), 4),
            (call(READ, 512, 3), 4),
            (call(READ, 65_535, 3), 4),
            (call(READ, 2, 3), 11),
            (read(0), 0),
        ],
    );
    let many = small(&[(1, 1); 128], 1, 1);
    cases.run(
        &format!("{name}: page 127 of 128, and 4 for page 128"),
        &many,
        &[(call(READ, 127, 9), 0), (call(WRITE, 127, 9), 0), (call(READ, 128, 9), 4), (call(READ, 0x7F00, 9), 4)],
    );
    cases.run(
        &format!("{name}: page 0 of 1, and 4 for page 1"),
        &small(&[(1, 1)], 1, 1),
        &[(call(READ, 0, 1), 0), (call(READ, 1, 1), 4)],
    );
    cases.run(
        &format!("{name}: domain 15 is 0; domains 16, 17, 0x0103, 0x0300 and 65535 are 5"),
        &sample(),
        &[
            (call(READ, 0, 15), 0),
            (call(READ, 0, 16), 5),
            (call(READ, 0, 17), 5),
            (call(READ, 0, 0x0103), 5),
            (call(READ, 0, 0x0300), 5),
            (call(READ, 0, 65_535), 5),
            (read(0), 0),
        ],
    );
    cases.run(
        &format!("{name} 6: in privileged mode, and the field stays"),
        &sample(),
        &[
            vec![(entry_call(), 0), (call(READ, 0, 3), 6), (call(READ, 0, 4), 6), (return_call(), 0)],
            field_is(READ, 0, 8, 9),
        ]
        .concat(),
    );
    cases.run(
        &format!("{name} 8: with the flag set, and the field stays"),
        &sample(),
        &[vec![(read(512), 9), (call(READ, 0, 3), 8), (call(READ, 0, 4), 8)], field_is(READ, 0, 8, 9)].concat(),
    );
    cases.run(
        &format!("{name} 11: an empty field, and it stays empty"),
        &small(&[(0, 0)], 0xFFFF, 0xFFFF),
        &[vec![(call(READ, 0, 0), 11), (call(READ, 0, 15), 11), (call(WRITE, 0, 1), 11)], field_is(READ, 0, 5, 0)]
            .concat(),
    );
    cases.run(
        &format!("{name} 11: the prevailing domain is in the field but not in the context, though a lower one is"),
        &sample(),
        &[
            turn(1),
            vec![(call(READ, 0, 10), 11), (call(READ, 2, 10), 11), (call(READ, 0, 3), 11)],
            field_is(READ, 0, 8, 9),
        ]
        .concat(),
    );
    cases.run(
        &format!("{name} 11: the prevailing domain is in the context and masked out"),
        &small(&[(0x0006, 0x0006)], 0x0006, 0x0004),
        &[vec![(call(READ, 0, 5), 11), (call(WRITE, 0, 5), 11), (read(0), 0)], field_is(WRITE, 0, 5, 6)].concat(),
    );
    cases.run(
        &format!("{name} 11: the prevailing domain is in the mask and not in the context"),
        &small(&[(0x0006, 0x0006)], 0x0004, 0xFFFF),
        &[(call(READ, 0, 5), 11), (read(0), 0)],
    );
}

fn command_order(cases: &mut Cases, command: &Command) {
    let (name, call) = (command.name, command.record);
    cases.run(
        &format!("{name}: 2 before 4 and 5, 4 before 5, 5 before 11, 11 before 12"),
        &sample(),
        &[
            (call(2, 3, 16), 2),
            (call(2, 0, 16), 2),
            (call(2, 3, 3), 2),
            (call(READ, 3, 16), 4),
            (call(WRITE, 0, 16), 5),
            (call(READ, 2, 16), 5),
            (call(READ, 2, 2), 11),
            (call(READ, 2, 0), 11),
        ],
    );
    cases.run(
        &format!("{name} in privileged mode: 2, 4 and 5 before 6, 6 before 11 and 12"),
        &sample(),
        &[
            (entry_call(), 0),
            (call(2, 0, 3), 2),
            (call(READ, 3, 3), 4),
            (call(READ, 0, 16), 5),
            (call(WRITE, 0, 3), 6),
            (call(READ, 2, 3), 6),
            (call(READ, 0, 0), 6),
        ],
    );
    cases.run(
        &format!("{name} with the flag set: 2, 4 and 5 before 8, 8 before 11 and 12"),
        &sample(),
        &[
            (read(512), 9),
            (call(2, 0, 3), 2),
            (call(READ, 3, 3), 4),
            (call(READ, 0, 16), 5),
            (call(WRITE, 0, 3), 8),
            (call(READ, 2, 3), 8),
            (call(READ, 0, 0), 8),
        ],
    );
}

fn command_levels(cases: &mut Cases, command: &Command) {
    let (name, call) = (command.name, command.record);
    cases.run(
        &format!("{name} 12: at the prevailing domain's level and above it, 0 just below; the flag stays clear"),
        &sample(),
        &[
            (call(READ, 1, 1), 12),
            (call(READ, 1, 0), 12),
            (call(WRITE, 1, 1), 12),
            (call(READ, 1, 2), 0),
            (read(256), 0),
        ],
    );
    cases.run(
        &format!("{name}: domain 15 prevails, no domain is below it"),
        &small(&[(0x8000, 0xC000)], 0xC000, 0xFFFF),
        &[
            vec![(call(READ, 0, 15), 12), (call(READ, 0, 14), 12), (call(READ, 0, 16), 5), (call(READ, 0, 0), 12)],
            field_is(READ, 0, 5, 0x8000),
        ]
        .concat(),
    );
    // Domain 4 prevails in 0x2430; the sweep takes every domain in turn.
    let levels: Vec<Step> = (0..17)
        .map(|s| {
            (
                call(WRITE, 1, s),
                if s == 16 {
                    5
                } else if s <= 4 {
                    12
                } else {
                    0
                },
            )
        })
        .collect();
    let left = if name == "grant" { 0xFFF0 } else { 0x0010 };
    cases.run(
        &format!("{name}: every domain in turn on WRITE, field 0x2430 becomes {left:#06x}"),
        &small(&[(0x2430, 0x2430), (0x2430, 0x2430)], 0x0010, 0xFFFF),
        &[levels, field_is(WRITE, 1, 5, left)].concat(),
    );
    cases.run(
        &format!("{name}: the other right and the other page keep their fields"),
        &small(&[(0x2430, 0x2431), (0x2432, 0x2434)], 0xFFFF, 0xFFFF),
        &[
            vec![(call(READ, 1, 13), 0), (call(READ, 1, 14), 0)],
            field_is(READ, 0, 5, 0x2430),
            field_is(WRITE, 0, 5, 0x2431),
            field_is(WRITE, 1, 5, 0x2434),
        ]
        .concat(),
    );
}

fn grants_and_revokes(cases: &mut Cases) {
    cases.run(
        "grant: bit 5 joins READ of page 0",
        &sample(),
        &[vec![(grant(READ, 0, 5), 0)], field_is(READ, 0, 8, 0x0029)].concat(),
    );
    cases.run(
        "grant: a domain that holds the right already",
        &sample(),
        &[vec![(grant(READ, 0, 3), 0), (grant(READ, 0, 3), 0)], field_is(READ, 0, 8, 0x0009)].concat(),
    );
    cases.run(
        "revoke: a domain that does not hold the right",
        &sample(),
        &[vec![(revoke(READ, 0, 4), 0), (revoke(READ, 0, 4), 0)], field_is(READ, 0, 8, 0x0009)].concat(),
    );
    cases.run(
        "grant opens WRITE of page 1 to the other program, revoke closes it again",
        &sample(),
        &[
            turn(1),
            vec![(write(256), 9)],
            turn(0),
            vec![(grant(WRITE, 1, 3), 0)],
            turn(1),
            vec![(write(256), 0), (grant(WRITE, 1, 4), 11)],
            turn(0),
            vec![(revoke(WRITE, 1, 3), 0)],
            turn(1),
            vec![(write(256), 9)],
        ]
        .concat(),
    );
    cases.run(
        "revoke takes READ of page 0 from the other program",
        &sample(),
        &[turn(1), vec![(read(0), 0)], turn(0), vec![(revoke(READ, 0, 3), 0)], turn(1), vec![(read(0), 9)]].concat(),
    );
    cases.run(
        "grant and revoke: refusals 5, 11 and 12 leave the field",
        &sample(),
        &[
            vec![(grant(READ, 1, 16), 5), (grant(READ, 1, 0), 12), (revoke(READ, 1, 1), 12), (revoke(READ, 1, 17), 5)],
            vec![(grant(READ, 2, 5), 11), (revoke(READ, 2, 3), 11)],
            field_is(READ, 1, 8, 0x000A),
            field_is(READ, 2, 8, 0x000C),
        ]
        .concat(),
    );
    cases.run(
        "grant: pages 1 and 0x0100, domains 5 and 0x0500 are told apart",
        &small(&[(0, 0), (1, 1)], 1, 1),
        &[
            vec![(grant(READ, 0x0100, 5), 4), (grant(READ, 1, 0x0500), 5), (grant(READ, 1, 5), 0)],
            field_is(READ, 1, 5, 0x0021),
        ]
        .concat(),
    );
    cases.run(
        "grant to the highest domain, 14 prevails: field 0x4000 becomes 0xC000",
        &small(&[(0x4000, 0)], 0x4000, 0x4000),
        &[vec![(grant(READ, 0, 14), 12), (grant(READ, 0, 15), 0)], field_is(READ, 0, 5, 0xC000)].concat(),
    );
}

fn masks(cases: &mut Cases) {
    cases.run(
        "mask 0: the local context follows the new mask",
        &sample(),
        &[vec![(mask(0x0004), 0), (read(512), 0), (write(512), 0), (read(256), 9)], clear_flag(), vec![(read(0), 9)]]
            .concat(),
    );
    cases.run(
        "mask 6: in privileged mode, and the mask stays",
        &sample(),
        &[vec![(entry_call(), 0), (mask(0xFFFF), 6), (return_call(), 0)], mask_is(0x0003)].concat(),
    );
    cases.run(
        "mask 8: with the flag set, and the mask stays",
        &sample(),
        &[vec![(write(0), 9), (mask(0xFFFF), 8)], mask_is(0x0003)].concat(),
    );
    cases.run("mask keeps bits outside the context", &sample(), &[vec![(mask(0xA409), 0)], mask_is(0xA409)].concat());
    cases.run(
        "mask keeps bits outside the context through a switch away and back",
        &sample(),
        &[vec![(mask(0x8D01), 0)], turn(1), vec![(read(512), 0)], turn(0), vec![(read(0), 0)], mask_is(0x8D01)]
            .concat(),
    );
    cases.run(
        "mask: byte order, 0x0700 shares nothing with context 0x0007, 0x0402 shares domain 1 and 0x0007 all",
        &sample(),
        &[
            (mask(0x0700), 19),
            (read(0), 0),
            (mask(0x0402), 0),
            (write(256), 0),
            (mask(0x0007), 0),
            (read(0), 0),
            (read(512), 0),
        ],
    );
    cases.run(
        "mask: right and A are ignored",
        &sample(),
        &[vec![(record(4, 0xEE, 0xBEEF, 0x0405), 0)], mask_is(0x0405)].concat(),
    );
    cases.run(
        "mask 0x0000 is refused from the program; from the kernel it closes everything",
        &sample(),
        &[
            (mask(0), 19),
            (entry_call(), 0),
            (store_mask(0), 0),
            (return_call(), 0),
            (grant(READ, 0, 3), 11),
            (read(0), 9),
        ],
    );
}

fn flag_set(cases: &mut Cases) {
    let refused = vec![
        (read(0), 8),
        (read(768), 3),
        (read_two(255), 8),
        (grant(READ, 0, 4), 8),
        (revoke(READ, 0, 3), 8),
        (mask(0x0007), 8),
        (return_call(), 7),
        (switch(1), 7),
        (switch(2), 7),
        (store_field(READ, 0, 0xFFFF), 7),
        (store_context(0xFFFF), 7),
        (store_mask(0xFFFF), 7),
        (store_mode(0), 7),
        (store_mode(1), 7),
        (store_mode(2), 17),
        (question(), 7),
        (record(14, 0, 0, 0), 18),
    ];
    // After each call the flag is seen to be still set.
    let watched: Vec<Step> = refused.into_iter().flat_map(|step| [step, (read(0), 8)]).collect();
    cases.run(
        "with the flag set, each call but entry: it is refused and the flag stays",
        &sample(),
        &[vec![(read(512), 9)], watched.clone(), clear_flag(), vec![(write(256), 0), (read(512), 9)]].concat(),
    );
    cases.run(
        "the same, and READ of page 0 stays",
        &sample(),
        &[vec![(read(512), 9)], watched.clone(), field_is(READ, 0, 8, 9)].concat(),
    );
    cases.run(
        "the same, and the mask stays",
        &sample(),
        &[vec![(read(512), 9)], watched.clone(), mask_is(0x0003)].concat(),
    );
    cases.run(
        "the same, and the context stays",
        &sample(),
        &[vec![(read(512), 9)], watched, context_is(0x0007)].concat(),
    );
    cases.run(
        "with the flag set: entry is 0 and clears it",
        &sample(),
        &[(read(512), 9), (entry_call(), 0), (read(512), 0), (return_call(), 0), (mask(0x0007), 0), (read(512), 0)],
    );
}
