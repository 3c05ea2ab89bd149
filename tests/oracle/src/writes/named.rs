//! The domain that an access names, in two rounds (RULES 2.13, 3.3): what the first round writes is
//! what the accesses of the second meet.

use super::live::in_interrupt;
use super::*;
use crate::cases::{small, turn};

pub fn add(writes: &mut Writes) {
    sample_unchanged(writes);
    changed_between(writes);
    mode_changed(writes);
    two_digits(writes);
    not_written(writes);
}

/// Both rounds are the same. A question has its own line after that of its number.
fn sample_unchanged(writes: &mut Writes) {
    writes
        .sample(
            "named, the sample: accesses in both programs' turns, a violation and the question for it",
            &sample(),
            &[
                vec![(read(16), 0), (question(), 7), (read(256), 0), (write_two(510), 0), (read_two(255), 0)],
                vec![(read(512), 9), (read(16), 8), (entry_call(), 0), (read(512), 0), (question(), 0)],
                vec![(switch(1), 0), (return_call(), 0), (read(512), 0), (read_two(511), 0)],
                turn(0),
                vec![(record(14, 0, 0, 0), 18), (read_two(0), 0)],
            ]
            .concat(),
            SAMPLE_PAGES,
            SAMPLE_PROGRAMS,
        )
        .handing_out(&["none", "denied 0 0 512"])
        .naming(
            &[
                &[Some(0), None, Some(1), Some(1), Some(0)][..],
                &[None, None, None, None, None],
                &[None, None, Some(3), Some(3)],
                &[None, None, None],
                &[None, Some(0)],
            ]
            .concat(),
        );
}

/// READ of page 0 becomes 1 and 2, the mask 1 to 3 and the context all but 1.
fn changed_between(writes: &mut Writes) {
    writes
        .sample(
            "named, fields, mask and context of the first round in the second",
            &sample(),
            &[
                vec![(read(0), 0), (read_two(255), 0)],
                in_interrupt(&[(store_field(READ, 0, 0x0006), 0)]),
                vec![(read(0), 0), (mask(0x000E), 0)],
                in_interrupt(&[(store_context(0xFFFD), 0)]),
                vec![(read(0), 0), (read_two(255), 0)],
            ]
            .concat(),
            "00 06 00 00  00 0A 00 02  00 0C 00 04",
            "FF FD 00 0E 00  00 08 FF FF 00",
        )
        .naming(&[Some(0), Some(0), None, None, None, Some(1), None, None, None, None, Some(2), Some(2)])
        .then_naming(&[Some(2), Some(2), None, None, None, Some(2), None, None, None, None, Some(2), Some(2)]);
}

/// The second round starts in the user mode that the first one ended in.
fn mode_changed(writes: &mut Writes) {
    let bytes = [(22, SAMPLE_PAGES), (34, SAMPLE_PROGRAMS)];
    writes
        .sample(
            "named, none in privileged mode until the mode store",
            &privileged_first(),
            &[(read(0), 0), (read_two(255), 0), (store_mode(0), 0), (read(0), 0), (read_two(256), 0)],
            SAMPLE_PAGES,
            SAMPLE_PROGRAMS,
        )
        .then(&[0, 0, 7, 0, 0], 0, 44, &bytes)
        .naming(&[None, None, None, Some(0), Some(1)])
        .then_naming(&[Some(0), Some(0), None, Some(0), Some(1)]);
}

/// READ of page 0 holds 13 and 15, of page 1 10 and 15; WRITE holds 12 and 14, and 11 and 14.
fn two_digits(writes: &mut Writes) {
    writes
        .written(
            "named, domains 10 to 15, with another mask in the second round",
            35,
            &small(&[(0xA000, 0x5000), (0x8400, 0x4800)], 0xFF00, 0xFFFF),
            &[
                (read_two(31), 0),
                (write_two(31), 0),
                (read(32), 0),
                (write(63), 0),
                (mask(0xC0FF), 0),
                (read_two(31), 0),
                (write_two(31), 0),
            ],
            35,
            &[
                (0, "01 00 00 12 00 04  02 00 00 16 00 08  03 00 00 1E 00 05  02 05 01 00"),
                (22, "A0 00 50 00  84 00 48 00  FF 00 C0 FF 00"),
            ],
        )
        .naming(&[Some(13), Some(12), Some(10), Some(11), None, Some(15), Some(14)])
        .then_naming(&[Some(15), Some(14), Some(15), Some(14), None, Some(15), Some(14)]);
}

fn not_written(writes: &mut Writes) {
    writes
        .refused(
            "named, an access before the one that sets the flag",
            44,
            &sample(),
            &[(write(256), 0), (read_two(511), 9), (write(256), 8)],
            26,
        )
        .naming(&[Some(1), None, None]);
}
