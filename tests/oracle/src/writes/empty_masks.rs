//! Masks that share nothing with the context: what a refused mask command leaves is what is written,
//! and an image can hold such a mask again (RULES 3.8, 3.20, 3.21).

use super::live::in_interrupt;
use super::questions::ask;
use super::*;
use crate::cases::{clear_flag, turn};

pub fn add(writes: &mut Writes) {
    masks_left(writes);
    rounds_apart(writes);
    no_violation(writes);
}

fn masks_left(writes: &mut Writes) {
    let mut programs = |purpose: &str, steps: &[Step], programs: &str| {
        writes.sample(&format!("empty mask, {purpose}"), &sample(), steps, SAMPLE_PAGES, programs);
    };
    programs(
        "the image's mask after 19",
        &[(mask(0x0700), 19), (mask(0x0000), 19), (mask(0xFFF8), 19)],
        SAMPLE_PROGRAMS,
    );
    programs(
        "the mask that was done before 19, with its bits outside the context",
        &[(mask(0x8406), 0), (mask(0xFFF8), 19), (mask(0x0000), 19)],
        "00 07 84 06 00  00 08 FF FF 00",
    );
    programs(
        "the mask of program 1, whose context counts in its turn",
        &[turn(1), vec![(mask(0x0007), 19), (mask(0x0108), 0), (mask(0x0107), 19)], turn(0)].concat(),
        "00 07 00 03 00  00 08 01 08 00",
    );
    programs(
        "stored by the kernel, which is no mask that the command takes",
        &[in_interrupt(&[(store_mask(0xFFF8), 0)]), vec![(mask(0xFFF8), 19), (mask(0x0010), 19)]].concat(),
        "00 07 FF F8 00  00 08 FF FF 00",
    );
    writes.written(
        "empty mask, an empty context, whose mask only the kernel can change",
        31,
        &Plan { exponent: 5, pages: vec![(0x1234, 0x5678)], programs: vec![(0x0000, 0xBEEF, 0)] },
        &[(mask(0xFFFF), 19), (mask(0x0000), 19), (mask(0xBEEF), 19)],
        31,
        &[
            (0, "01 00 00 12 00 04  02 00 00 16 00 04  03 00 00 1A 00 05  01 05 01 00"),
            (22, "12 34 56 78  00 00 BE EF 00"),
        ],
    );
}

/// The second round has the context that the first one ended with.
fn rounds_apart(writes: &mut Writes) {
    writes
        .sample(
            "empty mask, 19 until the context store, and so not in the second round",
            &sample(),
            &[vec![(mask(0x0008), 19)], in_interrupt(&[(store_context(0x000F), 0)])].concat(),
            SAMPLE_PAGES,
            "00 0F 00 03 00  00 08 FF FF 00",
        )
        .then(&[0, 0, 0, 0], 0, 44, &[(34, "00 0F 00 08 00  00 08 FF FF 00")]);
    let programs = "00 03 00 04 00  00 08 FF FF 00";
    writes
        .sample(
            "empty mask, done until the context store, and 19 in the second round",
            &sample(),
            &[vec![(mask(0x0004), 0)], in_interrupt(&[(store_context(0x0003), 0)])].concat(),
            SAMPLE_PAGES,
            programs,
        )
        .then(&[19, 0, 0, 0], 0, 44, &[(34, programs)]);
}

fn no_violation(writes: &mut Writes) {
    writes
        .sample(
            "empty mask, 19 is no violation and leaves the last one",
            &sample(),
            &[vec![(mask(0x0000), 19)], ask(), vec![(write(9), 9)], clear_flag(), vec![(mask(0xFFF8), 19)], ask()]
                .concat(),
            SAMPLE_PAGES,
            SAMPLE_PROGRAMS,
        )
        .handing_out(&["none", "denied 0 1 9"]);
}
