//! The mask command refuses a mask that shares nothing with the live global context, after 6 and 8
//! (RULES 3.8), and nothing else refuses one (RULES 3.20, 3.21). The third part of a step is the
//! domain that it names, by which an access shows the mask that a refusal left.
//!
//! The words are chosen so that other readings answer otherwise: another word asked than the context
//! of now, such as the mask before, the table's context or another program's; another condition than
//! that the two words share nothing; another place among the refusals; and a refusal that changes
//! something.

use super::named::{cleared, in_interrupt, turn_of};
use super::{small, Cases, NamedStep};
use crate::write::*;

pub fn add(cases: &mut Cases) {
    each_domain(cases);
    empty_context(cases);
    full_context(cases);
    context_of_now(cases);
    opposites(cases);
    order(cases);
    other_ways(cases);
    histories(cases);
}

/// One page that all domains may read and write.
const OPEN: [(u16, u16); 1] = [(0xFFFF, 0xFFFF)];

/// A mask command that is done, and a read that names the domain left of highest level.
fn done(bits: u16, domain: u16) -> Vec<NamedStep> {
    vec![(mask(bits), 0, None), (read(0), 0, Some(domain))]
}

/// A mask command that is refused, and a read that names the same domain as before.
fn refused(bits: u16, domain: u16) -> Vec<NamedStep> {
    vec![(mask(bits), 19, None), (read(0), 0, Some(domain))]
}

/// A denied read, after which the flag is cleared.
fn nothing_left() -> Vec<NamedStep> {
    [vec![(read(0), 9, None)], cleared()].concat()
}

/// Program 0 has domains 0 to 7 and program 1 has 8 to 15. Each mask has all domains that its program
/// has not, and one that it has.
fn each_domain(cases: &mut Cases) {
    let mut steps = Vec::new();
    for s in 0..8 {
        steps.extend(done(0xFF00 | 1 << s, s));
    }
    steps.extend(refused(0xFF00, 7));
    steps.extend(turn_of(1));
    for s in 8..16 {
        steps.extend(done(0x00FF | 1 << s, s));
    }
    steps.extend(refused(0x00FF, 15));
    steps.extend(turn_of(0));
    steps.push((read(0), 0, Some(7)));
    cases.named_run(
        "empty mask: one shared domain is enough, each of the sixteen, and without one it is 19",
        &Plan { exponent: 5, pages: OPEN.to_vec(), programs: vec![(0x00FF, 0xFFFF, 0), (0xFF00, 0xFFFF, 0)] },
        &steps,
    );
}

fn empty_context(cases: &mut Cases) {
    cases.named_run(
        "empty mask: with an empty context every mask is 19, full, empty and the one that is there; 8 and 6 before it",
        &small(&OPEN, 0x0000, 0x1234), // mask 2, 4, 5, 9, 12
        &[
            vec![
                (mask(0xFFFF), 19, None),
                (mask(0x0000), 19, None),
                (mask(0x1234), 19, None),
                (mask(0x0001), 19, None),
                (mask(0x8000), 19, None),
                (write(0), 9, None),
                (mask(0xFFFF), 8, None),
                (mask(0x0000), 8, None),
                (entry_call(), 0, None),
                (mask(0xFFFF), 6, None),
                (mask(0x0000), 6, None),
                (store_context(0x0205), 0, None), // 0, 2, 9
                (return_call(), 0, None),
                // The image's mask is still there.
                (read(0), 0, Some(2)),
            ],
            done(0x0200, 9),
            in_interrupt(store_context(0x0000)),
            vec![(mask(0x0200), 19, None), (mask(0xFFFF), 19, None), (read(0), 9, None)],
        ]
        .concat(),
    );
}

fn full_context(cases: &mut Cases) {
    cases.named_run(
        "empty mask: with a full context 0 alone is 19",
        &small(&OPEN, 0xFFFF, 0x00F0),
        &[refused(0x0000, 4), done(0x8000, 15), refused(0x0000, 15), done(0xFFFF, 0), refused(0x0000, 0)].concat(),
    );
}

/// The image has context 4 to 7 and mask 4 and 5.
fn context_of_now(cases: &mut Cases) {
    cases.named_run(
        "empty mask: the whole context of now counts, not the mask before, nor the context in the table",
        &small(&OPEN, 0x00F0, 0x0030),
        &[
            done(0x00C0, 6),    // what was masked out until now
            refused(0x0F00, 6), // as many domains as the context, next to it
            done(0x00F0, 4),    // the context itself
            done(0x0010, 4),
            done(0x0010, 4),    // the mask that is there
            done(0xFF10, 4),    // most of it outside the context
            refused(0xFF00, 4), // eight domains of the mask before
            done(0xFF20, 5),
            done(0xFFFF, 4),
            refused(0xFF0F, 4), // all but the context
            // 8 to 11; the table still has 4 to 7.
            in_interrupt(store_context(0x0F00)),
            refused(0x00F0, 8),
            done(0x0400, 10),
            // Now the table has 8 to 11 too.
            in_interrupt(switch(0)),
            refused(0x00F0, 10),
            done(0x0800, 11),
            in_interrupt(store_context(0x0000)),
            vec![(mask(0x0800), 19, None), (mask(0x0F00), 19, None), (mask(0x0000), 19, None), (read(0), 9, None)],
            // 11 to 13, of which the mask has 11 as before.
            in_interrupt(store_context(0x3800)),
            refused(0xC7FF, 11),
            done(0x1000, 12),
        ]
        .concat(),
    );
}

/// For several contexts: all domains but the context's are 19, and some with one of the context's are done.
fn opposites(cases: &mut Cases) {
    let mut steps = [refused(0xA5C3, 2), done(0xA5D3, 4)].concat();
    for (context, others, bits, domain) in [
        (0x0001, 0xFFFE, 0x0001, 0),
        (0x0080, 0xFF7F, 0x0180, 7),
        (0x0100, 0xFEFF, 0xFFFF, 8),
        (0x8000, 0x7FFF, 0x8001, 15),
        (0xFFFE, 0x0001, 0x0101, 8),
        (0x7FFF, 0x8000, 0xC000, 14),
    ] {
        steps.extend(in_interrupt(store_context(context)));
        steps.push((mask(others), 19, None));
        steps.extend(done(bits, domain));
    }
    cases.named_run(
        "empty mask: all domains but those of the context, for seven contexts",
        &small(&OPEN, 0x5A3C, 0xFFFF),
        &steps,
    );
}

/// Domain 0 may read the page, and nobody may write it. The context has 0, 1 and 2.
fn order(cases: &mut Cases) {
    cases.named_run(
        "empty mask: 6 and 8 before 19, no flag after it, and 0 for a domain that no page has",
        &small(&[(0x0001, 0x0000)], 0x0007, 0x0001),
        &[
            vec![(mask(0xFFF8), 19, None), (mask(0x0000), 19, None), (read(0), 0, Some(0))],
            vec![(mask(0x0004), 0, None), (read(0), 9, None)],
            vec![(mask(0xFFF8), 8, None), (mask(0x0000), 8, None), (mask(0x0001), 8, None)],
            vec![(entry_call(), 0, None), (mask(0xFFF8), 6, None), (mask(0x0000), 6, None), (mask(0x0001), 6, None)],
            // User mode within the interrupt, where the mask is 0x0004 still.
            vec![(store_mode(0), 0, None), (mask(0xFFF8), 19, None), (read(0), 9, None), (mask(0x0000), 8, None)],
            cleared(),
            vec![(mask(0x0003), 0, None), (mask(0x0008), 19, None), (read(0), 0, Some(0)), (write(0), 9, None)],
        ]
        .concat(),
    );
}

/// Program 0 has domains 0 to 3 and program 1 has 4 to 7. The image leaves both nothing.
fn other_ways(cases: &mut Cases) {
    cases.named_run(
        "empty mask: an image, a switch and the kernel's stores of mask and context may leave nothing",
        &Plan { exponent: 5, pages: OPEN.to_vec(), programs: vec![(0x000F, 0xF000, 0), (0x00F0, 0x0F0F, 0)] },
        &[
            vec![(grant(READ, 0, 9), 11, None), (revoke(READ, 0, 9), 11, None), (read(0), 9, None)],
            vec![(mask(0x0001), 8, None), (mask(0xF000), 8, None)],
            cleared(),
            vec![
                (mask(0xF000), 19, None), // the mask that is there
                (mask(0x00F0), 19, None), // the other program's context
                // Right and A are ignored here too.
                (record(4, 1, 0x000F, 0x0F00), 19, None),
            ],
            nothing_left(),
            done(0x0102, 1),
            turn_of(1),
            vec![(mask(0x000F), 19, None)],
            nothing_left(),
            done(0x0140, 6),
            turn_of(0),
            vec![(read(0), 0, Some(1))],
            in_interrupt(store_mask(0x0FF0)),
            nothing_left(),
            vec![(mask(0x0FF0), 19, None)],
            done(0x0008, 3),
            in_interrupt(store_mask(0x0000)),
            vec![(revoke(READ, 0, 9), 11, None)],
            nothing_left(),
            vec![(mask(0x0000), 19, None)],
            done(0x000C, 2),
            // The mask is 2 and 3, and the context becomes 8 to 11.
            in_interrupt(store_context(0x0F00)),
            nothing_left(),
            vec![(mask(0x000C), 19, None)],
            done(0x0C00, 10),
            // The kernel leaves both programs nothing, each while it is current.
            vec![
                (entry_call(), 0, None),
                (store_mask(0x000F), 0, None),
                (switch(1), 0, None),
                (store_context(0x000F), 0, None),
                (switch(0), 0, None),
                (return_call(), 0, None),
            ],
            nothing_left(),
            turn_of(1),
            nothing_left(),
            vec![(entry_call(), 0, None), (store_mode(0), 0, None), (read(0), 9, None)],
        ]
        .concat(),
    );
}

/// Two histories of one image that are alike for program 0 (RULES 4.6), which has 0 and 1. Program 1
/// has 2 to 4, and no domain of its own prevails. So program 0's masks must be refused and done alike.
fn histories(cases: &mut Cases) {
    let node =
        Plan { exponent: 5, pages: vec![(0x001F, 0x001F)], programs: vec![(0x0003, 0xFFFF, 0), (0x001C, 0xFFFF, 0)] };
    let opening = [refused(0x0004, 0), done(0x0006, 1)].concat();
    let second = [refused(0x001C, 1), done(0x0011, 0)].concat();
    let third = [refused(0x0000, 0), done(0x000A, 1)].concat();
    cases.named_run(
        "empty mask: in the turns of program 0 alone",
        &node,
        &[opening.clone(), turn_of(0), second.clone(), turn_of(0), third.clone()].concat(),
    );
    cases.named_run(
        "empty mask: the same in the same turns of program 0, with turns of program 1 between them",
        &node,
        &[
            opening,
            turn_of(1),
            refused(0x0003, 2),
            done(0x0019, 3),
            turn_of(0),
            second,
            turn_of(1),
            refused(0x0001, 3),
            done(0x0010, 4),
            refused(0xFFE3, 4),
            turn_of(0),
            third,
        ]
        .concat(),
    );
}
