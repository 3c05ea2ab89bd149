//! What a mask may be made of: the live global context and nothing else (RULES 12.2, 12.3). The stored mask,
//! the stored mode and the other programs must not matter. Empty lists (RULES 12.5).

use super::{each, node, of, program_of, read, stored, with_fields, write, Cases, OWN};
use crate::write::Plan;

pub fn add(cases: &mut Cases) {
    outside(cases);
    rights(cases);
    empty(cases);
    stored_masks(cases);
    privileged(cases);
    programs(cases);
    program_modes(cases);
}

/// Domains outside the context would be fewer, or a smaller number.
fn outside(cases: &mut Cases) {
    cases.fields("1 and 2, domain 0 being outside the context", 0x0006, &[of([0, 1]), of([0, 2])], 0x0006);
    cases.fields("domain 1 of all, 0 being outside the context", 0xFFFE, &[0xFFFF], 0x0002);
    cases.fields("the whole context, one outside it giving all", 0x00F0, &[0x0011, 0x0021, 0x0041, 0x0081], 0x00F0);
    cases.fields("0, 1 and 8 for those in pairs with others", 0x0F0F, &[of([4, 0]), of([5, 1]), of([12, 8])], 0x0103);
    cases.fields("0, 1 and 2, domain 15 being outside the context", 0x7FFF, &[0x8001, 0x8002, 0x8004], 0x0007);
    cases.fields("domain 2, the prevailing 0 being outside the context", 0x000C, &[of([0, 2, 3])], 0x0004);
    cases.fields("domain 3, the prevailing domains of both being outside", 0x0008, &[0x0009, 0x000A], 0x0008);
    cases.refused(34, "domain 0 needed, the context having all others", &with_fields(0xFFFE, &[0x0001]), &[read(0)]);
    cases.refused(34, "the high byte needed, the context being the low one", &with_fields(0x00FF, &[0xFF00]), &each(1));
    cases.refused(34, "even domains needed, the context being odd", &with_fields(0xAAAA, &[0x5555]), &each(1));
    cases.refused(
        34,
        "the first field within the context and the second not",
        &with_fields(0x0001, &[0x0001, 0x0002]),
        &each(2),
    );
}

fn rights(cases: &mut Cases) {
    let both = node(0xFFFF, &[(0x0001, 0x0002)]);
    cases.found("READ of a page with other domains for WRITE", &both, &[read(0)], 0x0001);
    cases.found("WRITE of a page with other domains for READ", &both, &[write(0)], 0x0002);
    let read_only = node(0xFFFF, &[(0x0010, 0x0000)]);
    cases.found("READ of a page that cannot be written", &read_only, &[read(0)], 0x0010);
    cases.refused(34, "WRITE of a page that cannot be written", &read_only, &[write(0)]);
    let write_only = node(0xFFFF, &[(0x0000, 0x0020)]);
    cases.found("WRITE of a page that cannot be read", &write_only, &[write(0)], 0x0020);
    cases.refused(34, "READ of a page that cannot be read", &write_only, &[read(0)]);
    let crossed = node(0xFFFF, &[(0x0001, 0x0002), (0x0002, 0x0001)]);
    cases.found("READ of page 0 and WRITE of page 1, through the same domain", &crossed, &[read(0), write(1)], 0x0001);
    cases.found("WRITE of page 0 and READ of page 1, through the same domain", &crossed, &[write(0), read(1)], 0x0002);
    cases.found("READ of both pages, through two domains", &crossed, &[read(0), read(1)], 0x0003);
    cases.found("WRITE of both pages, through two domains", &crossed, &[write(1), write(0)], 0x0003);
}

fn empty(cases: &mut Cases) {
    let all = [(0xFFFF, 0xFFFF)];
    cases.found("no pair, no context", &node(0x0000, &all), &[], 0x0000);
    cases.found("no pair, every domain in the context", &node(0xFFFF, &all), &[], 0x0000);
    cases.found("no pair, domain 0 in the context", &node(0x0001, &all), &[], 0x0000);
    cases.found("no pair, every domain in context and mask", &stored(0xFFFF, 0xFFFF, 0, &all), &[], 0x0000);
    cases.found("no pair, privileged mode", &stored(0xFFFF, 0xFFFF, 1, &all), &[], 0x0000);
    cases.found("no pair, pages without rights", &node(0xFFFF, &[(0, 0), (0, 0)]), &[], 0x0000);
    cases.refused(34, "one pair, no context, every domain gives it", &node(0x0000, &all), &[read(0)]);
    cases.refused(34, "one pair, no context, mask of every domain", &stored(0x0000, 0xFFFF, 0, &all), &[write(0)]);
    cases.refused(
        34,
        "one pair, every domain in the context, none gives it",
        &node(0xFFFF, &[(0, 0xFFFF)]),
        &[read(0)],
    );
    cases.refused(34, "64 pairs, no context", &node(0x0000, &all), &[read(0); 64]);
}

fn stored_masks(cases: &mut Cases) {
    for (mask, what) in [
        (0x0001, "denies it"),
        (0x0004, "would allow it through another domain"),
        (0x0006, "allows it with one domain too many"),
        (0xFFFF, "has all there is"),
        (0xFFF8, "has what is outside the context"),
    ] {
        let node = stored(0x0007, mask, 0, &[(0x0006, 0x0000)]);
        cases.found(&format!("domain 1, not 2, and the stored mask 0x{mask:04X} {what}"), &node, &[read(0)], 0x0002);
    }
    for (mask, what) in [
        (0x0000, "is empty"),
        (0x0004, "allows the second alone"),
        (0x0005, "is the least"),
        (0x0006, "would do with as many domains"),
        (0xFFFA, "denies both"),
    ] {
        let node = stored(0x0007, mask, 0, &[(0x0003, 0x0004)]);
        let purpose = format!("0 and 2, and the stored mask 0x{mask:04X} {what}");
        cases.found(&purpose, &node, &[read(0), write(0)], 0x0005);
    }
    for mask in [0x0008, 0xFFFF] {
        let node = stored(0x0007, mask, 0, &[(0x0008, 0x0000)]);
        cases.refused(
            34,
            &format!("a domain outside the context that the stored mask 0x{mask:04X} has"),
            &node,
            &[read(0)],
        );
    }
}

/// In privileged mode everything is allowed. What is asked is user mode.
fn privileged(cases: &mut Cases) {
    cases.found("domain 4, stored mode privileged", &stored(0xFFFF, 0, 1, &[(0x0010, 0)]), &[read(0)], 0x0010);
    cases.found("domain 15, stored mode privileged", &stored(0xFFFF, 0xFFFF, 1, &[(0, 0x8000)]), &[write(0)], 0x8000);
    let three = [(0x0003, 0x000C), (0x0030, 0x0000)];
    let node = stored(0xFFFF, 0x0001, 1, &three);
    cases.found("three domains, stored mode privileged", &node, &each(3), 0x0015);
    cases.refused(34, "an empty field, stored mode privileged", &node, &[write(1)]);
    cases.refused(34, "an empty context, stored mode privileged", &stored(0, 0xFFFF, 1, &three), &[read(0)]);
    cases.refused(34, "nothing shared, stored mode privileged", &stored(0x00FF, 0, 1, &[(0xFF00, 0)]), &[read(0)]);
    cases.refused(2, "right 2, stored mode privileged", &node, &[read(0), super::pair(2, 0)]);
    cases.refused(4, "page 2 of two, stored mode privileged", &node, &[read(0), read(2)]);
    cases.refused(33, "65 pairs, stored mode privileged", &node, &[read(0); 65]);
}

fn programs(cases: &mut Cases) {
    // Program k has the domains k and 15 - k.
    let contexts = [0x8001, 0x4002, 0x2004, 0x1008, 0x0810, 0x0420, 0x0240, 0x0180];
    let programs = contexts.iter().map(|&context| (context, !context, 0)).collect();
    let eight = Plan { exponent: 5, pages: vec![(0xFFFF, 0xFF00)], programs };
    for program in 0..8 {
        let high = OWN[15 - usize::from(program)];
        let node = program_of(&eight, program);
        cases.found(&format!("program {program} of eight, READ and WRITE"), &node, &[read(0), write(0)], high);
    }

    let two = |first: u16, second: u16, pages: &[(u16, u16)]| {
        let programs = vec![(first, 0xFFFF, 0), (second, 0x0000, 0)];
        Plan { exponent: 5, pages: pages.to_vec(), programs }
    };
    let plan = two(0x0001, 0x0006, &[(0x0003, 0x0005)]);
    cases.found("program 0, whose domain gives both", &program_of(&plan, 0), &each(2), 0x0001);
    cases.found("program 1, whose domains give one each", &program_of(&plan, 1), &each(2), 0x0006);
    let plan = two(0x0002, 0x0004, &[(0x0002, 0x0004)]);
    cases.found("program 0, what it may do alone", &program_of(&plan, 0), &[read(0)], 0x0002);
    cases.refused(34, "program 0, what program 1 may do", &program_of(&plan, 0), &[write(0)]);
    cases.refused(34, "program 1, what program 0 may do", &program_of(&plan, 1), &[read(0)]);
    cases.found("program 1, what it may do alone", &program_of(&plan, 1), &[write(0)], 0x0004);
    cases.refused(34, "program 0, what both may do together", &program_of(&plan, 0), &each(2));
    let plan = two(0x0000, 0xFFFF, &[(0x0100, 0x0200)]);
    cases.refused(34, "program 0 without a context beside one with all", &program_of(&plan, 0), &each(2));
    cases.found("program 1 with all domains beside one without", &program_of(&plan, 1), &each(2), 0x0300);
}

fn program_modes(cases: &mut Cases) {
    for (first, second) in [(0, 1), (1, 0)] {
        let programs = vec![(0x0003, 0x0002, first), (0x000C, 0xFFF0, second)];
        let plan = Plan { exponent: 5, pages: vec![(0x000F, 0x000A), (0x0001, 0x0004)], programs };
        let modes = format!("stored modes {first} and {second}");
        let (zero, one) = (program_of(&plan, 0), program_of(&plan, 1));
        cases.found(&format!("program 0, {modes}"), &zero, &[read(0), write(0), read(1)], 0x0003);
        cases.refused(34, &format!("program 0, {modes}, a page of the other's"), &zero, &[read(0), write(1)]);
        cases.found(&format!("program 1, {modes}"), &one, &[read(0), write(0), write(1)], 0x000C);
        cases.refused(34, &format!("program 1, {modes}, a page of the other's"), &one, &[read(0), read(1)]);
    }
}
