//! The sample, and every domain by itself: as the answer with each right, as the whole context, and as the
//! one that is missing.

use super::{node, program_of, read, write, Cases, OWN};
use crate::cases::sample;

pub fn add(cases: &mut Cases) {
    the_sample(cases);
    single_fields(cases);
    single_contexts(cases);
    missing(cases);
}

/// Program 0 has the context 0x0007 and the mask 0x0003, program 1 the context 0x0008 and the mask 0xFFFF.
fn the_sample(cases: &mut Cases) {
    let (zero, one) = (program_of(&sample(), 0), program_of(&sample(), 1));
    cases.found("the sample's program 0, both rights to page 1", &zero, &[read(1), write(1)], 0x0002);
    cases.found("the sample's program 0, READ of page 0", &zero, &[read(0)], 0x0001);
    cases.found("the sample's program 0, READ of page 1", &zero, &[read(1)], 0x0002);
    cases.found("the sample's program 0, READ of page 2, which its mask denies", &zero, &[read(2)], 0x0004);
    cases.refused(34, "the sample's program 0, WRITE of page 0", &zero, &[write(0)]);
    cases.found("the sample's program 0, WRITE of page 1", &zero, &[write(1)], 0x0002);
    cases.found("the sample's program 0, WRITE of page 2", &zero, &[write(2)], 0x0004);
    cases.found("the sample's program 0, READ of all pages", &zero, &[read(0), read(1), read(2)], 0x0007);
    cases.found("the sample's program 0, READ of pages 2 and 0", &zero, &[read(2), read(0)], 0x0005);
    let all = [read(0), write(0), read(1), write(1), read(2), write(2)];
    cases.refused(34, "the sample's program 0, both rights to all pages", &zero, &all);
    cases.found("the sample's program 0, nothing", &zero, &[], 0x0000);

    for page in 0..3 {
        cases.found(&format!("the sample's program 1, READ of page {page}"), &one, &[read(page)], 0x0008);
        cases.refused(34, &format!("the sample's program 1, WRITE of page {page}"), &one, &[write(page)]);
    }
    cases.found("the sample's program 1, READ of all pages", &one, &[read(0), read(1), read(2)], 0x0008);
    cases.refused(34, "the sample's program 1, both rights to page 1", &one, &[read(1), write(1)]);
    cases.found("the sample's program 1, nothing", &one, &[], 0x0000);
}

/// The field of the other right has all the other domains.
fn single_fields(cases: &mut Cases) {
    for (domain, own) in OWN.into_iter().enumerate() {
        let purpose = format!("domain {domain} alone gives READ, all others WRITE");
        cases.found(&purpose, &node(0xFFFF, &[(own, !own)]), &[read(0)], own);
        let purpose = format!("domain {domain} alone gives WRITE, all others READ");
        cases.found(&purpose, &node(0xFFFF, &[(!own, own)]), &[write(0)], own);
    }
}

fn single_contexts(cases: &mut Cases) {
    for domain in [0, 15] {
        let own = OWN[domain];
        let purpose = format!("domain {domain} is the whole context, and every domain gives both rights");
        cases.found(&purpose, &node(own, &[(0xFFFF, 0xFFFF)]), &[read(0), write(0)], own);
    }
}

/// Even domains with READ, odd ones with WRITE.
fn missing(cases: &mut Cases) {
    for domain in [0, 5, 7, 8, 10, 15] {
        let own = OWN[domain];
        let purpose = format!("only domain {domain} gives the right, and only it is outside the context");
        let page = if domain % 2 == 0 { (own, 0xFFFF) } else { (0xFFFF, own) };
        let pair = if domain % 2 == 0 { read(0) } else { write(0) };
        cases.refused(34, &purpose, &node(!own, &[page]), &[pair]);
    }
}
