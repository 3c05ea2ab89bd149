//! The sample run (RULES 6.11), and the starred cases, which are the twelve of RULES 5.13.

use super::{field_is, naming_none, sample, without_names, Cases, NamedStep, Step};
use crate::write::*;

/// Program 0 reads page 0 through domain 0, and program 1 page 2 through domain 3.
fn sample_run() -> Vec<NamedStep> {
    vec![
        (access(READ, 0x0010), 0, Some(0)),
        (access(READ, 0x0200), 9, None),
        (mask(0x0007), 8, None),
        (entry_call(), 0, None),
        (switch(1), 0, None),
        (return_call(), 0, None),
        (access(READ, 0x0200), 0, Some(3)),
        (access(WRITE, 0x0000), 9, None),
    ]
}

pub fn sample_steps() -> Vec<Step> {
    without_names(&sample_run())
}

fn starred() -> Vec<(&'static str, Vec<NamedStep>)> {
    // The last access is the one that domain 0 alone gives.
    let mut revoked = naming_none(&[vec![(revoke(READ, 0, 3), 0)], field_is(READ, 0, 8, 0x0001)].concat());
    revoked.last_mut().expect("there are steps").2 = Some(0);
    vec![
        ("read page 1", vec![(read(256), 0, Some(1))]),
        ("write page 1", vec![(write(256), 0, Some(1))]),
        ("write page 0", vec![(write(0), 9, None)]),
        ("read address 767", vec![(read(767), 9, None)]),
        ("read address 768", vec![(read(768), 3, None)]),
        ("grant READ, page 0, domain 0", vec![(grant(READ, 0, 0), 12, None)]),
        ("grant WRITE, page 0, domain 3", vec![(grant(WRITE, 0, 3), 11, None)]),
        ("revoke READ, page 0, domain 3, field 0x0001", revoked),
        ("grant READ, page 2, domain 3", vec![(grant(READ, 2, 3), 11, None)]),
        ("the same after mask 0x0007", vec![(mask(0x0007), 0, None), (grant(READ, 2, 3), 0, None)]),
        ("grant READ, page 0, domain 16", vec![(grant(READ, 0, 16), 5, None)]),
        ("return", vec![(return_call(), 7, None)]),
    ]
}

pub fn add(cases: &mut Cases) {
    cases.named_run("the sample run", &sample(), &sample_run());
    for (what, steps) in starred() {
        cases.named_run(&format!("starred: {what}"), &sample(), &steps);
    }
}
