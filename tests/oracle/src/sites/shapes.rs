//! Images of every shape: how many pages and programs, which page size, which modes, contexts and masks, and
//! lengths that need both bytes. Nothing but the fields of the pages is counted (RULES 13.3).

use super::{sample, samples, site, Cases};
use crate::write::{input, Plan};

pub fn add(cases: &mut Cases) {
    counts(cases);
    sizes(cases);
    lengths(cases);
    programs(cases);
}

/// Domain 7 has READ of every page, domain 0 READ of the first and domain 15 WRITE of the last.
fn plan(exponent: u8, page_count: usize, program_count: usize) -> Plan {
    let mut pages = vec![(0x0080, 0x0000); page_count];
    pages[0].0 = 0x0081;
    pages[page_count - 1].1 = 0x8000;
    Plan { exponent, pages, programs: vec![(0x0008, 0x0010, 0); program_count] }
}

fn counts(cases: &mut Cases) {
    for (page_count, sum) in [(1, 2), (2, 3), (3, 4), (127, 128), (128, 129)] {
        for program_count in [1, 2, 8] {
            let purpose = format!("pages: {page_count}, programs: {program_count}");
            let rights = [(0, 1, 0), (7, page_count, 0), (15, 0, 1)];
            let image = plan(5, page_count as usize, program_count).image();
            cases.loaded(&purpose, site(&[image]), &rights, (sum, 1));
        }
    }
}

/// Pages of every size; with the largest ones the memory has 65,536 bytes.
fn sizes(cases: &mut Cases) {
    for exponent in 5..=12 {
        let purpose = format!("16 pages, exponent {exponent}");
        cases.loaded(&purpose, site(&[plan(exponent, 16, 1).image()]), &[(0, 1, 0), (7, 16, 0), (15, 0, 1)], (17, 1));
    }
    let largest = site(&[plan(9, 128, 1).image(), plan(10, 64, 1).image(), plan(11, 32, 1).image()]);
    cases.loaded("three memories of 65,536 bytes", largest, &[(0, 3, 0), (7, 224, 0), (15, 0, 3)], (227, 3));
}

/// The sample stands behind each of them, so that a length that is taken wrongly shows twice.
fn lengths(cases: &mut Cases) {
    for (length, page_count, program_count, sum) in [
        (255, 57, 1, 64),
        (256, 56, 2, 63),
        (257, 55, 3, 62),
        (511, 121, 1, 128),
        (512, 120, 2, 127),
        (513, 119, 3, 126),
        (570, 127, 8, 134),
        (574, 128, 8, 135),
    ] {
        let image = plan(5, page_count as usize, program_count).image();
        assert_eq!(image.len(), length);
        let rights = [(0, 2, 0), (1, 1, 1), (2, 1, 1), (3, 3, 0), (7, page_count, 0), (15, 0, 1)];
        let purpose = format!("an image of {length} bytes, then the sample");
        cases.loaded(&purpose, site(&[image, sample().image()]), &rights, (sum, 3));
    }
}

/// The sample's pages with other programs.
fn programs(cases: &mut Cases) {
    let (lines, total) = samples(1);
    let mut of = |purpose: &str, programs: &[(u16, u16, u8)]| {
        let image = Plan { programs: programs.to_vec(), ..sample() }.image();
        cases.loaded(purpose, input(&image, &[]), &lines, total);
    };
    of("one program, in privileged mode", &[(0x0007, 0x0003, 1)]);
    of("the first of two programs in privileged mode", &[(0x0007, 0x0003, 1), (0x0008, 0xFFFF, 0)]);
    of("the second of two programs in privileged mode", &[(0x0007, 0x0003, 0), (0x0008, 0xFFFF, 1)]);
    of("eight programs, all in privileged mode", &[(0x0007, 0x0003, 1); 8]);
    of("programs without a context", &[(0x0000, 0xFFFF, 0), (0x0000, 0x0000, 0)]);
    of("programs whose masks are empty", &[(0xFFFF, 0x0000, 0), (0x000F, 0xFFF0, 0)]);
    of("programs whose contexts have none of the fields' domains", &[(0xFFF0, 0xFFF0, 0); 3]);
    of("eight programs with all domains", &[(0xFFFF, 0xFFFF, 0); 8]);
}
