//! Accesses of two bytes, kind 13 (RULES 3.2, 3.3, 6.5): at every page edge of every page size, at
//! the end of memory, and with their refusals in order. What the last violation then is, is seen
//! in the cases of writing.

use super::kernel::{in_privileged_mode, privileged_second};
use super::{clear_flag, field_is, mask_is, naming_none, sample, small, turn, Cases, NamedStep, Step};
use crate::write::*;

pub fn add(cases: &mut Cases) {
    for exponent in 5..=12 {
        cases.named_run(&edge_purpose(exponent), &node_of_letters(exponent), &all_edges(exponent));
    }
    within_a_page(cases);
    ends_of_memory(cases);
    ends_of_addresses(cases);
    order(cases);
    fields_apart(cases);
    changes_between(cases);
    masks(cases);
    histories(cases);
    nothing_else_changes(cases);
}

/// What the pages give through the local context, a letter for each: READ alone (R), WRITE alone
/// (W), both (B), or nothing (N). A run goes round them from a place of its own on.
const LETTERS: &str = "BRBWBBRBWBRWRRRBBWBRRWBWWWWBWNRBW";

/// Pages that fit: 128 at the most, and 65,536 bytes at the most.
fn page_count(exponent: u8) -> u32 {
    128.min(65_536 >> exponent)
}

fn letter(exponent: u8, page: u32) -> char {
    let place = 5 * usize::from(exponent) + page as usize;
    LETTERS.chars().nth(place % LETTERS.len()).expect("the place is below the length")
}

fn gives(letter: char, right: u8) -> bool {
    letter == 'B' || letter == if right == READ { 'R' } else { 'W' }
}

/// A page gives through one of four domains of the local context, 0x00F0, and its neighbours
/// through others. A page that does not give has all domains but those four.
fn node_of_letters(exponent: u8) -> Plan {
    let field = |page, right| if gives(letter(exponent, page), right) { 0x0010 << (page % 4) } else { 0xFF0F };
    Plan {
        exponent,
        pages: (0..page_count(exponent)).map(|page| (field(page, READ), field(page, WRITE))).collect(),
        programs: vec![(0x0FF0, 0xF0F3, 0)],
    }
}

fn edge_purpose(exponent: u8) -> String {
    let (count, size) = (page_count(exponent), 1u32 << exponent);
    format!("two bytes: around every edge of {count} pages of {size} bytes")
}

/// An access and its answer, 0 where all that it touches gives the right and else 9, after which
/// the flag is cleared.
fn tried(record: Record, all_give: bool) -> Vec<Step> {
    if all_give {
        vec![(record, 0)]
    } else {
        [vec![(record, 9)], clear_flag()].concat()
    }
}

/// The same, with what the access names where it is allowed: the one domain through which the page
/// of its first byte gives, of those that `node_of_letters` hands round.
fn tried_from(page: u32, record: Record, all_give: bool) -> Vec<NamedStep> {
    let mut steps = naming_none(&tried(record, all_give));
    if all_give {
        steps[0].2 = Some([4, 5, 6, 7][page as usize % 4]);
    }
    steps
}

/// At each edge: the last two bytes in front of it, one byte on each side, and the first two
/// behind it. At the first and the last edge also the single bytes next to it.
fn all_edges(exponent: u8) -> Vec<NamedStep> {
    let (count, size) = (page_count(exponent), 1u32 << exponent);
    let mut steps = Vec::new();
    for page in 1..count {
        let edge = page * size;
        let (front, behind) = (letter(exponent, page - 1), letter(exponent, page));
        let right = right_alone(front, behind);
        steps.extend(tried_from(page - 1, access_two(right, edge - 2), gives(front, right)));
        let right = right_across(count, page, front, behind);
        let both_give = gives(front, right) && gives(behind, right);
        steps.extend(tried_from(page - 1, access_two(right, edge - 1), both_give));
        if page == 1 || page == count - 1 {
            steps.extend(tried_from(page - 1, access(right, edge - 1), gives(front, right)));
            steps.extend(tried_from(page, access(right, edge), gives(behind, right)));
        }
        let right = right_alone(behind, front);
        steps.extend(tried_from(page, access_two(right, edge), gives(behind, right)));
    }
    // There is no page behind the last one.
    steps.push((read_two(count * size - 1), 3, None));
    steps.push((write_two(count * size - 1), 3, None));
    steps
}

/// A right that a page gives and that its neighbour does not, as far as there is one, so that the
/// neighbour in its place would show.
fn right_alone(letter: char, neighbour: char) -> u8 {
    let best = |right: &u8| 2 * u8::from(gives(letter, *right)) + u8::from(!gives(neighbour, *right));
    [READ, WRITE].into_iter().max_by_key(best).expect("there are two rights")
}

/// READ and WRITE in turn. Where the pages are many, six of seven edges have a right that both give,
/// if there is one: a violation takes three records.
fn right_across(count: u32, page: u32, front: char, behind: char) -> u8 {
    let turn = (page % 2) as u8;
    let both = |right: &u8| gives(front, *right) && gives(behind, *right);
    if count < 64 || page.is_multiple_of(7) {
        turn
    } else {
        [turn, 1 - turn].into_iter().find(both).unwrap_or(turn)
    }
}

/// In the sample program 0 may read pages 0 and 1 and write page 1. READ of page 0 is its by domain
/// 0, both rights to page 1 by domain 1.
fn within_a_page(cases: &mut Cases) {
    cases.run(
        "two bytes of one page, at even and at odd addresses: 0 where it gives and 9 where it does not",
        &sample(),
        &[
            vec![(read_two(0), 0), (read_two(1), 0), (read_two(253), 0), (read_two(254), 0)],
            vec![(write_two(256), 0), (write_two(257), 0), (write_two(509), 0), (write_two(510), 0)],
            tried(write_two(100), false),
            tried(write_two(101), false),
            tried(read_two(513), false),
            vec![(read_two(766), 9), (read_two(0), 8), (read(0), 8)],
        ]
        .concat(),
    );
    cases.run(
        "two bytes of two pages: both give, the first alone denies, the second alone denies, and no byte more counts",
        &sample(),
        &[
            vec![(read_two(255), 0)],
            tried(write_two(255), false),
            tried(read_two(511), false),
            tried(write_two(511), false),
            vec![(write_two(510), 0), (write_two(256), 0), (read_two(254), 0), (read_two(256), 0)],
        ]
        .concat(),
    );
}

/// In user mode and then in an interrupt: the same accesses with the same answers.
fn in_both_modes(steps: &[Step]) -> Vec<Step> {
    [steps, &[(entry_call(), 0)], steps, &[in_privileged_mode(), (return_call(), 0)], &steps[..1]].concat()
}

fn ends_of_memory(cases: &mut Cases) {
    let open = Plan { programs: vec![(0xFFFF, 0xFFFF, 0)], ..sample() };
    cases.run(
        "two bytes at the end of 768 bytes, in both modes: at the last but one 0, at the last 3, past it 3",
        &open,
        &in_both_modes(&[
            (read_two(765), 0),
            (read_two(766), 0),
            (write_two(766), 0),
            (read(767), 0),
            (read_two(767), 3),
            (write_two(767), 3),
            (read(768), 3),
            (read_two(768), 3),
            (read_two(769), 3),
        ]),
    );
    cases.run(
        "two bytes at the end of one page of 32 bytes, in both modes",
        &small(&[(0x0001, 0x0001)], 0x0001, 0xFFFF),
        &in_both_modes(&[
            (read_two(0), 0),
            (write_two(29), 0),
            (read_two(30), 0),
            (write(31), 0),
            (write_two(31), 3),
            (read_two(31), 3),
            (read_two(32), 3),
            (read_two(63), 3),
        ]),
    );
    cases.run(
        "two bytes at the end of one page of 4,096 bytes, in both modes",
        &Plan { exponent: 12, ..small(&[(0x0001, 0x0001)], 0x0001, 0xFFFF) },
        &in_both_modes(&[(write_two(4_094), 0), (write(4_095), 0), (write_two(4_095), 3), (write_two(4_096), 3)]),
    );
}

fn ends_of_addresses(cases: &mut Cases) {
    let whole = Plan { exponent: 12, pages: vec![(0x8001, 0x8001); 16], programs: vec![(0x8000, 0xFFFF, 0)] };
    cases.run(
        "two bytes at the end of 65,536 bytes and of all addresses, in both modes: nothing wraps",
        &whole,
        &in_both_modes(&[
            (read_two(0x0000), 0),
            (read_two(0xFFFE), 0),
            (read(0xFFFF), 0),
            (read_two(0xFFFF), 3),
            (read(0x0001_0000), 3),
            (read_two(0x0001_0000), 3),
            (read_two(0xFFFF_FFFE), 3),
            (read_two(0xFFFF_FFFF), 3),
            (write_two(0xFFFF_FFFF), 3),
        ]),
    );
    cases.run(
        "two bytes of the sample: the high half of the address counts, in both modes",
        &sample(),
        &in_both_modes(&[
            (read_two(0x0000_0010), 0),
            (read_two(0x0000_FFFF), 3),
            (read_two(0x0001_0000), 3),
            (read_two(0x0001_0010), 3),
            (read_two(0x0100_0010), 3),
            (read_two(0xFFFF_FFFE), 3),
            (read_two(0xFFFF_FFFF), 3),
        ]),
    );
}

fn order(cases: &mut Cases) {
    cases.run(
        "two bytes: 2 before 3 and 9, 3 before 9, and neither sets the flag",
        &sample(),
        &[
            (access_two(2, 767), 2),
            (access_two(255, 0xFFFF_FFFF), 2),
            (access_two(2, 511), 2),
            (access_two(3, 0), 2),
            (access_two(128, 0), 2),
            (access_two(129, 256), 2),
            (access_two(255, 0), 2),
            // The last page denies, and what is past it is not asked.
            (read_two(767), 3),
            (write_two(767), 3),
            (read_two(255), 0),
        ],
    );
    cases.run(
        "two bytes with the flag set: 2 and 3 before 8, 8 before 9 and where both pages give",
        &sample(),
        &[
            vec![(read_two(511), 9), (access_two(2, 511), 2), (access_two(255, 767), 2), (read_two(767), 3)],
            vec![(write_two(0xFFFF_FFFF), 3), (read_two(511), 8), (write_two(0), 8), (read_two(255), 8)],
            vec![(read_two(0), 8), (read(0), 8), (mask(0x0007), 8), (grant(READ, 0, 4), 8)],
            clear_flag(),
            vec![(read_two(255), 0), (read(512), 9), (read_two(255), 8), (read_two(767), 3)],
        ]
        .concat(),
    );
    cases.run(
        "two bytes in privileged mode: 2 and 3 stay, and no page is asked; the flag was set before",
        &sample(),
        &[
            (write_two(255), 9),
            (entry_call(), 0),
            (write_two(255), 0),
            (read_two(511), 0),
            (write_two(0), 0),
            (read_two(766), 0),
            (access_two(2, 0), 2),
            (access_two(255, 767), 2),
            (read_two(767), 3),
            (return_call(), 0),
            (read_two(255), 0),
        ],
    );
    cases.run(
        "two bytes in the turn of a program stored in privileged mode",
        &privileged_second(),
        &[turn(1), vec![(write_two(255), 0), (write_two(767), 3)], turn(0), vec![(write_two(255), 9)]].concat(),
    );
}

/// The local context has domains 1 and 2. Each line has what the page in front and the page behind
/// hold of them.
fn fields_apart(cases: &mut Cases) {
    let pages = [(0x0002, 0x0006), (0x0004, 0x0001), (0x0000, 0x0002), (0xFFFF, 0x0002), (0xFFF9, 0x0004), (0x0006, 0)];
    cases.run(
        "two bytes: each page gives by itself, through one domain or another",
        &small(&pages, 0x0006, 0xFFFF),
        &[
            tried(read_two(31), true),    // 1, 2
            tried(read_two(63), false),   // 2, nothing
            tried(read_two(95), false),   // nothing, both
            tried(read_two(127), false),  // both, all domains but these
            tried(read_two(159), false),  // all domains but these, both
            tried(write_two(31), false),  // both, domain 0 alone
            tried(write_two(63), false),  // domain 0 alone, 1
            tried(write_two(95), true),   // 1, 1
            tried(write_two(127), true),  // 1, 2
            tried(write_two(159), false), // 2, nothing
        ]
        .concat(),
    );
}

fn changes_between(cases: &mut Cases) {
    // Domain 0 prevails in both fields. With mask 0x0002 only domain 1 counts, which page 0 alone has.
    let as_domain_1 =
        |give: bool| [vec![(mask(0x0002), 0)], tried(read_two(31), give), vec![(mask(0x0003), 0)]].concat();
    cases.run(
        "two bytes: a grant for the second page makes 9 a 0, revocations for either page make it 9 again",
        &small(&[(0x0003, 0x0000), (0x0001, 0x0000)], 0x0003, 0x0003),
        &[
            as_domain_1(false),
            vec![(grant(READ, 1, 1), 0)],
            as_domain_1(true),
            vec![(revoke(READ, 1, 1), 0)],
            as_domain_1(false),
            vec![(grant(READ, 1, 1), 0), (revoke(READ, 0, 1), 0)],
            as_domain_1(false),
            vec![(grant(READ, 0, 1), 0)],
            as_domain_1(true),
        ]
        .concat(),
    );
    // Program 1 has domain 3. Domain 1 prevails in WRITE of page 1, domain 2 in that of page 2.
    cases.run(
        "two bytes: program 0 gives WRITE of two pages to program 1 one by one, and takes one back",
        &sample(),
        &[
            vec![(mask(0x0007), 0)],
            turn(1),
            vec![(write_two(511), 9)],
            turn(0),
            vec![(grant(WRITE, 2, 3), 0)],
            turn(1),
            vec![(write_two(512), 0), (write_two(511), 9)],
            turn(0),
            vec![(grant(WRITE, 1, 3), 0)],
            turn(1),
            vec![(write_two(511), 0)],
            turn(0),
            vec![(revoke(WRITE, 2, 3), 0)],
            turn(1),
            vec![(write_two(510), 0), (write_two(511), 9)],
        ]
        .concat(),
    );
    cases.run(
        "two bytes: field stores open the second page and shut the first",
        &sample(),
        &[
            tried(read_two(511), false),
            vec![(entry_call(), 0), (store_field(READ, 2, 0x0001), 0), (return_call(), 0), (read_two(511), 0)],
            vec![(entry_call(), 0), (store_field(READ, 1, 0x0004), 0), (return_call(), 0), (read_two(511), 9)],
        ]
        .concat(),
    );
}

fn masks(cases: &mut Cases) {
    let with = |bits: u16, record: Record, give: bool| [vec![(mask(bits), 0)], tried(record, give)].concat();
    // The context is 0x0007. READ of pages 0, 1, 2 has 0 and 3, 1 and 3, 2 and 3.
    cases.run(
        "two bytes: the mask counts for both pages, and mask bits outside the context for neither",
        &sample(),
        &[
            tried(read_two(511), false),
            with(0x0006, read_two(511), true),
            with(0x0004, read_two(511), false),
            with(0x0002, read_two(255), false),
            with(0x0001, read_two(255), false),
            with(0x0003, read_two(255), true),
            with(0xFFF9, read_two(511), false),
            with(0xFFFA, read_two(511), false),
            with(0xFFFF, read_two(511), true),
        ]
        .concat(),
    );
}

/// Two histories of one image that are alike for program 0 (RULES 4.6), whose domains are 0 and 1. Of
/// the other program's only domain 2 prevails anywhere, and it is of lower level than both, so that
/// program 0's answers must be the same.
fn histories(cases: &mut Cases) {
    let node = Plan {
        exponent: 5,
        pages: vec![(0x0001, 0x0002), (0x000A, 0x0001), (0x0004, 0x0004), (0x0004, 0x0000)],
        programs: vec![(0x0003, 0xFFFF, 0), (0x001C, 0xFFFF, 0)],
    };
    let opening = vec![(read_two(31), 0), (write_two(31), 0), (read_two(63), 9), (read_two(31), 8), (read_two(127), 3)];
    let second = vec![(mask(0x0001), 0), (read_two(30), 0), (read_two(31), 9)];
    let third = vec![(read_two(30), 0), (mask(0x0003), 0), (revoke(READ, 1, 3), 0), (read_two(31), 0)];
    let fourth = vec![(read_two(32), 0), (write_two(63), 9)];
    cases.run(
        "two bytes in the turns of program 0 alone",
        &node,
        &[opening.clone(), turn(0), second.clone(), turn(0), third.clone(), turn(0), fourth.clone()].concat(),
    );
    cases.run(
        "two bytes in the same turns of program 0, with turns of program 1 between them",
        &node,
        &[
            opening,
            turn(1),
            vec![(read_two(63), 0), (read_two(95), 0), (grant(WRITE, 2, 3), 0), (write_two(95), 9), (read_two(63), 8)],
            turn(0),
            second,
            turn(1),
            vec![(read_two(31), 9)],
            turn(1),
            vec![(mask(0x0008), 0), (read_two(95), 9)],
            turn(0),
            third,
            // Program 0 took READ of page 1 from domain 3.
            turn(1),
            vec![(mask(0xFFFF), 0), (read_two(63), 9)],
            turn(0),
            fourth,
        ]
        .concat(),
    );
}

/// Allowed, refused and denied accesses of two bytes, with the flag clear afterwards.
fn all_sorts() -> Vec<Step> {
    [
        vec![(read_two(255), 0), (write_two(511), 9), (read_two(255), 8), (read_two(767), 3), (access_two(2, 0), 2)],
        vec![(entry_call(), 0), (write_two(255), 0), (read_two(767), 3), (return_call(), 0)],
    ]
    .concat()
}

fn nothing_else_changes(cases: &mut Cases) {
    let mut stays = |what: &str, shown: Vec<Step>| {
        cases.run(&format!("accesses of two bytes, and {what}"), &sample(), &[all_sorts(), shown].concat());
    };
    stays("the mask stays", mask_is(0x0003));
    stays("WRITE of page 2, which denied, stays", field_is(WRITE, 2, 8, 0x0004));
    let begun = [&read_two(255)[..], &read_two(255)[..5]].concat();
    cases.input("a remainder of 5 that begins an access of two bytes", input(&sample().image(), &begun), &[0, 0]);
}
