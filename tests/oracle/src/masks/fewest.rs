//! The fewest domains (RULES 12.3): also where a smaller number has more, where taking the best domain first
//! or leaving out what can be left out goes wrong, and up to all sixteen.

use super::{each, of, read, with_fields, write, Cases, OWN};

pub fn add(cases: &mut Cases) {
    more_in_a_smaller_number(cases);
    greedy(cases);
    left_out(cases);
    every_count(cases);
    joined(cases);
    again(cases);
}

fn more_in_a_smaller_number(cases: &mut Cases) {
    cases.fields("domain 4, not 0 and 1", 0xFFFF, &[of([0, 4]), of([1, 4])], 0x0010);
    cases.fields("domain 15, not 0 and 1", 0xFFFF, &[of([0, 15]), of([1, 15])], 0x8000);
    cases.fields("domain 8, not 0, 1 and 2", 0xFFFF, &[of([0, 8]), of([1, 8]), of([2, 8])], 0x0100);
    let fields = [of([0, 14]), of([1, 14]), of([2, 15]), of([3, 15])];
    cases.fields("14 and 15, not 0 to 3", 0xFFFF, &fields, 0xC000);
    let fields = [of([0, 12]), of([1, 12]), of([2, 13]), of([3, 13]), of([4, 14]), of([5, 14])];
    cases.fields("12, 13 and 14, not 0 to 5", 0xFFFF, &fields, 0x7000);
    cases.fields("9 and 2, not 0, 1 and 2", 0xFFFF, &[of([0, 9]), of([1, 9]), of([2, 10])], 0x0204);
    let last: Vec<u16> = OWN[..15].iter().map(|own| own + 0x8000).collect();
    cases.fields("domain 15, not the fifteen others", 0xFFFF, &last, 0x8000);
    cases.fields("the fifteen others, 15 being outside the context", 0x7FFF, &last, 0x7FFF);
    let first: Vec<u16> = OWN[1..].iter().map(|own| own + 0x0001).collect();
    cases.fields("domain 0, not the fifteen others", 0xFFFF, &first, 0x0001);
    cases.fields("the fifteen others, 0 being outside the context", 0xFFFE, &first, 0xFFFE);
}

/// The domain that gives most is none of the least mask.
fn greedy(cases: &mut Cases) {
    // 0 gives four, 1 and 2 give three each and all six together.
    let fields = [of([0, 1]), of([0, 1]), of([1]), of([0, 2]), of([0, 2]), of([2])];
    cases.fields("1 and 2, though 0 gives most", 0xFFFF, &fields, 0x0006);
    let fields = [of([15, 1]), of([15, 1]), of([1]), of([15, 2]), of([15, 2]), of([2])];
    cases.fields("1 and 2, though 15 gives most", 0xFFFF, &fields, 0x0006);
    // The same without a field of one domain and without the same field twice.
    let fields = [of([0, 1, 3]), of([0, 1, 4]), of([1, 5]), of([0, 2, 6]), of([0, 2, 7]), of([2, 8])];
    cases.fields("1 and 2, though 0 gives most, all fields being different", 0xFFFF, &fields, 0x0006);
    let fields =
        [of([0, 14, 3]), of([0, 14, 4]), of([14, 5]), of([0, 15, 6]), of([0, 15, 7]), of([15, 8]), of([0, 14, 9])];
    cases.fields("14 and 15, though 0 gives most, all fields being different", 0xFFFF, &fields, 0xC000);
    // Two rows of seven: 13 and 14 give a row each, 0 gives four of both, 1 two and 2 one.
    let mut fields = Vec::new();
    for row in [13, 14] {
        fields.extend([of([row, 0]); 4]);
        fields.extend([of([row, 1]); 2]);
        fields.push(of([row, 2]));
    }
    cases.fields("13 and 14, though 0, 1 and 2 give more one after another", 0xFFFF, &fields, 0x6000);
    // A star whose middle gives most, and a path that hangs on its leaves.
    let fields = [of([0, 1]), of([0, 2]), of([0, 3]), of([1, 4]), of([2, 5]), of([3, 6])];
    cases.fields("1, 2 and 3, though 0 gives most: leaves of leaves", 0xFFFF, &fields, 0x000E);
    let fields = [of([15, 1]), of([15, 2]), of([15, 3]), of([15, 4]), of([1, 5]), of([2, 6]), of([3, 7]), of([4, 8])];
    cases.fields("1 to 4, though 15 gives most: leaves of leaves", 0xFFFF, &fields, 0x001E);
    // 0, 1 and 15 give three each, so that a greedy choice may start with 15.
    let fields = [of([15, 0, 1]), of([15, 0, 2]), of([15, 1, 2]), of([3, 0]), of([3, 1])];
    cases.fields("0 and 1, though 15 and 3 would do too", 0xFFFF, &fields, 0x0003);
}

/// Leaving out domains one by one, from either end, stays with too many.
fn left_out(cases: &mut Cases) {
    cases.fields("domain 0, not 1 and 2", 0xFFFF, &[of([0, 1]), of([0, 2])], 0x0001);
    cases.fields("domain 1, not 0 and 2", 0xFFFF, &[of([0, 1]), of([1, 2])], 0x0002);
    cases.fields("1 and 14, not 0, 2, 13 and 15", 0xFFFF, &[0x0003, 0x0006, 0x6000, 0xC000], 0x4002);
    let fields = [of([0, 5]), of([1, 5]), of([5, 9]), of([5, 10])];
    cases.fields("domain 5, not two below and two above it", 0xFFFF, &fields, 0x0020);
}

/// A domain for each field.
fn every_count(cases: &mut Cases) {
    let low = [
        0x0001, 0x0003, 0x0007, 0x000F, 0x001F, 0x003F, 0x007F, 0x00FF, 0x01FF, 0x03FF, 0x07FF, 0x0FFF, 0x1FFF, 0x3FFF,
        0x7FFF, 0xFFFF,
    ];
    for (before, mask) in low.into_iter().enumerate() {
        let count = before + 1;
        cases.fields(&format!("domains 0 to {before}, all needed"), 0xFFFF, &OWN[..count], mask);
    }
    for (count, mask) in [(2, 0xC000), (15, 0xFFFE)] {
        let purpose = format!("the last {count} domains, all needed and no others there");
        cases.fields(&purpose, mask, &OWN[16 - count..], mask);
    }
    let node = with_fields(0xFEFF, &OWN);
    cases.refused(34, "all sixteen domains needed, 8 outside the context", &node, &each(16));
    let node = with_fields(0xFFFF, &OWN);
    let downwards: Vec<u32> = each(16).into_iter().rev().collect();
    cases.found("all sixteen domains needed, downwards", &node, &downwards, 0xFFFF);
    let even: Vec<u32> = (0..8).map(read).collect();
    cases.found("all even domains needed", &node, &even, 0x5555);
    let odd: Vec<u32> = (0..8).map(write).collect();
    cases.found("all odd domains needed", &node, &odd, 0xAAAA);
}

/// Each pair has to be allowed by itself: what fields have together, or have in common, says nothing.
fn joined(cases: &mut Cases) {
    cases.fields("0 or 1 for one, 1 alone for the other", 0xFFFF, &[0x0003, 0x0002], 0x0002);
    cases.fields("1 alone for one, 0 or 1 for the other", 0xFFFF, &[0x0002, 0x0003], 0x0002);
    cases.fields("0 or 1 for one, 2 or 3 for the other, nothing in common", 0x000A, &[0x0003, 0x000C], 0x000A);
    cases.fields("1 for three of four, and 0 for the fourth", 0xFFFF, &[0x0002, 0x0003, 0x0002, 0x0001], 0x0003);
    let node = with_fields(0xFFFF, &[0x0001, 0x0000, 0x0002]);
    cases.refused(34, "0 for one, nothing for the second, 1 for the third", &node, &each(3));
}

/// The same pair over and over, and the same pairs in other orders.
fn again(cases: &mut Cases) {
    let node = with_fields(0xFFFF, &[of([3, 5]), of([4, 5])]);
    for times in [2, 63, 64] {
        cases.found(&format!("READ {times} times"), &node, &vec![read(0); times], 0x0008);
    }
    cases.found("WRITE 64 times", &node, &[write(0); 64], 0x0010);
    let both = [read(0), write(0)].repeat(32);
    cases.found("READ and WRITE in turns, 64 pairs", &node, &both, 0x0020);
    let most = [&[read(0); 63][..], &[write(0)]].concat();
    cases.found("READ 63 times and WRITE once: 5, not 3", &node, &most, 0x0020);
    let most = [&[read(0)][..], &[write(0); 63]].concat();
    cases.found("READ once and WRITE 63 times: 5, not 4", &node, &most, 0x0020);
}
