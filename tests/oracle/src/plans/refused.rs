//! 30 and 31 at their edges, and the order of the checks (RULES 11.4): 30 whatever the list holds, 31
//! whatever cycles it has beside the wrong parent.

use super::{alone_but, downward, leaves_but, upward, with, Plans, NO};

pub fn add(plans: &mut Plans) {
    counts(plans);
    counts_first(plans);
    wrong_parents(plans);
    wrong_parents_in_trees(plans);
    sixteen_at_every_place(plans);
    parent_fifteen(plans);
    wrong_parents_first(plans);
}

/// The counts that are refused, alone. The last four are 0, 1, 16 and 44 for those who look at their
/// low byte only.
fn counts(plans: &mut Plans) {
    plans.refused(30, "no context", &[]);
    for count in [17, 18, 255, 256, 257, 272, 300] {
        plans.refused(30, &format!("{count} contexts without parents"), &alone_but(count, &[]));
    }
}

/// The same counts with something that 31 or 32 would be given for. From 255 contexts on no parent
/// can be wrong.
fn counts_first(plans: &mut Plans) {
    for (count, wrong) in [(17, 17), (18, 18), (17, 18), (17, 254), (18, 128)] {
        let last = count - 1;
        for (place, name) in [(0, "the first"), (last, "the last")] {
            let list = alone_but(count, &[(place, wrong)]);
            plans.refused(30, &format!("{count} contexts, {name} with parent {wrong}"), &list);
        }
        let list = alone_but(count, &[(0, 0), (last, wrong)]);
        plans.refused(30, &format!("{count} contexts, a cycle of one and parent {wrong}"), &list);
    }
    for count in [17_u8, 18] {
        let last = count - 1;
        plans.refused(30, &format!("a cycle of {count} contexts"), &upward(count, 0));
        plans.refused(30, &format!("a cycle of {count} contexts, downwards"), &downward(count, last));
        let list = alone_but(count.into(), &[(last.into(), last)]);
        plans.refused(30, &format!("{count} contexts, the last its own parent"), &list);
        let list = alone_but(count.into(), &[(0, 1), (1, 0)]);
        plans.refused(30, &format!("{count} contexts, a cycle of 0 and 1"), &list);
        plans.refused(30, &format!("{count} contexts, each with parent 254"), &[254].repeat(count.into()));
    }
    for count in [255, 256, 257, 300] {
        plans.refused(30, &format!("{count} contexts, the first its own parent"), &alone_but(count, &[(0, 0)]));
        let list = alone_but(count, &[(0, 254), (254, 0)]);
        plans.refused(30, &format!("{count} contexts, a cycle of 0 and 254"), &list);
    }
    // Wrong for 1 and for 16 contexts.
    plans.refused(30, "257 contexts, the first with parent 1", &alone_but(257, &[(0, 1)]));
    plans.refused(30, "272 contexts, the first with parent 16", &alone_but(272, &[(0, 16)]));
}

/// One wrong parent among contexts without parents, in the first place and in the last: the count,
/// one more, 16, 17, 128 and 254. Fifteen contexts with parent 15 come below.
fn wrong_parents(plans: &mut Plans) {
    for parent in [1, 2, 16, 17, 128, 254] {
        plans.refused(31, &format!("one context, with parent {parent}"), &[parent]);
    }
    let lists: [(usize, &[u8]); 5] = [
        (2, &[2, 3, 16, 17, 128, 254]),
        (5, &[5, 6, 16, 17, 128, 254]),
        (8, &[8, 9, 16, 17, 128, 254]),
        (15, &[16, 17, 128, 254]),
        (16, &[16, 17, 128, 254]),
    ];
    for (count, wrong) in lists {
        for (place, name) in [(0, "the first"), (count - 1, "the last")] {
            for &parent in wrong {
                let list = alone_but(count, &[(place, parent)]);
                plans.refused(31, &format!("{count} contexts, {name} with parent {parent}"), &list);
            }
        }
    }
    for count in [2, 5, 8, 15, 16] {
        plans.refused(31, &format!("{count} contexts, each with parent {count}"), &[count].repeat(count.into()));
    }
}

fn wrong_parents_in_trees(plans: &mut Plans) {
    for count in 2..=16 {
        let list = upward(count, count);
        plans.refused(31, &format!("the ring of {count}, but the last has parent {count}"), &list);
    }
    plans.refused(31, "the ring of 16, but the last has parent 254", &upward(16, 254));
    plans.refused(31, "a chain from 15 down to 0, which has parent 16", &downward(16, 16));
    plans.refused(31, "a chain from 8 down to 0, which has parent 9", &downward(9, 9));
    let binary = [NO, 0, 0, 1, 1, 2, 2, 3, 3, 4, 4, 5, 5, 6, 6, 7];
    plans.refused(31, "a binary tree, but a leaf has parent 16", &with(&binary, &[(11, 16)]));
    plans.refused(31, "a binary tree, but a context in its middle has parent 254", &with(&binary, &[(3, 254)]));
    let without_root = [8, 9, 9, 10, 10, 11, 11, 12, 12, 13, 13, 14, 14, 15, 15];
    plans.refused(31, "fifteen contexts, a binary tree below 15, which is not there", &without_root);
}

/// The first place and the last have had it.
fn sixteen_at_every_place(plans: &mut Plans) {
    for place in 1..15 {
        let list = alone_but(16, &[(place, 16)]);
        plans.refused(31, &format!("16 contexts, context {place} with parent 16"), &list);
    }
}

/// 15 is no context of fifteen. Of sixteen it is one, and may be a parent.
fn parent_fifteen(plans: &mut Plans) {
    for place in [0, 7, 14] {
        let list = alone_but(15, &[(place, 15)]);
        plans.refused(31, &format!("15 contexts, context {place} with parent 15"), &list);
    }
    for (place, bits) in [(0, 0x8001), (7, 0x8080), (14, 0xC000)] {
        let purpose = format!("16 contexts, context {place} with parent 15");
        plans.accepted(&purpose, &alone_but(16, &[(place, 15)]), leaves_but(16, &[(15, bits)]));
    }
}

/// A wrong parent and a cycle, in both orders of their places.
fn wrong_parents_first(plans: &mut Plans) {
    let mut both = |what: &str, list: &[u8]| plans.refused(31, what, list);
    both("a cycle of one, 0, before parent 16", &alone_but(16, &[(0, 0), (15, 16)]));
    both("a cycle of one, 15, behind parent 16", &alone_but(16, &[(15, 15), (0, 16)]));
    both("a cycle of two, 0 and 1, before parent 254", &alone_but(16, &[(0, 1), (1, 0), (15, 254)]));
    both("a cycle of two, 14 and 15, behind parent 254", &alone_but(16, &[(14, 15), (15, 14), (0, 254)]));
    both("a cycle of 0 and 15 around parent 17", &alone_but(16, &[(0, 15), (15, 0), (8, 17)]));
    both("a cycle of fifteen and then parent 16", &with(&upward(16, 16), &[(14, 0)]));
    both("parent 16 and then a cycle of fifteen", &with(&downward(16, 16), &[(1, 15)]));
    both("fifteen cycles of one and then parent 128", &[0, 1, 2, 3, 4, 5, 6, 7, 8, 9, 10, 11, 12, 13, 14, 128]);
    both("parent 128 and then fifteen cycles of one", &[128, 1, 2, 3, 4, 5, 6, 7, 8, 9, 10, 11, 12, 13, 14, 15]);
    both("a tail into a cycle, and a tail into parent 16", &[1, 2, 3, 4, 5, 6, 7, 6, 9, 10, 11, 12, 13, 14, 15, 16]);
    both("a tail into parent 16, and a tail into a cycle", &[1, 2, 3, 4, 5, 6, 7, 16, 9, 10, 11, 12, 13, 14, 15, 14]);
    both(
        "fifteen contexts, a cycle of 0 and 1 with one more child, before parent 15",
        &[1, 0, 0, NO, 3, 3, 3, 3, 3, 3, 3, 3, 3, 3, 15],
    );
    both("four contexts, a cycle of three before parent 4", &[1, 2, 0, 4]);
    both("five contexts, a cycle of two before parent 5", &[1, 0, NO, 2, 5]);
    both("five contexts, parent 5 before a cycle of two", &[5, NO, 1, 4, 3]);
}
