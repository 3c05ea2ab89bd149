//! 32: some context is its own ancestor (RULES 11.4). Cycles of every length and at every place, with
//! contexts that lead into them, and with trees beside them. All parents here are below the count.

use super::{alone_but, downward, upward, with, Plans, NO};

pub fn add(plans: &mut Plans) {
    of_one(plans);
    of_every_length(plans);
    scattered(plans);
    tails(plans);
    beside_trees(plans);
    with_children(plans);
}

fn of_one(plans: &mut Plans) {
    for context in 0..16 {
        let list = alone_but(16, &[(context, context as u8)]);
        plans.refused(32, &format!("context {context} is its own parent, and fifteen others have none"), &list);
    }
    let each = [0, 1, 2, 3, 4, 5, 6, 7, 8, 9, 10, 11, 12, 13, 14, 15];
    plans.refused(32, "each of sixteen contexts is its own parent", &each);
    plans.refused(32, "one context, its own parent", &[0]);
}

fn of_every_length(plans: &mut Plans) {
    for length in 2..=16_u8 {
        // A cycle of the first ones, up, and the others without parents.
        let mut list = upward(length, 0);
        plans.refused(32, &format!("a cycle of {length} and no other context"), &list);
        list.resize(16, NO);
        if length < 16 {
            plans.refused(32, &format!("a cycle of the first {length} of sixteen contexts"), &list);
        }
        // A cycle of the last ones, down.
        let first = 16 - length;
        let changes: Vec<(usize, u8)> = (first + 1..16).map(|context| (context.into(), context - 1)).collect();
        let list = with(&alone_but(16, &[(first.into(), 15)]), &changes);
        plans.refused(32, &format!("a cycle of the last {length} of sixteen contexts, downwards"), &list);
    }
}

fn scattered(plans: &mut Plans) {
    let mut alone = |what: &str, parents: &[(usize, u8)]| {
        plans.refused(32, &format!("a cycle of {what}, and others without parents"), &alone_but(16, parents));
    };
    alone("0 and 15", &[(0, 15), (15, 0)]);
    alone("7 and 8", &[(7, 8), (8, 7)]);
    alone("3, 9 and 14", &[(3, 9), (9, 14), (14, 3)]);
    alone("14, 9 and 3", &[(14, 9), (9, 3), (3, 14)]);
    alone("0, 10, 5 and 15", &[(0, 10), (10, 5), (5, 15), (15, 0)]);

    let all_but_seven = [1, 2, 3, 4, 5, 6, 8, NO, 9, 10, 11, 12, 13, 14, 15, 0];
    plans.refused(32, "a cycle of fifteen contexts, all but 7, which has no parent", &all_but_seven);
    let even_then_odd = [2, 3, 4, 5, 6, 7, 8, 9, 10, 11, 12, 13, 14, 15, 1, 0];
    plans.refused(32, "a cycle of sixteen, the even contexts and then the odd ones", &even_then_odd);
    let by_five = [5, 6, 7, 8, 9, 10, 11, 12, 13, 14, 15, 0, 1, 2, 3, 4];
    plans.refused(32, "a cycle of sixteen in steps of five", &by_five);
    let inwards = [15, 14, 13, 12, 11, 10, 9, 8, 0, 7, 6, 5, 4, 3, 2, 1];
    plans.refused(32, "a cycle of sixteen from both ends inwards", &inwards);
    let pairs = [1, 0, 3, 2, 5, 4, 7, 6, 9, 8, 11, 10, 13, 12, 15, 14];
    plans.refused(32, "eight cycles of two", &pairs);
    let fours = [4, 5, 6, 7, 8, 9, 10, 11, 12, 13, 14, 15, 0, 1, 2, 3];
    plans.refused(32, "four cycles of four", &fours);
    let ones_and_pair = [0, 1, 2, 3, 4, 5, 6, 7, 8, 9, 10, 11, 12, 13, 15, 14];
    plans.refused(32, "fourteen cycles of one and a cycle of two", &ones_and_pair);
}

/// Contexts that lead into a cycle and are not on it. Walking up from them never comes back to them.
fn tails(plans: &mut Plans) {
    for length in 1..=15 {
        let tail = 16 - length;
        let list = upward(16, tail);
        plans.refused(32, &format!("a tail of {tail} upwards into a cycle of {length}"), &list);
        let list = downward(16, length - 1);
        plans.refused(32, &format!("a tail of {tail} downwards into a cycle of {length}"), &list);
    }
    let by_five = [5, 6, 7, 8, 9, 10, 11, 12, 13, 14, 15, NO, 1, 2, 3, 4];
    plans.refused(32, "a tail of fifteen in steps of five into a cycle of one, 11", &with(&by_five, &[(11, 11)]));
    plans.refused(32, "a tail of fourteen in steps of five into a cycle of 6 and 11", &with(&by_five, &[(11, 6)]));
    for root in [0, 15, 7] {
        plans.refused(32, &format!("fifteen children of context {root}, its own parent"), &[root; 16]);
    }
    plans.refused(
        32,
        "fourteen children of context 0, whose parent is 15, whose parent is 0",
        &with(&[0; 16], &[(0, 15)]),
    );
    let binary = [NO, 0, 0, 1, 1, 2, 2, 3, 3, 4, 4, 5, 5, 6, 6, 7];
    plans.refused(32, "a binary tree whose root is its own parent", &with(&binary, &[(0, 0)]));
    plans.refused(32, "a binary tree whose root has its lowest leaf as its parent", &with(&binary, &[(0, 15)]));
    plans.refused(32, "a binary tree whose root has a child as its parent", &with(&binary, &[(0, 2)]));
    plans.refused(32, "five contexts, a tail of three into a cycle of two", &[1, 2, 3, 4, 3]);
    plans.refused(32, "eight contexts, tails of three and of four into a cycle of one, 4", &[1, 2, 4, 6, 4, 3, 4, 5]);
}

fn beside_trees(plans: &mut Plans) {
    let mut beside = |what: &str, list: [u8; 16]| plans.refused(32, what, &list);
    beside(
        "context 0, its own parent, beside a chain from 1 to 15",
        [0, 2, 3, 4, 5, 6, 7, 8, 9, 10, 11, 12, 13, 14, 15, NO],
    );
    beside(
        "context 15, its own parent, beside a chain from 14 down to 0",
        [NO, 0, 1, 2, 3, 4, 5, 6, 7, 8, 9, 10, 11, 12, 13, 15],
    );
    beside(
        "a cycle of 14 and 15 beside a binary tree of fourteen",
        [NO, 0, 0, 1, 1, 2, 2, 3, 3, 4, 4, 5, 5, 6, 15, 14],
    );
    beside(
        "a cycle of 0, 1 and 2 beside twelve children of context 3",
        [1, 2, 0, NO, 3, 3, 3, 3, 3, 3, 3, 3, 3, 3, 3, 3],
    );
    beside(
        "a cycle of the even contexts beside a chain of the odd ones",
        [2, 3, 4, 5, 6, 7, 8, 9, 10, 11, 12, 13, 14, 15, 0, NO],
    );
    beside(
        "a chain of the even contexts beside a cycle of the odd ones",
        [2, 3, 4, 5, 6, 7, 8, 9, 10, 11, 12, 13, 14, 15, NO, 1],
    );
    beside(
        "a tail of three into a cycle of two, among four trees",
        [1, 2, 3, 4, 3, NO, 5, 6, NO, 8, 8, NO, 11, 12, 13, NO],
    );
}

fn with_children(plans: &mut Plans) {
    let mut children = |what: &str, list: [u8; 16]| plans.refused(32, what, &list);
    children("a cycle of four, each with three more children", [1, 2, 3, 0, 0, 0, 0, 1, 1, 1, 2, 2, 2, 3, 3, 3]);
    children(
        "a cycle of eight, each with one more child",
        [8, 9, 10, 11, 12, 13, 14, 15, 9, 10, 11, 12, 13, 14, 15, 8],
    );
    children("a cycle of two, each with seven more children", [1, 0, 0, 1, 0, 1, 0, 1, 0, 1, 0, 1, 0, 1, 0, 1]);
    children("a cycle of five, each with a child that has a child", [1, 2, 3, 4, 0, 0, 1, 2, 3, 4, 5, 6, 7, 8, 9, 14]);
    children("a cycle of fifteen, and one child of it", [1, 2, 3, 4, 5, 6, 7, 8, 9, 10, 11, 12, 13, 14, 0, 7]);
}
