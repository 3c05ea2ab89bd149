//! Forests that are no rings, most of them of all sixteen contexts. The contexts due are written out.

use super::{alone_but, leaves_but, Plans, NO, OWN};

pub fn add(plans: &mut Plans) {
    deep(plans);
    wide(plans);
    binary(plans);
    combs(plans);
    several(plans);
    single(plans);
    fewer(plans);
}

/// Chains in orders that are neither up nor down, so that going through the list once, either way, does
/// not do.
fn deep(plans: &mut Plans) {
    plans.accepted(
        "a chain up the even contexts and then up the odd ones",
        &[2, 3, 4, 5, 6, 7, 8, 9, 10, 11, 12, 13, 14, 15, 1, NO],
        [
            0x0001, 0x5557, 0x0005, 0x555F, 0x0015, 0x557F, 0x0055, 0x55FF, //
            0x0155, 0x57FF, 0x0555, 0x5FFF, 0x1555, 0x7FFF, 0x5555, 0xFFFF,
        ],
    );
    plans.accepted(
        "a chain down the odd contexts and then down the even ones",
        &[NO, 14, 0, 1, 2, 3, 4, 5, 6, 7, 8, 9, 10, 11, 12, 13],
        [
            0xFFFF, 0xAAAA, 0xFFFE, 0xAAA8, 0xFFFA, 0xAAA0, 0xFFEA, 0xAA80, //
            0xFFAA, 0xAA00, 0xFEAA, 0xA800, 0xFAAA, 0xA000, 0xEAAA, 0x8000,
        ],
    );
    plans.accepted(
        "a chain from both ends inwards: 0, 15, 1, 14 and so on to 8",
        &[15, 14, 13, 12, 11, 10, 9, 8, NO, 7, 6, 5, 4, 3, 2, 1],
        [
            0x0001, 0x8003, 0xC007, 0xE00F, 0xF01F, 0xF83F, 0xFC7F, 0xFEFF, //
            0xFFFF, 0xFE7F, 0xFC3F, 0xF81F, 0xF00F, 0xE007, 0xC003, 0x8001,
        ],
    );
    plans.accepted(
        "a chain from the middle outwards: 8, 7, 9, 6 and so on to 0",
        &[NO, 15, 14, 13, 12, 11, 10, 9, 7, 6, 5, 4, 3, 2, 1, 0],
        [
            0xFFFF, 0x7FFE, 0x3FFC, 0x1FF8, 0x0FF0, 0x07E0, 0x03C0, 0x0180, //
            0x0100, 0x0380, 0x07C0, 0x0FE0, 0x1FF0, 0x3FF8, 0x7FFC, 0xFFFE,
        ],
    );
    plans.accepted(
        "a chain in steps of five: 0, 5, 10, 15, 4 and so on to 11",
        &[5, 6, 7, 8, 9, 10, 11, 12, 13, 14, 15, NO, 1, 2, 3, 4],
        [
            0x0001, 0xF7BF, 0xE73D, 0xC639, 0x8431, 0x0021, 0xF7FF, 0xE7BD, //
            0xC739, 0x8631, 0x0421, 0xFFFF, 0xF7BD, 0xE739, 0xC631, 0x8421,
        ],
    );
    plans.accepted(
        "a chain up from 8 to 15 and on from 0 to 7",
        &[1, 2, 3, 4, 5, 6, 7, NO, 9, 10, 11, 12, 13, 14, 15, 0],
        [
            0xFF01, 0xFF03, 0xFF07, 0xFF0F, 0xFF1F, 0xFF3F, 0xFF7F, 0xFFFF, //
            0x0100, 0x0300, 0x0700, 0x0F00, 0x1F00, 0x3F00, 0x7F00, 0xFF00,
        ],
    );
    plans.accepted(
        "a chain up by pairs: 1, 0, 3, 2, 5, 4 and so on to 14",
        &[3, 0, 5, 2, 7, 4, 9, 6, 11, 8, 13, 10, 15, 12, NO, 14],
        [
            0x0003, 0x0002, 0x000F, 0x000B, 0x003F, 0x002F, 0x00FF, 0x00BF, //
            0x03FF, 0x02FF, 0x0FFF, 0x0BFF, 0x3FFF, 0x2FFF, 0xFFFF, 0xBFFF,
        ],
    );
}

fn wide(plans: &mut Plans) {
    for root in [0, 15, 7, 8] {
        let mut list = [root as u8; 16];
        list[root] = NO;
        plans.accepted(&format!("fifteen children of context {root}"), &list, leaves_but(16, &[(root, 0xFFFF)]));
    }
    plans.accepted("sixteen contexts without parents", &[NO; 16], OWN);
    plans.accepted(
        "three children of context 0 and four of each of them",
        &[NO, 0, 0, 0, 1, 1, 1, 1, 2, 2, 2, 2, 3, 3, 3, 3],
        leaves_but(16, &[(0, 0xFFFF), (1, 0x00F2), (2, 0x0F04), (3, 0xF008)]),
    );
    plans.accepted(
        "fourteen children of context 15 and one grandchild",
        &[1, 15, 15, 15, 15, 15, 15, 15, 15, 15, 15, 15, 15, 15, 15, NO],
        leaves_but(16, &[(1, 0x0003), (15, 0xFFFF)]),
    );
}

fn binary(plans: &mut Plans) {
    plans.accepted(
        "a binary tree below context 0, level by level",
        &[NO, 0, 0, 1, 1, 2, 2, 3, 3, 4, 4, 5, 5, 6, 6, 7],
        [
            0xFFFF, 0x879A, 0x7864, 0x8188, 0x0610, 0x1820, 0x6040, 0x8080, //
            0x0100, 0x0200, 0x0400, 0x0800, 0x1000, 0x2000, 0x4000, 0x8000,
        ],
    );
    plans.accepted(
        "a binary tree below context 15, level by level",
        &[8, 9, 9, 10, 10, 11, 11, 12, 12, 13, 13, 14, 14, 15, 15, NO],
        [
            0x0001, 0x0002, 0x0004, 0x0008, 0x0010, 0x0020, 0x0040, 0x0080, //
            0x0101, 0x0206, 0x0418, 0x0860, 0x1181, 0x261E, 0x59E1, 0xFFFF,
        ],
    );
    plans.accepted(
        "a binary tree with each context between its children, and 15 above it",
        &[1, 3, 1, 7, 5, 3, 5, 15, 9, 11, 9, 7, 13, 11, 13, NO],
        [
            0x0001, 0x0007, 0x0004, 0x007F, 0x0010, 0x0070, 0x0040, 0x7FFF, //
            0x0100, 0x0700, 0x0400, 0x7F00, 0x1000, 0x7000, 0x4000, 0xFFFF,
        ],
    );
    plans.accepted(
        "four children, three, two, one and none: halves of halves below context 0",
        &[NO, 0, 0, 2, 0, 4, 4, 6, 0, 8, 8, 10, 8, 12, 12, 14],
        [
            0xFFFF, 0x0002, 0x000C, 0x0008, 0x00F0, 0x0020, 0x00C0, 0x0080, //
            0xFF00, 0x0200, 0x0C00, 0x0800, 0xF000, 0x2000, 0xC000, 0x8000,
        ],
    );
}

fn combs(plans: &mut Plans) {
    plans.accepted(
        "a comb: a chain of the even contexts up to 14, an odd child on each",
        &[2, 0, 4, 2, 6, 4, 8, 6, 10, 8, 12, 10, 14, 12, NO, 14],
        [
            0x0003, 0x0002, 0x000F, 0x0008, 0x003F, 0x0020, 0x00FF, 0x0080, //
            0x03FF, 0x0200, 0x0FFF, 0x0800, 0x3FFF, 0x2000, 0xFFFF, 0x8000,
        ],
    );
    plans.accepted(
        "a comb: a chain from 7 down to 0, a child among 8 to 15 on each",
        &[NO, 0, 1, 2, 3, 4, 5, 6, 0, 1, 2, 3, 4, 5, 6, 7],
        [
            0xFFFF, 0xFEFE, 0xFCFC, 0xF8F8, 0xF0F0, 0xE0E0, 0xC0C0, 0x8080, //
            0x0100, 0x0200, 0x0400, 0x0800, 0x1000, 0x2000, 0x4000, 0x8000,
        ],
    );
    plans.accepted(
        "a broom: a chain from 7 down to 0, eight children on its lowest",
        &[NO, 0, 1, 2, 3, 4, 5, 6, 7, 7, 7, 7, 7, 7, 7, 7],
        [
            0xFFFF, 0xFFFE, 0xFFFC, 0xFFF8, 0xFFF0, 0xFFE0, 0xFFC0, 0xFF80, //
            0x0100, 0x0200, 0x0400, 0x0800, 0x1000, 0x2000, 0x4000, 0x8000,
        ],
    );
}

/// Two trees and more, whose contexts must have nothing of each other.
fn several(plans: &mut Plans) {
    plans.accepted(
        "two chains, of the even contexts and of the odd ones",
        &[2, 3, 4, 5, 6, 7, 8, 9, 10, 11, 12, 13, 14, 15, NO, NO],
        [
            0x0001, 0x0002, 0x0005, 0x000A, 0x0015, 0x002A, 0x0055, 0x00AA, //
            0x0155, 0x02AA, 0x0555, 0x0AAA, 0x1555, 0x2AAA, 0x5555, 0xAAAA,
        ],
    );
    plans.accepted(
        "two trees: seven children of context 0, and a chain from 8 to 15",
        &[NO, 0, 0, 0, 0, 0, 0, 0, 9, 10, 11, 12, 13, 14, 15, NO],
        [
            0x00FF, 0x0002, 0x0004, 0x0008, 0x0010, 0x0020, 0x0040, 0x0080, //
            0x0100, 0x0300, 0x0700, 0x0F00, 0x1F00, 0x3F00, 0x7F00, 0xFF00,
        ],
    );
    plans.accepted(
        "two binary trees, below 0 and 1, of the even contexts and of the odd ones",
        &[NO, NO, 0, 1, 0, 1, 2, 3, 2, 3, 4, 5, 4, 5, 6, 7],
        [
            0x5555, 0xAAAA, 0x4144, 0x8288, 0x1410, 0x2820, 0x4040, 0x8080, //
            0x0100, 0x0200, 0x0400, 0x0800, 0x1000, 0x2000, 0x4000, 0x8000,
        ],
    );
    plans.accepted(
        "four trees of four contexts, each of another shape",
        &[1, 2, 3, NO, NO, 4, 4, 4, 9, 11, 11, NO, NO, 12, 12, 14],
        [
            0x0001, 0x0003, 0x0007, 0x000F, 0x00F0, 0x0020, 0x0040, 0x0080, //
            0x0100, 0x0300, 0x0400, 0x0F00, 0xF000, 0x2000, 0xC000, 0x8000,
        ],
    );
    plans.accepted(
        "eight contexts with a child each: 0 with 15, 1 with 14 and so on",
        &[NO, NO, NO, NO, NO, NO, NO, NO, 7, 6, 5, 4, 3, 2, 1, 0],
        [
            0x8001, 0x4002, 0x2004, 0x1008, 0x0810, 0x0420, 0x0240, 0x0180, //
            0x0100, 0x0200, 0x0400, 0x0800, 0x1000, 0x2000, 0x4000, 0x8000,
        ],
    );
    plans.accepted(
        "a chain of 3, 12 and 9, and thirteen contexts without parents",
        &alone_but(16, &[(3, 12), (12, 9)]),
        leaves_but(16, &[(12, 0x1008), (9, 0x1208)]),
    );
}

/// One child and one parent, at the ends of the list and in its middle.
fn single(plans: &mut Plans) {
    for (child, parent, bits) in [(15, 0, 0x8001), (0, 1, 0x0003), (8, 7, 0x0180), (7, 8, 0x0180)] {
        plans.accepted(
            &format!("context {child} below {parent}, and fourteen others"),
            &alone_but(16, &[(child, parent)]),
            leaves_but(16, &[(usize::from(parent), bits)]),
        );
    }
}

/// Fewer than sixteen contexts: the places past the count stay zero.
fn fewer(plans: &mut Plans) {
    for (count, all) in [
        (5, 0x001F),
        (6, 0x003F),
        (7, 0x007F),
        (8, 0x00FF),
        (9, 0x01FF),
        (10, 0x03FF),
        (11, 0x07FF),
        (12, 0x0FFF),
        (13, 0x1FFF),
        (14, 0x3FFF),
        (15, 0x7FFF),
    ] {
        plans.accepted(&format!("{count} contexts without parents"), &alone_but(count, &[]), leaves_but(count, &[]));
        let mut below_first = vec![0; count];
        below_first[0] = NO;
        let purpose = format!("{count} contexts, all others below context 0");
        plans.accepted(&purpose, &below_first, leaves_but(count, &[(0, all)]));
        let last = count - 1;
        let mut below_last = vec![last as u8; count];
        below_last[last] = NO;
        let purpose = format!("{count} contexts, all others below context {last}");
        plans.accepted(&purpose, &below_last, leaves_but(count, &[(last, all)]));
    }
    plans.accepted(
        "seven contexts: a binary tree with each context between its children",
        &[1, 3, 1, NO, 5, 3, 5],
        leaves_but(7, &[(1, 0x0007), (3, 0x007F), (5, 0x0070)]),
    );
    plans.accepted(
        "eight contexts: two trees that lie among each other",
        &[3, 3, 7, NO, 5, 7, 5, NO],
        leaves_but(8, &[(3, 0x000B), (5, 0x0070), (7, 0x00F4)]),
    );
    plans.accepted(
        "ten contexts: a comb",
        &[2, 0, 4, 2, 6, 4, 8, 6, NO, 8],
        leaves_but(10, &[(0, 0x0003), (2, 0x000F), (4, 0x003F), (6, 0x00FF), (8, 0x03FF)]),
    );
    plans.accepted(
        "thirteen contexts: three children of 12 and three of each of them",
        &[3, 3, 3, 12, 7, 7, 7, 12, 11, 11, 11, 12, NO],
        leaves_but(13, &[(3, 0x000F), (7, 0x00F0), (11, 0x0F00), (12, 0x1FFF)]),
    );
    plans.accepted(
        "fifteen contexts: a binary tree below context 0",
        &[NO, 0, 0, 1, 1, 2, 2, 3, 3, 4, 4, 5, 5, 6, 6],
        [
            0x7FFF, 0x079A, 0x7864, 0x0188, 0x0610, 0x1820, 0x6040, 0x0080, //
            0x0100, 0x0200, 0x0400, 0x0800, 0x1000, 0x2000, 0x4000, 0x0000,
        ],
    );
}
