//! Both ends of the shapes, offsets and lengths around 256, and the last page.

use super::live::in_interrupt;
use super::*;

pub fn add(writes: &mut Writes) {
    least(writes);
    greatest(writes);
    between(writes);
}

fn least(writes: &mut Writes) {
    let least = Plan { exponent: 5, pages: vec![(0x1234, 0x5678)], programs: vec![(0x9ABC, 0xDEF0, 0)] };
    let head = "01 00 00 12 00 04  02 00 00 16 00 04  03 00 00 1A 00 05  01 05 01 00";
    let image = [(0, head), (22, "12 34 56 78  9A BC DE F0 00")];
    writes.written("least shape, room exact", 31, &least, &[], 31, &image);
    writes.written("least shape, one byte more", 32, &least, &[], 31, &[&image[..], &[(31, "EE")]].concat());
    writes.refused("least shape, one byte short", 30, &least, &[], 27);
    writes.refused("least shape, room 0", 0, &least, &[], 27);
    writes.written(
        "least shape, all changed",
        31,
        &least,
        &in_interrupt(&[
            (store_field(READ, 0, 0x0F1E), 0),
            (store_field(WRITE, 0, 0x2D3C), 0),
            (store_context(0x4B5A), 0),
            (store_mask(0x6978), 0),
        ]),
        31,
        &[(0, head), (22, "0F 1E 2D 3C  4B 5A 69 78 00")],
    );
    let mut privileged = least.clone();
    privileged.programs[0].2 = 1;
    writes.written(
        "least shape, privileged",
        31,
        &privileged,
        &[(store_mask(0x0100), 0)],
        31,
        &[(0, head), (22, "12 34 56 78  9A BC 01 00 01")],
    );
    for exponent in 6..=12 {
        let plan = Plan { exponent, ..least.clone() };
        let shape = format!("01 {exponent:02X} 01 00");
        writes.written(
            &format!("one page, exponent {exponent}"),
            31,
            &plan,
            &[],
            31,
            &[(0, "01 00 00 12 00 04  02 00 00 16 00 04  03 00 00 1A 00 05"), (18, &shape), image[1]],
        );
    }
}

/// Page n has READ 0x8000 + n and WRITE 0x0180 + n.
fn numbered_pages(count: u16) -> Vec<(u16, u16)> {
    (0..count).map(|n| (0x8000 + n, 0x0180 + n)).collect()
}

fn greatest(writes: &mut Writes) {
    let greatest = Plan { exponent: 9, pages: numbered_pages(128), programs: eight_programs() };
    let head = (0, "01 00 00 12 00 04  02 00 00 16 02 00  03 00 02 16 00 28  80 09 08 00");
    let pages =
        [(22, "80 00 01 80  80 01 01 81"), (270, "80 3E 01 BE  80 3F 01 BF  80 40 01 C0"), (526, "80 7E 01 FE")];
    let last_page = (530, "80 7F 01 FF");
    let first_program = (534, "01 23 45 67 00");
    let programs = [
        (539, "89 AB CD EF 01  FE DC BA 98 00  76 54 32 10 01"),
        (554, "13 57 9B DF 00  02 46 8A CE 00  F0 E1 D2 C3 01  B4 A5 96 87 00"),
    ];
    let image = [&[head], &pages[..], &[last_page, first_program], &programs].concat();
    writes.written("greatest shape, room exact", 574, &greatest, &[], 574, &image);
    writes.refused("greatest shape, one byte short", 573, &greatest, &[], 27);
    writes.written("greatest shape, one byte more", 575, &greatest, &[], 574, &[&image[..], &[(574, "EE")]].concat());
    writes.written(
        "greatest shape, room 640",
        640,
        &greatest,
        &[],
        574,
        &[&image[..], &[(574, "EE EE"), (638, "EE EE")]].concat(),
    );
    writes.refused("greatest shape, room 62: the low byte of 574", 62, &greatest, &[], 27);
    writes.written(
        "last page of 128: domain 15 revoked on READ and granted on WRITE",
        574,
        &greatest,
        &[
            (revoke(READ, 127, 15), 0),
            (grant(WRITE, 127, 15), 0),
            (grant(WRITE, 64, 15), 11),
            (grant(READ, 128, 15), 4),
        ],
        574,
        &[&[head], &pages[..], &[(530, "00 7F 81 FF"), first_program], &programs].concat(),
    );
    writes.written(
        "last page of 128: both fields stored with domain 15 alone, and the live registers",
        574,
        &greatest,
        &in_interrupt(&[
            (store_field(READ, 127, 0x8000), 0),
            (store_field(WRITE, 127, 0x8000), 0),
            (store_context(0x8001), 0),
            (store_mask(0xFF7F), 0),
        ]),
        574,
        &[&[head], &pages[..], &[(530, "80 00 80 00"), (534, "80 01 FF 7F 00")], &programs].concat(),
    );
    writes.refused("greatest shape, depth 1", 574, &greatest, &[(entry_call(), 0)], 26);
}

fn between(writes: &mut Writes) {
    let one = vec![(0x0102, 0x0304, 0)];
    let three = eight_programs()[..3].to_vec();
    let plan = |exponent, count, programs: &[(u16, u16, u8)]| Plan {
        exponent,
        pages: numbered_pages(count),
        programs: programs.to_vec(),
    };
    writes.written(
        "128 pages of 32 bytes and one program",
        539,
        &plan(5, 128, &one),
        &[],
        539,
        &[(6, "02 00 00 16 02 00  03 00 02 16 00 05  80 05 01 00"), (530, "80 7F 01 FF  01 02 03 04 00")],
    );
    writes.written(
        "127 pages and eight programs",
        570,
        &plan(9, 127, &eight_programs()),
        &[],
        570,
        &[(6, "02 00 00 16 01 FC  03 00 02 12 00 28  7F 09 08 00"), (526, "80 7E 01 FE  01 23 45 67 00")],
    );
    let of_64 = plan(10, 64, &three);
    writes.written(
        "64 pages of 1,024 bytes and three programs",
        293,
        &of_64,
        &[],
        293,
        &[
            (0, "01 00 00 12 00 04  02 00 00 16 01 00  03 00 01 16 00 0F  40 0A 03 00  80 00 01 80"),
            (274, "80 3F 01 BF  01 23 45 67 00  89 AB CD EF 01  FE DC BA 98 00"),
        ],
    );
    writes.refused("64 pages of 1,024 bytes, one byte short", 292, &of_64, &[], 27);
    writes.refused("64 pages of 1,024 bytes, room 37: the low byte of 293", 37, &of_64, &[], 27);
    let of_16 = plan(12, 16, &three[..2]);
    writes.written(
        "16 pages of 4,096 bytes, a grant of domain 15 on the last",
        97,
        &of_16,
        &[(grant(WRITE, 15, 15), 0), (revoke(READ, 15, 15), 0)],
        96,
        &[
            (0, "01 00 00 12 00 04  02 00 00 16 00 40  03 00 00 56 00 0A  10 0C 02 00"),
            (22, "80 00 01 80  80 01 01 81  80 02 01 82  80 03 01 83"),
            (38, "80 04 01 84  80 05 01 85  80 06 01 86  80 07 01 87"),
            (54, "80 08 01 88  80 09 01 89  80 0A 01 8A  80 0B 01 8B"),
            (70, "80 0C 01 8C  80 0D 01 8D  80 0E 01 8E  00 0F 81 8F"),
            (86, "01 23 45 67 00  89 AB CD EF 01  EE"),
        ],
    );
    writes.refused("16 pages of 4,096 bytes, one byte short", 95, &of_16, &[], 27);
    writes.written(
        "32 pages of 2,048 bytes and one program",
        155,
        &plan(11, 32, &one),
        &[],
        155,
        &[(6, "02 00 00 16 00 80  03 00 00 96 00 05  20 0B 01 00"), (146, "80 1F 01 9F  01 02 03 04 00")],
    );
    writes.written(
        "58 pages: the programs' offset is 254",
        259,
        &plan(10, 58, &one),
        &[],
        259,
        &[(6, "02 00 00 16 00 E8  03 00 00 FE 00 05  3A 0A 01 00"), (250, "80 39 01 B9  01 02 03 04 00")],
    );
    writes.written(
        "59 pages: the programs' offset is 258",
        263,
        &plan(10, 59, &one),
        &[],
        263,
        &[(6, "02 00 00 16 00 EC  03 00 01 02 00 05  3B 0A 01 00"), (254, "80 3A 01 BA  01 02 03 04 00")],
    );
    writes.written(
        "63 pages: the pages' length is 252",
        279,
        &plan(10, 63, &one),
        &[],
        279,
        &[(6, "02 00 00 16 00 FC  03 00 01 12 00 05  3F 0A 01 00"), (270, "80 3E 01 BE  01 02 03 04 00")],
    );
    for (count, length, total) in [(2, "0A", 40), (4, "14", 50), (5, "19", 55), (6, "1E", 60), (7, "23", 65)] {
        let entry = format!("03 00 00 1E 00 {length}  02 05 {count:02X} 00");
        writes.written(
            &format!("two pages and {count} programs"),
            total,
            &plan(5, 2, &eight_programs()[..count]),
            &[],
            usize::from(total),
            &[(12, &entry), (22, "80 00 01 80  80 01 01 81"), (30, "01 23 45 67 00  89 AB CD EF 01")],
        );
    }
}
