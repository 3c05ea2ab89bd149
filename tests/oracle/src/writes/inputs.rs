//! Images that are refused, rooms above the greatest, remainders, unknown kinds and short cases.

use super::*;

pub fn add(writes: &mut Writes) {
    images_refused(writes);
    great_rooms(writes);
    records(writes);
    lengths(writes);
}

/// A load that was refused leaves a machine that is not sound. The call must not be made.
fn images_refused(writes: &mut Writes) {
    let image = sample().image();
    let with = |at: usize, byte: u8| {
        let mut image = sample().image();
        image[at] = byte;
        image
    };
    let spoilt = [
        (20, "no image", vec![]),
        (20, "30 bytes of an image", image[..30].to_vec()),
        (21, "a wrong kind", with(6, 3)),
        (22, "a wrong offset of the shape", with(3, 0x13)),
        (23, "page count 0", with(18, 0)),
        (24, "a wrong length of the pages", with(11, 0x0D)),
        (24, "a byte after the last body", [&image[..], &[0]].concat()),
        (25, "mode byte 2", with(38, 2)),
    ];
    for (load, what, image) in spoilt {
        for room in [44, 43, 0] {
            let input = input(&image, &mask(0x0007));
            writes.not_loaded(&format!("{what}, room {room}"), of_input(room, &input), load);
        }
    }
    let longest = Plan { exponent: 9, pages: vec![(1, 2); 128], programs: eight_programs() }.image();
    let longer = input(&[&longest[..], &[0]].concat(), &[]);
    writes.not_loaded("575 bytes of an image, room 50", of_input(50, &longer), 20);
}

fn great_rooms(writes: &mut Writes) {
    let bytes = [(0, SAMPLE_CONTENTS), (18, SAMPLE_SHAPE), (22, SAMPLE_PAGES), (34, SAMPLE_PROGRAMS)];
    let end = [(44, "EE"), (638, "EE EE")];
    let due = [&bytes[..], &end].concat();
    writes.written("room 641 counts as 640", 641, &sample(), &[], 44, &due);
    writes.written("room 65,535 counts as 640", 65_535, &sample(), &[], 44, &due);
}

fn records(writes: &mut Writes) {
    let due = |calls: &[u8], programs| {
        Due::new(0, calls.to_vec(), 0, 44, &[(0, SAMPLE_CONTENTS), (22, SAMPLE_PAGES), (34, programs)])
    };
    for left in 1..=5 {
        let rest = [&mask(0x0107)[..], &entry_call()[..left]].concat();
        let programs = "00 07 01 07 00  00 08 FF FF 00";
        writes.add(
            &format!("0: a remainder of {left} after a call is passed over"),
            of_input(44, &input(&sample().image(), &rest)),
            [due(&[0], programs), due(&[0], programs)],
        );
    }
    writes.add(
        "0: a remainder and no call",
        of_input(44, &input(&sample().image(), &[5])),
        [due(&[], SAMPLE_PROGRAMS), due(&[], SAMPLE_PROGRAMS)],
    );
    let unknown = [0, 14, 15, 26, 255].map(|kind| (record(kind, 1, 0xFFFF, 0xFFFF), 18));
    writes.sample("unknown kinds change nothing", &sample(), &unknown, SAMPLE_PAGES, SAMPLE_PROGRAMS);
    writes.sample(
        "unknown kinds between a mask command, an entry and a return",
        &sample(),
        &[
            (mask(0x0205), 0),
            (record(14, 0, 0, 0), 18),
            (entry_call(), 0),
            (record(0, 0, 0, 1), 18),
            (return_call(), 0),
            (record(255, 0, 0, 0), 18),
        ],
        SAMPLE_PAGES,
        "00 07 02 05 00  00 08 FF FF 00",
    );
    writes.refused(
        "unknown kinds do not end an interrupt",
        44,
        &sample(),
        &[(entry_call(), 0), (record(14, 0, 0, 0), 18)],
        26,
    );
}

fn lengths(writes: &mut Writes) {
    writes.not_loaded("a case of 0 bytes", vec![], 20);
    writes.not_loaded("a case of 1 byte, room 0", vec![0], 20);
    writes.not_loaded("a case of 1 byte, room 256", vec![1], 20);
    writes.not_loaded("a case of 1 byte, room 768, which counts as 640", vec![3], 20);
    writes.not_loaded("a case of its room alone", of_input(5, &[]), 20);
    writes.not_loaded("an input of 1 byte", of_input(5, &[0]), 20);
    writes.not_loaded("an input of a length alone", of_input(5, &[0, 44]), 20);
    let image = sample().image();
    let due = || Due::new(0, vec![], 0, 44, &[(0, SAMPLE_CONTENTS), (22, SAMPLE_PAGES), (34, SAMPLE_PROGRAMS)]);
    writes.add(
        "0: more image bytes declared than there are",
        of_input(46, &declaring(65_535, &image, &[])),
        [due(), due()],
    );
    writes.not_loaded("the calls fall into the image", of_input(44, &declaring(50, &image, &entry_call())), 24);
    writes.not_loaded("the image's last byte falls to the calls", of_input(44, &declaring(43, &image, &[])), 24);
}
