//! The loader: the machine that an image describes, or the number that refuses it.

use crate::machine::{Fields, Machine, Mode, Program, MOST_MEMORY};

/// High byte first. Only for places inside the image.
fn word(image: &[u8], at: usize) -> usize {
    usize::from(image[at]) * 256 + usize::from(image[at + 1])
}

/// A refused load gives no machine here: a run stops there, so nothing of it shows. Where
/// it is written all the same, `Machine::all_zero` stands for it.
pub fn load(image: &[u8]) -> Result<Machine, u8> {
    if image.len() < 31 || image.len() > 574 {
        return Err(20);
    }

    // The table of contents: kind, zero, offset, length, three times.
    for entry in 0..3 {
        let kind = image[6 * entry];
        let zero = image[6 * entry + 1];
        if usize::from(kind) != entry + 1 || zero != 0 {
            return Err(21);
        }
    }
    let (shape_offset, shape_length) = (word(image, 2), word(image, 4));
    let (pages_offset, pages_length) = (word(image, 8), word(image, 10));
    let (programs_offset, programs_length) = (word(image, 14), word(image, 16));

    if shape_offset != 18 || shape_length != 4 {
        return Err(22);
    }
    let page_count = usize::from(image[18]);
    let exponent = u32::from(image[19]);
    let program_count = usize::from(image[20]);
    let in_range = (1..=128).contains(&page_count)
        && (5..=12).contains(&exponent)
        && (1..=8).contains(&program_count)
        && image[21] == 0;
    // The exponent is in range before it is used as one.
    if !in_range || (page_count as u64) << exponent > MOST_MEMORY {
        return Err(23);
    }

    let pages_end = 22 + 4 * page_count;
    let programs_end = pages_end + 5 * program_count;
    if pages_offset != 22
        || pages_length != 4 * page_count
        || programs_offset != pages_end
        || programs_length != 5 * program_count
        || image.len() != programs_end
    {
        return Err(24);
    }

    let mut pages = Vec::new();
    for at in (22..pages_end).step_by(4) {
        pages.push(Fields { read: word(image, at) as u16, write: word(image, at + 2) as u16 });
    }
    let mut programs = Vec::new();
    for at in (pages_end..programs_end).step_by(5) {
        let mode = match image[at + 4] {
            0 => Mode::User,
            1 => Mode::Privileged,
            _ => return Err(25),
        };
        programs.push(Program { context: word(image, at) as u16, mask: word(image, at + 2) as u16, mode });
    }

    let first = programs[0];
    Ok(Machine {
        exponent,
        pages,
        context: first.context,
        mask: first.mask,
        mode: first.mode,
        pending: false,
        saved: Vec::new(),
        programs,
        current: 0,
        // An image does not hold one, so whatever was denied before is forgotten (RULES 1.16).
        last_violation: None,
    })
}
