//! Random inputs of every sort: legal, damaged, noise, short and over-long ones.

#[cfg(any(test, feature = "linked"))]
use crate::histories::legal;
use crate::histories::{history, legal_plan};
use crate::random::Random;
#[cfg(any(test, feature = "linked"))]
use crate::run::LONGEST_INPUT;
use crate::write::*;

/// Any input, of every sort.
#[cfg(any(test, feature = "linked"))]
pub fn any(random: &mut Random) -> Vec<u8> {
    match random.below(200) {
        0..=139 => {
            let calls = run_length(random);
            legal(random, calls)
        }
        140..=184 => damaged(random),
        185..=193 => noise(random),
        194..=195 => short(random),
        196..=197 => full(random),
        _ => over_long(random),
    }
}

/// An input whose image is refused most of the time. None is long.
pub fn spoilt(random: &mut Random) -> Vec<u8> {
    match random.below(10) {
        0 => noise(random),
        1 => short(random),
        _ => damaged(random),
    }
}

#[cfg(any(test, feature = "linked"))]
fn run_length(random: &mut Random) -> usize {
    match random.below(10) {
        0 => 0,
        1..=3 => random.between(1, 20),
        4..=8 => random.between(20, 150),
        _ => random.between(150, 400),
    }
}

/// A legal image with something wrong about it or its declared length. Some still load.
fn damaged(random: &mut Random) -> Vec<u8> {
    let mut plan = legal_plan(random);
    let mut image = plan.image();
    let calls = random.below(12);
    let rest = history(random, &image, calls);
    let last = image.len() - 1;
    let length = image.len() as u16;
    match random.below(14) {
        0 => image[random.below(last + 1)] ^= 1 << random.below(8),
        1 => image[random.below(22)] = random.byte(),
        2 => {
            let at = random.below(22);
            image[at] = if random.chance(50) { image[at].wrapping_add(1) } else { image[at].wrapping_sub(1) };
        }
        3 => image.truncate(last + 1 - random.between(1, 8)),
        4 => image.truncate(random.below(last + 1)),
        5 => image.extend((0..random.between(1, 8)).map(|n| (n % 3) as u8)),
        6 => {
            let near = length.wrapping_add(random.pick(&[1, 2, 6, 256, 65_535, 65_534]));
            let declared = random.pick(&[near, length.swap_bytes(), 0, 65_535]);
            return declaring(declared, &image, &rest);
        }
        7 => {
            let declared = length + random.between(1, 40_000) as u16;
            return declaring(declared, &image, &[]);
        }
        8 => {
            let whole = input(&image, &rest);
            return whole[..random.below(whole.len() + 1)].to_vec();
        }
        9 => {
            // A mode byte above 1 in one of the programs.
            let program = random.below(plan.programs.len());
            plan.programs[program].2 = random.pick(&[2, 3, 128, 255]);
            image = plan.image();
        }
        10 => {
            let (at, byte) =
                random.pick(&[(18, 0), (18, 129), (19, 4), (19, 13), (19, 32), (20, 0), (20, 9), (21, 1), (21, 128)]);
            image[at] = byte;
        }
        11 => {
            // A shape out of range, with bodies that agree with it.
            match random.below(4) {
                0 => plan.exponent = random.pick(&[0, 4, 13, 16, 64, 255]),
                1 => plan.pages.resize(random.pick(&[0, 129, 130]), (1, 1)),
                2 => plan.programs.resize(random.pick(&[0, 9, 10]), (1, 1, 0)),
                _ => {
                    plan.exponent = random.between(10, 12) as u8;
                    plan.pages.resize((65_536 >> plan.exponent) + random.below(3), (1, 1));
                }
            }
            image = plan.image();
        }
        12 => {
            // An offset or a length low byte first.
            let at = random.pick(&[2, 4, 8, 10, 14, 16]);
            image.swap(at, at + 1);
        }
        _ => {
            image[random.below(22)] ^= 1 << random.below(8);
            image[last] = random.byte();
            image[random.below(22)] ^= 1 << random.below(8);
        }
    }
    input(&image, &rest)
}

/// Bytes without a plan, or a table of contents and then none.
fn noise(random: &mut Random) -> Vec<u8> {
    let length = random.below(700);
    let mut bytes: Vec<u8> = (0..length).map(|_| random.byte()).collect();
    match random.below(3) {
        0 => bytes,
        1 => {
            bytes.iter_mut().for_each(|byte| *byte %= 6);
            input(&bytes, &[])
        }
        _ => {
            let start = legal_plan(random).image();
            let kept = random.below(start.len());
            input(&[&start[..kept], &bytes].concat(), &[])
        }
    }
}

fn short(random: &mut Random) -> Vec<u8> {
    let length = random.below(40);
    let byte = random.pick(&[0, 1, 31, 44]);
    vec![byte; length]
}

/// A legal input of the longest length, or a few bytes below it.
#[cfg(any(test, feature = "linked"))]
fn full(random: &mut Random) -> Vec<u8> {
    let image = legal_plan(random).image();
    let records = history(random, &image, 5_600);
    // A run that got stuck is short; its records are said again.
    let again = LONGEST_INPUT / records.len() + 1;
    let mut bytes = input(&image, &records.repeat(again));
    bytes.truncate(LONGEST_INPUT - random.pick(&[0, 0, 1, 2, 5, 6, 7]));
    bytes
}

#[cfg(any(test, feature = "linked"))]
fn over_long(random: &mut Random) -> Vec<u8> {
    let mut bytes = legal(random, 20);
    let more = random.between(2, 40_000);
    bytes.resize(LONGEST_INPUT + random.pick(&[1, 1, 2, 6, more]), 5);
    bytes
}
