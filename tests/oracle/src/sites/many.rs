//! Random inputs of the program `rightsum`: sites of good, damaged and empty images, lengths that lie, every
//! sort of end, and at fixed turns inputs around the longest one that is taken.

use crate::histories::legal_plan;
use crate::image::load;
use crate::inputs::spoilt;
use crate::random::Random;
use crate::rights::{parts, rights, Part, Rights};
use crate::run::{split, LONGEST_INPUT};
use crate::write::{declaring, input, Plan};

/// From so many inputs on, what the inputs are for must have come often.
pub const ENOUGH_RUNS: u64 = 500;

/// The input of this number. Which sort it is depends on the number alone.
pub fn site(random: &mut Random, number: u64) -> Vec<u8> {
    match number % 100 {
        10 => crowd(random),
        20 => full(random, LONGEST_INPUT),
        45 => {
            let missing = random.pick(&[1, 1, 2, 3, 40]);
            full(random, LONGEST_INPUT - missing)
        }
        65 => too_long(random),
        90 => great(random),
        turn if turn % 10 == 7 => lying(random),
        _ => honest(random, number),
    }
}

/// Images that mostly load, and one of eight ends.
fn honest(random: &mut Random, number: u64) -> Vec<u8> {
    let count = match random.below(50) {
        0 => 0,
        1..=46 => random.between(1, 12),
        _ => random.between(13, 60),
    };
    let mut site = Vec::new();
    // Sums of four digits are rare else, and so are domains without a right in any of several images.
    let (is_large, is_narrow) = (random.chance(20), random.chance(20));
    if is_large {
        site.extend(input(&large(random).image(), &[]));
    }
    let domains = if is_narrow { random.word() & random.word() } else { 0xFFFF };
    for _ in 0..count {
        let image = match random.weighted(&[66, 22, 8, 4]) {
            0 => good_within(random, domains),
            1 => refused(random),
            2 => vec![],
            _ => split(&spoilt(random)).0.to_vec(),
        };
        site.extend(input(&image, &[]));
    }
    site.extend(end(random, number % 8));
    site.truncate(LONGEST_INPUT);
    site
}

/// What stands last: cut images, a byte left over, or nothing.
fn end(random: &mut Random, turn: u64) -> Vec<u8> {
    let image = good(random);
    let length = image.len();
    match turn {
        // The bytes that are there would load.
        0 => {
            let more = random.between(1, 40_000);
            let declared = length + random.pick(&[1, 1, 2, 256, more]);
            declaring(declared as u16, &image, &[])
        }
        1 => {
            let there = random.below(length);
            declaring(length as u16, &image[..there], &[])
        }
        2 => {
            // Images and their lengths among the bytes that are there.
            let inside = if random.chance(50) { input(&image, &input(&good(random), &[])) } else { spoilt(random) };
            let more = random.between(1, 30_000);
            declaring((inside.len() + random.pick(&[1, 2, more])) as u16, &inside, &[])
        }
        3 => declaring(random.pick(&[1, 31, 44, 256, 574, 32_768, 65_535]), &[], &[]),
        4 => vec![random.pick(&[0, 0, 1, 31, 44, 255])],
        _ => vec![],
    }
}

/// Hundreds of empty, short and small images.
fn crowd(random: &mut Random) -> Vec<u8> {
    let empty = random.pick(&[10, 60, 95]);
    let mut site = Vec::new();
    for _ in 0..random.between(300, 900) {
        let image = if random.chance(empty) {
            vec![]
        } else if random.chance(20) {
            vec![random.byte(); random.between(1, 30)]
        } else {
            let mut plan = legal_plan(random);
            plan.pages.truncate(2);
            plan.programs.truncate(1);
            plan.image()
        };
        site.extend(input(&image, &[]));
    }
    site.truncate(LONGEST_INPUT);
    site
}

/// Lengths that are not the images' own, damaged inputs of the run program as they stand, and noise.
fn lying(random: &mut Random) -> Vec<u8> {
    let mut site = Vec::new();
    for _ in 0..random.between(1, 8) {
        let image = good(random);
        let length = image.len() as u16;
        match random.below(4) {
            0 => site.extend(spoilt(random)),
            1 => {
                let near = length.wrapping_add(random.pick(&[1, 2, 4, 5, 256, 65_535, 65_534, 65_531]));
                let any = random.word();
                let declared = random.pick(&[near, near, length.swap_bytes(), 0, any]);
                site.extend(declaring(declared, &image, &[]));
            }
            _ => site.extend(input(&image, &[])),
        }
    }
    site
}

/// An image that loads, of any shape. The fields have few bits, many, or those of one right alone, and no
/// domain but these.
fn good_within(random: &mut Random, domains: u16) -> Vec<u8> {
    let mut plan = legal_plan(random);
    let sort = random.below(8);
    for (read, write) in &mut plan.pages {
        match sort {
            0 => (*read, *write) = (0, 0),
            1 => (*read, *write) = (*read | random.word() | random.word(), *write | random.word()),
            2 => *read = 0,
            3 => *write = 0,
            _ => {}
        }
    }
    if sort == 0 {
        // A single right, or none.
        let page = random.below(plan.pages.len());
        let one = 1 << random.below(16);
        plan.pages[page] = random.pick(&[(0, 0), (one, 0), (0, one)]);
    }
    for (read, write) in &mut plan.pages {
        (*read, *write) = (*read & domains, *write & domains);
    }
    plan.image()
}

/// The same with any domains.
fn good(random: &mut Random) -> Vec<u8> {
    good_within(random, 0xFFFF)
}

/// An image with more than a thousand bits for each right.
fn large(random: &mut Random) -> Plan {
    let mut field = || random.word() | random.word() | 0x0180;
    let pages = (0..128).map(|_| (field(), field())).collect();
    let programs = vec![(random.word(), random.word(), random.below(2) as u8); random.between(1, 8)];
    Plan { exponent: random.between(5, 9) as u8, pages, programs }
}

/// An image that is refused with some number, each of them as likely.
fn refused(random: &mut Random) -> Vec<u8> {
    let number = random.between(20, 25) as u8;
    if number == 20 && random.chance(40) {
        let mut image = large(random).image();
        image.resize(random.between(575, 700), 0);
        return image;
    }
    loop {
        let input = spoilt(random);
        let (image, _) = split(&input);
        if !image.is_empty() && load(image).err() == Some(number) {
            return image.to_vec();
        }
    }
}

/// Exactly so many bytes, mostly of images that load.
fn full(random: &mut Random, length: usize) -> Vec<u8> {
    let mut site = Vec::new();
    let large_ones = random.chance(50);
    loop {
        let image = match random.below(20) {
            0 => refused(random),
            _ if large_ones => large(random).image(),
            _ => good(random),
        };
        if site.len() + 2 + image.len() > length {
            site.extend(filling(random, length - site.len()));
            return site;
        }
        site.extend(input(&image, &[]));
    }
}

/// Exactly so many bytes: an image that loads where one can have that length, else what is refused.
fn filling(random: &mut Random, length: usize) -> Vec<u8> {
    for program_count in 1..=8 {
        let other = 24 + 5 * program_count;
        let page_count = length.saturating_sub(other) / 4;
        if other + 4 * page_count == length && (1..=128).contains(&page_count) && random.chance(80) {
            let pages = vec![(random.word(), random.word()); page_count];
            return input(&Plan { exponent: 5, pages, programs: vec![(1, 1, 0); program_count] }.image(), &[]);
        }
    }
    match length {
        0 | 1 => vec![0; length],
        _ if random.chance(50) => vec![0; length],
        _ => {
            let bytes: Vec<u8> = (2..length).map(|_| random.byte()).collect();
            declaring((bytes.len() + random.below(2)) as u16, &bytes, &[])
        }
    }
}

/// From one byte too many on.
fn too_long(random: &mut Random) -> Vec<u8> {
    let mut site = full(random, LONGEST_INPUT);
    match random.below(4) {
        0 => site.push(0),
        1 => site.extend(input(&good(random), &[])),
        2 => site = full(random, LONGEST_INPUT + 1),
        _ => site.resize(random.between(32_769, 70_000), 0),
    }
    site
}

/// A total of six digits: at least 50 images of 128 pages with all or nearly all domains.
fn great(random: &mut Random) -> Vec<u8> {
    let mut site = Vec::new();
    let sort = random.below(3);
    for _ in 0..random.between(50, 59) {
        let one = random.word();
        let page = match sort {
            0 => (0xFFFF, one),
            1 => (one, 0xFFFF),
            _ => (0xFFFF, 0xFFFF),
        };
        let mut plan = Plan { exponent: 5, pages: vec![page; 128], programs: vec![(one, 0xFFFF, 0)] };
        let spared = random.below(128);
        plan.pages[spared] = (random.word(), random.word());
        site.extend(input(&plan.image(), &[]));
    }
    if random.chance(50) {
        let rest = LONGEST_INPUT - site.len();
        site.extend(filling(random, rest.min(540)));
    }
    site
}

/// What an input can have, and in how many inputs it must come at least.
pub const SORTS: [(&str, usize); 21] = [
    ("an image refused with 20 that is not empty", 20),
    ("an image refused with 21", 20),
    ("an image refused with 22", 20),
    ("an image refused with 23", 20),
    ("an image refused with 24", 20),
    ("an image refused with 25", 20),
    ("an empty image", 20),
    ("an image of more than 574 bytes", 20),
    ("a cut image", 20),
    ("a cut image whose bytes would load", 20),
    ("a cut image of which no byte is there", 20),
    ("a byte left over", 20),
    ("a total of READ above 999", 20),
    ("a total of WRITE above 999", 20),
    ("a domain without a right beside one that has some", 20),
    ("different totals of READ and WRITE", 20),
    ("five or more images that load", 20),
    ("an image that loads behind one that is refused", 20),
    ("exactly 32,768 bytes", 3),
    ("more than 32,768 bytes", 3),
    ("a total of six digits", 3),
];

/// Which of `SORTS` an input has. One that is too long has nothing else.
pub fn sorts(input: &[u8]) -> [bool; SORTS.len()] {
    if input.len() > LONGEST_INPUT {
        let mut sorts = [false; SORTS.len()];
        sorts[19] = true;
        return sorts;
    }
    let parts = parts(input);
    let Rights { read, write, .. } = rights(input);
    let sums = [read.iter().sum::<u32>(), write.iter().sum()];
    // The load's number of each image that is not cut.
    let numbers: Vec<Option<u8>> = parts
        .iter()
        .map(|part| match part {
            Part::Image(image) => Some(load(image).err().unwrap_or(0)),
            Part::Cut(_) | Part::Leftover => None,
        })
        .collect();
    let has = |number: u8| numbers.contains(&Some(number));
    let image_is = |is: fn(&[u8]) -> bool| parts.iter().any(|part| matches!(part, Part::Image(image) if is(image)));
    let cut_is = |is: fn(&[u8]) -> bool| matches!(parts.last(), Some(Part::Cut(there)) if is(there));
    let without = (0..16).any(|s| read[s] == 0 && write[s] == 0);
    let refused_first = numbers.iter().position(|number| number.is_some_and(|number| number != 0));
    [
        image_is(|image| !image.is_empty() && load(image).err() == Some(20)),
        has(21),
        has(22),
        has(23),
        has(24),
        has(25),
        image_is(|image| image.is_empty()),
        image_is(|image| image.len() > 574),
        cut_is(|_| true),
        cut_is(|there| load(there).is_ok()),
        cut_is(|there| there.is_empty()),
        parts.last() == Some(&Part::Leftover),
        sums[0] > 999,
        sums[1] > 999,
        without && sums != [0, 0],
        sums[0] != sums[1],
        numbers.iter().filter(|&&number| number == Some(0)).count() >= 5,
        refused_first.is_some_and(|place| numbers[place..].contains(&Some(0))),
        input.len() == LONGEST_INPUT,
        false,
        sums[0] > 99_999 || sums[1] > 99_999,
    ]
}

/// In how many inputs each of `SORTS` came.
#[derive(Default)]
pub struct Counts {
    pub sorts: [usize; SORTS.len()],
}

impl Counts {
    pub fn add(&mut self, input: &[u8]) {
        for (times, has) in self.sorts.iter_mut().zip(sorts(input)) {
            *times += usize::from(has);
        }
    }

    /// What came too rarely, a line for each.
    pub fn rare(&self) -> String {
        let rare = SORTS.iter().zip(self.sorts).filter(|((_, least), times)| times < least);
        rare.map(|((what, least), times)| format!("rights: {what} came in {times} inputs, fewer than {least}\n"))
            .collect()
    }
}
