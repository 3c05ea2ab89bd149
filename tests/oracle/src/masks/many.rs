//! Random cases of the least mask: nodes whose fields make ties and large masks frequent, and at fixed turns
//! each refusal.

use super::Asked;
use crate::least::{doing, pair, quick, MOST_PAIRS};
use crate::random::Random;
use crate::write::Plan;

/// From so many cases on, each number and the sorts of cases that are easily missed must have come often.
const ENOUGH_RUNS: u64 = 300;
/// What came fewer times than this was not tried well.
const LEAST: usize = 20;
/// All that the least mask can answer (RULES 12.4).
pub const NUMBERS: [u8; 6] = [0, 1, 2, 4, 33, 34];

/// The file of so many random cases, or what was wrong with them.
pub fn file(seed: u64, runs: u64) -> Result<Vec<u8>, String> {
    let cases: Vec<Asked> = (0..runs).map(|number| case(&mut Random::numbered(seed, number), number)).collect();
    if runs >= ENOUGH_RUNS {
        let mut counts = Counts::default();
        cases.iter().for_each(|asked| counts.add(asked));
        let wrong = counts.rare();
        if !wrong.is_empty() {
            return Err(wrong);
        }
    }
    let file = super::file(&cases);
    if file.len() >= super::LONGEST_FILE {
        return Err(format!("masks-random: {} bytes, not below {}\n", file.len(), super::LONGEST_FILE));
    }
    Ok(file)
}

/// The case of this number. Half of twelve are good or have no mask that will do; each of the others has
/// one thing wrong, and often another that is refused later.
pub fn case(random: &mut Random, number: u64) -> Asked {
    let plan = node(random);
    let mut asked = Asked { image: plan.image(), program: 0, list: list(random, &plan) };
    let turn = number % 12;
    match turn {
        0 => spoil_image(random, &mut asked.image),
        1 => {
            let count = plan.programs.len() as u16;
            asked.program = random.pick(&[count, count, count + 1, 8, 255, 256, 65_535]);
        }
        _ => asked.program = random.below(plan.programs.len()) as u16,
    }
    if turn == 2 || turn < 2 && random.chance(25) {
        let count = MOST_PAIRS + random.pick(&[1, 1, 2, 5, 20, 64]);
        let short = asked.list.clone();
        asked.list = (0..count).map(|_| random.pick(&short)).collect();
    }
    match turn {
        0..=2 if random.chance(30) => spoil_list(random, &plan, &mut asked.list),
        3 | 4 => {
            // The first bad pair stands where the list is cut, and what comes after it does not matter.
            let place = random.below(asked.list.len());
            let mut rest = asked.list.split_off(place);
            if random.chance(40) {
                spoil_list(random, &plan, &mut rest);
            }
            asked.list.push(if turn == 3 { wrong_right(random, &plan) } else { wrong_page(random, &plan) });
            asked.list.extend(&rest[1..]);
        }
        5 => {
            // Nothing of the context in a page that is asked for.
            let mut plan = plan;
            let context = plan.programs[usize::from(asked.program)].0;
            let page = random.below(plan.pages.len());
            let right = random.below(2) as u16;
            let field = if random.chance(50) { 0 } else { random.word() & !context };
            if right == 0 {
                plan.pages[page].0 = field;
            } else {
                plan.pages[page].1 = field;
            }
            asked.image = plan.image();
            let place = random.below(asked.list.len());
            asked.list[place] = pair(right, page as u16);
        }
        11 if random.chance(20) => asked.list.clear(),
        _ => {}
    }
    asked
}

/// Up to eight pages and four programs, rarely more programs. All programs share the domains of the fields,
/// with others in their contexts.
fn node(random: &mut Random) -> Plan {
    let mut domains: Vec<u16> = (0..16).map(|s| 1 << s).collect();
    for left in (1..16).rev() {
        domains.swap(left, random.below(left + 1));
    }
    let size = match random.below(100) {
        0..=1 => 0,
        2..=9 => random.between(1, 3),
        10..=39 => random.between(4, 8),
        40..=79 => random.between(9, 15),
        _ => 16,
    };
    let (within, outside) = domains.split_at(size);
    let context: u16 = within.iter().sum();
    // One that gives everything and is not there.
    let tempting = if random.chance(25) { outside.first().copied().unwrap_or(0) } else { 0 };
    let sort = random.below(6);
    let mut field = || tempting | a_field(random, sort, within, outside);
    let pages: Vec<(u16, u16)> = (0..8).map(|_| (field(), field())).collect();
    let pages = pages[..random.pick(&[1, 2, 3, 4, 4, 6, 8, 8])].to_vec();
    let count = random.pick(&[1, 1, 2, 2, 3, 4, 8]);
    let programs = (0..count).map(|_| {
        let context = if random.chance(70) { context } else { context & random.word() | random.word() & random.word() };
        let mask = match random.below(5) {
            0 => 0,
            1 => context,
            2 => !context,
            3 => 0xFFFF,
            _ => random.word(),
        };
        (context, mask, u8::from(random.chance(30)))
    });
    let programs = programs.collect();
    Plan { exponent: random.between(5, 12) as u8, pages, programs }
}

/// A field of few domains of the context, so that a mask needs many and has a choice, or of many.
fn a_field(random: &mut Random, sort: usize, within: &[u16], outside: &[u16]) -> u16 {
    let count = match sort {
        0 => 1,
        1 | 2 => 2,
        3 => 3,
        4 => random.between(1, 4),
        _ => return random.word(),
    };
    let mut field = 0;
    for _ in 0..count {
        field |= if within.is_empty() { 0 } else { random.pick(within) };
    }
    if !outside.is_empty() && random.chance(30) {
        field |= random.pick(outside);
    }
    field
}

/// Pairs of such a node, at least one. Often there is one for every field.
fn list(random: &mut Random, plan: &Plan) -> Vec<u32> {
    let mut every: Vec<u32> = (0..plan.pages.len() as u16).flat_map(|page| [pair(0, page), pair(1, page)]).collect();
    let count = match random.below(100) {
        0..=34 => {
            if random.chance(50) {
                every.reverse();
            }
            return every;
        }
        35..=59 => random.between(1, 4),
        60..=91 => random.between(5, 12),
        92..=97 => random.between(13, 63),
        _ => 64,
    };
    (0..count).map(|_| random.pick(&every)).collect()
}

/// An image that is refused, each time for one reason.
fn spoil_image(random: &mut Random, image: &mut Vec<u8>) {
    let last = image.len() - 1;
    match random.below(7) {
        0 => image.truncate(random.below(31)),
        1 => image[6 * random.below(3) + random.below(2)] = 9,
        2 => image[5] = 3,
        3 => image[19] = random.pick(&[0, 4, 13, 255]),
        4 => image.truncate(last),
        5 => image.push(0),
        _ => image[last] = random.pick(&[2, 3, 128, 255]),
    }
}

fn wrong_right(random: &mut Random, plan: &Plan) -> u32 {
    let right = random.pick(&[2, 3, 255, 256, 257, 65_535]);
    let page = if random.chance(60) { random.below(plan.pages.len()) as u16 } else { random.word() };
    pair(right, page)
}

fn wrong_page(random: &mut Random, plan: &Plan) -> u32 {
    let count = plan.pages.len() as u16;
    pair(random.below(2) as u16, random.pick(&[count, count, count + 1, 127, 128, 255, 256, 257, 65_535]))
}

/// One or two bad pairs anywhere in a list that is not empty.
fn spoil_list(random: &mut Random, plan: &Plan, list: &mut [u32]) {
    for _ in 0..random.between(1, 2) {
        let place = random.below(list.len());
        list[place] = if random.chance(50) { wrong_right(random, plan) } else { wrong_page(random, plan) };
    }
}

/// How often the cases had what they are for.
#[derive(Default)]
pub struct Counts {
    /// How often each of `NUMBERS` came.
    pub numbers: [usize; NUMBERS.len()],
    /// Nodes that did not start for want of the program.
    pub programs: usize,
    /// Masks beside which another one with as many domains will do.
    pub ties: usize,
    /// Masks of three and more domains.
    pub large: usize,
}

impl Counts {
    pub fn add(&mut self, asked: &Asked) {
        let (start, machine) = asked.start();
        let found = quick(&machine, &asked.list);
        for (known, times) in NUMBERS.iter().zip(&mut self.numbers) {
            *times += usize::from(found.number == *known);
        }
        self.programs += usize::from(start == 16);
        let ones = found.mask.count_ones();
        if found.number == 0 {
            let as_many = doing(&machine, &asked.list).filter(|mask| mask.count_ones() == ones).count();
            self.ties += usize::from(as_many > 1);
            self.large += usize::from(ones >= 3);
        }
    }

    /// What came too rarely, a line for each.
    pub fn rare(&self) -> String {
        let numbers = NUMBERS.iter().zip(self.numbers);
        let numbers = numbers.map(|(number, times)| (format!("the least mask answered {number}"), times));
        let sorts = [
            ("a node started with 16", self.programs),
            ("another mask with as many domains would do", self.ties),
            ("a mask had three or more domains", self.large),
        ];
        let sorts = sorts.map(|(what, times)| (what.to_string(), times));
        let rare = numbers.chain(sorts).filter(|(_, times)| *times < LEAST);
        rare.map(|(what, times)| format!("masks-random: {what} {times} times, fewer than {LEAST}\n")).collect()
    }
}
