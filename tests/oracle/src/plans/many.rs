//! Random plans: forests, forests with one parent altered, and parents at random.

use crate::planner::{ancestry, parents, plan, NONE, PLACES};
use crate::random::Random;

/// From so many plans on, each number and both sorts of plans that are easily missed must have come
/// often.
const ENOUGH_RUNS: u64 = 1_000;
/// What came fewer times than this was not tried well.
const LEAST: usize = 20;
/// All that the planner can answer (RULES 11.4).
pub const NUMBERS: [u8; 4] = [0, 30, 31, 32];

/// The file of so many random plans, or what was wrong with them.
pub fn file(seed: u64, runs: u64) -> Result<Vec<u8>, String> {
    let lists: Vec<Vec<u8>> = (0..runs).map(|number| case(&mut Random::numbered(seed, number))).collect();
    if runs >= ENOUGH_RUNS {
        let mut counts = Counts::default();
        lists.iter().for_each(|list| counts.add(list));
        let wrong = counts.rare();
        if !wrong.is_empty() {
            return Err(wrong);
        }
    }
    let file = super::file(lists.iter().map(|list| &list[..]));
    if file.len() >= super::LONGEST_FILE {
        return Err(format!("plans-random: {} bytes, not below {}\n", file.len(), super::LONGEST_FILE));
    }
    Ok(file)
}

/// One list.
pub fn case(random: &mut Random) -> Vec<u8> {
    let count = a_count(random);
    match random.weighted(&[40, 32, 20, 8]) {
        0 => forest(random, count),
        1 => altered(random, count),
        2 => (0..count).map(|_| a_context(random, count)).collect(),
        _ => (0..count).map(|_| random.byte()).collect(),
    }
}

/// Mostly a count that is not refused, and often the largest.
fn a_count(random: &mut Random) -> usize {
    match random.below(100) {
        0..=2 => 0,
        3..=8 => random.between(PLACES + 1, 40),
        9..=30 => PLACES,
        _ => random.between(1, PLACES),
    }
}

/// Some context, or none as often as each of them.
fn a_context(random: &mut Random, count: usize) -> u8 {
    let entry = random.below(count + 1);
    if entry == count {
        NONE
    } else {
        entry as u8
    }
}

/// Places the contexts in a random order, each below one that was placed before it or below none.
/// Some forests have few trees and some many, some are deep and some are not.
fn forest(random: &mut Random, count: usize) -> Vec<u8> {
    let (without_parent, straight) = (random.pick(&[0, 10, 40]), random.pick(&[0, 50, 95]));
    let mut left: Vec<usize> = (0..count).collect();
    let mut placed = Vec::new();
    let mut list = vec![NONE; count];
    while !left.is_empty() {
        let context = left.swap_remove(random.below(left.len()));
        if let (Some(&last), false) = (placed.last(), random.chance(without_parent)) {
            let parent: usize = if random.chance(straight) { last } else { random.pick(&placed) };
            list[context] = parent as u8;
        }
        placed.push(context);
    }
    list
}

/// A forest in which one context has another entry, which may be good by chance.
fn altered(random: &mut Random, count: usize) -> Vec<u8> {
    let mut list = forest(random, count);
    if count > 0 {
        let context = random.below(count);
        list[context] = match random.weighted(&[50, 10, 15, 10, 15]) {
            0 => a_context(random, count),
            1 => context as u8,
            2 => count as u8,
            3 => random.byte(),
            _ => random.pick(&[count as u8 + 1, 15, 16, 17, 127, 128, 254]),
        };
    }
    list
}

/// How often the plans had what they are for.
#[derive(Default)]
pub struct Counts {
    /// How often each of `NUMBERS` came.
    pub numbers: [usize; NUMBERS.len()],
    /// Accepted plans in which some context has a descendant that is no child of it.
    pub deep: usize,
    /// Plans refused with 32 in which some context leads into a cycle and is not on it.
    pub tails: usize,
}

impl Counts {
    pub fn add(&mut self, list: &[u8]) {
        let number = plan(list).number;
        for (known, times) in NUMBERS.iter().zip(&mut self.numbers) {
            *times += usize::from(number == *known);
        }
        self.deep += usize::from(number == 0 && deep(list));
        self.tails += usize::from(number == 32 && tail(list));
    }

    /// What came too rarely, a line for each.
    pub fn rare(&self) -> String {
        let numbers = NUMBERS.iter().zip(self.numbers);
        let numbers = numbers.map(|(number, times)| (format!("the planner answered {number}"), times));
        let sorts = [
            ("an accepted plan had a descendant that is no child", self.deep),
            ("a plan with 32 had a context off the cycle that leads into it", self.tails),
        ];
        let sorts = sorts.map(|(what, times)| (what.to_string(), times));
        let rare = numbers.chain(sorts).filter(|(_, times)| *times < LEAST);
        rare.map(|(what, times)| format!("plans-random: {what} {times} times, fewer than {LEAST}\n")).collect()
    }
}

/// Whether some context has a descendant that is no child of it. Every parent is below the count.
fn deep(list: &[u8]) -> bool {
    let parents = parents(list);
    ancestry(&parents).iter().any(|&(context, ancestor)| parents[context] != Some(ancestor))
}

/// Whether some context that is not its own ancestor has an ancestor that is. The same holds for the
/// parents.
fn tail(list: &[u8]) -> bool {
    let pairs = ancestry(&parents(list));
    let on_cycle = |context| pairs.contains(&(context, context));
    pairs.iter().any(|&(context, ancestor)| on_cycle(ancestor) && !on_cycle(context))
}
