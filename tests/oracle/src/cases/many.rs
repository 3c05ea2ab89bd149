//! Random runs of moderate length. Their text shows the domain that each access names, which the
//! answers for the bench do not have.

use crate::histories::{legal, naming};
use crate::image::load;
use crate::machine::DOMAINS;
use crate::random::Random;
use crate::run::{split, step, RECORD};
use crate::sorts::givers;
use crate::stored;

/// From so many runs on, each domain must have been named often, and accesses of two bytes whose
/// pages give through different domains and empty masks must have come often.
const ENOUGH_RUNS: u64 = 300;
/// What came fewer times than this was not tried well.
const LEAST: usize = 20;

/// The file of so many random runs, or what was wrong with them.
pub fn file(seed: u64, runs: u64) -> Result<Vec<u8>, String> {
    let inputs: Vec<Vec<u8>> = (0..runs).map(|number| case(&mut Random::numbered(seed, number))).collect();
    if runs >= ENOUGH_RUNS {
        let mut counts = Counts::default();
        inputs.iter().for_each(|input| counts.add(input));
        let wrong = counts.rare();
        if !wrong.is_empty() {
            return Err(wrong);
        }
    }
    Ok(stored::file(inputs.iter().map(|input| (stored::RUN, &input[..]))))
}

/// The input of one run: half of them as the bench gets them, half with many accesses that name a
/// domain.
pub fn case(random: &mut Random) -> Vec<u8> {
    if random.chance(50) {
        let calls = random.between(0, 60);
        legal(random, calls)
    } else {
        let calls = random.between(10, 100);
        naming(random, calls)
    }
}

/// How often the runs had what they are for.
#[derive(Default)]
pub struct Counts {
    /// How often each domain was named.
    pub named: [usize; DOMAINS as usize],
    /// Accesses of two bytes across an edge that were given through different domains: by the first
    /// page through the one of higher level, and by the second.
    pub apart: [usize; 2],
    /// Mask commands with an empty mask: the accesses after them name what the mask before left.
    pub empty: usize,
}

impl Counts {
    pub fn add(&mut self, input: &[u8]) {
        let (image, records) = split(input);
        let Ok(mut machine) = load(image) else {
            return;
        };
        for record in records.chunks_exact(RECORD) {
            if let Some((first, second)) = givers(&machine, record).filter(|(first, second)| first != second) {
                self.apart[usize::from(second.0 < first.0)] += 1;
            }
            let outcome = step(&mut machine, record);
            if let Some(domain) = outcome.named() {
                self.named[usize::from(domain.0)] += 1;
            }
            self.empty += usize::from(outcome.number() == 19);
        }
    }

    /// What came too rarely, a line for each.
    pub fn rare(&self) -> String {
        let named = self.named.iter().enumerate().map(|(s, &times)| (format!("domain {s} was named"), times));
        let apart = ["first", "second"].into_iter().zip(self.apart);
        let apart =
            apart.map(|(which, times)| (format!("two pages gave, the {which} through a higher domain,"), times));
        let empty = [(String::from("a mask command answered 19"), self.empty)];
        let rare = named.chain(apart).chain(empty).filter(|(_, times)| *times < LEAST);
        rare.map(|(what, times)| format!("runs-random: {what} {times} times, fewer than {LEAST}\n")).collect()
    }
}
