//! Random cases of writing: short inputs, and rooms around the image's length.

use crate::histories::{changes, legal_plan};
use crate::inputs::spoilt;
use crate::random::Random;
use crate::rounds::{rounds, Round, MOST_ROOM};
use crate::run::split;
use crate::stored;
use crate::write::*;

/// From so many cases on, each of the writer's numbers, both sorts of lines that a question
/// prints, accesses that name a domain and empty masks must have come often.
const ENOUGH_RUNS: u64 = 400;
/// What came fewer times than this was not tried well.
const LEAST: usize = 20;
/// All that the writer can answer (RULES 5.15).
pub const NUMBERS: [u8; 4] = [0, 1, 26, 27];

/// The file of so many random cases, or what was wrong with them.
pub fn file(seed: u64, runs: u64) -> Result<Vec<u8>, String> {
    let cases: Vec<Vec<u8>> = (0..runs).map(|number| case(&mut Random::numbered(seed, number))).collect();
    if runs >= ENOUGH_RUNS {
        let wrong = rare(cases.iter().map(|case| {
            let [first, _] = rounds(case);
            first
        }));
        if !wrong.is_empty() {
            return Err(wrong);
        }
    }
    Ok(stored::file(cases.iter().map(|case| (stored::WRITING, &case[..]))))
}

/// What came too rarely in these rounds, a line for each.
pub fn rare(rounds: impl Iterator<Item = Round>) -> String {
    let mut written = NUMBERS.map(|number| (number, 0));
    let (mut denied, mut none, mut named, mut empty) = (0, 0, 0, 0);
    for round in rounds {
        for (number, times) in &mut written {
            *times += usize::from(round.written.number == *number);
        }
        let lines = round.hand_outs();
        let of_none = lines.iter().filter(|&line| line == "none").count();
        none += of_none;
        denied += lines.len() - of_none;
        named += round.named().iter().flatten().count();
        empty += round.numbers().iter().filter(|&&number| number == 19).count();
    }
    let answers = written.map(|(number, times)| (format!("the writer answered {number}"), times));
    let hand_outs =
        [("denied", denied), ("none", none)].map(|(line, times)| (format!("a question gave `{line}`"), times));
    let calls = [("an access named a domain", named), ("a mask command answered 19", empty)]
        .map(|(what, times)| (what.to_string(), times));
    let rare = answers.into_iter().chain(hand_outs).chain(calls).filter(|(_, times)| *times < LEAST);
    rare.map(|(what, times)| format!("writes-random: {what} {times} times, fewer than {LEAST}\n")).collect()
}

/// The room and the input of one case.
pub fn case(random: &mut Random) -> Vec<u8> {
    let input = if random.chance(84) { of_legal_image(random) } else { spoilt(random) };
    let image_length = split(&input).0.len();
    let room = a_room(random, image_length);
    super::of_input(room, &input)
}

fn of_legal_image(random: &mut Random) -> Vec<u8> {
    let mut plan = legal_plan(random);
    if random.chance(3) {
        grow(random, &mut plan);
    }
    let image = plan.image();
    let calls = match random.below(10) {
        0 => 0,
        1..=7 => random.between(1, 14),
        _ => random.between(15, 40),
    };
    let mut rest = changes(random, &image, calls);
    if random.chance(20) {
        let left = random.between(1, 5);
        rest.extend((0..left).map(|_| random.byte()));
    }
    input(&image, &rest)
}

/// Makes an image of 574 bytes out of a lesser one.
fn grow(random: &mut Random, plan: &mut Plan) {
    plan.exponent = random.between(5, 9) as u8;
    plan.pages.resize_with(128, || (random.word(), random.word()));
    plan.programs.resize_with(8, || (random.word(), random.word(), random.below(2) as u8));
}

/// Most often the image's own length; then one byte less or more, none, and any other.
fn a_room(random: &mut Random, needed: usize) -> u16 {
    let room = match random.below(100) {
        0..=33 => needed,
        34..=48 => needed.saturating_sub(1),
        49..=60 => needed + 1,
        61..=66 => 0,
        67..=74 => random.below(needed + 1),
        75..=90 => needed + random.between(2, 60),
        91..=95 => random.between(needed.min(MOST_ROOM), MOST_ROOM),
        96..=97 => MOST_ROOM,
        _ => random.between(MOST_ROOM + 1, 65_535),
    };
    room as u16
}
