//! The least mask (RULES 12.1 to 12.5): what is written by hand beside the stored cases, laws over them and
//! over random ones, the wrong readings that the stored cases must show, files and their text, and the
//! random cases.

use super::{loaded, SAMPLE};
use crate::least::{least, page_of, pair, quick, right_of, Least, MOST_PAIRS};
use crate::machine::{Machine, Mode, Page, Violation, Width};
use crate::masks::many::{self, Counts, NUMBERS};
use crate::masks::{all, cases, file, input, listing, output, text, Asked, LONGEST_FILE};
use crate::random::Random;
use crate::write::Plan;
use std::collections::BTreeSet;
use std::rc::Rc;

/// A case that was asked: how its node started, the machine, and what was found.
struct Answered {
    asked: Asked,
    start: u8,
    machine: Machine,
    found: Least,
}

fn answered(asked: Asked) -> Answered {
    let (start, machine) = asked.start();
    let found = quick(&machine, &asked.list);
    Answered { asked, start, machine, found }
}

fn stored() -> Vec<Answered> {
    all().into_iter().map(|case| answered(case.asked)).collect()
}

fn random_cases(seed: u64, runs: u64) -> impl Iterator<Item = Asked> {
    (0..runs).map(move |number| many::case(&mut Random::numbered(seed, number), number))
}

/// The stored cases and random ones.
fn many_cases() -> Vec<Answered> {
    stored().into_iter().chain(random_cases(1, 600).map(answered)).collect()
}

/// The field that a pair names. Only for pairs that are not bad.
fn field(machine: &Machine, pair: u32) -> u16 {
    machine.field(right_of(pair) as u8, Page(page_of(pair)))
}

/// The machine in user mode with the flag clear and this mask live.
fn under(machine: &Machine, mask: u16) -> Machine {
    Machine { mask, mode: Mode::User, pending: false, ..machine.clone() }
}

/// Whether every byte of a pair's page is allowed, and whether none is.
fn bytes_allowed(machine: &Machine, pair: u32) -> (bool, bool) {
    let size = machine.page_size() as u32;
    let first = u32::from(page_of(pair)) * size;
    let allowed = |address: u32| {
        let mut machine = machine.clone();
        machine.access(Width::One, right_of(pair) as u8, address) != Err(9)
    };
    // Of large pages some bytes are enough.
    let step = (size / 32) as usize;
    let bytes: Vec<bool> = (first..first + size).step_by(step).chain([first + size - 1]).map(allowed).collect();
    (bytes.iter().all(|&allowed| allowed), !bytes.contains(&true))
}

fn distinct(list: &[u32]) -> BTreeSet<u32> {
    list.iter().copied().collect()
}

#[test]
fn a_pair_is_a_number() {
    assert_eq!(pair(0, 0), 0);
    assert_eq!(pair(0, 65_535), 0xFFFF);
    assert_eq!(pair(1, 0), 0x1_0000);
    assert_eq!(pair(65_535, 65_535), u32::MAX);
    for number in [0, 1, 0x0102_0304, 0x0001_007F, 0xFFFF_0000, u32::MAX] {
        assert_eq!(pair(right_of(number), page_of(number)), number);
    }
}

#[test]
fn the_sample_has_these_least_masks() {
    let machine = loaded();
    assert_eq!(least(&machine, &[pair(0, 1), pair(1, 1)]), Least { number: 0, mask: 0x0002 });
    assert_eq!(least(&machine, &[pair(0, 0), pair(0, 1), pair(0, 2)]), Least { number: 0, mask: 0x0007 });
    assert_eq!(least(&machine, &[pair(1, 0)]), Least { number: 34, mask: 0 });
    assert_eq!(least(&machine, &[]), Least { number: 0, mask: 0 });
    assert_eq!(least(&machine, &[pair(0, 3)]), Least { number: 4, mask: 0 });
}

#[test]
fn the_least_mask_is_what_is_written_beside_the_cases() {
    let cases = all();
    let (mut known, mut reached, mut starts) = (BTreeSet::new(), [0; NUMBERS.len()], BTreeSet::new());
    for (before, case) in cases.iter().enumerate() {
        case.check(before + 1);
        assert!(case.purpose.starts_with(&format!("{}: ", case.due.number)), "{}", case.purpose);
        assert!(case.due.number == 0 || case.due.mask == 0);
        assert!(known.insert(&case.asked), "case {}: it stands twice", before + 1);
        reached[NUMBERS.iter().position(|&number| number == case.due.number).expect("a known number")] += 1;
        starts.insert(case.start);
    }
    assert!(reached.iter().all(|&times| times >= 20), "{reached:?}");
    assert!(starts.iter().eq(&[0, 16, 20, 21, 22, 23, 24, 25]), "{starts:?}");
}

/// The access asked for every mask there is, against the way over the givers that the other tests use.
#[test]
fn both_ways_find_the_same() {
    for (before, case) in all().iter().enumerate() {
        let (_, machine) = case.asked.start();
        assert_eq!(quick(&machine, &case.asked.list), case.due, "case {}: {}", before + 1, case.purpose);
    }
    for asked in random_cases(2, 600) {
        let (_, machine) = asked.start();
        assert_eq!(quick(&machine, &asked.list), least(&machine, &asked.list), "{asked:?}");
    }
}

#[test]
fn a_mask_that_is_found_is_within_the_context_and_allows_every_byte() {
    let mut times = 0;
    for Answered { asked, machine, found, .. } in many_cases().iter().filter(|case| case.found.number == 0) {
        assert_eq!(found.mask & !machine.context, 0, "{asked:?}");
        let live = under(machine, found.mask);
        for pair in distinct(&asked.list) {
            assert_eq!(bytes_allowed(&live, pair), (true, false), "{asked:?}");
            times += 1;
        }
    }
    assert!(times >= 1_500, "{times}");
}

/// The bytes of a page are judged alike under every mask, so that one of them may speak for the page.
#[test]
fn the_bytes_of_a_page_are_judged_alike() {
    let (mut given, mut denied) = (0, 0);
    let mut random = Random::new(8);
    for Answered { asked, machine, .. } in many_cases().iter().filter(|case| [0, 34].contains(&case.found.number)) {
        let live = under(machine, random.word() & random.word());
        for pair in distinct(&asked.list) {
            let (all, none) = bytes_allowed(&live, pair);
            assert_ne!(all, none, "{asked:?}");
            given += usize::from(all);
            denied += usize::from(none);
        }
    }
    assert!(given >= 500 && denied >= 500, "{given}, {denied}");
}

/// All 65,536 masks, each judged by the fields.
#[test]
fn no_other_mask_does_with_fewer_domains_or_a_smaller_number() {
    let (mut others, mut smaller) = (0, 0);
    for Answered { asked, machine, found, .. } in many_cases().iter().filter(|case| case.found.number == 0) {
        let fields: Vec<u16> = distinct(&asked.list).iter().map(|&pair| field(machine, pair)).collect();
        for mask in (0..=0xFFFF).filter(|mask: &u16| mask & !machine.context == 0 && *mask != found.mask) {
            if fields.iter().all(|field| field & mask != 0) {
                let (more, as_many) = (
                    mask.count_ones() > found.mask.count_ones(),
                    mask.count_ones() == found.mask.count_ones() && mask > found.mask,
                );
                assert!(more || as_many, "{asked:?}: 0x{mask:04X}");
                others += usize::from(as_many);
                smaller += usize::from(more && mask < found.mask);
            }
        }
    }
    assert!(others >= 1_000 && smaller >= 1_000, "{others}, {smaller}");
}

#[test]
fn no_mask_will_do_exactly_where_the_whole_context_will_not() {
    let (mut will, mut will_not) = (0, 0);
    for Answered { asked, machine, found, .. } in
        many_cases().iter().filter(|case| [0, 34].contains(&case.found.number))
    {
        for mask in [machine.context, 0xFFFF] {
            let live = under(machine, mask);
            let does = distinct(&asked.list).iter().all(|&pair| bytes_allowed(&live, pair).0);
            assert_eq!(found.number == 0, does, "{asked:?}");
        }
        will += usize::from(found.number == 0);
        will_not += usize::from(found.number == 34);
    }
    assert!(will >= 200 && will_not >= 100, "{will}, {will_not}");
}

#[test]
fn a_refused_list_has_its_reason_and_no_earlier_one() {
    for Answered { asked, start, machine, found } in many_cases() {
        let list = &asked.list;
        let bad = list.iter().position(|&pair| is_bad(&machine, pair));
        let due = match (start, list.len(), bad) {
            (1.., ..) => 1,
            (0, 65.., _) => 33,
            (0, _, Some(place)) => {
                if right_of(list[place]) > 1 {
                    2
                } else {
                    4
                }
            }
            (0, _, None) => {
                if list.iter().any(|&pair| field(&machine, pair) & machine.context == 0) {
                    34
                } else {
                    0
                }
            }
        };
        assert_eq!(found.number, due, "{asked:?}");
        assert_eq!(found.mask == 0, due != 0 || list.is_empty(), "{asked:?}");
    }
}

/// The machine is sound and has one page with domains 0 and 1 for READ.
fn small() -> Machine {
    let plan = Plan { exponent: 5, pages: vec![(0x0003, 0)], programs: vec![(0x0003, 0x0001, 0), (0x0004, 4, 1)] };
    let (start, machine) = Asked { image: plan.image(), program: 0, list: vec![] }.start();
    assert_eq!(start, 0);
    machine
}

#[test]
fn mode_flag_mask_and_the_rest_play_no_part() {
    let mut random = Random::new(5);
    for Answered { asked, machine, found, .. } in many_cases().iter().filter(|case| case.start == 0) {
        let mut other = machine.clone();
        other.mask = random.word();
        let state = random.below(3);
        other.mode = if state == 0 { Mode::Privileged } else { Mode::User };
        other.pending = state == 1;
        other.saved = vec![Mode::Privileged; random.below(9)];
        other.last_violation = Some(Violation { program: 0, right: 1, address: 0 });
        other.current = random.below(other.programs.len());
        for program in &mut other.programs {
            (program.context, program.mask, program.mode) = (random.word(), random.word(), Mode::Privileged);
        }
        assert!(other.sound());
        assert_eq!(quick(&other, &asked.list), *found, "{asked:?}");
    }
    // The same by the plain way, with the flag set and in privileged mode.
    let due = Least { number: 0, mask: 0x0001 };
    for mask in [0x0000, 0x0002, 0xFFFF] {
        assert_eq!(least(&Machine { mask, pending: true, ..small() }, &[0]), due);
        assert_eq!(least(&Machine { mask, mode: Mode::Privileged, ..small() }, &[0]), due);
    }
}

#[test]
fn a_machine_that_is_not_sound_is_refused_first() {
    let sound = small();
    let violation = |program, right, address| Some(Violation { program, right, address });
    let unsound = [
        Machine::all_zero(),
        Machine { pages: vec![], ..sound.clone() },
        Machine { exponent: 4, ..sound.clone() },
        Machine { exponent: 13, ..sound.clone() },
        Machine { programs: vec![], ..sound.clone() },
        Machine { current: 2, ..sound.clone() },
        Machine { saved: vec![Mode::User; 9], ..sound.clone() },
        Machine { pending: true, mode: Mode::Privileged, ..sound.clone() },
        Machine { last_violation: violation(2, 0, 0), ..sound.clone() },
        Machine { last_violation: violation(0, 2, 0), ..sound.clone() },
        Machine { last_violation: violation(0, 0, 32), ..sound.clone() },
        Machine { pages: vec![sound.pages[0]; 17], exponent: 12, ..sound.clone() },
    ];
    for machine in unsound {
        for list in [&[][..], &[0], &[pair(2, 0)], &[pair(0, 1)], &[pair(2, 1)], &[0; 65]] {
            assert_eq!(least(&machine, list), Least { number: 1, mask: 0 }, "{machine:?}");
            assert_eq!(quick(&machine, list), Least { number: 1, mask: 0 }, "{machine:?}");
        }
    }
    assert_eq!(least(&sound, &[0]), Least { number: 0, mask: 0x0001 });
}

#[test]
fn neither_the_order_nor_a_pair_said_again_changes_the_mask() {
    let mut random = Random::new(6);
    for Answered { asked, machine, found, .. } in
        many_cases().iter().filter(|case| [0, 34].contains(&case.found.number))
    {
        let mut list = asked.list.clone();
        list.reverse();
        assert_eq!(quick(machine, &list), *found, "{asked:?}");
        while !list.is_empty() && list.len() < MOST_PAIRS {
            list.insert(random.below(list.len() + 1), random.pick(&asked.list));
        }
        assert_eq!(quick(machine, &list), *found, "{asked:?}");
    }
}

/// The mask command takes every mask found for some pair, and refuses that of an empty list.
#[test]
fn the_mask_command_takes_what_was_found() {
    for Answered { asked, machine, found, .. } in many_cases().iter().filter(|case| case.found.number == 0) {
        let mut live = under(machine, 0xFFFF);
        let due = if asked.list.is_empty() { Err(19) } else { Ok(()) };
        assert_eq!(live.mask_command(found.mask), due, "{asked:?}");
        if due.is_ok() {
            assert!(asked.list.iter().all(|&pair| field(&live, pair) & live.local_context() != 0));
        }
    }
}

type Start = Box<dyn Fn(&Asked) -> (u8, Machine)>;
type List = Box<dyn Fn(&[u32]) -> Vec<u32>>;
type Bad = Box<dyn Fn(&Machine, &[u32]) -> u8>;
type Words = Box<dyn Fn(&Machine, u32) -> Option<u16>>;
type Within = Box<dyn Fn(&Machine) -> u16>;
type Choose = Box<dyn Fn(&[u16], u16, &Machine) -> Option<u16>>;

/// A way to read the rule, in parts, so that each part can be read wrongly by itself.
struct Reading {
    start: Start,
    /// How the list is taken before anything else.
    list: List,
    /// The checks in order: 2 stands for those of the pairs.
    order: Vec<u8>,
    /// Whether a list of so many pairs is refused.
    long: fn(usize) -> bool,
    /// The number of the bad pair that decides, or 0.
    bad: Bad,
    /// Of which pairs a mask is made.
    looked_at: List,
    /// The domains that allow a pair, or none where the pair asks for nothing or is bad.
    word: Words,
    /// What a mask is made of.
    within: Within,
    /// The mask for words that have been cut to what it is made of.
    choose: Choose,
    /// What is found, as it is given.
    given: fn(u16) -> u16,
    /// A refusal with this number has the mask beside it all the same; 0 is no such number.
    keeps: u8,
}

impl Reading {
    fn read(&self, asked: &Asked) -> (u8, Least) {
        let (start, machine) = (self.start)(asked);
        let list = (self.list)(&asked.list);
        let within = (self.within)(&machine);
        let words: Vec<u16> = (self.looked_at)(&list)
            .iter()
            .filter_map(|&pair| (self.word)(&machine, pair))
            .map(|w| w & within)
            .collect();
        let mask = (self.choose)(&words, within, &machine);
        for &check in &self.order {
            let number = match check {
                1 if !machine.sound() => 1,
                33 if (self.long)(list.len()) => 33,
                2 => (self.bad)(&machine, &list),
                34 if mask.is_none() => 34,
                _ => 0,
            };
            if number != 0 {
                let beside = if number == self.keeps { mask.unwrap_or(within) } else { 0 };
                return (start, Least { number, mask: beside });
            }
        }
        (start, Least { number: 0, mask: (self.given)(mask.unwrap_or(0)) })
    }
}

/// All masks, sorted by this.
fn sorted<K: Ord>(key: impl Fn(u16) -> K) -> Rc<Vec<u16>> {
    let mut masks: Vec<u16> = (0..=0xFFFF).collect();
    masks.sort_by_key(|&mask| key(mask));
    Rc::new(masks)
}

fn hits(mask: u16, words: &[u16]) -> bool {
    words.iter().all(|word| word & mask != 0)
}

/// The first in this order that will do.
fn first_of(masks: Rc<Vec<u16>>) -> Choose {
    Box::new(move |words, within, _| {
        if words.contains(&0) {
            return None;
        }
        masks.iter().copied().find(|&mask| mask & !within == 0 && hits(mask, words))
    })
}

/// The domains in a mask, from 0 on.
fn domains(mask: u16) -> impl DoubleEndedIterator<Item = u16> {
    (0..16).map(|s| 1 << s).filter(move |domain| mask & domain != 0)
}

/// Only for masks other than 0.
fn lowest(mask: u16) -> u16 {
    1 << mask.trailing_zeros()
}

/// Only for masks other than 0.
fn highest(mask: u16) -> u16 {
    0x8000 >> mask.leading_zeros()
}

fn is_bad(machine: &Machine, pair: u32) -> bool {
    right_of(pair) > 1 || beyond(machine, pair)
}

fn right_bad(machine: &Machine, pair: u32) -> u8 {
    if right_of(pair) > 1 {
        2
    } else if beyond(machine, pair) {
        4
    } else {
        0
    }
}

fn beyond(machine: &Machine, pair: u32) -> bool {
    usize::from(page_of(pair)) >= machine.pages.len()
}

/// The same pair with the other right. Only for rights 0 and 1.
fn other(pair: u32) -> u32 {
    pair ^ 0x1_0000
}

/// The numbers of all bad pairs in turn.
fn numbers(machine: &Machine, list: &[u32]) -> Vec<u8> {
    list.iter().map(|&pair| right_bad(machine, pair)).filter(|&number| number != 0).collect()
}

/// The number that this gives for the first pair for which it is not 0.
fn first_bad(of: impl Fn(&Machine, u32) -> u8 + 'static) -> Bad {
    Box::new(move |machine, list| list.iter().map(|&pair| of(machine, pair)).find(|&number| number != 0).unwrap_or(0))
}

/// The rule, with this order of all masks.
fn right_with(fewest: &Rc<Vec<u16>>) -> Reading {
    Reading {
        start: Box::new(Asked::start),
        list: Box::new(<[u32]>::to_vec),
        order: vec![1, 33, 2, 34],
        long: |count| count > 64,
        bad: first_bad(right_bad),
        looked_at: Box::new(<[u32]>::to_vec),
        word: Box::new(|machine, pair| (!is_bad(machine, pair)).then(|| field(machine, pair))),
        within: Box::new(|machine| machine.context),
        choose: first_of(fewest.clone()),
        given: |mask| mask,
        keeps: 0,
    }
}

fn fewest() -> Rc<Vec<u16>> {
    sorted(|mask| (mask.count_ones(), mask))
}

type Named = Vec<(String, Reading)>;

fn with_names<const COUNT: usize>(readings: [(&str, Reading); COUNT]) -> Named {
    readings.into_iter().map(|(what, reading)| (what.to_string(), reading)).collect()
}

/// Which mask is chosen of those that there are.
fn wrong_choices() -> Named {
    let fewest = fewest();
    let by = |choose: Choose| Reading { choose, ..right_with(&fewest) };
    let mut named = with_names([
        ("the least number, with more domains", by(first_of(sorted(|mask| mask)))),
        ("the largest number of the fewest", by(first_of(sorted(|mask| (mask.count_ones(), !mask))))),
        ("the most domains", by(first_of(sorted(|mask| (16 - mask.count_ones(), mask))))),
        ("the smallest number with a sign", by(first_of(sorted(|mask| (mask.count_ones(), mask as i16))))),
        (
            "of the fewest the one with domain 0, then 1 and so on",
            by(first_of(sorted(|mask| (mask.count_ones(), !mask.reverse_bits())))),
        ),
        (
            "the smallest number from domain 15 up",
            by(first_of(sorted(|mask| (mask.count_ones(), mask.reverse_bits())))),
        ),
        ("the smallest low byte", by(first_of(sorted(|mask| (mask.count_ones(), mask.swap_bytes()))))),
        ("the whole context", by(Box::new(|words, within, _| (!words.contains(&0)).then_some(within)))),
        ("all domains of all pairs", by(Box::new(|words, _, _| (!words.contains(&0)).then(|| joined(words))))),
        ("greedy, the lowest first", by(greedy(false, false))),
        ("greedy, the highest first", by(greedy(true, false))),
        ("greedy over different fields, the lowest first", by(greedy(false, true))),
        ("greedy over different fields, the highest first", by(greedy(true, true))),
        ("each pair in turn, the lowest domain", by(in_turn(lowest))),
        ("each pair in turn, the highest domain", by(in_turn(highest))),
        ("the lowest domain of each pair", by(Box::new(|words, _, _| of_each(words, lowest)))),
        ("the highest domain of each pair", by(Box::new(|words, _, _| of_each(words, highest)))),
        ("what can be left out, from the lowest", by(left_out(|mask| domains(mask).collect()))),
        ("what can be left out, from the highest", by(left_out(|mask| domains(mask).rev().collect()))),
        (
            "fields joined over the pairs",
            by(Box::new(|words, _, _| match joined(words) {
                0 => words.is_empty().then_some(0),
                joined => Some(lowest(joined)),
            })),
        ),
        (
            "one domain for all pairs",
            by(Box::new(|words, _, _| match words.iter().fold(0xFFFF, |shared, word| shared & word) {
                _ if words.is_empty() => Some(0),
                0 => None,
                shared => Some(lowest(shared)),
            })),
        ),
        (
            "34 only where nothing is given at all",
            by({
                let right = first_of(fewest.clone());
                Box::new(move |words, within, machine| {
                    let given: Vec<u16> = words.iter().copied().filter(|&word| word != 0).collect();
                    if given.is_empty() && !words.is_empty() {
                        return None;
                    }
                    right(&given, within, machine)
                })
            }),
        ),
        (
            "the live mask where it does",
            by({
                let right = first_of(fewest.clone());
                Box::new(move |words, within, machine| match machine.mask & within {
                    live if !words.is_empty() && hits(live, words) => Some(live),
                    _ => right(words, within, machine),
                })
            }),
        ),
        (
            "the live mask of those with as many domains",
            by({
                let right = first_of(fewest.clone());
                Box::new(move |words, within, machine| {
                    let found = right(words, within, machine)?;
                    let live = machine.mask;
                    let as_good = live & !within == 0 && live.count_ones() == found.count_ones() && hits(live, words);
                    Some(if as_good { live } else { found })
                })
            }),
        ),
        (
            "domains added to the live mask",
            by({
                let right = first_of(fewest.clone());
                Box::new(move |words, within, machine| Some(right(words, within, machine)? | machine.mask & within))
            }),
        ),
        (
            "nothing where the live mask does",
            by({
                let right = first_of(fewest.clone());
                Box::new(move |words, within, machine| {
                    if hits(machine.mask & within, words) {
                        return Some(0);
                    }
                    right(words, within, machine)
                })
            }),
        ),
        ("bytes of the mask swapped", Reading { given: u16::swap_bytes, ..right_with(&fewest) }),
        ("domains counted from 15", Reading { given: u16::reverse_bits, ..right_with(&fewest) }),
        ("the domains that are not needed", Reading { given: |mask| !mask, ..right_with(&fewest) }),
    ]);
    for most in 0..16 {
        let right = first_of(fewest.clone());
        let choose: Choose = Box::new(move |words, within, machine| {
            right(words, within, machine).filter(|mask| mask.count_ones() <= most)
        });
        named.push((format!("masks of up to {most} domains tried"), by(choose)));
    }
    named
}

fn joined(words: &[u16]) -> u16 {
    words.iter().fold(0, |joined, word| joined | word)
}

/// One domain of each word, whatever the others have.
fn of_each(words: &[u16], choose: fn(u16) -> u16) -> Option<u16> {
    (!words.contains(&0)).then(|| words.iter().fold(0, |mask, &word| mask | choose(word)))
}

/// The domain that gives most of what is left, again and again.
fn greedy(from_highest: bool, different: bool) -> Choose {
    Box::new(move |words, _, _| {
        let mut left = words.to_vec();
        if different {
            left = left.iter().copied().collect::<BTreeSet<u16>>().into_iter().collect();
        }
        let mut mask = 0;
        while !left.is_empty() {
            let gives = |domain: u16| left.iter().filter(|&word| word & domain != 0).count();
            let order: Vec<u16> =
                if from_highest { domains(0xFFFF).collect() } else { domains(0xFFFF).rev().collect() };
            // Of those that give most it is the last.
            let best = order.into_iter().max_by_key(|&domain| gives(domain)).expect("there are domains");
            if gives(best) == 0 {
                return None;
            }
            mask |= best;
            left.retain(|word| word & best == 0);
        }
        Some(mask)
    })
}

/// A domain for each pair that has none yet.
fn in_turn(choose: fn(u16) -> u16) -> Choose {
    Box::new(move |words, _, _| {
        let mut mask = 0;
        for &word in words {
            if word == 0 {
                return None;
            }
            if word & mask == 0 {
                mask |= choose(word);
            }
        }
        Some(mask)
    })
}

/// All domains, less each that the others do without.
fn left_out(order: fn(u16) -> Vec<u16>) -> Choose {
    Box::new(move |words, within, _| {
        if words.contains(&0) {
            return None;
        }
        let mut mask = within;
        for domain in order(within) {
            if hits(mask & !domain, words) {
                mask &= !domain;
            }
        }
        Some(mask)
    })
}

/// What allows a pair, and what masks are made of.
fn wrong_words() -> Named {
    let fewest = fewest();
    let within = |within: fn(&Machine) -> u16| Reading { within: Box::new(within), ..right_with(&fewest) };
    let of_pair = |word: fn(&Machine, u32) -> u16| Reading {
        word: Box::new(move |machine, pair| (!is_bad(machine, pair)).then(|| word(machine, pair))),
        ..right_with(&fewest)
    };
    let looked_at = |list: List| Reading { looked_at: list, ..right_with(&fewest) };
    let in_mode = |mode: Mode| Reading {
        word: Box::new(move |machine, pair| {
            (machine.mode != mode && !is_bad(machine, pair)).then(|| field(machine, pair))
        }),
        ..right_with(&fewest)
    };
    let mut named = with_names([
        ("bits outside the global context", within(|_| 0xFFFF)),
        ("the local context", within(Machine::local_context)),
        ("the live mask for the context", within(|machine| machine.mask)),
        ("context and mask together", within(|machine| machine.context | machine.mask)),
        ("the context of program 0", within(|machine| machine.programs.first().map_or(0, |program| program.context))),
        ("the context of the last program", within(|machine| machine.programs.last().map_or(0, |last| last.context))),
        (
            "the contexts of all programs",
            within(|machine| machine.programs.iter().fold(0, |all, program| all | program.context)),
        ),
        ("bytes of the context swapped", within(|machine| machine.context.swap_bytes())),
        ("live mode taken into account", in_mode(Mode::Privileged)),
        ("nothing denied in user mode", in_mode(Mode::User)),
        ("the live mask taken into account", of_pair(|machine, pair| field(machine, pair) & machine.mask)),
        ("one right for the other", of_pair(|machine, pair| field(machine, other(pair)))),
        ("READ for both rights", of_pair(|machine, pair| field(machine, pair % 0x1_0000))),
        ("WRITE for both rights", of_pair(|machine, pair| field(machine, pair % 0x1_0000 + 0x1_0000))),
        ("either right", of_pair(|machine, pair| field(machine, pair) | field(machine, other(pair)))),
        ("both rights", of_pair(|machine, pair| field(machine, pair) & field(machine, other(pair)))),
        (
            "READ allowed where WRITE is",
            of_pair(|machine, pair| field(machine, pair) | field(machine, pair | 0x1_0000)),
        ),
        ("WRITE only with READ", of_pair(|machine, pair| field(machine, pair) & field(machine, pair % 0x1_0000))),
        (
            "the prevailing domain only",
            of_pair(|machine, pair| field(machine, pair) & field(machine, pair).wrapping_neg()),
        ),
        (
            "the highest level within the context only",
            of_pair(|machine, pair| {
                let shared = field(machine, pair) & machine.context;
                shared & shared.wrapping_neg()
            }),
        ),
        (
            "nothing where the prevailing domain is outside the context",
            of_pair(|machine, pair| {
                let prevailing = field(machine, pair) & field(machine, pair).wrapping_neg();
                if prevailing & machine.context != 0 {
                    field(machine, pair)
                } else {
                    0
                }
            }),
        ),
        ("bytes of a field swapped", of_pair(|machine, pair| field(machine, pair).swap_bytes())),
        ("fields read from domain 15", of_pair(|machine, pair| field(machine, pair).reverse_bits())),
        ("domains that are not in the field", of_pair(|machine, pair| !field(machine, pair))),
        ("page 0 for every page", of_pair(|machine, pair| field(machine, pair / 0x1_0000 * 0x1_0000))),
        (
            "the next page",
            of_pair(|machine, pair| {
                let next = (usize::from(page_of(pair)) + 1) % machine.pages.len();
                field(machine, pair / 0x1_0000 * 0x1_0000 + next as u32)
            }),
        ),
        (
            "pages from the last one",
            of_pair(|machine, pair| {
                let page = machine.pages.len() - 1 - usize::from(page_of(pair));
                field(machine, pair / 0x1_0000 * 0x1_0000 + page as u32)
            }),
        ),
        ("the first pair only", looked_at(Box::new(|list| list.iter().copied().take(1).collect()))),
        ("the last pair only", looked_at(Box::new(|list| list.iter().copied().rev().take(1).collect()))),
        ("the first sixteen pairs only", looked_at(Box::new(|list| list.iter().copied().take(16).collect()))),
    ]);
    for place in 0..MOST_PAIRS {
        let others = move |list: &[u32]| {
            let others = list.iter().enumerate().filter(|&(at, _)| at != place);
            others.map(|(_, &pair)| pair).collect()
        };
        named.push((format!("pair {} not looked at", place + 1), looked_at(Box::new(others))));
    }
    for domain in 0..16 {
        let without = Box::new(move |machine: &Machine| machine.context & !(1 << domain));
        named.push((format!("domain {domain} never tried"), Reading { within: without, ..right_with(&fewest) }));
        let with = Box::new(move |machine: &Machine| machine.context | 1 << domain);
        named.push((format!("domain {domain} always tried"), Reading { within: with, ..right_with(&fewest) }));
        for right in 0..2 {
            let word: Words = Box::new(move |machine, pair| {
                let lost = if right_of(pair) == right { 1 << domain } else { 0 };
                (!is_bad(machine, pair)).then(|| field(machine, pair) & !lost)
            });
            named
                .push((format!("domain {domain} not seen for right {right}"), Reading { word, ..right_with(&fewest) }));
        }
    }
    named
}

/// What is refused, in which order, and what is given where the list is empty or refused.
fn wrong_refusals() -> Named {
    let fewest = fewest();
    let right = || right_with(&fewest);
    let long = |long: fn(usize) -> bool| Reading { long, ..right() };
    let list = |list: fn(&[u32]) -> Vec<u32>| Reading { list: Box::new(list), ..right() };
    let bad = |of: fn(&Machine, u32) -> u8| Reading { bad: first_bad(of), ..right() };
    let over_list = |bad: fn(&Machine, &[u32]) -> u8| Reading { bad: Box::new(bad), ..right() };
    let empty = |mask: fn(&Machine) -> Option<u16>| {
        let choose = first_of(fewest.clone());
        let choose: Choose = Box::new(
            move |words, within, machine| {
                if words.is_empty() {
                    mask(machine)
                } else {
                    choose(words, within, machine)
                }
            },
        );
        Reading { choose, ..right() }
    };
    let mut named = with_names([
        ("pairs past the 64th ignored", list(|list| list.iter().copied().take(64).collect())),
        ("the last 64 pairs alone", list(|list| list[list.len().saturating_sub(64)..].to_vec())),
        ("the low byte of the count", list(|list| list[..list.len() % 256].to_vec())),
        ("the same pair counted once", list(|list| distinct(list).into_iter().collect())),
        ("33 at 64", long(|count| count >= 64)),
        ("33 from 66 on", long(|count| count > 65)),
        ("33 from 129 on", long(|count| count > 128)),
        ("33 from 256 on", long(|count| count > 255)),
        ("33 by the low byte of the count", long(|count| count % 256 > 64)),
        ("33 never", long(|_| false)),
        ("33 for an empty list", long(|count| count == 0 || count > 64)),
        ("4 before 2 in a pair", bad(|machine, pair| if beyond(machine, pair) { 4 } else { right_bad(machine, pair) })),
        ("2 and 4 swapped in number", bad(|machine, pair| [0, 0, 4, 0, 2][usize::from(right_bad(machine, pair))])),
        ("3 for a page", bad(|machine, pair| [0, 0, 2, 0, 3][usize::from(right_bad(machine, pair))])),
        ("no right refused", bad(|machine, pair| if beyond(machine, pair) { 4 } else { 0 })),
        ("no page refused", bad(|_, pair| if right_of(pair) > 1 { 2 } else { 0 })),
        (
            "right 2 taken",
            bad(|machine, pair| match right_of(pair) {
                3.. => 2,
                _ if beyond(machine, pair) => 4,
                _ => 0,
            }),
        ),
        ("right 1 refused", bad(|machine, pair| if right_of(pair) > 0 { 2 } else { right_bad(machine, pair) })),
        ("a right looked at by its low byte", bad(|machine, pair| right_bad(machine, pair & 0x00FF_FFFF))),
        ("a right looked at by its low bit", bad(|machine, pair| right_bad(machine, pair & 0x0001_FFFF))),
        ("a right looked at by its high byte", bad(|machine, pair| right_bad(machine, pair & 0xFF00_FFFF))),
        ("a page looked at by its low byte", bad(|machine, pair| right_bad(machine, pair & 0xFFFF_00FF))),
        ("a page looked at by seven bits", bad(|machine, pair| right_bad(machine, pair & 0xFFFF_007F))),
        (
            "the page count taken as a page",
            bad(|machine, pair| {
                let is_count = usize::from(page_of(pair)) == machine.pages.len() && right_of(pair) < 2;
                if is_count {
                    0
                } else {
                    right_bad(machine, pair)
                }
            }),
        ),
        (
            "the last page refused",
            bad(|machine, pair| {
                let is_last = usize::from(page_of(pair)) + 1 == machine.pages.len() && right_of(pair) < 2;
                if is_last {
                    4
                } else {
                    right_bad(machine, pair)
                }
            }),
        ),
        (
            "pages below 128 taken",
            bad(|machine, pair| match right_bad(machine, pair) {
                4 if page_of(pair) < 128 => 0,
                number => number,
            }),
        ),
        (
            "page 127 refused",
            bad(|machine, pair| if page_of(pair) >= 127 && right_of(pair) < 2 { 4 } else { right_bad(machine, pair) }),
        ),
        (
            "a later bad pair before an earlier one",
            over_list(|machine, list| numbers(machine, list).last().copied().unwrap_or(0)),
        ),
        ("all 2s before any 4", over_list(|machine, list| numbers(machine, list).into_iter().min().unwrap_or(0))),
        ("all 4s before any 2", over_list(|machine, list| numbers(machine, list).into_iter().max().unwrap_or(0))),
        (
            "the first pair alone looked at",
            over_list(|machine, list| list.first().map_or(0, |&p| right_bad(machine, p))),
        ),
        ("the last pair alone looked at", over_list(|machine, list| list.last().map_or(0, |&p| right_bad(machine, p)))),
        (
            "bad only where all pairs are",
            over_list(|machine, list| {
                let numbers = numbers(machine, list);
                if numbers.len() == list.len() {
                    numbers.first().copied().unwrap_or(0)
                } else {
                    0
                }
            }),
        ),
        (
            "6 in privileged mode",
            over_list(
                |machine, list| {
                    if machine.privileged() {
                        6
                    } else {
                        numbers(machine, list).first().copied().unwrap_or(0)
                    }
                },
            ),
        ),
        (
            "a pair that no mask allows before a later bad one",
            over_list(|machine, list| {
                let number = |&pair: &u32| match right_bad(machine, pair) {
                    0 if field(machine, pair) & machine.context == 0 => 34,
                    number => number,
                };
                list.iter().map(number).find(|&number| number != 0).unwrap_or(0)
            }),
        ),
        ("34 where the list is empty", empty(|_| None)),
        ("34 where list and context are empty", empty(|machine| (machine.context != 0).then_some(0))),
        ("the whole context where the list is empty", empty(|machine| Some(machine.context))),
        ("one domain where the list is empty", empty(|machine| domains(machine.context).next())),
        ("the live mask where the list is empty", empty(|machine| Some(machine.mask))),
        ("a list refused with 33 has its mask", Reading { keeps: 33, ..right() }),
        ("a list refused with 2 has its mask", Reading { keeps: 2, ..right() }),
        ("a list refused with 4 has its mask", Reading { keeps: 4, ..right() }),
        ("a list refused with 34 has the context", Reading { keeps: 34, ..right() }),
        ("1 never", Reading { order: vec![33, 2, 34], ..right() }),
        ("34 never", Reading { order: vec![1, 33, 2], ..right() }),
    ]);
    for order in orders() {
        let what = format!("checks in the order {order:?}");
        if order != [1, 33, 2, 34] {
            named.push((what, Reading { order, ..right() }));
        }
    }
    for place in [0, 1, 2, 31, 63] {
        let others: Bad = Box::new(move |machine, list| {
            let others = list.iter().enumerate().filter(|&(at, _)| at != place);
            others.map(|(_, &pair)| right_bad(machine, pair)).find(|&number| number != 0).unwrap_or(0)
        });
        named.push((format!("pair {} taken, however bad", place + 1), Reading { bad: others, ..right() }));
    }
    named
}

/// The four checks in every order.
fn orders() -> Vec<Vec<u8>> {
    let checks = [1, 33, 2, 34];
    let mut orders = vec![vec![]];
    for _ in checks {
        let longer = |order: &Vec<u8>| {
            let left = checks.iter().filter(|check| !order.contains(check));
            left.map(|&check| [&order[..], &[check]].concat()).collect::<Vec<_>>()
        };
        orders = orders.iter().flat_map(longer).collect();
    }
    orders
}

/// How a node starts, and which machine is asked.
fn wrong_starts() -> Named {
    let fewest = fewest();
    let start = |start: fn(&Asked) -> (u8, Machine)| Reading { start: Box::new(start), ..right_with(&fewest) };
    fn of_program(asked: &Asked, program: u16) -> (u8, Machine) {
        Asked { program, ..asked.clone() }.start()
    }
    with_names([
        ("program 0 always", start(|asked| of_program(asked, 0))),
        ("the low byte of the program", start(|asked| of_program(asked, asked.program % 256))),
        ("the low three bits of the program", start(|asked| of_program(asked, asked.program % 8))),
        ("programs counted from 1", start(|asked| of_program(asked, asked.program.saturating_sub(1)))),
        (
            "16 before the load's number",
            start(|asked| match asked.start() {
                (20.., machine) if asked.program > 7 => (16, machine),
                started => started,
            }),
        ),
        (
            "program 0 asked where there is no such program",
            start(|asked| match asked.start() {
                (16, _) => (16, of_program(asked, 0).1),
                started => started,
            }),
        ),
        (
            "start 1 for every node that does not start",
            start(|asked| {
                let (number, machine) = asked.start();
                (number.min(1), machine)
            }),
        ),
    ])
}

#[test]
fn the_parts_read_rightly_are_the_rule() {
    let right = right_with(&fewest());
    for Answered { asked, start, found, .. } in many_cases() {
        assert_eq!(right.read(&asked), (start, found), "{asked:?}");
    }
}

#[test]
fn each_misreading_of_the_least_mask_shows_in_the_stored_cases() {
    let stored = stored();
    let readings = [wrong_choices(), wrong_words(), wrong_refusals(), wrong_starts()];
    let unseen: Vec<String> = readings
        .into_iter()
        .flatten()
        .filter(|(_, reading)| stored.iter().all(|case| reading.read(&case.asked) == (case.start, case.found)))
        .map(|(what, _)| what)
        .collect();
    assert!(unseen.is_empty(), "{unseen:#?}");
}

#[test]
fn the_line_of_a_case() {
    let asked = |program: u16, list: &[u32]| Asked { image: SAMPLE.to_vec(), program, list: list.to_vec() };
    let long = Plan { exponent: 5, pages: vec![(0x8000, 0x7FFF)], programs: vec![(0xFFFF, 0, 1)] };
    let long = Asked { image: long.image(), program: 0, list: vec![pair(1, 0), pair(0, 0)] };
    let short = Asked { image: vec![], program: 9, list: vec![] };
    let due = "1 start 0 mask 0 0002 1
2 start 0 mask 0 0007 0 1 2
3 start 0 mask 0 0008 3
4 start 0 mask 0 0000 -
5 start 0 mask 34 0000 -
6 start 0 mask 2 0000 -
7 start 0 mask 4 0000 -
8 start 0 mask 33 0000 -
9 start 16 mask 1 0000 -
10 start 20 mask 1 0000 -
11 start 0 mask 0 8001 0 15
";
    let cases = [
        asked(0, &[pair(0, 1), pair(1, 1)]),
        asked(0, &[pair(0, 2), pair(0, 1), pair(0, 0)]),
        asked(1, &[pair(0, 2)]),
        asked(0, &[]),
        asked(0, &[pair(1, 0)]),
        asked(0, &[pair(2, 0)]),
        asked(0, &[pair(1, 3)]),
        asked(0, &[0; 65]),
        asked(2, &[0]),
        short,
        long,
    ];
    assert_eq!(text(&file(&cases)), due);
}

#[test]
fn a_file_of_cases() {
    // Three bytes of image, program 0x0102, and two pairs; no image and no pair; one of each.
    let bytes = [
        &[0, 3, 7, 8, 9, 1, 2, 0, 2, 0, 1, 0, 4, 255, 254, 1, 0][..],
        &[0, 0, 0, 0, 0, 0],
        &[0, 1, 5, 255, 255, 0, 1, 0, 0, 0, 127],
    ];
    let three = [
        Asked { image: vec![7, 8, 9], program: 0x0102, list: vec![0x0001_0004, 0xFFFE_0100] },
        Asked { image: vec![], program: 0, list: vec![] },
        Asked { image: vec![5], program: 65_535, list: vec![127] },
    ];
    let whole = bytes.concat();
    assert_eq!(cases(&whole), three);
    assert_eq!(file(&three), whole);
    assert_eq!(text(&whole).lines().count(), 3);

    // A case that the file cuts is not there, wherever it is cut.
    let ends = [0, 17, 23, 34];
    for length in 0..=whole.len() {
        let count = ends.iter().filter(|&&end| end <= length).count() - 1;
        assert_eq!(cases(&whole[..length]), three[..count], "{length} bytes");
    }
    assert_eq!(text(&[]), "");
    // Neither is what follows it.
    assert_eq!(cases(&[&bytes[0][..], &[255, 255], bytes[1], bytes[2]].concat()), three[..1]);

    // Lengths that take both bytes.
    let long = [Asked { image: vec![6; 0x0102], program: 0, list: vec![1; 0x0103] }];
    let bytes = file(&long);
    assert_eq!(bytes[..3], [1, 2, 6]);
    assert_eq!(bytes[0x0104..0x010C], [0, 0, 1, 3, 0, 0, 0, 1]);
    assert_eq!(cases(&bytes), long);
}

#[test]
fn the_stored_file_of_cases() {
    let (all, bytes) = (all(), input());
    assert!(bytes.len() < 60_000, "{} bytes", bytes.len());
    assert!(cases(&bytes).iter().eq(all.iter().map(|case| &case.asked)));
    let counts: BTreeSet<usize> = all.iter().map(|case| case.asked.list.len()).collect();
    assert!((0..=16).chain([63, 64, 65, 128, 256, 257, 320, 321]).all(|count| counts.contains(&count)));
    let masks: BTreeSet<u16> = all.iter().map(|case| case.due.mask).collect();
    assert!((0..16).all(|domain| masks.contains(&(1 << domain))));
    let sizes: BTreeSet<u32> = masks.iter().map(|mask| mask.count_ones()).collect();
    assert!(sizes.into_iter().eq(0..=16));

    let lines = output();
    assert_eq!(lines.lines().count(), all.len());
    // The first hundred as they are read from a file.
    let hundred = file(all[..100].iter().map(|case| &case.asked));
    assert!(text(&hundred).lines().eq(lines.lines().take(100)));
    assert_eq!(listing().lines().count(), all.len());
    assert!(listing().starts_with("   1    2  0: the sample's program 0, both rights to page 1\n"));
    assert!(lines.starts_with("1 start 0 mask 0 0002 1\n"));
}

#[test]
fn random_cases_reach_all_numbers_in_a_short_file() {
    for seed in 1..=10 {
        let file = many::file(seed, 300).expect("each number comes often");
        assert!(file.len() <= 50_000, "seed {seed}: {} bytes", file.len());
        let cases = cases(&file);
        assert_eq!(cases.len(), 300);
        let counts: BTreeSet<usize> = cases.iter().map(|asked| asked.list.len()).collect();
        assert!((1..=12).chain([65]).all(|count| counts.contains(&count)), "seed {seed}: {counts:?}");
        assert!(counts.last().is_some_and(|&count| count <= 128), "seed {seed}");
    }
    assert_eq!(many::file(1, 0), Ok(vec![]));
    assert!(many::file(1, 3).is_ok());
    let too_long = many::file(1, 600).expect_err("the file is too long");
    assert!(
        too_long.starts_with("masks-random: ") && too_long.ends_with(&format!(" bytes, not below {LONGEST_FILE}\n"))
    );
}

#[test]
fn what_random_cases_have_too_rarely() {
    assert_eq!(
        Counts::default().rare(),
        "masks-random: the least mask answered 0 0 times, fewer than 20
masks-random: the least mask answered 1 0 times, fewer than 20
masks-random: the least mask answered 2 0 times, fewer than 20
masks-random: the least mask answered 4 0 times, fewer than 20
masks-random: the least mask answered 33 0 times, fewer than 20
masks-random: the least mask answered 34 0 times, fewer than 20
masks-random: a node started with 16 0 times, fewer than 20
masks-random: another mask with as many domains would do 0 times, fewer than 20
masks-random: a mask had three or more domains 0 times, fewer than 20
"
    );
    let enough = Counts { numbers: [20; 6], programs: 20, ties: 20, large: 20 };
    assert_eq!(enough.rare(), "");
    assert_eq!(Counts { ties: 19, ..enough }.rare().lines().count(), 1);

    let counted = |fields: &[(u16, u16)], list: &[u32]| {
        let plan = Plan { exponent: 5, pages: fields.to_vec(), programs: vec![(0x00FF, 0, 0)] };
        let mut counts = Counts::default();
        counts.add(&Asked { image: plan.image(), program: 0, list: list.to_vec() });
        (counts.numbers, counts.ties, counts.large)
    };
    let found = [1, 0, 0, 0, 0, 0];
    assert_eq!(counted(&[(0x0001, 0)], &[]), (found, 0, 0));
    assert_eq!(counted(&[(0x0001, 0)], &[0]), (found, 0, 0));
    assert_eq!(counted(&[(0x0003, 0)], &[0]), (found, 1, 0));
    assert_eq!(counted(&[(0x0101, 0)], &[0]), (found, 0, 0));
    assert_eq!(counted(&[(0x0001, 2), (4, 0)], &[0, pair(1, 0), 1]), (found, 0, 1));
    assert_eq!(counted(&[(0x0001, 2), (0x000C, 0)], &[0, pair(1, 0), 1]), (found, 1, 1));
    assert_eq!(counted(&[(0x0100, 0)], &[0]), ([0, 0, 0, 0, 0, 1], 0, 0));
    assert_eq!(counted(&[(0x0001, 0)], &[pair(2, 0)]), ([0, 0, 1, 0, 0, 0], 0, 0));
}

/// Counted by another way than the random cases count themselves.
#[test]
fn random_cases_have_ties_and_large_masks() {
    for seed in 1..=5 {
        let (mut ties, mut large) = (0, 0);
        for Answered { asked, machine, found, .. } in random_cases(seed, 300).map(answered) {
            if found.number == 0 {
                let words: Vec<u16> = asked.list.iter().map(|&pair| field(&machine, pair) & machine.context).collect();
                // Another mask with as many domains: the same from the other end of the numbers.
                let last = first_of(sorted_once())(&words, machine.context, &machine);
                ties += usize::from(last != Some(found.mask));
                large += usize::from(found.mask.count_ones() > 2);
            }
        }
        assert!(ties >= 30 && large >= 30, "seed {seed}: {ties}, {large}");
    }
}

/// The fewest domains, the largest number first.
fn sorted_once() -> Rc<Vec<u16>> {
    thread_local!(static ORDER: Rc<Vec<u16>> = sorted(|mask| (mask.count_ones(), !mask)));
    ORDER.with(Rc::clone)
}
