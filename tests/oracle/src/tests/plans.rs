//! The planner (RULES 11.1 to 11.6): what is written by hand beside the stored plans, laws over all
//! of them, the wrong readings that they must show, files and their text, and the random plans.

use crate::planner::{plan, Planned, NONE, PLACES};
use crate::plans::many::{self, Counts, NUMBERS};
use crate::plans::{all, file, input, listing, lists, output, text, LONGEST_FILE};
use crate::random::Random;
use std::collections::BTreeSet;

/// The contexts passed on the way up from one, parent by parent, until there is none or the parent is
/// no context. After as many steps as there are contexts every ancestor has been passed.
fn way_up(list: &[u8], context: usize) -> Vec<usize> {
    let mut passed = Vec::new();
    let mut at = context;
    while passed.len() < list.len() {
        let parent = usize::from(list[at]);
        if list[at] == NONE || parent >= list.len() {
            break;
        }
        passed.push(parent);
        at = parent;
    }
    passed
}

/// How far up a context meets itself.
fn cycle_length(list: &[u8], context: usize) -> Option<usize> {
    way_up(list, context).iter().position(|&passed| passed == context).map(|steps| steps + 1)
}

fn has(bits: u16, domain: usize) -> bool {
    bits >> domain & 1 == 1
}

fn random_lists(seed: u64, runs: u64) -> impl Iterator<Item = Vec<u8>> {
    (0..runs).map(move |number| many::case(&mut Random::numbered(seed, number)))
}

/// The stored lists and random ones.
fn many_lists() -> Vec<Vec<u8>> {
    all().into_iter().map(|plan| plan.list).chain(random_lists(1, 2_000)).collect()
}

/// Accepted lists with their contexts, as many as there are in the list.
fn accepted() -> Vec<(Vec<u8>, Vec<u16>)> {
    let accepted = many_lists().into_iter().filter(|list| plan(list).number == 0);
    accepted
        .map(|list| {
            let contexts = plan(&list).contexts[..list.len()].to_vec();
            (list, contexts)
        })
        .collect()
}

#[test]
fn the_examples_of_a_tree_and_of_rings() {
    let three = |contexts: [u16; 3]| {
        let mut due = [0; PLACES];
        due[..3].copy_from_slice(&contexts);
        Planned { number: 0, contexts: due }
    };
    // Contexts 0 and 1 share their parent, 2.
    assert_eq!(plan(&[2, 2, NONE]), three([0x0001, 0x0002, 0x0007]));
    assert_eq!(plan(&[1, 2, NONE]), three([0x0001, 0x0003, 0x0007]));
}

#[test]
fn the_planner_gives_what_is_written_beside_the_plans() {
    let plans = all();
    let (mut by_hand, mut reached) = (BTreeSet::new(), [0; NUMBERS.len()]);
    for (before, plan) in plans.iter().enumerate() {
        plan.check(before + 1);
        if let Some(due) = plan.due {
            assert!(plan.purpose.starts_with(&format!("{}: ", due.number)), "{}", plan.purpose);
            assert!(due.number == 0 || due.contexts == [0; PLACES]);
            assert!(by_hand.insert(&plan.list), "plan {}: its list stands twice", before + 1);
            reached[NUMBERS.iter().position(|&number| number == due.number).expect("a known number")] += 1;
        }
    }
    // All but the lists that are there because all are.
    assert_eq!(plans.len() - by_hand.len(), 1 + 3 + 16 + 125 + 1_296);
    assert!(reached.iter().all(|&times| times >= 40), "{reached:?}");
}

fn small_lists() -> Vec<Vec<u8>> {
    let small = all().into_iter().filter(|plan| plan.due.is_none());
    small.map(|plan| plan.list).collect()
}

/// The numbers of forests are known: of n contexts there are n + 1 to the power n - 1. The lists
/// without a wrong parent have n + 1 entries to choose from for each context, all lists n + 2.
#[test]
fn every_list_of_up_to_four_contexts_is_there_once() {
    let small = small_lists();
    assert_eq!(BTreeSet::from_iter(&small).len(), small.len());
    for list in &small {
        assert!(list.iter().all(|&entry| entry == NONE || usize::from(entry) <= list.len()));
    }
    for (count, all, good, forests) in
        [(0, 1, 0, 0), (1, 3, 2, 1), (2, 16, 9, 3), (3, 125, 64, 16), (4, 1_296, 625, 125)]
    {
        let numbers: Vec<u8> = small.iter().filter(|list| list.len() == count).map(|list| plan(list).number).collect();
        let times = |number: u8| numbers.iter().filter(|&&given| given == number).count();
        assert_eq!(numbers.len(), all);
        if count == 0 {
            assert_eq!(numbers, [30]);
        } else {
            assert_eq!(NUMBERS.map(times), [forests, 0, all - good, good - forests], "{count} contexts");
        }
    }
}

#[test]
fn a_bit_is_set_where_the_way_up_from_its_owner_passes_the_context() {
    let mut set = 0;
    for (list, contexts) in accepted() {
        for (k, &bits) in contexts.iter().enumerate() {
            for j in 0..PLACES {
                let due = j < list.len() && (j == k || way_up(&list, j).contains(&k));
                assert_eq!(has(bits, j), due, "{list:?}, context {k}, bit {j}");
                set += usize::from(due && j != k);
            }
        }
        assert_eq!(plan(&list).contexts[list.len()..], vec![0; PLACES - list.len()]);
    }
    assert!(set >= 5_000, "{set}");
}

#[test]
fn a_refused_plan_has_its_reason_and_no_earlier_one() {
    for list in many_lists() {
        let count = list.len();
        let wrong = list.iter().any(|&entry| entry < NONE && usize::from(entry) >= count);
        let cyclic = (0..count).any(|context| cycle_length(&list, context).is_some());
        let due = match (count, wrong, cyclic) {
            (0 | 17.., ..) => 30,
            (_, true, _) => 31,
            (_, false, true) => 32,
            (_, false, false) => 0,
        };
        let planned = plan(&list);
        assert_eq!(planned.number, due, "{list:?}");
        assert_eq!(planned.contexts == [0; PLACES], due != 0);
    }
}

/// What follows from the rule (RULES 11.6): of two contexts one has all of the other's where it is an
/// ancestor, and otherwise they share nothing.
#[test]
fn strangers_share_nothing_and_a_context_has_all_of_its_descendants() {
    let (mut strangers, mut related) = (0, 0);
    for (list, contexts) in accepted() {
        for (k, &one) in contexts.iter().enumerate() {
            for (j, &other) in contexts.iter().enumerate().filter(|&(j, _)| j != k) {
                if way_up(&list, j).contains(&k) {
                    assert_eq!(one & other, other, "{list:?}: {k} above {j}");
                    assert_ne!(one, other, "{list:?}: {k} above {j}");
                    related += 1;
                } else if !way_up(&list, k).contains(&j) {
                    assert_eq!(one & other, 0, "{list:?}: {k} and {j}");
                    strangers += 1;
                }
            }
        }
    }
    assert!(strangers >= 5_000 && related >= 5_000, "{strangers}, {related}");
}

/// The same said with children alone, as the paper says it: a context is its own bit and its
/// children's contexts, which share nothing, so that they add up.
#[test]
fn a_context_is_its_own_bit_and_its_childrens_contexts() {
    for (list, contexts) in accepted() {
        for (k, &bits) in contexts.iter().enumerate() {
            let children = (0..list.len()).filter(|&j| usize::from(list[j]) == k);
            let added: u32 = children.map(|j| u32::from(contexts[j])).sum();
            assert_eq!(u32::from(bits), added + (1 << k), "{list:?}, context {k}");
        }
    }
}

type Check = Box<dyn Fn(&[u8]) -> bool>;
type Bits = Box<dyn Fn(&[u8], usize) -> u16>;

/// A way to read the rule, in parts, so that each part can be read wrongly by itself.
struct Reading {
    /// How the list is taken before anything else.
    list: fn(&[u8]) -> Vec<u8>,
    /// The numbers with what they are given for, in the order of the checks.
    checks: Vec<(u8, Check)>,
    /// The bits of a context, also in a list that should have been refused.
    bits: Bits,
    /// What is in a place past the count.
    past: fn(usize) -> u16,
    /// A plan refused with this number keeps its contexts all the same; 0 is no such number.
    keeps: u8,
}

impl Reading {
    fn plan(&self, list: &[u8]) -> Planned {
        let list = (self.list)(list);
        let number = self.checks.iter().find(|(_, check)| check(&list)).map_or(0, |check| check.0);
        if number != 0 && number != self.keeps {
            return Planned::refused(number);
        }
        let place = |k| if k < list.len() { (self.bits)(&list, k) } else { (self.past)(k) };
        Planned { number, contexts: std::array::from_fn(place) }
    }
}

/// 30 where the count is outside these.
fn count_within(least: usize, most: usize) -> (u8, Check) {
    (30, Box::new(move |list| list.len() < least || list.len() > most))
}

/// 31 where this says so of the place, the entry and the count.
fn parent_wrong(wrong: impl Fn(usize, usize, usize) -> bool + 'static) -> (u8, Check) {
    (31, Box::new(move |list| list.iter().enumerate().any(|(place, &entry)| wrong(place, entry.into(), list.len()))))
}

/// The bits of those contexts for which this says so of them and the context in question.
fn bits_where(owns: impl Fn(&[u8], usize, usize) -> bool + 'static) -> Bits {
    Box::new(move |list, k| (0..PLACES.min(list.len())).filter(|&j| owns(list, j, k)).map(|j| 1 << j).sum())
}

fn right_count() -> (u8, Check) {
    count_within(1, PLACES)
}

fn right_parent() -> (u8, Check) {
    parent_wrong(is_wrong)
}

fn is_wrong(_place: usize, entry: usize, count: usize) -> bool {
    entry != 255 && entry >= count
}

fn right_cycle() -> (u8, Check) {
    (32, Box::new(|list| some(list, on_cycle)))
}

fn on_cycle(list: &[u8], context: usize) -> bool {
    cycle_length(list, context).is_some()
}

/// Whether a context leads into a cycle without being on it.
fn leads_in(list: &[u8], context: usize) -> bool {
    !on_cycle(list, context) && way_up(list, context).into_iter().any(|passed| on_cycle(list, passed))
}

/// Whether this says so of some context.
fn some(list: &[u8], of: impl Fn(&[u8], usize) -> bool) -> bool {
    (0..list.len()).any(|context| of(list, context))
}

/// Whether the way up from j passes k.
fn below(list: &[u8], j: usize, k: usize) -> bool {
    way_up(list, j).contains(&k)
}

/// The rule in these parts.
fn right() -> Reading {
    Reading {
        list: <[u8]>::to_vec,
        checks: vec![right_count(), right_parent(), right_cycle()],
        bits: bits_where(|list, j, k| j == k || below(list, j, k)),
        past: |_| 0,
        keeps: 0,
    }
}

fn with_bits(owns: impl Fn(&[u8], usize, usize) -> bool + 'static) -> Reading {
    Reading { bits: bits_where(owns), ..right() }
}

fn with_checks(checks: [(u8, Check); 3]) -> Reading {
    Reading { checks: checks.into(), ..right() }
}

fn with_count(least: usize, most: usize) -> Reading {
    with_checks([count_within(least, most), right_parent(), right_cycle()])
}

fn with_parent(wrong: impl Fn(usize, usize, usize) -> bool + 'static) -> Reading {
    with_checks([right_count(), parent_wrong(wrong), right_cycle()])
}

/// With 32 where this says so of the list.
fn with_cycle(cyclic: impl Fn(&[u8]) -> bool + 'static) -> Reading {
    with_checks([right_count(), right_parent(), (32, Box::new(cyclic))])
}

/// Each context's bits are handed to its parent once, in this order.
fn handed_up(order: impl Fn(usize) -> Vec<usize> + 'static) -> Bits {
    Box::new(move |list, k| {
        let mut contexts: Vec<u32> = (0..list.len()).map(|j| 1 << j).collect();
        for j in order(list.len()) {
            if list[j] != NONE {
                contexts[usize::from(list[j])] |= contexts[j];
            }
        }
        contexts[k] as u16
    })
}

fn with_names(readings: Vec<(&str, Reading)>) -> Vec<(String, Reading)> {
    readings.into_iter().map(|(what, reading)| (what.to_string(), reading)).collect()
}

fn wrong_contexts() -> Vec<(String, Reading)> {
    let wrong = vec![
        ("ancestors in place of descendants", with_bits(|list, j, k| j == k || below(list, k, j))),
        ("ancestors and descendants", with_bits(|list, j, k| j == k || below(list, j, k) || below(list, k, j))),
        ("children only", with_bits(|list, j, k| j == k || usize::from(list[j]) == k)),
        ("parents only", with_bits(|list, j, k| j == k || usize::from(list[k]) == j)),
        ("own bit left out", with_bits(below)),
        (
            "own bit left out where there is no child",
            with_bits(|list, j, k| below(list, j, k) || j == k && (0..list.len()).any(|other| below(list, other, k))),
        ),
        ("own bit only", with_bits(|_, j, k| j == k)),
        (
            "leaves only",
            with_bits(|list, j, k| {
                (j == k || below(list, j, k)) && !(0..list.len()).any(|other| below(list, other, j))
            }),
        ),
        (
            "the whole tree",
            with_bits(|list, j, k| {
                let top = |context| way_up(list, context).last().copied().unwrap_or(context);
                top(j) == top(k)
            }),
        ),
        (
            "those of the same parent too",
            with_bits(|list, j, k| j == k || below(list, j, k) || list[j] == list[k] && list[j] != NONE),
        ),
        ("all lower contexts, as in a ring", with_bits(|_, j, k| j <= k)),
        (
            "domains counted from 15",
            with_bits(|list, j, k| {
                let owner = PLACES - 1 - j;
                owner == k || owner < list.len() && below(list, owner, k)
            }),
        ),
        (
            "bytes of a context swapped",
            Reading { bits: Box::new(|list, k| (right().bits)(list, k).swap_bytes()), ..right() },
        ),
        (
            "handed up once, the first context first",
            Reading { bits: handed_up(|count| (0..count).collect()), ..right() },
        ),
        (
            "handed up once, the last context first",
            Reading { bits: handed_up(|count| (0..count).rev().collect()), ..right() },
        ),
        ("places past the count with their own bit", Reading { past: |k| 1 << k, ..right() }),
        ("places past the count with every bit", Reading { past: |_| 0xFFFF, ..right() }),
        ("a plan refused with 31 keeps its contexts", Reading { keeps: 31, ..right() }),
        ("a plan refused with 32 keeps its contexts", Reading { keeps: 32, ..right() }),
        ("a plan refused with 30 keeps its contexts", Reading { keeps: 30, ..right() }),
    ];
    let mut named = with_names(wrong);
    for levels in 1..PLACES - 1 {
        let reading = with_bits(move |list, j, k| j == k || way_up(list, j).iter().take(levels).any(|&up| up == k));
        named.push((format!("descendants up to {levels} levels below"), reading));
    }
    named
}

fn wrong_refusals() -> Vec<(String, Reading)> {
    let (count, parent, cycle) = (right_count, right_parent, right_cycle);
    let renumbered = |number: u8, check: (u8, Check)| (number, check.1);
    let wrong = vec![
        ("31 and 32 swapped in number", with_checks([count(), renumbered(32, parent()), renumbered(31, cycle())])),
        ("30 and 31 swapped in number", with_checks([renumbered(31, count()), renumbered(30, parent()), cycle()])),
        ("32 before 31", with_checks([count(), cycle(), parent()])),
        ("30 after 31", with_checks([parent(), count(), cycle()])),
        ("30 last", with_checks([parent(), cycle(), count()])),
        ("32 first", with_checks([cycle(), count(), parent()])),
        ("in the wrong order altogether", with_checks([cycle(), parent(), count()])),
        ("count 0 taken", with_count(0, 16)),
        ("count 1 refused", with_count(2, 16)),
        ("count 16 refused", with_count(1, 15)),
        ("count 17 taken", with_count(1, 17)),
        ("any count taken", with_count(1, 1_000)),
        ("the low byte of the count", Reading { list: |list| list[..list.len() % 256].to_vec(), ..right() }),
        ("the first sixteen contexts alone", Reading { list: |list| list[..list.len().min(16)].to_vec(), ..right() }),
        ("a parent equal to the count taken", with_parent(|_, entry, count| entry != 255 && entry > count)),
        ("the last context refused as a parent", with_parent(|_, entry, count| entry != 255 && entry + 1 >= count)),
        ("a parent below sixteen taken", with_parent(|_, entry, _| entry != 255 && entry > 15)),
        ("a parent of sixteen taken", with_parent(|_, entry, count| entry != 16 && entry != 255 && entry >= count)),
        ("none refused", with_parent(|_, entry, count| entry >= count)),
        ("254 taken as none", with_parent(|_, entry, count| entry < 254 && entry >= count)),
        ("from 128 on taken as none", with_parent(|_, entry, count| entry < 128 && entry >= count)),
        ("from the count on taken as none", with_parent(|_, _, _| false)),
        (
            "parents looked at by their low four bits",
            Reading {
                list: |list| list.iter().map(|&entry| if entry == NONE { NONE } else { entry % 16 }).collect(),
                ..right()
            },
        ),
        (
            "parents counted from 1",
            Reading {
                list: |list| {
                    list.iter().map(|&entry| if entry == NONE { NONE } else { entry.wrapping_sub(1) }).collect()
                },
                ..right()
            },
        ),
        ("all cycles taken", with_cycle(|_| false)),
        ("a cycle of one alone refused", with_cycle(|list| some(list, |_, k| usize::from(list[k]) == k))),
        ("a cycle with a tail taken", with_cycle(|list| some(list, on_cycle) && !some(list, leads_in))),
        ("a cycle without a tail taken", with_cycle(|list| some(list, leads_in))),
        (
            "a cycle beside a tree taken",
            with_cycle(|list| !some(list, |_, k| !on_cycle(list, k) && !leads_in(list, k))),
        ),
        (
            "a cycle of all contexts taken, the way up being followed a step too few",
            with_cycle(|list| some(list, |_, k| cycle_length(list, k).is_some_and(|steps| steps < list.len()))),
        ),
    ];
    let mut named = with_names(wrong);
    for length in 1..=PLACES {
        let other = move |list: &[u8], k: usize| cycle_length(list, k).is_some_and(|steps| steps != length);
        named.push((format!("a cycle of {length} taken"), with_cycle(move |list| some(list, other))));
    }
    for place in 0..PLACES {
        let only = with_cycle(move |list| place < list.len() && on_cycle(list, place));
        named.push((format!("only context {place} looked at for 32"), only));
        let way = with_cycle(move |list| place < list.len() && (on_cycle(list, place) || leads_in(list, place)));
        named.push((format!("only the way up from context {place} followed"), way));
        let all_but = with_cycle(move |list| some(list, |_, k| k != place && on_cycle(list, k)));
        named.push((format!("context {place} not looked at for 32"), all_but));
        let all_but = with_parent(move |at, entry, count| at != place && is_wrong(at, entry, count));
        named.push((format!("context {place} not looked at for 31"), all_but));
    }
    named
}

#[test]
fn the_parts_read_rightly_are_the_rule() {
    for list in many_lists() {
        assert_eq!(right().plan(&list), plan(&list), "{list:?}");
    }
}

#[test]
fn each_misreading_of_the_planner_shows_in_the_stored_plans() {
    let lists: Vec<Vec<u8>> = all().into_iter().map(|plan| plan.list).collect();
    for (what, reading) in wrong_contexts().into_iter().chain(wrong_refusals()) {
        assert!(lists.iter().any(|list| reading.plan(list) != plan(list)), "{what}");
    }
}

#[test]
fn the_line_of_a_plan() {
    let due = "1 0 0001 0003 0007 0000 0000 0000 0000 0000 0000 0000 0000 0000 0000 0000 0000 0000
2 30 0000 0000 0000 0000 0000 0000 0000 0000 0000 0000 0000 0000 0000 0000 0000 0000
3 31 0000 0000 0000 0000 0000 0000 0000 0000 0000 0000 0000 0000 0000 0000 0000 0000
4 32 0000 0000 0000 0000 0000 0000 0000 0000 0000 0000 0000 0000 0000 0000 0000 0000
5 0 ffff 7ffe 3ffc 1ff8 0ff0 07e0 03c0 0180 0100 0380 07c0 0fe0 1ff0 3ff8 7ffc fffe
";
    let last = [NONE, 15, 14, 13, 12, 11, 10, 9, 7, 6, 5, 4, 3, 2, 1, 0];
    assert_eq!(text(&file([&[1, 2, NONE][..], &[], &[1], &[0], &last])), due);
}

#[test]
fn a_file_of_plans() {
    let bytes = [0, 2, 1, 255, 0, 0, 0, 1, 9];
    let three = [&[1, 255][..], &[], &[9]];
    assert_eq!(lists(&bytes), three);
    assert_eq!(file(three), bytes);
    assert_eq!(text(&bytes).lines().count(), 3);

    // A plan that the file cuts off is not there, nor is a single byte at its end.
    for cut in [&[0][..], &[255], &[0, 1], &[0, 2, 255], &[1, 0, 255, 255], &[255, 255, 0]] {
        assert_eq!(lists(&[&bytes[..], cut].concat()), three);
    }
    assert_eq!(text(&[]), "");
    assert_eq!(text(&[0]), "");

    // A length that takes both bytes.
    let long = file([&[7; 0x0102][..]]);
    assert_eq!(long[..3], [1, 2, 7]);
    assert_eq!(lists(&long), [&[7; 0x0102][..]]);
}

#[test]
fn the_stored_file_of_plans() {
    let (plans, file) = (all(), input());
    assert!(file.len() < 20_000, "{} bytes", file.len());
    assert!(lists(&file).iter().eq(&plans.iter().map(|plan| &plan.list[..]).collect::<Vec<_>>()));
    let counts: BTreeSet<usize> = plans.iter().map(|plan| plan.list.len()).collect();
    assert!((0..=18).chain([255, 256, 257, 272, 300]).all(|count| counts.contains(&count)));

    let lines = output();
    assert_eq!(lines.lines().count(), plans.len());
    assert_eq!(listing().lines().count(), plans.len());
    assert!(listing().starts_with("   1    0  every list of 0:\n   2    1  every list of 1: 0\n"));
    assert!(lines.starts_with("1 30 0000 "));
    assert!(lines.lines().all(|line| line.split(' ').count() == 2 + PLACES));
}

#[test]
fn random_plans_reach_all_numbers_in_a_short_file() {
    for seed in 1..=20 {
        let file = many::file(seed, 1_000).expect("each number comes often");
        assert!(file.len() <= 20_000, "seed {seed}: {} bytes", file.len());
        let lists = lists(&file);
        assert_eq!(lists.len(), 1_000);
        let counts: BTreeSet<usize> = lists.iter().map(|list| list.len()).collect();
        assert!((0..=16).all(|count| counts.contains(&count)), "seed {seed}");
        assert!(counts.last().is_some_and(|&count| count <= 40), "seed {seed}");
    }
    assert_eq!(many::file(1, 0), Ok(vec![]));
    assert!(many::file(1, 3).is_ok());
    let too_long = many::file(1, 10_000).expect_err("the file is too long");
    assert!(
        too_long.starts_with("plans-random: ") && too_long.ends_with(&format!(" bytes, not below {LONGEST_FILE}\n"))
    );
}

#[test]
fn what_random_plans_have_too_rarely() {
    assert_eq!(
        Counts::default().rare(),
        "plans-random: the planner answered 0 0 times, fewer than 20
plans-random: the planner answered 30 0 times, fewer than 20
plans-random: the planner answered 31 0 times, fewer than 20
plans-random: the planner answered 32 0 times, fewer than 20
plans-random: an accepted plan had a descendant that is no child 0 times, fewer than 20
plans-random: a plan with 32 had a context off the cycle that leads into it 0 times, fewer than 20
"
    );
    let enough = Counts { numbers: [20; 4], deep: 20, tails: 20 };
    assert_eq!(enough.rare(), "");
    let few = Counts { deep: 19, ..enough };
    assert_eq!(few.rare().lines().count(), 1);

    let counted = |lists: &[&[u8]]| {
        let mut counts = Counts::default();
        lists.iter().for_each(|list| counts.add(list));
        (counts.numbers, counts.deep, counts.tails)
    };
    // Children alone, a grandchild, and one in a list that is refused.
    assert_eq!(counted(&[&[NONE, 0, 0], &[NONE, NONE]]), ([2, 0, 0, 0], 0, 0));
    assert_eq!(counted(&[&[NONE, 0, 1]]), ([1, 0, 0, 0], 1, 0));
    assert_eq!(counted(&[&[NONE, 0, 1, 4], &[]]), ([0, 1, 1, 0], 0, 0));
    // Cycles alone, one beside a tree, and two with a tail.
    assert_eq!(counted(&[&[0], &[1, 0], &[1, 2, 0, NONE, 3]]), ([0, 0, 0, 3], 0, 0));
    assert_eq!(counted(&[&[0, 0], &[1, 0, 1, 2]]), ([0, 0, 0, 2], 0, 2));
}

/// Counted by another way than the random plans count themselves.
#[test]
fn random_plans_have_grandchildren_and_tails() {
    for seed in 1..=20 {
        let (mut deep, mut tails) = (0, 0);
        for list in random_lists(seed, 1_000) {
            let number = plan(&list).number;
            deep += usize::from(number == 0 && (0..list.len()).any(|context| way_up(&list, context).len() > 1));
            tails += usize::from(number == 32 && (0..list.len()).any(|context| leads_in(&list, context)));
        }
        assert!(deep >= 100 && tails >= 100, "seed {seed}: {deep}, {tails}");
    }
}
