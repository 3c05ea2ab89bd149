//! The order of the switch's checks (RULES 3.14), on machines of every sort, sound or not, with what a
//! refusal leaves and what a switch changes (RULES 3.15); and that nothing gives 10 (RULES 9.2).

use super::loaded;
use crate::cases;
use crate::counts::CAN_OCCUR;
use crate::histories::legal_plan;
use crate::image::load;
use crate::inputs;
use crate::least::{pair, quick, MOST_PAIRS};
use crate::machine::{Machine, Mode, Program, Violation, MOST_SAVED};
use crate::masks;
use crate::planner::plan;
use crate::plans;
use crate::random::Random;
use crate::rounds::rounds;
use crate::run::{answers, split, step, Outcome, LAST_KIND, RECORD};
use crate::write::{record, switch, Record};
use crate::writer::write_image;
use crate::writes;
use std::collections::{BTreeMap, BTreeSet};

/// What came fewer times than this was not tried well.
const LEAST: usize = 20;

/// A sound machine with this mode and depth, and all else at random.
fn sound_machine(random: &mut Random, mode: Mode, depth: usize) -> Machine {
    let mut machine = load(&legal_plan(random).image()).expect("the image is legal");
    machine.mode = mode;
    machine.pending = mode == Mode::User && random.chance(30);
    machine.saved = (0..depth).map(|_| random.pick(&[Mode::User, Mode::Privileged])).collect();
    machine.current = random.below(machine.programs.len());
    if random.chance(50) {
        // Registers that differ from the table's, as commands and stores leave them.
        (machine.context, machine.mask) = (random.word(), random.word());
    }
    if random.chance(30) {
        let (program, right) = (random.below(machine.programs.len()), random.below(2) as u8);
        let address = random.below(machine.memory() as usize) as u32;
        machine.last_violation = Some(Violation { program, right, address });
    }
    machine
}

/// Makes a machine unsound by something other than its current program.
fn spoil(random: &mut Random, machine: &mut Machine) {
    let (page, program) = (machine.pages[0], machine.programs[0]);
    let mut violation = Violation { program: 0, right: 0, address: 0 };
    match random.below(11) {
        0 => machine.pages.clear(),
        1 => {
            machine.exponent = random.between(5, 8) as u32;
            machine.pages.resize(random.between(129, 140), page);
        }
        2 => {
            machine.exponent = random.between(10, 12) as u32;
            machine.pages.resize((65_536 >> machine.exponent) + random.between(1, 3), page);
        }
        3 => machine.exponent = random.pick(&[0, 4, 13, 32, 64, u32::MAX]),
        4 => machine.programs.clear(),
        5 => machine.programs.resize(random.between(9, 12), program),
        6 => machine.saved.resize(random.between(9, 12), Mode::User),
        7 => (machine.mode, machine.pending) = (Mode::Privileged, true),
        8 => {
            violation.program = machine.programs.len() + random.below(3);
            machine.last_violation = Some(violation);
        }
        9 => {
            violation.right = random.pick(&[2, 10, 255]);
            machine.last_violation = Some(violation);
        }
        _ => {
            violation.address = random.pick(&[machine.memory() as u32, 65_536, u32::MAX]);
            machine.last_violation = Some(violation);
        }
    }
}

/// A machine for every mode with depth 0, 1 and a greater one, with an entry for the current program and
/// without, and with nothing else wrong and with something.
fn machines(random: &mut Random) -> Vec<Machine> {
    let mut machines = Vec::new();
    for mode in [Mode::User, Mode::Privileged] {
        for depth in [0, 1, random.between(2, MOST_SAVED)] {
            for (has_entry, spoilt) in [(true, false), (true, true), (false, false), (false, true)] {
                let mut machine = sound_machine(random, mode, depth);
                if spoilt {
                    spoil(random, &mut machine);
                }
                if !has_entry {
                    let count = machine.programs.len();
                    machine.current = random.pick(&[count, count, count + 1, count + 8, 255, 256, 65_535]);
                }
                machines.push(machine);
            }
        }
    }
    machines
}

/// A program of a table with so many entries, as far as it has one, the count itself, a greater number, and
/// the greatest. The low byte of a greater number may be that of a program in the table.
fn programs_to_name(random: &mut Random, count: usize) -> [u16; 4] {
    let in_table = random.below(count.max(1)) as u16;
    let count = count as u16;
    let above = random.pick(&[count + 1, count + 1, 255, 256, 256 + in_table, 65_534]);
    [in_table, count, above, 65_535]
}

fn has_entry(machine: &Machine) -> bool {
    machine.current < machine.programs.len()
}

/// What makes a machine sound (RULES 1.11), apart from its current program. It is written out once more, so
/// that a condition that is not in the machine's own check shows.
fn otherwise_sound(machine: &Machine) -> bool {
    let (page_count, program_count) = (machine.pages.len(), machine.programs.len());
    if !(1..=128).contains(&page_count) || !(5..=12).contains(&machine.exponent) {
        return false;
    }
    let memory = page_count * 2_usize.pow(machine.exponent);
    if memory > 65_536 || machine.saved.len() > 8 || !(1..=8).contains(&program_count) {
        return false;
    }
    if machine.pending && machine.mode == Mode::Privileged {
        return false;
    }
    match machine.last_violation {
        Some(Violation { program, right, address }) => {
            program < program_count && right <= 1 && (address as usize) < memory
        }
        None => true,
    }
}

/// The machine after a switch that is done (RULES 3.15).
fn switched(before: &Machine, named: u16) -> Machine {
    let mut programs = before.programs.clone();
    programs[before.current] = Program { context: before.context, mask: before.mask, mode: before.saved[0] };
    let Program { context, mask, mode } = programs[usize::from(named)];
    Machine { context, mask, saved: vec![mode], programs, current: usize::from(named), ..before.clone() }
}

#[test]
fn the_switch_answers_the_first_of_its_conditions_that_is_met() {
    let (mut outcomes, mut met_at_once, mut sorts) = (BTreeMap::new(), BTreeMap::new(), BTreeMap::new());
    let mut to_itself = 0;
    for seed in 0..300 {
        let mut random = Random::new(seed);
        for before in machines(&mut random) {
            let (entry, otherwise) = (has_entry(&before), otherwise_sound(&before));
            let count = before.programs.len();
            let depth = before.saved.len();
            let not_sound = !entry || !otherwise;
            let user = before.mode == Mode::User;
            for named in programs_to_name(&mut random, count) {
                let not_in_table = usize::from(named) >= count;
                let due = if not_sound {
                    1
                } else if user {
                    7
                } else if depth != 1 {
                    15
                } else if not_in_table {
                    16
                } else {
                    0
                };
                let mut machine = before.clone();
                assert_eq!(machine.switch(named).err().unwrap_or(0), due, "switch to {named}: {before:?}");
                let left = if due == 0 { switched(&before, named) } else { before.clone() };
                assert_eq!(machine, left, "switch to {named}: {before:?}");

                *outcomes.entry(due).or_insert(0) += 1;
                *met_at_once.entry((not_sound, user, depth != 1, not_in_table)).or_insert(0) += 1;
                let place = match named {
                    65_535 => 3,
                    _ if usize::from(named) > count => 2,
                    _ if usize::from(named) == count => 1,
                    _ => 0,
                };
                *sorts.entry((entry, otherwise, user, depth.min(2), place)).or_insert(0) += 1;
                to_itself += usize::from(due == 0 && usize::from(named) == before.current);
            }
        }
    }
    assert!(outcomes.keys().eq(&[0, 1, 7, 15, 16]), "{outcomes:?}");
    assert!(outcomes.values().all(|&times| times >= LEAST), "{outcomes:?}");
    // All combinations of the four conditions came, so any two of them were met at once.
    assert_eq!(met_at_once.len(), 16, "{met_at_once:?}");
    assert!(met_at_once.values().all(|&times| times >= LEAST), "{met_at_once:?}");
    // With an entry and without, otherwise sound and not, both modes, three sorts of depths, four of programs.
    assert_eq!(sorts.len(), 2 * 2 * 2 * 3 * 4, "{sorts:?}");
    assert!(sorts.values().all(|&times| times >= LEAST), "{sorts:?}");
    assert!(to_itself >= LEAST, "{to_itself}");
}

/// The sample in an interrupt: privileged, depth 1. Its two programs are 0 and 1.
#[test]
fn without_an_entry_for_the_current_program_the_switch_answers_1() {
    let mut sample = loaded();
    assert_eq!(sample.interrupt_entry(), Ok(()));
    assert!(sample.privileged() && sample.depth() == 1);
    let one_program = Machine { programs: sample.programs[..1].to_vec(), ..sample.clone() };
    let no_program = Machine { programs: vec![], ..sample.clone() };
    for without in [
        Machine { current: 2, ..sample.clone() },
        Machine { current: 3, ..sample.clone() },
        Machine { current: 8, ..sample.clone() },
        Machine { current: 256, ..sample.clone() },
        Machine { current: 65_535, ..sample.clone() },
        Machine { current: 1, ..one_program.clone() },
        no_program,
    ] {
        assert!(!without.sound());
        for named in [0, 1, 2, 3, 8, 256, 65_535] {
            let mut machine = without.clone();
            assert_eq!(machine.switch(named), Err(1));
            assert_eq!(step(&mut machine, &switch(named)), Outcome::Number(1));
            assert_eq!(machine, without);
        }
    }
    // With an entry the same machines are in order for a switch.
    for current in [0, 1] {
        let with = Machine { current, ..sample.clone() };
        assert_eq!(with.clone().switch(1), Ok(()));
        assert_eq!(with.clone().switch(2), Err(16));
    }
    assert_eq!(one_program.clone().switch(0), Ok(()));
    assert_eq!(one_program.clone().switch(1), Err(16));
}

/// A record of this kind, with small numbers, numbers around the counts, and any others.
fn any_record(random: &mut Random, kind: u8, machine: &Machine) -> Record {
    let (pages, programs) = (machine.pages.len() as u16, machine.programs.len() as u16);
    let (byte, page, small) = (random.byte(), random.below(4) as u16, random.below(18) as u16);
    let (word, other) = (random.word(), random.word());
    let right = random.pick(&[0, 0, 0, 1, 1, 1, 2, 10, byte]);
    let a = random.pick(&[0, 0, 0, page, page, 10, pages.saturating_sub(1), pages, word]);
    let b = random.pick(&[0, 1, 10, small, small, programs.saturating_sub(1), programs, other, other]);
    record(kind, right, a, b)
}

/// Pairs of right and page, few or too many, and at times one that is bad.
fn any_list(random: &mut Random, machine: &Machine) -> Vec<u32> {
    let length = random.pick(&[0, 1, 2, 3, 10, MOST_PAIRS, MOST_PAIRS + 1]);
    let page_count = machine.pages.len().max(1);
    let mut list: Vec<u32> =
        (0..length).map(|_| pair(random.below(2) as u16, random.below(page_count) as u16)).collect();
    if length > 0 && random.chance(30) {
        list[random.below(length)] = random.pick(&[pair(2, 0), pair(10, 10), pair(0, page_count as u16)]);
    }
    list
}

#[test]
fn no_call_answers_10_on_any_machine() {
    let mut reached = BTreeMap::new();
    let (mut written, mut least) = (BTreeSet::new(), BTreeSet::new());
    let mut without_entry = 0;
    for seed in 0..120 {
        let mut random = Random::new(seed);
        for before in machines(&mut random) {
            let calls = (1..=LAST_KIND).flat_map(|kind| [kind; 8]);
            let unknown = [0, LAST_KIND + 1, random.between(15, 255) as u8];
            for kind in calls.chain(unknown) {
                let record = any_record(&mut random, kind, &before);
                let number = step(&mut before.clone(), &record).number();
                assert_ne!(number, 10, "{record:?}: {before:?}");
                let row = if kind <= LAST_KIND { kind } else { 0 };
                *reached.entry((row, number)).or_insert(0) += 1;
                without_entry += usize::from(kind == 7 && before.privileged() && !has_entry(&before));
            }
            let mut buffer = [0; 640];
            let room = random.pick(&[0, 10, 640]);
            written.insert(write_image(&before, &mut buffer[..room]).number);
            least.insert(quick(&before, &any_list(&mut random, &before)).number);
        }
    }
    // Each call gave all that it gives in a run, and 1 besides. A record that is no call gives 18 alone.
    let rows = (0..).zip(CAN_OCCUR).flat_map(|(row, (_, list))| list.iter().map(move |&number| (row, number)));
    let due: BTreeSet<(u8, u8)> = rows.chain((1..=LAST_KIND).map(|kind| (kind, 1))).collect();
    assert!(reached.keys().eq(&due), "{reached:?}");
    assert!(reached.values().all(|&times| times >= LEAST), "{reached:?}");
    assert!(without_entry >= LEAST, "{without_entry}");
    assert_eq!(written, BTreeSet::from(writes::many::NUMBERS));
    assert_eq!(least, BTreeSet::from(masks::many::NUMBERS));
}

#[test]
fn no_stored_case_and_no_random_run_answers_10() {
    let mut switches = BTreeMap::new();
    let stored = cases::all().into_iter().map(|case| case.input);
    let any = (0..300).map(|number| inputs::any(&mut Random::numbered(9, number)));
    let runs = (0..300).map(|number| cases::many::case(&mut Random::numbered(9, number)));
    for input in stored.chain(any).chain(runs) {
        let answers = answers(&input);
        assert!(!answers.contains(&10), "{answers:?}");
        let calls = answers.get(1..).unwrap_or(&[]);
        for (record, &answer) in split(&input).1.chunks_exact(RECORD).zip(calls) {
            if record[0] == 7 {
                *switches.entry(answer).or_insert(0) += 1;
            }
        }
    }
    assert!(switches.keys().eq(&[0, 7, 15, 16]), "{switches:?}");
    assert!(switches.values().all(|&times| times >= LEAST), "{switches:?}");

    let stored = writes::all().into_iter().map(|case| case.bytes);
    let random = (0..300).map(|number| writes::many::case(&mut Random::numbered(9, number)));
    for round in stored.chain(random).flat_map(|case| rounds(&case)) {
        assert!(round.load != 10 && round.written.number != 10 && !round.numbers().contains(&10));
    }
    let stored = plans::all().into_iter().map(|plan| plan.list);
    let random = (0..300).map(|number| plans::many::case(&mut Random::numbered(9, number)));
    for list in stored.chain(random) {
        assert_ne!(plan(&list).number, 10, "{list:?}");
    }
    let stored = masks::all().into_iter().map(|case| case.asked);
    let random = (0..300).map(|number| masks::many::case(&mut Random::numbered(9, number), number));
    for asked in stored.chain(random) {
        let (start, machine) = asked.start();
        assert!(start != 10 && quick(&machine, &asked.list).number != 10, "{asked:?}");
    }
}
