//! The refusal of empty masks by the mask command (RULES 3.8, 3.9): exactly where it is due, with
//! nothing changed, and by no other call; that random inputs try it in all its sorts; and that the
//! stored runs and cases of writing about it tell every listed misreading from the rule.

use crate::cases;
use crate::counts::Table;
use crate::histories::{legal, legal_plan, naming};
use crate::image::load;
use crate::inputs;
use crate::machine::{Machine, Mode, Violation, MOST_SAVED, READ};
use crate::random::Random;
use crate::rounds::{take_apart, Round, FILLING};
use crate::run::{self, answers, decode, split, Call, Outcome, LONGEST_INPUT, RECORD};
use crate::sorts::{mask_sorts, Emptied, MASK_SORTS};
use crate::stored::{self, RUN, WRITING};
use crate::write::{entry_call, mask, read, store_mask};
use crate::writer::write_image;
use crate::writes::{self, many};
use std::collections::BTreeSet;

/// A machine in any state, one in ten of them not sound.
fn any_machine(random: &mut Random) -> Machine {
    let mut machine = load(&legal_plan(random).image()).expect("the image is legal");
    machine.mode = random.pick(&[Mode::User, Mode::User, Mode::User, Mode::Privileged]);
    machine.pending = machine.mode == Mode::User && random.chance(25);
    machine.saved = vec![random.pick(&[Mode::User, Mode::Privileged]); random.below(MOST_SAVED + 1)];
    machine.current = random.below(machine.programs.len());
    if random.chance(60) {
        // Registers that differ from the table's, as stores leave them.
        let few = random.word() & random.word();
        (machine.context, machine.mask) = (random.pick(&[0, 0xFFFF, few, !few]), random.word() & random.word());
    }
    if random.chance(30) {
        machine.last_violation = Some(Violation { program: machine.current, right: READ, address: 31 });
    }
    if random.chance(10) {
        match random.below(4) {
            0 => (machine.mode, machine.pending) = (Mode::Privileged, true),
            1 => machine.current = machine.programs.len(),
            2 => machine.exponent = 4,
            _ => machine.saved = vec![Mode::User; MOST_SAVED + 1],
        }
        assert!(!machine.sound());
    }
    machine
}

/// Masks of every sort for a machine: apart from its context, sharing one domain, several and all.
fn masks_for(random: &mut Random, machine: &Machine) -> Vec<u16> {
    let (context, any) = (machine.context, random.word());
    let mut masks = vec![0, 0xFFFF, any, context, !context, any & !context, any & context, machine.mask, !machine.mask];
    masks.extend((0..16).map(|s| 1 << s));
    masks.extend((0..16).map(|s| !context | 1 << s));
    masks
}

/// Whether some domain is in both words, domain by domain.
fn share_a_domain(one: u16, other: u16) -> bool {
    (0..16).any(|s| one >> s & 1 == 1 && other >> s & 1 == 1)
}

#[test]
fn the_mask_command_answers_19_exactly_where_nothing_is_shared_and_nothing_else_refuses() {
    let mut reached = BTreeSet::new();
    for seed in 0..2_000 {
        let mut random = Random::new(seed);
        let before = any_machine(&mut random);
        for bits in masks_for(&mut random, &before) {
            let shared = share_a_domain(bits, before.context);
            let due = if !before.sound() {
                1
            } else if before.privileged() {
                6
            } else if before.pending {
                8
            } else if !shared {
                19
            } else {
                0
            };
            let mut machine = before.clone();
            assert_eq!(machine.mask_command(bits).err().unwrap_or(0), due);
            // Done, it has all bits of the mask, those outside the context too; refused, it is as it was.
            let mask = if due == 0 { bits } else { before.mask };
            assert_eq!(machine, Machine { mask, ..before.clone() });
            reached.insert((due, shared));
        }
    }
    let refused_either_way = [1, 6, 8].into_iter().flat_map(|number| [(number, false), (number, true)]);
    assert_eq!(reached, refused_either_way.chain([(19, false), (0, true)]).collect());
}

#[test]
fn the_kernels_mask_store_takes_every_mask() {
    let mut empty = 0;
    for seed in 0..2_000 {
        let mut random = Random::new(seed);
        let before = any_machine(&mut random);
        for bits in masks_for(&mut random, &before) {
            let due = if !before.sound() {
                1
            } else if !before.privileged() {
                7
            } else {
                0
            };
            let mut machine = before.clone();
            assert_eq!(machine.store_mask(bits).err().unwrap_or(0), due);
            let mask = if due == 0 { bits } else { before.mask };
            assert_eq!(machine, Machine { mask, ..before.clone() });
            empty += usize::from(due == 0 && machine.local_context() == 0);
        }
    }
    assert!(empty >= 1_000, "{empty}");
}

#[test]
fn no_record_but_a_mask_command_answers_19() {
    let mut refused = 0;
    for seed in 0..2_000 {
        let mut random = Random::new(seed);
        let before = any_machine(&mut random);
        for kind in 0..=255 {
            // Small numbers, so that many records get past the checks of page, domain and program.
            let (right, a, b) = (random.below(3) as u8, random.below(4) as u8, random.below(18) as u8);
            let words = random.pick(&[[0, a, 0, b], [0, a, 0, 0], [0, 0, b, 0], [b, a, b, a]]);
            let record = [kind, right, words[0], words[1], words[2], words[3]];
            let number = run::step(&mut before.clone(), &record).number();
            assert!(number != 19 || kind == 4, "{record:?}");
            refused += usize::from(number == 19);
        }
    }
    assert!(refused >= 200, "{refused}");
    // The same in whole runs, where the machine is one that a run can lead to.
    let runs = (0..150).map(|seed| legal(&mut Random::new(seed), 150));
    let more = (0..100).map(|seed| naming(&mut Random::new(seed), 150));
    let mut refused = 0;
    for input in runs.chain(more) {
        let (image, records) = split(&input);
        let mut machine = load(image).expect("the image is legal");
        for record in records.chunks_exact(RECORD) {
            let before = machine.clone();
            if run::step(&mut machine, record).number() == 19 {
                assert_eq!(record[0], 4);
                assert_eq!(machine, before);
                refused += 1;
            }
        }
    }
    assert!(refused >= 200, "{refused}");
}

#[test]
fn images_with_empty_masks_load() {
    let (mut start, mut other) = (0, 0);
    for seed in 0..400 {
        let plan = legal_plan(&mut Random::new(seed));
        let machine = load(&plan.image()).expect("the image is legal");
        let empty: Vec<bool> = plan.programs.iter().map(|&(context, mask, _)| !share_a_domain(context, mask)).collect();
        assert_eq!(machine.local_context() == 0, empty[0]);
        start += usize::from(empty[0]);
        other += usize::from(empty[1..].contains(&true));
    }
    assert!(start >= 50 && other >= 50, "{start}, {other}");
}

#[test]
fn the_sorts_of_mask_commands() {
    let machine = |context, mask, mode, pending| {
        let mut machine = load(&cases::sample().image()).expect("the sample loads");
        (machine.context, machine.mask, machine.mode, machine.pending) = (context, mask, mode, pending);
        machine
    };
    let (user, privileged) = (Mode::User, Mode::Privileged);
    for (machine, bits, due) in [
        (machine(0x0007, 0x0003, privileged, false), 0x0008, &[0][..]),
        (machine(0x0007, 0x0003, privileged, false), 0x0001, &[]),
        (machine(0x0007, 0x0003, user, true), 0x0000, &[1]),
        (machine(0x0000, 0x0003, user, true), 0xFFFF, &[1]),
        (machine(0x0007, 0x0003, user, true), 0x0007, &[]),
        (machine(0x0000, 0x0003, user, false), 0x0000, &[2]),
        (machine(0x0000, 0x0003, user, false), 0x0003, &[2]),
        (machine(0x0007, 0x0003, user, false), 0x0000, &[3]),
        (machine(0x0007, 0x0003, user, false), 0xFFF8, &[4]),
        (machine(0x0007, 0x0003, user, false), 0x0002, &[5]),
        (machine(0x0007, 0x0003, user, false), 0x000C, &[5, 7, 8]),
        (machine(0x0007, 0x0003, user, false), 0x0006, &[6]),
        (machine(0x0004, 0x0003, user, false), 0x0014, &[7, 8]),
    ] {
        let sorts = mask_sorts(&machine, &mask(bits));
        let found: Vec<usize> = (0..MASK_SORTS.len()).filter(|&sort| sorts[sort]).collect();
        assert_eq!(found, due, "{bits:#06x}");
        // Each sort says its answer first.
        let number = run::step(&mut machine.clone(), &mask(bits)).number();
        assert!(found.iter().all(|&sort| MASK_SORTS[sort].starts_with(&format!("{number},"))));
        assert_eq!(mask_sorts(&machine, &store_mask(bits)), [false; MASK_SORTS.len()]);
    }
}

#[test]
fn the_way_by_which_a_local_context_became_empty() {
    let mut machine = load(&cases::sample().image()).expect("the sample loads");
    let mut emptied = Emptied::default();
    let denied = |emptied: &Emptied, machine: &Machine| {
        let user = Machine { mode: Mode::User, pending: false, ..machine.clone() };
        assert_eq!(emptied.denies(&Machine { pending: true, ..user.clone() }, &read(0)), None);
        assert_eq!(emptied.denies(&Machine { mode: Mode::Privileged, ..user.clone() }, &read(0)), None);
        // WRITE of page 0 has no domain, and address 768 is outside.
        assert_eq!(emptied.denies(&user, &[1, 1, 0, 0, 0, 0]), None);
        assert_eq!(emptied.denies(&user, &read(768)), None);
        emptied.denies(&user, &read(0))
    };
    assert_eq!(denied(&emptied, &machine), None);
    assert_eq!(denied(&emptied, &Machine { mask: 0, ..machine.clone() }), Some(0));
    for (record, due) in [
        (entry_call(), None),
        (store_mask(0xFFF8), Some(3)),
        ([9, 0, 0, 0, 0, 0], Some(2)),
        ([7, 0, 0, 0, 0, 1], None),
        ([7, 0, 0, 0, 0, 0], Some(1)),
        ([7, 0, 0, 0, 0, 9], Some(1)),
        ([9, 0, 0, 0, 0, 8], None),
        (store_mask(0x0007), Some(3)),
    ] {
        let number = run::step(&mut machine, &record).number();
        emptied.after(&machine, &record, number);
        assert_eq!(denied(&emptied, &machine), due, "{record:?}");
    }
}

/// What `compare` makes and demands, without the library.
#[test]
fn the_inputs_of_compare_reach_every_answer_and_every_sort() {
    for seed in 1..=5 {
        let mut table = Table::new();
        for number in 0..2_000 {
            let input = inputs::any(&mut Random::numbered(seed, number));
            table.count(&input, &answers(&input));
        }
        assert_eq!(table.wrong(), "", "seed {seed}:\n{}", table.text());
        assert!(table.calls() >= 100_000);
    }
    let nothing = Table::new().wrong();
    assert!(nothing.contains("compare: mask answered 19 0 times, fewer than 20\n"));
    assert!(nothing.contains("compare: mask command, 19, the context is empty, 0 times, fewer than 20\n"));
    // Kind 10 is not to answer 19.
    let mut table = Table::new();
    let records = [entry_call(), store_mask(0)].concat();
    table.count(&[&[0, 44], &cases::sample().image()[..], &records].concat(), &[0, 0, 19]);
    assert!(table.wrong().contains("compare: mask store answered 19, which cannot occur\n"));
}

/// How many mask commands of these runs were done, and how many answered 19.
fn done_and_refused(inputs: &[Vec<u8>]) -> (usize, usize) {
    let (mut done, mut refused) = (0, 0);
    for input in inputs {
        let (_, records) = split(input);
        // After a refused load there is no answer to a record.
        for (record, answer) in records.chunks_exact(RECORD).zip(&answers(input)[1..]) {
            done += usize::from(record[0] == 4 && *answer == 0);
            refused += usize::from(record[0] == 4 && *answer == 19);
        }
    }
    (done, refused)
}

/// In the random files too, where what a refusal left is seen by the domains that accesses name and in
/// what is written.
#[test]
fn more_mask_commands_are_done_than_refused_with_19() {
    for seed in 1..=5 {
        let runs: Vec<_> = (0..300).map(|number| cases::many::case(&mut Random::numbered(seed, number))).collect();
        let writes = (0..400).map(|number| many::case(&mut Random::numbered(seed, number)));
        let writes: Vec<_> = writes.map(|case| take_apart(&case).1.to_vec()).collect();
        for (done, refused) in [done_and_refused(&runs), done_and_refused(&writes)] {
            assert!(refused >= 20 && 2 * done >= 3 * refused, "seed {seed}: {done}, {refused}");
        }
    }
}

/// Whether a mask is refused as empty, on a machine as it stands.
type Empty = Box<dyn Fn(&Machine, u16) -> bool>;

/// The rule in parts, each of which can be read wrongly by itself.
struct Reading {
    /// The numbers of the mask command's refusals, in order.
    order: Vec<u8>,
    /// The condition of 19.
    empty: Empty,
    /// What is answered where it is met.
    number: u8,
    /// What a mask command that is refused so does to the machine.
    refused: fn(&mut Machine, u16),
    /// What one that is done does to it.
    done: fn(&mut Machine, u16),
    /// Which other calls answer 19 and do nothing.
    other: fn(&Machine, Call) -> bool,
    /// Which images are refused with 19. It is asked with the machine that they would load to.
    image: fn(&Machine) -> bool,
}

fn right() -> Reading {
    Reading {
        order: vec![6, 8, 19],
        empty: Box::new(|machine, mask| !share_a_domain(mask, machine.context)),
        number: 19,
        refused: |_, _| {},
        done: |machine, mask| machine.mask = mask,
        other: |_, _| false,
        image: |_| false,
    }
}

impl Reading {
    fn mask_command(&self, machine: &mut Machine, mask: u16) -> u8 {
        for &number in &self.order {
            match number {
                6 if machine.privileged() => return 6,
                8 if machine.pending => return 8,
                19 if (self.empty)(machine, mask) => {
                    (self.refused)(machine, mask);
                    return self.number;
                }
                _ => {}
            }
        }
        (self.done)(machine, mask);
        0
    }

    fn step(&self, machine: &mut Machine, record: &[u8]) -> Outcome {
        match decode(record) {
            Some(Call::Mask { mask }) => Outcome::Number(self.mask_command(machine, mask)),
            Some(call) if (self.other)(machine, call) => Outcome::Number(19),
            _ => run::step(machine, record),
        }
    }

    /// The machine after a round, with its load's number and what its calls gave.
    fn calls(&self, image: &[u8], records: &[u8]) -> (Machine, u8, Vec<Outcome>) {
        let loaded = load(image).and_then(|machine| if (self.image)(&machine) { Err(19) } else { Ok(machine) });
        match loaded {
            Ok(mut machine) => {
                let calls = records.chunks_exact(RECORD).map(|record| self.step(&mut machine, record)).collect();
                (machine, 0, calls)
            }
            Err(number) => (Machine::all_zero(), number, vec![]),
        }
    }

    /// What would be printed for a case.
    fn text(&self, (kind, bytes): (u8, &[u8])) -> String {
        if kind == WRITING {
            self.rounds(bytes)
        } else {
            self.run(bytes)
        }
    }

    fn run(&self, input: &[u8]) -> String {
        if input.len() > LONGEST_INPUT {
            return String::from("long\n");
        }
        let (image, records) = split(input);
        let (_, load, calls) = self.calls(image, records);
        let lines: String = calls.iter().enumerate().map(|(before, call)| call.line(before)).collect();
        let cut = load == 0 && !records.len().is_multiple_of(RECORD);
        format!("load {load}\n{lines}{}", if cut { "cut\n" } else { "" })
    }

    fn rounds(&self, case: &[u8]) -> String {
        let (room, input) = take_apart(case);
        let (image, records) = split(input);
        let mut image = image.to_vec();
        let mut text = String::new();
        for _ in 0..2 {
            let (machine, load, calls) = self.calls(&image, records);
            let mut buffer = vec![FILLING; room];
            let written = write_image(&machine, &mut buffer);
            image = buffer[..written.count].to_vec();
            text += &Round { load, calls, written, buffer }.text();
        }
        text
    }
}

#[test]
fn the_parts_read_rightly_are_the_rule() {
    let file = stored::input();
    let runs: Vec<_> = (0..100).map(|seed| naming(&mut Random::new(seed), 100)).collect();
    let writes: Vec<_> = (0..200).map(|number| many::case(&mut Random::numbered(1, number))).collect();
    let random = runs.iter().map(|run| (RUN, &run[..])).chain(writes.iter().map(|case| (WRITING, &case[..])));
    let mut refused = 0;
    for case in stored::cases(&file).into_iter().chain(random) {
        let text = stored::text(&stored::file([case]));
        assert_eq!(format!("case 1\n{}", right().text(case)), text);
        refused += text.matches(" 19 -\n").count();
    }
    assert!(refused >= 200, "{refused}");
}

fn with_order(order: &[u8]) -> Reading {
    Reading { order: order.to_vec(), ..right() }
}

fn with_empty(empty: impl Fn(&Machine, u16) -> bool + 'static) -> Reading {
    Reading { empty: Box::new(empty), ..right() }
}

/// The mask is refused where it shares nothing with this word in place of the context.
fn asking(word: impl Fn(&Machine) -> u16 + 'static) -> Reading {
    with_empty(move |machine, mask| mask & word(machine) == 0)
}

/// The mask is refused as the rule has it, and for one more reason.
fn refusing_also(more: impl Fn(&Machine, u16) -> bool + 'static) -> Reading {
    with_empty(move |machine, mask| mask & machine.context == 0 || more(machine, mask))
}

/// The mask is refused as the rule has it, but for an exception.
fn sparing(spared: impl Fn(&Machine, u16) -> bool + 'static) -> Reading {
    with_empty(move |machine, mask| mask & machine.context == 0 && !spared(machine, mask))
}

fn with_refused(refused: fn(&mut Machine, u16)) -> Reading {
    Reading { refused, ..right() }
}

fn with_done(done: fn(&mut Machine, u16)) -> Reading {
    Reading { done, ..right() }
}

fn with_other(other: fn(&Machine, Call) -> bool) -> Reading {
    Reading { other, ..right() }
}

fn with_image(image: fn(&Machine) -> bool) -> Reading {
    Reading { image, ..right() }
}

fn table_context(machine: &Machine) -> u16 {
    machine.programs[machine.current].context
}

fn joined_contexts(machine: &Machine) -> u16 {
    machine.programs.iter().fold(0, |all, program| all | program.context)
}

/// The domain of highest level among these, as a word, or nothing.
fn highest(bits: u16) -> u16 {
    bits & bits.wrapping_neg()
}

/// The domain of lowest level among these, as a word, or nothing.
fn lowest(bits: u16) -> u16 {
    highest(bits.reverse_bits()).reverse_bits()
}

/// User mode with the flag clear.
fn in_turn(machine: &Machine) -> bool {
    !machine.privileged() && !machine.pending
}

/// A reading and what it is called.
type Named = (String, Reading);

fn with_names(readings: Vec<(&str, Reading)>) -> Vec<Named> {
    readings.into_iter().map(|(what, reading)| (what.to_string(), reading)).collect()
}

fn wrong_orders() -> Vec<Named> {
    // Which of 6 and 8 comes first does not show: a machine that would have both is not sound.
    let wrong: Vec<(&str, Reading)> = vec![
        ("no 19 at all", with_order(&[6, 8])),
        ("19 before 8", with_order(&[6, 19, 8])),
        ("19 before 6", with_order(&[8, 19, 6])),
        ("19 at the front", with_order(&[19, 6, 8])),
        ("19 and no 8", with_order(&[6, 19])),
        ("19 and no 6", with_order(&[8, 19])),
        ("19 alone", with_order(&[19])),
    ];
    let mut named = with_names(wrong);
    for number in (0..=18).chain(20..=39) {
        named.push((format!("{number} in place of 19"), Reading { number, ..right() }));
    }
    named
}

fn wrong_conditions() -> Vec<Named> {
    let wrong: Vec<(&str, Reading)> = vec![
        ("the local context asked", asking(Machine::local_context)),
        ("an empty local context refused, whatever the mask", with_empty(|machine, _| machine.local_context() == 0)),
        ("an empty local context refused too", refusing_also(|machine, _| machine.local_context() == 0)),
        ("an empty local context spared", sparing(|machine, _| machine.local_context() == 0)),
        ("the mask before asked", asking(|machine| machine.mask)),
        ("the mask before asked too", refusing_also(|machine, mask| mask & machine.mask == 0)),
        ("context or mask before asked", asking(|machine| machine.context | machine.mask)),
        ("the mask that is there spared", sparing(|machine, mask| mask == machine.mask)),
        ("the mask that is there refused", refusing_also(|machine, mask| mask == machine.mask)),
        ("a mask within the mask before spared", sparing(|machine, mask| mask & !machine.mask == 0)),
        ("a mask beyond the mask before refused", refusing_also(|machine, mask| mask & !machine.mask != 0)),
        ("mask 0 alone", with_empty(|_, mask| mask == 0)),
        ("mask 0 spared", sparing(|_, mask| mask == 0)),
        ("an empty context alone", with_empty(|machine, _| machine.context == 0)),
        ("an empty context spared", sparing(|machine, _| machine.context == 0)),
        ("an empty context and mask 0 alone", with_empty(|machine, mask| machine.context == 0 || mask == 0)),
        ("an empty context with the full mask spared", sparing(|machine, mask| machine.context == 0 && mask == 0xFFFF)),
        ("an empty context with mask 0 spared", sparing(|machine, mask| machine.context == 0 && mask == 0)),
        ("the table's context asked", asking(table_context)),
        ("the table's context asked too", refusing_also(|machine, mask| mask & table_context(machine) == 0)),
        ("context or the table's asked", asking(|machine| machine.context | table_context(machine))),
        ("the table's mask asked", asking(|machine| machine.programs[machine.current].mask)),
        ("program 0's context in the table asked", asking(|machine| machine.programs[0].context)),
        ("the last program's context asked", asking(|machine| machine.programs[machine.programs.len() - 1].context)),
        ("all programs' contexts joined", asking(joined_contexts)),
        ("context and all programs' joined", asking(|machine| machine.context | joined_contexts(machine))),
        (
            "what all programs' contexts share",
            asking(|machine| machine.programs.iter().fold(machine.context, |all, program| all & program.context)),
        ),
        (
            "the domains that some page has asked too",
            asking(|machine| machine.pages.iter().fold(0, |all, page| all | page.read | page.write) & machine.context),
        ),
        ("bits outside the context alone", with_empty(|machine, mask| mask & !machine.context != 0)),
        ("bits outside the context too", refusing_also(|machine, mask| mask & !machine.context != 0)),
        ("a domain of the context left out", with_empty(|machine, mask| machine.context & !mask != 0)),
        ("only the context itself done", with_empty(|machine, mask| mask != machine.context)),
        ("the context itself refused", with_empty(|machine, mask| mask ^ machine.context == 0)),
        ("the context itself refused too", refusing_also(|machine, mask| mask == machine.context)),
        ("mask OR context", with_empty(|machine, mask| mask | machine.context == 0)),
        ("the opposite of the context alone", with_empty(|machine, mask| mask == !machine.context)),
        ("the opposite of the context spared", sparing(|machine, mask| mask == !machine.context)),
        ("the full mask refused", refusing_also(|_, mask| mask == 0xFFFF)),
        ("refused where something is shared", with_empty(|machine, mask| mask & machine.context != 0)),
        ("always refused", with_empty(|_, _| true)),
        ("the low eight domains alone", asking(|machine| machine.context & 0x00FF)),
        ("the high eight domains alone", asking(|machine| machine.context & 0xFF00)),
        ("low byte first", with_empty(|machine, mask| mask.swap_bytes() & machine.context == 0)),
        ("domain 15 first", with_empty(|machine, mask| mask.reverse_bits() & machine.context == 0)),
        ("one domain off", asking(|machine| machine.context << 1)),
        ("one domain off the other way", asking(|machine| machine.context >> 1)),
        ("one shared domain refused", with_empty(|machine, mask| (mask & machine.context).count_ones() < 2)),
        ("several shared domains refused", refusing_also(|machine, mask| (mask & machine.context).count_ones() > 1)),
        ("the context's highest domain must be shared", asking(|machine| highest(machine.context))),
        ("the context's lowest domain must be shared", asking(|machine| lowest(machine.context))),
        ("the mask's highest domain must be shared", with_empty(|machine, mask| highest(mask) & machine.context == 0)),
        ("the mask's lowest domain must be shared", with_empty(|machine, mask| lowest(mask) & machine.context == 0)),
        ("in program 0's turns alone", sparing(|machine, _| machine.current != 0)),
        ("in other programs' turns alone", sparing(|machine, _| machine.current == 0)),
        ("at depth 0 alone", sparing(|machine, _| machine.depth() > 0)),
        ("above depth 0 alone", sparing(|machine, _| machine.depth() == 0)),
        ("after a violation alone", sparing(|machine, _| machine.last_violation.is_none())),
        ("before a violation alone", sparing(|machine, _| machine.last_violation.is_some())),
    ];
    let mut named = with_names(wrong);
    for s in 0..16 {
        let one = 1u16 << s;
        named.push((format!("domain {s} not looked at"), asking(move |machine| machine.context & !one)));
        named.push((format!("domain {s} enough in the mask"), asking(move |machine| machine.context | one)));
        let in_context = with_empty(move |machine, mask| (mask | one) & machine.context == 0);
        named.push((format!("domain {s} enough in the context"), in_context));
    }
    named
}

fn wrong_effects() -> Vec<Named> {
    let wrong: Vec<(&str, Reading)> = vec![
        ("19, and the mask replaced all the same", with_refused(|machine, mask| machine.mask = mask)),
        ("19, and the mask set to 0", with_refused(|machine, _| machine.mask = 0)),
        ("19, and the mask set to all", with_refused(|machine, _| machine.mask = 0xFFFF)),
        ("19, and the mask set to the context", with_refused(|machine, _| machine.mask = machine.context)),
        ("19, and the mask joined to the one before", with_refused(|machine, mask| machine.mask |= mask)),
        ("19, and the context replaced by the mask", with_refused(|machine, mask| machine.context = mask)),
        ("19, and the context emptied", with_refused(|machine, _| machine.context = 0)),
        ("19, and the mask joined to the context", with_refused(|machine, mask| machine.context |= mask)),
        ("19, and the flag set", with_refused(|machine, _| machine.pending = true)),
        ("19, and the mode privileged", with_refused(|machine, _| machine.mode = Mode::Privileged)),
        (
            "19, and an interrupt",
            with_refused(|machine, _| {
                machine.saved.push(machine.mode);
                machine.mode = Mode::Privileged;
            }),
        ),
        (
            "19, and a violation",
            with_refused(|machine, _| {
                machine.last_violation = Some(Violation { program: machine.current, right: READ, address: 0 });
                machine.pending = true;
            }),
        ),
        (
            "19, and the last violation set",
            with_refused(|machine, _| {
                machine.last_violation = Some(Violation { program: machine.current, right: READ, address: 0 });
            }),
        ),
        ("19, and the last violation forgotten", with_refused(|machine, _| machine.last_violation = None)),
        ("the mask trimmed to the context", with_done(|machine, mask| machine.mask = mask & machine.context)),
        ("the mask taken from the one before", with_done(|machine, mask| machine.mask &= mask)),
        ("the mask joined to the one before", with_done(|machine, mask| machine.mask |= mask)),
        ("the mask left as it was", with_done(|_, _| {})),
        (
            "the context narrowed with the mask",
            with_done(|machine, mask| (machine.context, machine.mask) = (machine.context & mask, mask)),
        ),
    ];
    with_names(wrong)
}

/// Other places that refuse an empty mask, each where nothing else refuses the call.
fn wrong_places() -> Vec<Named> {
    let wrong: Vec<(&str, Reading)> = vec![
        (
            "the kernel's mask store refuses it too",
            with_other(
                |machine, call| matches!(call, Call::StoreMask { mask } if machine.privileged() && mask & machine.context == 0),
            ),
        ),
        (
            "the kernel's mask store refuses 0",
            with_other(|machine, call| matches!(call, Call::StoreMask { mask: 0 } if machine.privileged())),
        ),
        (
            "the kernel's context store refuses to leave nothing",
            with_other(
                |machine, call| matches!(call, Call::StoreContext { context } if machine.privileged() && context & machine.mask == 0),
            ),
        ),
        (
            "the kernel's context store refuses 0",
            with_other(|machine, call| matches!(call, Call::StoreContext { context: 0 } if machine.privileged())),
        ),
        (
            "the switch to a program with such a mask refused",
            with_other(|machine, call| {
                let Call::Switch { program } = call else { return false };
                let due = machine.privileged() && machine.depth() == 1;
                let named = machine.programs.get(usize::from(program));
                due && named.is_some_and(|named| named.context & named.mask == 0)
            }),
        ),
        (
            "the switch from a program with such a mask refused",
            with_other(|machine, call| {
                let due = machine.privileged() && machine.depth() == 1 && machine.local_context() == 0;
                matches!(call, Call::Switch { .. } if due)
            }),
        ),
        (
            "the entry from a program with such a mask refused",
            with_other(|machine, call| call == Call::Entry && machine.local_context() == 0),
        ),
        (
            "the return to a program with such a mask refused",
            with_other(|machine, call| {
                call == Call::Return && machine.privileged() && machine.depth() > 0 && machine.local_context() == 0
            }),
        ),
        (
            "the mode store to user mode refused with such a mask",
            with_other(|machine, call| {
                call == Call::StoreMode { number: 0 } && machine.privileged() && machine.local_context() == 0
            }),
        ),
        (
            "accesses with such a mask answer 19",
            with_other(|machine, call| {
                matches!(call, Call::Access { .. }) && in_turn(machine) && machine.local_context() == 0
            }),
        ),
        (
            "grants with such a mask answer 19",
            with_other(|machine, call| {
                matches!(call, Call::Grant { .. }) && in_turn(machine) && machine.local_context() == 0
            }),
        ),
        (
            "revocations with such a mask answer 19",
            with_other(|machine, call| {
                matches!(call, Call::Revoke { .. }) && in_turn(machine) && machine.local_context() == 0
            }),
        ),
        ("an image refused for the start program's mask", with_image(|machine| machine.local_context() == 0)),
        (
            "an image refused for another program's mask",
            with_image(|machine| machine.programs[1..].iter().any(|program| program.context & program.mask == 0)),
        ),
        (
            "an image refused where all programs have such a mask",
            with_image(|machine| machine.programs.iter().all(|program| program.context & program.mask == 0)),
        ),
        ("an image refused for an empty context", with_image(|machine| machine.context == 0)),
    ];
    with_names(wrong)
}

/// What a run cannot show: it prints no violation.
const SHOWN_BY_WRITING_ALONE: [&str; 2] = ["19, and the last violation set", "19, and the last violation forgotten"];

/// What the command does to the mask shows in what is written too.
const SHOWN_BY_WRITING_TOO: [&str; 8] = [
    "no 19 at all",
    "19, and the mask replaced all the same",
    "19, and the mask set to 0",
    "19, and the mask set to all",
    "19, and the mask set to the context",
    "19, and the flag set",
    "the mask trimmed to the context",
    "an image refused for the start program's mask",
];

#[test]
fn each_misreading_of_empty_masks_shows_in_the_stored_cases() {
    let runs = cases::all();
    let runs: Vec<_> = runs.iter().filter(|case| case.purpose.starts_with("empty mask: ")).collect();
    let writes = writes::all();
    let writes: Vec<_> = writes.iter().filter(|case| case.purpose.starts_with("0: empty mask, ")).collect();
    assert!(runs.iter().all(|case| case.due.is_some() && case.named.is_some()));
    assert!(writes.iter().all(|case| case.due.is_some()));
    let parts = [wrong_orders(), wrong_conditions(), wrong_effects(), wrong_places()];
    let mut names = BTreeSet::new();
    for (what, reading) in parts.into_iter().flatten() {
        let differs = |kind: u8, bytes: &[u8]| reading.text((kind, bytes)) != right().text((kind, bytes));
        let by_runs = runs.iter().filter(|case| differs(RUN, &case.input)).count();
        let by_writes = writes.iter().filter(|case| differs(WRITING, &case.bytes)).count();
        if SHOWN_BY_WRITING_ALONE.contains(&&what[..]) {
            assert!(by_runs == 0 && by_writes > 0, "{what}: {by_runs}, {by_writes}");
        } else {
            assert!(by_runs > 0, "{what}: {by_runs}, {by_writes}");
        }
        assert!(by_writes > 0 || !SHOWN_BY_WRITING_TOO.contains(&&what[..]), "{what}: {by_writes}");
        assert!(names.insert(what), "each has a name of its own");
    }
    assert!(SHOWN_BY_WRITING_ALONE.iter().chain(&SHOWN_BY_WRITING_TOO).all(|&what| names.contains(what)));
}
