//! The sample and the starred cases (RULES 5.12, 5.13, 6.11) with their numbers, the stored cases,
//! the writer with what its promises say of it (RULES 5.14 to 5.18), the last violation with the
//! question for it (RULES 1.11, 1.16, 3.3, 3.24, 3.25), accesses of both widths (RULES 3.2, 3.3), and
//! the domain that an access names (RULES 2.13, 3.3, 8.3). The refusal of empty masks, the least
//! mask, the planner, the rights over a site and the switch's checks have files of their own.

mod empty_masks;
mod masks;
mod plans;
mod rights;
mod switches;

use crate::cases::{self, many::Counts, sample};
use crate::counts::{CAN_OCCUR, LOAD_CAN_OCCUR};
use crate::histories::{legal, legal_plan, naming};
use crate::image::load;
use crate::machine::{prevailing, Domain, Fields, Machine, Mode, Page, Program, Violation, Width, READ, WRITE};
use crate::random::Random;
use crate::rounds::{rounds, take_apart};
use crate::run::{answers, decode, split, step, text, Call, Outcome, LAST_KIND, LONGEST_INPUT, RECORD};
use crate::sorts::{givers, sort, SORTS};
use crate::stored::{self, RUN, WRITING};
use crate::writer::{write_image, Written};
use crate::writes::{self, many};
use std::collections::BTreeSet;

/// The sample image (RULES 5.12), byte by byte, not made by this program's own writer.
const SAMPLE: [u8; 44] = [
    0x01, 0x00, 0x00, 0x12, 0x00, 0x04, 0x02, 0x00, 0x00, 0x16, 0x00, 0x0C, 0x03, 0x00, 0x00, 0x22, 0x00, 0x0A, //
    0x03, 0x08, 0x02, 0x00, //
    0x00, 0x09, 0x00, 0x00, 0x00, 0x0A, 0x00, 0x02, 0x00, 0x0C, 0x00, 0x04, //
    0x00, 0x07, 0x00, 0x03, 0x00, 0x00, 0x08, 0xFF, 0xFF, 0x00,
];

/// The sample's records (RULES 6.11), byte by byte too.
const SAMPLE_CALLS: [u8; 48] = [
    0x01, 0x00, 0x00, 0x00, 0x00, 0x10, 0x01, 0x00, 0x00, 0x00, 0x02, 0x00, //
    0x04, 0x00, 0x00, 0x00, 0x00, 0x07, 0x05, 0x00, 0x00, 0x00, 0x00, 0x00, //
    0x07, 0x00, 0x00, 0x00, 0x00, 0x01, 0x06, 0x00, 0x00, 0x00, 0x00, 0x00, //
    0x01, 0x00, 0x00, 0x00, 0x02, 0x00, 0x01, 0x01, 0x00, 0x00, 0x00, 0x00,
];

fn loaded() -> Machine {
    load(&SAMPLE).expect("the sample loads")
}

fn sample_input() -> Vec<u8> {
    [&[0x00, 0x2C], &SAMPLE[..], &SAMPLE_CALLS].concat()
}

#[test]
fn the_sample_loads_to_the_machine_it_describes() {
    let machine = loaded();
    assert!(machine.sound());
    assert_eq!((machine.pages.len(), machine.exponent, machine.memory()), (3, 8, 768));
    let fields: Vec<u16> =
        (0..3).flat_map(|page| [machine.field(READ, Page(page)), machine.field(WRITE, Page(page))]).collect();
    assert_eq!(fields, [0x0009, 0x0000, 0x000A, 0x0002, 0x000C, 0x0004]);
    assert_eq!((machine.context, machine.mask, machine.mode), (0x0007, 0x0003, Mode::User));
    assert_eq!(
        (machine.programs[1].context, machine.programs[1].mask, machine.programs[1].mode),
        (0x0008, 0xFFFF, Mode::User)
    );
    assert_eq!((machine.programs.len(), machine.current, machine.depth(), machine.pending), (2, 0, 0, false));
    assert_eq!(machine.last_violation, None);
}

#[test]
fn the_sample_run_prints_what_the_documents_say() {
    assert_eq!(text(&sample_input()), "load 0\n1 0 0\n2 9 -\n3 8 -\n4 0 -\n5 0 -\n6 0 -\n7 0 3\n8 9 -\n");
    assert_eq!(answers(&sample_input()), [0, 0, 9, 8, 0, 0, 0, 0, 9]);
}

#[test]
fn the_stored_cases_start_with_the_sample() {
    assert_eq!(sample().image(), SAMPLE);
    assert_eq!(cases::all()[0].input, sample_input());
}

#[test]
fn the_starred_cases() {
    let (zero, one, two) = (Page(0), Page(1), Page(2));
    assert_eq!(loaded().access(Width::One, READ, 256), Ok(Some(Domain(1))));
    assert_eq!(loaded().access(Width::One, WRITE, 256), Ok(Some(Domain(1))));
    assert_eq!(loaded().access(Width::One, WRITE, 0), Err(9));
    assert_eq!(loaded().access(Width::One, READ, 767), Err(9));
    assert_eq!(loaded().access(Width::One, READ, 768), Err(3));
    assert_eq!(loaded().grant(READ, zero, Domain(0)), Err(12));
    assert_eq!(loaded().grant(WRITE, zero, Domain(3)), Err(11));
    let mut machine = loaded();
    assert_eq!(machine.revoke(READ, zero, Domain(3)), Ok(()));
    assert_eq!(machine.field(READ, zero), 0x0001);
    let mut machine = loaded();
    assert_eq!(machine.grant(READ, two, Domain(3)), Err(11));
    assert_eq!(machine.mask_command(0x0007), Ok(()));
    assert_eq!(machine.grant(READ, two, Domain(3)), Ok(()));
    assert_eq!(loaded().grant(READ, zero, Domain(16)), Err(5));
    assert_eq!(loaded().return_from_interrupt(), Err(7));
    assert_eq!(machine.field(READ, one), 0x000A);
}

#[test]
fn an_unsound_machine_is_refused_before_anything_else() {
    let mut machine = loaded();
    machine.pending = true;
    machine.mode = Mode::Privileged;
    let before = machine.clone();
    assert_eq!(machine.access(Width::One, 2, 768), Err(1));
    assert_eq!(machine.access(Width::Two, 2, 767), Err(1));
    assert_eq!(machine.grant(2, Page(3), Domain(16)), Err(1));
    assert_eq!(machine.revoke(2, Page(3), Domain(16)), Err(1));
    assert_eq!(machine.mask_command(0), Err(1));
    assert_eq!(machine.interrupt_entry(), Err(1));
    assert_eq!(machine.return_from_interrupt(), Err(1));
    assert_eq!(machine.switch(2), Err(1));
    assert_eq!(machine.store_field(2, Page(3), 0), Err(1));
    assert_eq!(machine.store_context(0), Err(1));
    assert_eq!(machine.store_mask(0), Err(1));
    assert_eq!(machine.store_mode(2), Err(1));
    assert_eq!(machine.question(), Err(1));
    assert_eq!(machine, before);
}

#[test]
fn a_stored_violation_at_the_edges_of_what_is_sound() {
    // Two programs and 768 bytes.
    let with =
        |program, right, address| Machine { last_violation: Some(Violation { program, right, address }), ..loaded() };
    for (program, right, address) in [(0, READ, 0), (1, WRITE, 767), (0, WRITE, 512), (1, READ, 3)] {
        let mut machine = with(program, right, address);
        assert!(machine.sound());
        assert_eq!(machine.question(), Err(7));
        assert_eq!(machine.interrupt_entry(), Ok(()));
        assert_eq!(machine.question(), Ok(Some(Violation { program, right, address })));
    }
    for (program, right, address) in [
        (2, READ, 0),
        (8, READ, 0),
        (256, READ, 0),
        (0, 2, 0),
        (0, 255, 0),
        (0, READ, 768),
        (0, WRITE, 0x0001_0000),
        (1, READ, u32::MAX),
    ] {
        let machine = with(program, right, address);
        assert!(!machine.sound());
        // 1 comes first, in user mode and in privileged mode.
        for mode in [Mode::User, Mode::Privileged] {
            let mut machine = Machine { mode, ..machine.clone() };
            let before = machine.clone();
            assert_eq!(machine.question(), Err(1));
            assert_eq!(step(&mut machine, &[12, 0, 0, 0, 0, 0]), Outcome::Question(1, None));
            assert_eq!(machine.access(Width::One, READ, 512), Err(1));
            assert_eq!(machine.access(Width::Two, READ, 511), Err(1));
            assert_eq!(machine.interrupt_entry(), Err(1));
            assert_eq!(machine, before);
            write_refused(&machine, 1, &[0, 44]);
        }
    }
    // The all-zero machine has none, and is not sound for other reasons.
    assert_eq!(Machine::all_zero().last_violation, None);
    assert_eq!(Machine::all_zero().question(), Err(1));
}

#[test]
fn a_violation_sets_the_last_violation_and_no_other_answer_changes_it() {
    let (mut violations, mut asked, mut refused) = ([0, 0], 0, 0);
    for seed in 0..100 {
        let input = legal(&mut Random::new(seed), 150);
        let (image, records) = split(&input);
        let mut machine = load(image).expect("the image is legal");
        for record in records.chunks_exact(RECORD) {
            let before = machine.clone();
            let outcome = step(&mut machine, record);
            assert!(machine.sound());
            if outcome.number() == 9 {
                assert!(record[0] == 1 || record[0] == 13);
                violations[usize::from(record[0] == 13)] += 1;
                let address = u32::from_be_bytes([record[2], record[3], record[4], record[5]]);
                let violation = Violation { program: before.current, right: record[1], address };
                assert_eq!(machine, Machine { pending: true, last_violation: Some(violation), ..before });
                continue;
            }
            assert_eq!(machine.last_violation, before.last_violation);
            if record[0] == 12 {
                assert_eq!(machine, before);
                let due = if before.privileged() { (0, before.last_violation) } else { (7, None) };
                assert_eq!(outcome, Outcome::Question(due.0, due.1));
                asked += usize::from(due.1.is_some());
                refused += usize::from(due.0 == 7 && before.last_violation.is_some());
            }
        }
    }
    assert!(violations.iter().all(|&times| times >= 500), "{violations:?}");
    assert!(asked >= 300 && refused >= 50, "{asked}, {refused}");
}

#[test]
fn the_prevailing_domain_is_the_lowest_numbered() {
    assert_eq!(prevailing(0), None);
    assert_eq!(prevailing(0x0009), Some(Domain(0)));
    assert_eq!(prevailing(0x000C), Some(Domain(2)));
    assert_eq!(prevailing(0x8000), Some(Domain(15)));
}

#[test]
fn the_oracle_gives_the_answers_written_beside_the_cases() {
    for (before, case) in cases::all().iter().enumerate() {
        case.check(before + 1);
    }
}

#[test]
fn the_stored_cases_reach_every_answer_that_can_occur() {
    let mut reached = BTreeSet::new();
    let mut load_reached = BTreeSet::new();
    // The random runs have no answers written beside them and do not count here.
    for case in cases::all().iter().filter(|case| case.due.is_some()) {
        let answers = answers(&case.input);
        let Some((load, calls)) = answers.split_first() else {
            continue;
        };
        load_reached.insert(*load);
        for (record, answer) in split(&case.input).1.chunks_exact(6).zip(calls) {
            reached.insert((if record[0] <= LAST_KIND { record[0] } else { 0 }, *answer));
        }
    }
    let expected: BTreeSet<(u8, u8)> =
        (0..).zip(CAN_OCCUR).flat_map(|(kind, (_, list))| list.iter().map(move |answer| (kind, *answer))).collect();
    assert_eq!(reached, expected);
    assert_eq!(load_reached, LOAD_CAN_OCCUR.1.iter().copied().collect());
}

#[test]
fn text_at_the_edges() {
    assert_eq!(text(&[]), "load 20\n");
    assert_eq!(text(&[44]), "load 20\n");
    assert_eq!(text(&[0, 0]), "load 20\n");
    assert_eq!(text(&[0; 32_768]), "load 20\n");
    assert_eq!(text(&[0; 32_769]), "long\n");
    let cut = [&sample_input()[..], &[5]].concat();
    assert_eq!(text(&cut), "load 0\n1 0 0\n2 9 -\n3 8 -\n4 0 -\n5 0 -\n6 0 -\n7 0 3\n8 9 -\ncut\n");
    assert_eq!(text(&[&[0xFF, 0xFF], &SAMPLE[..]].concat()), "load 0\n");
    let mut refused = cut.clone();
    refused[2 + 43] = 2;
    assert_eq!(text(&refused), "load 25\n");
}

/// The writer on a buffer of so many bytes, each 0xEE beforehand.
fn written(machine: &Machine, room: usize) -> (Written, Vec<u8>) {
    let mut buffer = vec![0xEE; room];
    let written = write_image(machine, &mut buffer);
    (written, buffer)
}

/// The number that refuses, with any buffer, all of which stays as it is (RULES 5.16).
fn write_refused(machine: &Machine, number: u8, rooms: &[usize]) {
    for &room in rooms {
        assert_eq!(written(machine, room), (Written { number, count: 0 }, vec![0xEE; room]), "room {room}");
    }
}

#[test]
fn the_sample_is_written_back() {
    let done = Written { number: 0, count: 44 };
    assert_eq!(written(&loaded(), 44), (done, SAMPLE.to_vec()));
    assert_eq!(written(&loaded(), 47), (done, [&SAMPLE[..], &[0xEE; 3]].concat()));
    write_refused(&loaded(), 27, &[0, 1, 31, 43]);
}

#[test]
fn the_live_registers_are_written_and_the_first_entry_is_not() {
    let mut machine = loaded();
    (machine.context, machine.mask, machine.mode) = (0x1234, 0x5678, Mode::Privileged);
    machine.programs[0] = Program { context: 0xAAAA, mask: 0xBBBB, mode: Mode::User };
    machine.programs[1] = Program { context: 0x9ABC, mask: 0xDEF0, mode: Mode::Privileged };
    let mut due = SAMPLE;
    due[34..].copy_from_slice(&[0x12, 0x34, 0x56, 0x78, 1, 0x9A, 0xBC, 0xDE, 0xF0, 1]);
    assert_eq!(written(&machine, 44), (Written { number: 0, count: 44 }, due.to_vec()));
}

#[test]
fn an_unsound_machine_is_not_written_whatever_else_is_wrong() {
    let sample = loaded();
    let page = Fields { read: 1, write: 1 };
    let program = sample.programs[0];
    let unsound = [
        Machine::all_zero(),
        Machine { pages: vec![], ..sample.clone() },
        Machine { pages: vec![page; 129], exponent: 5, ..sample.clone() },
        Machine { pages: vec![page; 17], exponent: 12, ..sample.clone() },
        Machine { exponent: 4, ..sample.clone() },
        Machine { exponent: 13, ..sample.clone() },
        Machine { programs: vec![], ..sample.clone() },
        Machine { programs: vec![program; 9], ..sample.clone() },
        Machine { current: 2, ..sample.clone() },
        Machine { saved: vec![Mode::User; 9], ..sample.clone() },
        Machine { pending: true, mode: Mode::Privileged, ..sample.clone() },
    ];
    for machine in unsound {
        write_refused(&machine, 1, &[0, 43, 44, 640]);
        if machine.depth() == 0 {
            // A depth of 1 is in order by itself, and would be refused with 26.
            write_refused(&Machine { saved: vec![Mode::User], ..machine }, 1, &[0, 640]);
        }
    }
}

#[test]
fn a_machine_that_is_not_at_rest_is_refused_before_a_short_buffer() {
    let sample = loaded();
    for reasons in 1..8 {
        let mut machine = sample.clone();
        if reasons & 1 != 0 {
            machine.current = 1;
        }
        if reasons & 2 != 0 {
            machine.saved = vec![Mode::User];
        }
        if reasons & 4 != 0 {
            machine.pending = true;
        }
        write_refused(&machine, 26, &[0, 43, 44, 640]);
    }
}

#[test]
fn a_legal_image_that_is_loaded_and_written_gives_its_bytes_again() {
    for seed in 0..300 {
        let image = legal_plan(&mut Random::new(seed)).image();
        let machine = load(&image).expect("the image is legal");
        let done = Written { number: 0, count: image.len() };
        assert_eq!(written(&machine, image.len()), (done, image), "seed {seed}");
    }
}

#[test]
fn loading_what_was_written_gives_the_machine_again() {
    let (mut changed, mut entry_old, mut privileged, mut violations) = (0, 0, 0, 0);
    for number in 0..400 {
        let case = many::case(&mut Random::numbered(1, number));
        let (image, records) = split(take_apart(&case).1);
        let Ok(mut machine) = load(image) else {
            continue;
        };
        for record in records.chunks_exact(RECORD) {
            step(&mut machine, record);
        }
        let (answer, buffer) = written(&machine, 640);
        if answer.number != 0 {
            assert_eq!(answer.number, 26);
            continue;
        }
        let live = Program { context: machine.context, mask: machine.mask, mode: machine.mode };
        changed += usize::from(buffer[..answer.count] != *image);
        entry_old += usize::from(machine.programs[0] != live);
        privileged += usize::from(live.mode == Mode::Privileged);
        violations += usize::from(machine.last_violation.is_some());
        machine.programs[0] = live;
        // The one thing that an image does not bring back.
        machine.last_violation = None;
        assert_eq!(load(&buffer[..answer.count]), Ok(machine), "case number {number}");
    }
    // The random cases would be of little use without changes, and with an entry that is up to date.
    assert!(changed >= 100 && entry_old >= 60 && privileged >= 10, "{changed}, {entry_old}, {privileged}");
    assert!(violations >= 60, "{violations}");
}

#[test]
fn the_last_violation_does_not_show_in_what_is_written() {
    let violation = Violation { program: 1, right: WRITE, address: 767 };
    let machine = Machine { last_violation: Some(violation), ..loaded() };
    assert_eq!(written(&machine, 45), written(&loaded(), 45));
    write_refused(&machine, 27, &[0, 43]);
    write_refused(&Machine { pending: true, ..machine }, 26, &[0, 43, 44]);
}

#[test]
fn the_oracle_gives_what_is_written_beside_the_cases_of_the_writer() {
    let mut reached = BTreeSet::new();
    let mut load_reached = BTreeSet::new();
    let mut whole = 0;
    for (before, case) in writes::all().iter().enumerate() {
        case.check(before + 1);
        for due in case.due.iter().flatten() {
            reached.insert(due.written.number);
            load_reached.insert(due.load);
        }
        whole += usize::from(case.due.as_ref().is_some_and(|due| due[0].whole()));
    }
    assert_eq!(reached, BTreeSet::from(many::NUMBERS));
    assert_eq!(load_reached, BTreeSet::from([0, 20, 21, 22, 23, 24, 25]));
    assert!(whole >= 60, "every byte by hand in {whole} cases");
}

#[test]
fn random_cases_of_the_writer_reach_all_its_numbers_in_a_short_file() {
    for seed in 1..=20 {
        let file = many::file(seed, 400).expect("each number comes often");
        assert!(file.len() < 262_144, "seed {seed}");
        assert_eq!(stored::cases(&file).len(), 400);
    }
    assert_eq!(many::file(1, 0), Ok(vec![]));
    assert!(many::file(1, 3).is_ok());
    assert_eq!(
        many::rare([].into_iter()),
        "writes-random: the writer answered 0 0 times, fewer than 20
writes-random: the writer answered 1 0 times, fewer than 20
writes-random: the writer answered 26 0 times, fewer than 20
writes-random: the writer answered 27 0 times, fewer than 20
writes-random: a question gave `denied` 0 times, fewer than 20
writes-random: a question gave `none` 0 times, fewer than 20
writes-random: an access named a domain 0 times, fewer than 20
writes-random: a mask command answered 19 0 times, fewer than 20
"
    );
}

#[test]
fn random_cases_of_the_writer_ask_after_violations_of_all_sorts() {
    for seed in 1..=20 {
        let (mut programs, mut rights, mut addresses) = (BTreeSet::new(), BTreeSet::new(), BTreeSet::new());
        let mut none_with = [0, 0];
        for number in 0..400 {
            let [first, _] = rounds(&many::case(&mut Random::numbered(seed, number)));
            for call in first.calls {
                match call {
                    Outcome::Question(_, Some(violation)) => {
                        programs.insert(violation.program);
                        rights.insert(violation.right);
                        addresses.insert(violation.address);
                    }
                    Outcome::Question(number, None) => none_with[usize::from(number == 7)] += 1,
                    Outcome::Number(_) | Outcome::Access(..) => {}
                }
            }
        }
        assert_eq!(programs, BTreeSet::from_iter(0..8), "seed {seed}");
        assert_eq!(rights, BTreeSet::from([READ, WRITE]), "seed {seed}");
        assert!(addresses.len() >= 100 && addresses.iter().any(|&address| address > 0x7FFF), "seed {seed}");
        assert!(none_with[0] >= 20 && none_with[1] >= 20, "seed {seed}: {none_with:?}");
    }
}

#[test]
fn kinds_1_to_13_are_calls_and_no_others() {
    let mut calls = Vec::new();
    for kind in 0..=255 {
        let record = [kind, 0, 0, 0, 1, 5];
        let mut machine = loaded();
        match decode(&record) {
            Some(call) => calls.push((kind, call)),
            None => {
                assert_eq!(step(&mut machine, &record), Outcome::Number(18));
                assert_eq!(machine, loaded());
            }
        }
    }
    assert!(calls.iter().map(|call| call.0).eq(1..=13));
    assert_eq!(calls[0].1, Call::Access { width: Width::One, right: READ, address: 0x0105 });
    assert_eq!(calls[12].1, Call::Access { width: Width::Two, right: READ, address: 0x0105 });
    let last = Call::Access { width: Width::Two, right: 255, address: 0xFEDC_BA98 };
    assert_eq!(decode(&[13, 255, 0xFE, 0xDC, 0xBA, 0x98]), Some(last));
}

#[test]
fn the_bytes_touched() {
    assert_eq!(Width::One.touched(7), [7]);
    assert_eq!(Width::Two.touched(7), [7, 8]);
    assert_eq!(Width::One.touched(u32::MAX), [0xFFFF_FFFF]);
    assert_eq!(Width::Two.touched(u32::MAX), [0xFFFF_FFFF, 0x1_0000_0000]);
}

/// The answer of an access of two bytes, made from those that each byte gets by itself on the same
/// machine: the earlier refusal counts, and 8 comes before 9.
fn from_single_bytes(machine: &Machine, right: u8, address: u32) -> u8 {
    let alone = |address| match machine.clone().access(Width::One, right, address) {
        Ok(_) => 0,
        Err(number) => number,
    };
    // Behind the last address there is no byte.
    let second = address.checked_add(1).map_or(3, alone);
    let both = [alone(address), second];
    [2, 3, 8, 9].into_iter().find(|number| both.contains(number)).unwrap_or(0)
}

#[test]
fn an_access_of_two_bytes_is_allowed_where_both_single_bytes_are() {
    let mut reached = BTreeSet::new();
    for seed in 0..400 {
        let mut random = Random::new(seed);
        let mut machine = load(&legal_plan(&mut random).image()).expect("the image is legal");
        machine.current = random.below(machine.programs.len());
        machine.mode = random.pick(&[Mode::User, Mode::User, Mode::Privileged]);
        machine.pending = machine.mode == Mode::User && random.chance(20);
        let (size, memory) = (machine.page_size() as u32, machine.memory() as u32);
        let edges = (1..=memory / size).flat_map(|page| [2, 1, 0].map(|back| page * size - back));
        let others = [0, 1, 0x0000_FFFF, 0x0001_0000, memory + 1, u32::MAX - 1, u32::MAX];
        for address in edges.chain(others) {
            for right in [READ, WRITE, 2, 255] {
                let due = from_single_bytes(&machine, right, address);
                let mut after = machine.clone();
                let answer = after.access(Width::Two, right, address);
                assert_eq!(answer.err().unwrap_or(0), due);
                // Where it is allowed it names what its first byte alone names.
                if due == 0 {
                    assert_eq!(answer, machine.clone().access(Width::One, right, address));
                }
                let mut expected = machine.clone();
                if due == 9 {
                    expected.pending = true;
                    expected.last_violation = Some(Violation { program: machine.current, right, address });
                }
                assert_eq!(after, expected);
                reached.insert((machine.mode == Mode::User, due));
            }
        }
    }
    let user = [0, 2, 3, 8, 9].map(|number| (true, number));
    let privileged = [0, 2, 3].map(|number| (false, number));
    assert_eq!(reached, user.into_iter().chain(privileged).collect());
}

/// The right and the sort of each access of two bytes across an edge, and its answer.
fn across(input: &[u8]) -> Vec<(u8, usize, u8)> {
    let (image, records) = split(input);
    let Ok(mut machine) = load(image) else {
        return vec![];
    };
    let mut list = Vec::new();
    for record in records.chunks_exact(RECORD) {
        let sort = sort(&machine, record);
        let answer = step(&mut machine, record).number();
        list.extend(sort.map(|(right, sort)| (right, sort, answer)));
    }
    list
}

/// How often each sort came with each right. The sort tells the answer.
fn counts(list: &[(u8, usize, u8)]) -> [[usize; SORTS.len()]; 2] {
    let mut counts = [[0; SORTS.len()]; 2];
    for &(right, sort, answer) in list {
        assert_eq!(answer, if sort == 0 { 0 } else { 9 });
        counts[usize::from(right)][sort] += 1;
    }
    counts
}

#[test]
fn the_stored_runs_go_across_every_edge_of_every_page_size() {
    let cases = cases::all();
    let mut runs = cases.iter().filter(|case| case.purpose.contains("around every edge"));
    for (exponent, count, least) in
        [(5, 128, 3), (6, 128, 3), (7, 128, 3), (8, 128, 3), (9, 128, 3), (10, 64, 2), (11, 32, 2), (12, 16, 1)]
    {
        let case = runs.next().expect("there is a run for each exponent");
        let (image, records) = split(&case.input);
        assert_eq!((image[19], u32::from(image[18])), (exponent, count));
        let size = 1 << exponent;
        let accesses = records.chunks_exact(RECORD).filter(|record| record[0] == 13);
        let touched: Vec<u32> =
            accesses.map(|record| u32::from_be_bytes([record[2], record[3], record[4], record[5]])).collect();
        let mut due: Vec<u32> = (1..count).flat_map(|page| [2, 1, 0].map(|back| page * size - back)).collect();
        due.extend([count * size - 1; 2]);
        assert_eq!(touched, due, "exponent {exponent}");
        let list = across(&case.input);
        assert_eq!(list.len() as u32, count - 1);
        let counts = counts(&list);
        assert!(counts.iter().flatten().all(|&times| times >= least), "exponent {exponent}: {counts:?}");
    }
    assert!(runs.next().is_none());
}

#[test]
fn random_inputs_go_across_edges_of_all_sorts() {
    for seed in 1..=5 {
        let runs: Vec<_> = (0..200).map(|number| legal(&mut Random::numbered(seed, number), 150)).collect();
        let list: Vec<_> = runs.iter().flat_map(|input| across(input)).collect();
        let counts = counts(&list);
        assert!(counts.iter().flatten().all(|&times| times >= 20), "seed {seed}: {counts:?}");

        let (mut widths, mut answers_to_two) = ([0, 0], BTreeSet::new());
        let mut ends = [0; 5];
        for input in &runs {
            let (image, records) = split(input);
            let memory = load(image).expect("the image is legal").memory() as u32;
            for (record, answer) in records.chunks_exact(RECORD).zip(&answers(input)[1..]) {
                widths[0] += usize::from(record[0] == 1);
                if record[0] == 13 {
                    widths[1] += 1;
                    answers_to_two.insert(*answer);
                    let address = u32::from_be_bytes([record[2], record[3], record[4], record[5]]);
                    for (end, times) in [memory - 2, memory - 1, memory, u32::MAX - 1, u32::MAX].iter().zip(&mut ends) {
                        *times += usize::from(address == *end);
                    }
                }
            }
        }
        assert_eq!(answers_to_two, BTreeSet::from([0, 2, 3, 8, 9]), "seed {seed}");
        assert!(4 * widths[0] >= 3 * widths[1] && 4 * widths[1] >= 3 * widths[0], "seed {seed}: {widths:?}");
        assert!(ends.iter().all(|&times| times >= 10), "seed {seed}: {ends:?}");
    }
}

#[test]
fn random_cases_of_the_writer_ask_after_violations_of_two_bytes() {
    for seed in 1..=20 {
        // By how the violation that is handed out came about: one byte, two of one page, and the sorts.
        let mut handed_out = [0; 2 + SORTS.len()];
        for number in 0..400 {
            let case = many::case(&mut Random::numbered(seed, number));
            let (image, records) = split(take_apart(&case).1);
            let Ok(mut machine) = load(image) else {
                continue;
            };
            let mut how = 0;
            for record in records.chunks_exact(RECORD) {
                let sort = sort(&machine, record);
                let outcome = step(&mut machine, record);
                if outcome.number() == 9 {
                    how = if record[0] == 1 { 0 } else { sort.map_or(1, |(_, sort)| 2 + sort) };
                }
                handed_out[how] += usize::from(matches!(outcome, Outcome::Question(0, Some(_))));
            }
        }
        // The sort of an access that is allowed comes third.
        let [_, _, 0, ..] = handed_out else {
            panic!("seed {seed}: {handed_out:?}");
        };
        let least = handed_out.iter().enumerate().filter(|&(how, _)| how != 2).map(|(_, &times)| times).min();
        assert!(least >= Some(10), "seed {seed}: {handed_out:?}");
    }
}

/// What a call met, and what it named.
struct Met {
    before: Machine,
    record: [u8; RECORD],
    outcome: Outcome,
}

/// Every call of a run. There is none where the image is refused or the input too long.
fn met(input: &[u8]) -> Vec<Met> {
    let (image, records) = split(input);
    let (Ok(mut machine), true) = (load(image), input.len() <= LONGEST_INPUT) else {
        return vec![];
    };
    let records = records.chunks_exact(RECORD);
    records
        .map(|record| {
            let before = machine.clone();
            let outcome = step(&mut machine, record);
            Met { before, record: record.try_into().expect("a whole record"), outcome }
        })
        .collect()
}

impl Met {
    fn right(&self) -> u8 {
        self.record[1]
    }

    fn address(&self) -> u64 {
        u32::from_be_bytes([self.record[2], self.record[3], self.record[4], self.record[5]]).into()
    }

    /// Only for an access that was allowed.
    fn field(&self) -> u16 {
        self.before.field(self.right(), self.before.page_of(self.address()))
    }

    /// Whether it is an access that user mode was allowed.
    fn given(&self) -> bool {
        matches!(self.record[0], 1 | 13) && !self.before.privileged() && self.outcome.number() == 0
    }

    /// A domain is named where an access in user mode was allowed and nowhere else; its bit is in the
    /// field of the first byte's page and in the local context, and no lower one is (RULES 1.17).
    fn check(&self) {
        let Some(Domain(s)) = self.outcome.named() else {
            assert!(!self.given(), "an access that was given and names none");
            return;
        };
        assert!(self.given(), "a domain for something else than an access that was given");
        assert!(s < 16);
        let shared = self.field() & self.before.context & self.before.mask;
        assert_eq!(shared & (1 << s), 1 << s, "the domain does not give it");
        assert_eq!(shared % (1 << s), 0, "there is a domain of higher level");
    }
}

#[test]
fn a_domain_is_named_where_user_mode_is_allowed_an_access_and_nowhere_else() {
    let stored = cases::all().into_iter().map(|case| case.input);
    let random = (0..150).map(|seed| legal(&mut Random::new(seed), 150));
    let more = (0..100).map(|seed| naming(&mut Random::new(seed), 150));
    let (mut named, mut several, mut privileged) = (0, 0, 0);
    for input in stored.chain(random).chain(more) {
        for call in met(&input) {
            call.check();
            named += usize::from(call.given());
            several += usize::from(call.given() && (call.field() & call.before.local_context()).count_ones() > 1);
            // These share a domain with the field, and must not name it.
            let open = call.outcome.number() == 0 && matches!(call.record[0], 1 | 13) && call.before.privileged();
            privileged += usize::from(open && call.field() & call.before.local_context() != 0);
        }
    }
    assert!(named >= 5_000 && several >= 1_500 && privileged >= 300, "{named}, {several}, {privileged}");
}

#[test]
fn the_same_in_both_rounds_of_cases_of_writing() {
    let stored = writes::all().into_iter().map(|case| case.bytes);
    let random = (0..200).map(|number| many::case(&mut Random::numbered(1, number)));
    let mut times = [0, 0];
    for case in stored.chain(random) {
        let input = take_apart(&case).1;
        let (_, records) = split(input);
        let [first, second] = rounds(&case);
        let calls = met(input);
        assert!(calls.iter().map(|call| call.outcome).eq(first.calls));
        // The second round has the same calls on what the first wrote.
        let image = &first.buffer[..first.written.count];
        let again = met(&[&(image.len() as u16).to_be_bytes(), image, records].concat());
        assert!(again.iter().map(|call| call.outcome).eq(second.calls));
        for (times, calls) in times.iter_mut().zip([calls, again]) {
            calls.iter().for_each(Met::check);
            *times += calls.iter().filter(|call| call.given()).count();
        }
    }
    assert!(times.iter().all(|&times| times >= 30), "{times:?}");
}

/// The stored runs that are about named domains, all of which are written by hand.
fn by_hand() -> Vec<cases::Case> {
    let runs: Vec<_> = cases::all().into_iter().filter(|case| case.purpose.starts_with("named: ")).collect();
    assert!(runs.len() >= 10 && runs.iter().all(|case| case.named.is_some()));
    runs
}

fn met_by_hand() -> Vec<Met> {
    by_hand().iter().flat_map(|case| met(&case.input)).collect()
}

#[test]
fn every_domain_is_named_by_hand_with_each_right_and_each_width() {
    let mut reached = BTreeSet::new();
    for call in met_by_hand() {
        reached.extend(call.outcome.named().map(|domain| (call.record[0], call.right(), domain.0)));
    }
    let all = [1, 13].into_iter().flat_map(|kind| [READ, WRITE].map(|right| (kind, right)));
    assert_eq!(reached, all.flat_map(|(kind, right)| (0..16).map(move |s| (kind, right, s))).collect());
}

#[test]
fn stored_runs_go_across_edges_whose_pages_give_through_different_domains() {
    // The first page through the higher domain, the second, and a shared domain that neither names.
    let (mut by_first, mut by_second, mut shared) = ([0, 0], [0, 0], [0, 0]);
    for call in met_by_hand() {
        let Some((first, second)) = givers(&call.before, &call.record) else {
            continue;
        };
        assert_eq!(call.outcome, Outcome::Access(0, Some(first)));
        let right = usize::from(call.right());
        by_first[right] += usize::from(first.0 < second.0);
        by_second[right] += usize::from(second.0 < first.0);
        let behind = call.before.field(call.right(), call.before.page_of(call.address() + 1));
        let both = prevailing(call.field() & behind & call.before.local_context());
        shared[right] += usize::from(both.is_some_and(|both| both != first && both != second));
    }
    for counts in [by_first, by_second, shared] {
        assert!(counts.iter().all(|&times| times >= 5), "{by_first:?}, {by_second:?}, {shared:?}");
    }
}

/// The lowest-numbered bit, by another way than the machine's.
fn lowest(bits: u16) -> Option<u16> {
    (bits != 0).then(|| bits.trailing_zeros() as u16)
}

fn highest(bits: u16) -> Option<u16> {
    (bits != 0).then(|| 15 - bits.leading_zeros() as u16)
}

/// A wrong way to name a domain, for an access that was given, and what it is called.
type Misreading = (&'static str, fn(&Met) -> Option<u16>);

const MISREADINGS: [Misreading; 18] = [
    ("the field alone", |call| lowest(call.field())),
    ("the context alone", |call| lowest(call.before.context)),
    ("the mask alone", |call| lowest(call.before.mask)),
    ("the local context alone", |call| lowest(call.before.local_context())),
    ("field and context", |call| lowest(call.field() & call.before.context)),
    ("field and mask", |call| lowest(call.field() & call.before.mask)),
    ("the field where the local context holds its prevailing domain, else none", |call| {
        lowest(call.field()).filter(|s| call.before.local_context() & (1 << s) != 0)
    }),
    ("the highest-numbered", |call| highest(call.field() & call.before.local_context())),
    ("the other right", |call| lowest(call.of(1 - call.right(), 0))),
    ("either right", |call| lowest(call.of(READ, 0) | call.of(WRITE, 0))),
    ("the page behind", |call| lowest(call.of(call.right(), call.size()))),
    ("the page in front", |call| lowest(call.of(call.right(), -call.size()))),
    ("the last byte", |call| lowest(call.of(call.right(), call.last()))),
    ("the higher of both bytes", |call| lowest(call.of(call.right(), 0) | call.of(call.right(), call.last()))),
    ("the lower of both bytes", |call| {
        lowest(call.of(call.right(), 0)).max(lowest(call.of(call.right(), call.last())))
    }),
    ("what both bytes share", |call| lowest(call.of(call.right(), 0) & call.of(call.right(), call.last()))),
    ("the stored registers", |call| {
        let entry = call.before.programs[call.before.current];
        lowest(call.field() & entry.context & entry.mask)
    }),
    ("counted from 15", |call| lowest(call.field() & call.before.local_context()).map(|s| 15 - s)),
];

impl Met {
    fn size(&self) -> i64 {
        self.before.page_size() as i64
    }

    /// How far behind the first byte the last one is.
    fn last(&self) -> i64 {
        i64::from(self.record[0] == 13)
    }

    /// What a page, so many bytes off, shares with the local context for a right. It is nothing
    /// outside memory.
    fn of(&self, right: u8, off: i64) -> u16 {
        let byte = self.address().wrapping_add_signed(off);
        if byte >= self.before.memory() {
            return 0;
        }
        self.before.field(right, self.before.page_of(byte)) & self.before.local_context()
    }
}

#[test]
fn each_misreading_of_the_named_domain_shows_in_the_runs_by_hand() {
    let calls: Vec<Met> = met_by_hand().into_iter().filter(Met::given).collect();
    for (what, misread) in MISREADINGS {
        for right in [READ, WRITE] {
            // What is wrong with two bytes alone cannot show with one.
            let of_right = |kind: u8| calls.iter().filter(move |call| call.right() == right && call.record[0] == kind);
            let differs = |call: &&Met| misread(call) != call.outcome.named().map(|domain| domain.0);
            let (one, two) = (of_right(1).filter(differs).count(), of_right(13).filter(differs).count());
            assert!(two >= 3 && (one >= 3 || what.contains("byte")), "{what}, right {right}: {one}, {two}");
        }
    }
}

/// By hand, a call of each sort that names none stands straight behind one that names domain 0, and
/// behind one that names a domain above 9.
#[test]
fn none_is_named_straight_after_a_domain_by_calls_of_every_sort() {
    let mut after = [BTreeSet::new(), BTreeSet::new()];
    for case in by_hand() {
        for pair in met(&case.input).windows(2) {
            let [one, next] = pair else { unreachable!("windows of two") };
            let kept = match one.outcome.named() {
                Some(Domain(0)) => 0,
                Some(Domain(10..)) => 1,
                _ => continue,
            };
            if next.outcome.named().is_none() {
                after[kept].insert((next.record[0], next.outcome.number()));
            }
        }
    }
    let due = [
        (0, 18),
        (1, 2),
        (1, 3),
        (1, 9),
        (2, 0),
        (2, 12),
        (3, 0),
        (3, 11),
        (4, 0),
        (4, 19),
        (5, 0),
        (6, 7),
        (7, 7),
        (8, 7),
        (9, 7),
        (10, 7),
        (11, 7),
        (12, 7),
        (13, 2),
        (13, 3),
        (13, 9),
        (14, 18),
        (255, 18),
    ];
    for kept in after {
        assert!(due.iter().all(|sort| kept.contains(sort)), "{kept:?}");
    }
}

#[test]
fn the_line_of_a_call() {
    assert_eq!(Outcome::Access(0, Some(Domain(0))).line(0), "1 0 0\n");
    assert_eq!(Outcome::Access(0, Some(Domain(15))).line(98), "99 0 15\n");
    assert_eq!(Outcome::Access(0, None).line(99), "100 0 -\n");
    assert_eq!(Outcome::Access(9, None).line(1), "2 9 -\n");
    assert_eq!(Outcome::Number(18).line(4), "5 18 -\n");
    let violation = Violation { program: 1, right: WRITE, address: 7 };
    assert_eq!(Outcome::Question(0, Some(violation)).line(0), "1 0 -\n");
}

#[test]
fn the_bench_gets_no_domain() {
    let image = sample().image();
    // Page 1 through domain 1, for each right, and then in an interrupt.
    let records = [[1, 0, 0, 0, 1, 0], [13, 1, 0, 0, 1, 0], [5, 0, 0, 0, 0, 0], [1, 0, 0, 0, 1, 0]].concat();
    let input = [&[0, 44], &image[..], &records].concat();
    assert_eq!(answers(&input), [0, 0, 0, 0, 0]);
    assert_eq!(text(&input), "load 0\n1 0 1\n2 0 1\n3 0 -\n4 0 -\n");
}

#[test]
fn random_runs_name_every_domain_in_a_short_file() {
    for seed in 1..=20 {
        let file = cases::many::file(seed, 300).expect("each domain comes often");
        assert!(file.len() <= 200_000, "seed {seed}");
        let cases = stored::cases(&file);
        assert_eq!(cases.len(), 300);
        assert!(cases.iter().all(|&(kind, input)| kind == RUN && load(split(input).0).is_ok()));
    }
    assert_eq!(cases::many::file(1, 0), Ok(vec![]));
    assert!(cases::many::file(1, 3).is_ok());
    let rare = Counts::default().rare();
    assert!(rare.starts_with("runs-random: domain 0 was named 0 times, fewer than 20\n"));
    assert!(rare.ends_with(
        "runs-random: domain 15 was named 0 times, fewer than 20
runs-random: two pages gave, the first through a higher domain, 0 times, fewer than 20
runs-random: two pages gave, the second through a higher domain, 0 times, fewer than 20
runs-random: a mask command answered 19 0 times, fewer than 20
"
    ));
    assert_eq!(rare.lines().count(), 19);
    let enough = Counts { named: [20; 16], apart: [20; 2], empty: 20 };
    assert_eq!(enough.rare(), "");
    let mut few = enough;
    few.named[7] = 19;
    assert_eq!(few.rare(), "runs-random: domain 7 was named 19 times, fewer than 20\n");
}

/// A file of cases of writing alone.
fn writings(cases: &[&[u8]]) -> Vec<u8> {
    stored::file(cases.iter().map(|&case| (WRITING, case)))
}

#[test]
fn the_text_of_two_rounds() {
    let image = "01 00 00 12 00 04 02 00 00 16 00 0C 03 00 00 22 00 0A 03 08 02 00 \
                 00 09 00 00 00 0A 00 02 00 0C 00 04 00 07 00 07 00 00 08 FF FF 00 EE";
    let calls = [4, 0, 0, 0, 0, 7, 6, 0, 0, 0, 0, 0, 5];
    let good = [&[0, 45, 0, 44], &SAMPLE[..], &calls].concat();
    let round = format!("load 0\n1 0 -\n2 7 -\nwrite 0 44\n{image}\n");
    let nothing = "load 20\nwrite 1 0\n";
    let short = format!("{nothing}EE EE EE\n");
    let none = format!("{nothing}\n");
    let due = format!("case 1\n{round}{round}case 2\n{short}{short}case 3\n{none}{none}");
    assert_eq!(stored::text(&writings(&[&good[..], &[0, 3, 0, 0], &[]])), due);

    let not_at_rest = [&[0, 2, 0, 44], &SAMPLE[..], &[5, 0, 0, 0, 0, 0]].concat();
    let due = format!("case 1\nload 0\n1 0 -\nwrite 26 0\nEE EE\n{nothing}EE EE\n");
    assert_eq!(stored::text(&writings(&[&not_at_rest[..]])), due);
}

#[test]
fn the_text_of_questions() {
    // A question in user mode, an entry, a question, a return; a denied write of address 0x0105 by
    // program 1 after the turn to it, and questions in the interrupt, after the switch to 0 too.
    let calls = [
        [12, 0, 0, 0, 0, 0],
        [5, 0, 0, 0, 0, 0],
        [12, 1, 2, 3, 4, 5],
        [7, 0, 0, 0, 0, 1],
        [6, 0, 0, 0, 0, 0],
        [1, 1, 0, 0, 1, 5],
        [12, 0, 0, 0, 0, 0],
        [5, 0, 0, 0, 0, 0],
        [12, 0, 0, 0, 0, 0],
        [7, 0, 0, 0, 0, 0],
        [12, 255, 255, 255, 255, 255],
        [6, 0, 0, 0, 0, 0],
    ]
    .concat();
    let input = [&[0, 44], &SAMPLE[..], &calls].concat();
    let round = "load 0
1 7 -
none
2 0 -
3 0 -
none
4 0 -
5 0 -
6 9 -
7 7 -
none
8 0 -
9 0 -
denied 1 1 261
10 0 -
11 0 -
denied 1 1 261
12 0 -
";
    let image = "01 00 00 12 00 04 02 00 00 16 00 0C 03 00 00 22 00 0A 03 08 02 00 \
                 00 09 00 00 00 0A 00 02 00 0C 00 04 00 07 00 03 00 00 08 FF FF 00";
    let good = [&[0, 44], &input[..]].concat();
    let short = [&[0, 2], &input[..]].concat();
    let due = format!(
        "case 1\n{round}write 0 44\n{image}\n{round}write 0 44\n{image}\n\
         case 2\n{round}write 27 0\nEE EE\nload 20\nwrite 1 0\nEE EE\n"
    );
    assert_eq!(stored::text(&writings(&[&good[..], &short])), due);

    // A run has no line for what a question hands out, and a question names no domain.
    let numbers = "load 0\n1 7 -\n2 0 -\n3 0 -\n4 0 -\n5 0 -\n6 9 -\n7 7 -\n8 0 -\n9 0 -\n10 0 -\n11 0 -\n12 0 -\n";
    assert_eq!(text(&input), numbers);
    assert_eq!(stored::text(&stored::file([(RUN, &input[..])])), format!("case 1\n{numbers}"));
    assert_eq!(answers(&input), [0, 7, 0, 0, 0, 0, 9, 7, 0, 0, 0, 0, 0]);
}

#[test]
fn a_file_of_cases() {
    // A case of writing is 1; every other kind is a run.
    let bytes = [1, 0, 0, 3, 0, 1, 0, 0, 0, 0, 0, 2, 0, 0, 2, 0, 0, 0, 0, 0, 1, 9, 255, 0, 0, 0];
    let cases = [(1, &[0, 1, 0][..]), (0, &[]), (2, &[0, 0]), (0, &[9]), (255, &[])];
    assert_eq!(stored::cases(&bytes), cases);
    assert_eq!(stored::file(cases), bytes);
    let round = "load 20\nwrite 1 0\nEE\n";
    let run = "load 20\n";
    let due = format!("case 1\n{round}{round}case 2\n{run}case 3\n{run}case 4\n{run}case 5\n{run}");
    assert_eq!(stored::text(&bytes), due);

    // A case that the file cuts off is not there, nor is a header that it cuts off.
    for cut in [&[1, 0, 0][..], &[1, 0, 0, 2, 0], &[1, 255, 255, 255, 0]] {
        assert_eq!(stored::cases(&[&bytes[..], cut].concat()), cases);
    }
    assert_eq!(stored::text(&[]), "");

    // A length that takes all three bytes.
    let long = stored::file([(RUN, &[5; 0x010203][..])]);
    assert_eq!(long[..5], [0, 1, 2, 3, 5]);
    assert_eq!(stored::cases(&long), [(RUN, &[5; 0x010203][..])]);
}

#[test]
fn the_stored_file_has_the_runs_and_then_the_cases_of_writing() {
    let file = stored::input();
    assert!(file.len() <= 262_144, "what the program reads");
    let (runs, writes) = (cases::all(), writes::all());
    let kinds: Vec<u8> = stored::cases(&file).iter().map(|case| case.0).collect();
    assert_eq!(kinds, [vec![RUN; runs.len()], vec![WRITING; writes.len()]].concat());
}

#[test]
fn the_room_of_a_case() {
    for (case, room, input) in [
        (&[][..], 0, &[][..]),
        (&[0], 0, &[]),
        (&[2], 512, &[]),
        (&[3], 640, &[]),
        (&[0, 44], 44, &[]),
        (&[1, 2, 9, 8], 258, &[9, 8]),
        (&[2, 0x80, 7], 640, &[7]),
        (&[2, 0x81], 640, &[]),
        (&[255, 255], 640, &[]),
    ] {
        assert_eq!(take_apart(case), (room, input));
    }
}
