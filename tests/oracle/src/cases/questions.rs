//! The question for the last violation, as a run shows it: its number alone (RULES 3.24, 6.5).
//! What it hands out is seen in the cases of writing.

use super::kernel::{in_privileged_mode, in_user_mode, privileged_first, privileged_second, times};
use super::sample::sample_steps;
use super::{clear_flag, context_is, field_is, mask_is, sample, small, turn, Cases, Step};
use crate::write::*;

pub fn add(cases: &mut Cases) {
    modes(cases);
    depths(cases);
    nothing_changes(cases);
    violations(cases);
    lengths(cases);
}

/// Questions with something in the parts that are ignored: a right, a page, a domain and an
/// address that would be refused, and a B that would be seen if it were stored.
fn with_noise(answer: u8) -> Vec<Step> {
    let records = [
        record(12, 0, 0, 0xFFFF),
        record(12, 1, 0, 0xFFFF),
        record(12, 2, 3, 16),
        record(12, 128, 0x0100, 0x0001),
        record(12, 255, 0xFFFF, 0xFFFF),
    ];
    records.map(|record| (record, answer)).to_vec()
}

fn modes(cases: &mut Cases) {
    cases.run(
        "question 7: in user mode, before a violation, after it with the flag set, and with the flag clear again",
        &sample(),
        &[
            vec![(question(), 7), (read(0), 0), (question(), 7), (read(512), 9), (question(), 7)],
            clear_flag(),
            vec![(question(), 7), (read(0), 0)],
        ]
        .concat(),
    );
    cases.run(
        "question 0: in an interrupt, before a violation and after one, and twice",
        &sample(),
        &[
            (entry_call(), 0),
            (question(), 0),
            (return_call(), 0),
            (read(512), 9),
            (entry_call(), 0),
            (question(), 0),
            (question(), 0),
            (return_call(), 0),
            (question(), 7),
        ],
    );
    cases.run(
        "question 0: in privileged mode at depth 0, without an interrupt; 7 after the mode store",
        &privileged_first(),
        &[
            (question(), 0),
            (write(0), 0),
            (question(), 0),
            (return_call(), 14),
            (question(), 0),
            (store_mode(0), 0),
            (question(), 7),
            (read(512), 9),
            (question(), 7),
            (entry_call(), 0),
            (question(), 0),
            (return_call(), 0),
            (question(), 7),
        ],
    );
    cases.run(
        "question: right, A and B are ignored, in both modes, before a violation and after it",
        &sample(),
        &[
            with_noise(7),
            vec![(entry_call(), 0)],
            with_noise(0),
            vec![(return_call(), 0), (write(0), 9)],
            with_noise(7),
            vec![(entry_call(), 0)],
            with_noise(0),
            vec![(return_call(), 0), (read(0), 0)],
        ]
        .concat(),
    );
    cases.run(
        "question: a program stored in privileged mode may ask in its turn, one in user mode may not",
        &privileged_second(),
        &[
            vec![(question(), 7)],
            turn(1),
            vec![(question(), 0), (write(0), 0), (question(), 0)],
            turn(0),
            vec![(question(), 7), (write(0), 9), (question(), 7)],
            turn(1),
            vec![(question(), 0)],
            turn(0),
            vec![(question(), 7)],
        ]
        .concat(),
    );
}

fn depths(cases: &mut Cases) {
    cases.run(
        "question at every depth: it takes no place on the stack and frees none",
        &sample(),
        &[
            [(entry_call(), 0), (question(), 0)].repeat(8),
            vec![(entry_call(), 13), (question(), 0), (entry_call(), 13)],
            [(return_call(), 0), (question(), 0)].repeat(7),
            vec![(return_call(), 0), (question(), 7), in_user_mode()],
        ]
        .concat(),
    );
    cases.run(
        "question 7 in user mode at depth 1, 0 in the interrupt above it",
        &sample(),
        &[
            (entry_call(), 0),
            (store_mode(0), 0),
            (question(), 7),
            (read(512), 9),
            (question(), 7),
            (read(0), 8),
            (entry_call(), 0),
            (question(), 0),
            (return_call(), 0),
            (question(), 7),
            (return_call(), 7),
        ],
    );
    cases.run(
        "question 7 in user mode at depth 8, where no entry is left",
        &sample(),
        &[
            times(8, (entry_call(), 0)),
            vec![(store_mode(0), 0), (question(), 7), (write(0), 9), (question(), 7)],
            vec![(entry_call(), 13), (question(), 7), (read(0), 8)],
        ]
        .concat(),
    );
    cases.run(
        "question 0 keeps privileged mode, the depth and the saved mode",
        &sample(),
        &[
            (entry_call(), 0),
            (question(), 0),
            in_privileged_mode(),
            (entry_call(), 0),
            (question(), 0),
            (switch(1), 15),
            (return_call(), 0),
            (question(), 0),
            in_privileged_mode(),
            (switch(0), 0),
            (question(), 0),
            (return_call(), 0),
            in_user_mode(),
            (return_call(), 7),
        ],
    );
}

fn nothing_changes(cases: &mut Cases) {
    cases.run(
        "question 7 leaves the flag: clear where it is clear, set where it is set",
        &sample(),
        &[
            vec![(question(), 7), (write(256), 0), (read(512), 9), (question(), 7), (write(256), 8)],
            vec![(question(), 7), (question(), 7), (mask(0x0007), 8), (grant(READ, 0, 4), 8), (question(), 7)],
            clear_flag(),
            vec![(question(), 7), in_user_mode(), (read(512), 9), (read(0), 8)],
        ]
        .concat(),
    );
    cases.run(
        "question is not the mode store next to it: B 2 is not 17, and B 0 keeps privileged mode",
        &sample(),
        &[
            (entry_call(), 0),
            (record(11, 0, 0, 1), 0),
            (record(12, 0, 0, 2), 0),
            (record(12, 0, 0, 0), 0),
            in_privileged_mode(),
            (record(11, 0, 0, 2), 17),
            (record(14, 0, 0, 0), 18),
            in_privileged_mode(),
            (return_call(), 0),
            (record(12, 0, 0, 1), 7),
            in_user_mode(),
        ],
    );
    let asked = [vec![(read(512), 9)], with_noise(7), vec![(entry_call(), 0)], with_noise(0), vec![(return_call(), 0)]];
    let asked = asked.concat();
    let mut stays = |what: &str, shown: Vec<Step>| {
        cases.run(
            &format!("questions with the flag set and in an interrupt, and {what}"),
            &sample(),
            &[&asked[..], &shown].concat(),
        );
    };
    stays("READ of page 0 stays", field_is(READ, 0, 8, 0x0009));
    stays("WRITE of page 0 stays", field_is(WRITE, 0, 8, 0x0000));
    stays("the mask stays", mask_is(0x0003));
    stays("the context stays", context_is(0x0007));
    stays("the other program's context stays", [turn(1), context_is(0x0008)].concat());
    stays("the other program's mask stays", [turn(1), mask_is(0xFFFF)].concat());
    cases.run(
        "question keeps the current program, whatever B names",
        &sample(),
        &[
            turn(1),
            vec![(write(0), 9), (entry_call(), 0), (record(12, 0, 0, 0), 0), (record(12, 0, 0, 1), 0)],
            // Program 0 would be denied the read and allowed the write.
            vec![(return_call(), 0), (read(512), 0), (write(256), 9)],
            turn(0),
            vec![(write(256), 0), (read(512), 9)],
        ]
        .concat(),
    );
}

fn violations(cases: &mut Cases) {
    let answers = [7, 7, 7, 0, 0, 7, 7, 7];
    let steps: Vec<Step> =
        sample_steps().into_iter().zip(answers).flat_map(|(step, answer)| [step, (question(), answer)]).collect();
    cases.run("the sample run with a question after each call", &sample(), &steps);

    // A stored violation at the edge of what is sound: the calls after it are answered as ever.
    cases.run(
        "question after a violation at the last byte of the least shape: the machine is still sound",
        &small(&[(0, 1)], 1, 1),
        &[
            vec![(read(31), 9), (entry_call(), 0), (question(), 0), (return_call(), 0)],
            vec![(write(31), 0), (read(32), 3), (read(31), 9)],
        ]
        .concat(),
    );
    cases.run(
        "question after a violation at the last of 65,536 bytes: the machine is still sound",
        &Plan { exponent: 12, pages: vec![(0x8000, 0x0000); 16], programs: vec![(0x8000, 0xFFFF, 0)] },
        &[
            vec![(write(0xFFFF), 9), (entry_call(), 0), (question(), 0), (return_call(), 0)],
            vec![(read(0xFFFF), 0), (write(0x0001_0000), 3), (mask(0x8000), 0)],
        ]
        .concat(),
    );
    let eight = Plan {
        exponent: 5,
        pages: vec![(0x0000, 0x0000)],
        programs: (0..8).map(|program| (1 << program, 0xFFFF, 0)).collect(),
    };
    let mut steps = Vec::new();
    for program in [7, 0, 3, 6, 1, 4, 5, 2] {
        steps.extend(turn(program));
        steps.extend([(question(), 7), (access((program % 2) as u8, u32::from(program)), 9), (question(), 7)]);
        steps.extend([(entry_call(), 0), (question(), 0), (return_call(), 0)]);
    }
    cases.run("question after a violation of each of eight programs, 7 first", &eight, &steps);
}

fn lengths(cases: &mut Cases) {
    let image = sample().image();
    let begun = [&entry_call()[..], &question(), &question()[..5]].concat();
    cases.input("a remainder of 5 that begins a question", input(&image, &begun), &[0, 0, 0]);
    let mut wrong = image;
    wrong[38] = 2;
    cases.input("a refused load and a question, which is not read", input(&wrong, &question()), &[25]);
}
