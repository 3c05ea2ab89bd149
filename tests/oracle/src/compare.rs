//! Compares the oracle with the static library's bench on seeded random inputs.

use crate::counts::Table;
use crate::inputs;
use crate::random::Random;
use crate::run;
use std::process::ExitCode;

extern "C" {
    fn bench_run(input: *const u8, input_len: usize, answers: *mut u8, answers_len: usize) -> usize;
}

pub fn compare(seed: u64, runs: u64) -> ExitCode {
    let mut table = Table::new();
    for number in 0..runs {
        let mut random = Random::numbered(seed, number);
        let input = inputs::any(&mut random);
        let answers = run::answers(&input);
        table.count(&input, &answers);
        for room in rooms(&mut random, answers.len()) {
            if let Err(difference) = check(&mut random, &input, &answers, room) {
                println!("compare: a difference, seed {seed}, input number {number}, buffer of {room} bytes");
                println!("{difference}");
                println!("input: {}", hex(&input));
                println!("oracle's answers: {answers:?}");
                return ExitCode::FAILURE;
            }
        }
    }
    let wrong = table.wrong();
    print!("{}{wrong}", table.text());
    if !wrong.is_empty() {
        println!("compare: no difference, but the answers named above were not tried as they must be");
        return ExitCode::FAILURE;
    }
    println!("compare: {runs} inputs, {} calls, 0 differences", table.calls());
    ExitCode::SUCCESS
}

/// Buffer lengths around the one needed. The needed length is always tried.
fn rooms(random: &mut Random, needed: usize) -> [usize; 3] {
    let around = [0, 1, needed.saturating_sub(1), needed + 1];
    let large = needed + random.between(2, 600);
    [needed, random.pick(&around), random.pick(&[large, 6_000, needed / 2])]
}

const GUARD: usize = 64;

/// One call of the library, with guard bytes in front of the buffer and behind it.
fn check(random: &mut Random, input: &[u8], answers: &[u8], room: usize) -> Result<(), String> {
    // The guard behind has room for an answer to every record, so that a library that overruns is caught.
    let behind = input.len() / run::RECORD + GUARD;
    // No answer is above 127, so a byte that was written shows.
    let before: Vec<u8> = (0..GUARD + room + behind).map(|_| random.byte() | 128).collect();
    let lent_input = input.to_vec();
    let mut buffer = before.clone();
    // SAFETY: the input has that many bytes, and the buffer more than `room` after its first guard.
    let count = unsafe {
        let lent = buffer.as_mut_ptr().add(GUARD);
        bench_run(lent_input.as_ptr(), lent_input.len(), lent, room)
    };

    let due: &[u8] = if answers.len() <= room { answers } else { &[] };
    if lent_input != input {
        return Err(String::from("the library changed the input"));
    }
    let mut expected = before;
    expected[GUARD..GUARD + due.len()].copy_from_slice(due);
    let differs = (0..buffer.len()).find(|&at| buffer[at] != expected[at]);
    if differs.is_none() && count == due.len() {
        return Ok(());
    }
    let found = match differs {
        Some(at) => place(input, due, room, at, buffer[at], expected[at]),
        None => String::from("the bytes are right"),
    };
    let counts = format!("the count is {}, the library's is {count}", due.len());
    let bytes = &buffer[GUARD..GUARD + room.min(count.max(due.len()))];
    Err(format!("{found}\n{counts}\nlibrary's buffer:  {bytes:?}"))
}

/// Says in words where the buffer first differs.
fn place(input: &[u8], due: &[u8], room: usize, at: usize, got: u8, expected: u8) -> String {
    if at < GUARD {
        return format!("the library wrote {got} at {} bytes in front of the buffer", GUARD - at);
    }
    let at = at - GUARD;
    if at >= room {
        return format!("the library wrote {got} at byte {at}, behind the buffer");
    }
    if at >= due.len() {
        return format!("the library wrote {got} at byte {at}, past the count");
    }
    let what = if at == 0 {
        String::from("load")
    } else {
        let (_, records) = run::split(input);
        let record = &records[run::RECORD * (at - 1)..][..run::RECORD];
        format!("call {at}, record {}", hex(record))
    };
    format!("{what}: the oracle answers {expected}, the library {got}")
}

fn hex(bytes: &[u8]) -> String {
    bytes.iter().map(|byte| format!("{byte:02X}")).collect()
}
