//! Compares a program with the text, on the stored inputs and on seeded random ones. It is started anew for
//! each input, which is fed in chunks of several sorts, so that it sees short reads.

use super::many::{self, Counts, ENOUGH_RUNS};
use crate::random::Random;
use crate::rights;
use std::io::{self, ErrorKind, Read, Write};
use std::process::{Command, Stdio};
use std::thread;
use std::time::Duration;

/// The last line where nothing is wrong, or what is.
pub fn compare(program: &str, seed: u64, runs: u64) -> Result<String, String> {
    let stored = super::all();
    for (before, case) in (0..).zip(&stored) {
        let sizes = sizes(&mut Random::numbered(seed, before), seed % 3 + before, case.input.len());
        check(program, &case.input, &sizes, &case.due)
            .map_err(|wrong| format!("rights: case {}, {}\n{wrong}", before + 1, case.purpose))?;
    }
    let mut counts = Counts::default();
    for number in 0..runs {
        let mut random = Random::numbered(seed, number);
        let input = many::site(&mut random, number);
        counts.add(&input);
        let sizes = sizes(&mut random, number, input.len());
        check(program, &input, &sizes, &rights::text(&input))
            .map_err(|wrong| format!("rights: seed {seed}, input number {number}\n{wrong}"))?;
    }
    let rare = counts.rare();
    if runs >= ENOUGH_RUNS && !rare.is_empty() {
        return Err(rare);
    }
    Ok(format!("rights: {} stored and {runs} random inputs agree\n", stored.len()))
}

/// Inputs up to this length are fed byte by byte in one of three turns.
const SHORT: usize = 100;
/// A long input has no more chunks than about this.
const MOST_CHUNKS: usize = 100;

/// The sizes of the chunks of an input: by turns the whole, random ones, and single bytes where it is short.
pub fn sizes(random: &mut Random, turn: u64, length: usize) -> Vec<usize> {
    let largest = match turn % 3 {
        0 => return vec![length],
        1 if length <= SHORT => 1,
        _ => random.pick(&[2, 3, 33, 200, 600]).max(2 * length / MOST_CHUNKS),
    };
    let mut sizes = Vec::new();
    let mut left = length;
    while left > 0 {
        let size = random.between(1, largest).min(left);
        sizes.push(size);
        left -= size;
    }
    sizes
}

/// Both texts and the input where the program prints anything but what is due, or was ended by a signal.
fn check(program: &str, input: &[u8], sizes: &[usize], due: &str) -> Result<(), String> {
    let printed = printed(program, input, sizes).map_err(|error| format!("{program}: {error}\n"))?;
    if printed.whole && printed.bytes == due.as_bytes() {
        return Ok(());
    }
    let ended = if printed.whole { "" } else { "the program was ended by a signal\n" };
    let mut text = String::from_utf8_lossy(&printed.bytes).into_owned();
    if !text.ends_with('\n') {
        text += "(no newline at the end)\n";
    }
    let hex: String = input.iter().map(|byte| format!("{byte:02X}")).collect();
    Err(format!("{ended}due:\n{due}printed:\n{text}chunks: {sizes:?}\ninput: {hex}\n"))
}

/// What a program printed, and whether it came to its end by itself.
pub struct Printed {
    pub bytes: Vec<u8>,
    pub whole: bool,
}

pub fn printed(program: &str, input: &[u8], sizes: &[usize]) -> io::Result<Printed> {
    let mut child = Command::new(program).stdin(Stdio::piped()).stdout(Stdio::piped()).spawn()?;
    let stdin = child.stdin.take().expect("standard input is piped");
    let mut stdout = child.stdout.take().expect("standard output is piped");
    let mut bytes = Vec::new();
    thread::scope(|scope| {
        let feeder = scope.spawn(|| feed(stdin, input, sizes));
        stdout.read_to_end(&mut bytes)?;
        feeder.join().expect("the feeder ends")
    })?;
    let whole = child.wait()?.code().is_some();
    Ok(Printed { bytes, whole })
}

/// After so many chunks no more pauses are made.
const PAUSES: usize = 12;

/// Writes chunk by chunk. The pauses give the program time to take a chunk before the next one is there, the
/// first one also to start. A program may stop reading where it has seen enough.
fn feed(mut pipe: impl Write, input: &[u8], sizes: &[usize]) -> io::Result<()> {
    let mut rest = input;
    for (before, &size) in sizes.iter().enumerate() {
        let (chunk, behind) = rest.split_at(size);
        match pipe.write_all(chunk).and_then(|()| pipe.flush()) {
            Err(error) if error.kind() == ErrorKind::BrokenPipe => return Ok(()),
            written => written?,
        }
        if !behind.is_empty() && before < PAUSES {
            thread::sleep(Duration::from_micros(if before == 0 { 700 } else { 20 }));
        }
        rest = behind;
    }
    Ok(())
}
