//! A second implementation of the rules, for tests alone. It shares no code with the core.

mod cases;
#[cfg(feature = "linked")]
mod compare;
#[cfg(any(test, feature = "linked"))]
mod counts;
mod histories;
mod image;
mod inputs;
mod least;
mod machine;
mod masks;
mod planner;
mod plans;
mod random;
mod rights;
mod rounds;
mod run;
mod sites;
mod sorts;
mod stored;
#[cfg(test)]
mod tests;
mod write;
mod writer;
mod writes;

use std::env;
use std::io::{self, Read, Write};
use std::process::ExitCode;

const USAGE: &str = "usage: oracle text | answers | compare SEED RUNS
       oracle cases-input | cases-output | cases-list | cases-text
       oracle runs-random SEED RUNS | writes-random SEED RUNS
       oracle plans-input | plans-output | plans-list | plans-text
       oracle plans-random SEED RUNS
       oracle masks-input | masks-output | masks-list | masks-text
       oracle masks-random SEED RUNS
       oracle rights-text | rights-list | rights-compare PROGRAM SEED RUNS";
const NUMBERS: &str = "SEED and RUNS are decimal numbers";

fn main() -> ExitCode {
    let arguments: Vec<String> = env::args().skip(1).collect();
    let words: Vec<&str> = arguments.iter().map(String::as_str).collect();
    let output = match words[..] {
        ["text"] => run::text(&standard_input()).into_bytes(),
        ["answers"] => {
            let lines: String = run::answers(&standard_input()).iter().map(|answer| format!("{answer}\n")).collect();
            lines.into_bytes()
        }
        ["cases-input"] => stored::input(),
        ["cases-output"] => stored::output().into_bytes(),
        ["cases-list"] => stored::listing().into_bytes(),
        ["cases-text"] => stored::text(&standard_input()).into_bytes(),
        ["plans-input"] => plans::input(),
        ["plans-output"] => plans::output().into_bytes(),
        ["plans-list"] => plans::listing().into_bytes(),
        ["plans-text"] => plans::text(&standard_input()).into_bytes(),
        ["masks-input"] => masks::input(),
        ["masks-output"] => masks::output().into_bytes(),
        ["masks-list"] => masks::listing().into_bytes(),
        ["masks-text"] => masks::text(&standard_input()).into_bytes(),
        ["rights-text"] => rights::text(&standard_input()).into_bytes(),
        ["rights-list"] => sites::listing().into_bytes(),
        [sort @ ("runs-random" | "writes-random" | "plans-random" | "masks-random"), seed, runs] => {
            let (Ok(seed), Ok(runs)) = (seed.parse(), runs.parse()) else {
                return fail(NUMBERS);
            };
            let file = match sort {
                "runs-random" => cases::many::file(seed, runs),
                "writes-random" => writes::many::file(seed, runs),
                "plans-random" => plans::many::file(seed, runs),
                _ => masks::many::file(seed, runs),
            };
            match file {
                Ok(file) => file,
                Err(wrong) => {
                    eprint!("{wrong}");
                    return ExitCode::FAILURE;
                }
            }
        }
        ["rights-compare", program, seed, runs] => {
            let (Ok(seed), Ok(runs)) = (seed.parse(), runs.parse()) else {
                return fail(NUMBERS);
            };
            match sites::compare::compare(program, seed, runs) {
                Ok(line) => line.into_bytes(),
                Err(wrong) => {
                    print!("{wrong}");
                    return ExitCode::FAILURE;
                }
            }
        }
        ["compare", seed, runs] => {
            return match (seed.parse(), runs.parse()) {
                (Ok(seed), Ok(runs)) => compare(seed, runs),
                _ => fail(NUMBERS),
            }
        }
        _ => return fail(USAGE),
    };
    match io::stdout().write_all(&output) {
        Ok(()) => ExitCode::SUCCESS,
        Err(error) => fail(&format!("standard output: {error}")),
    }
}

fn standard_input() -> Vec<u8> {
    let mut input = Vec::new();
    io::stdin().read_to_end(&mut input).expect("standard input can be read");
    input
}

fn fail(message: &str) -> ExitCode {
    eprintln!("{message}");
    ExitCode::from(2)
}

#[cfg(feature = "linked")]
fn compare(seed: u64, runs: u64) -> ExitCode {
    compare::compare(seed, runs)
}

#[cfg(not(feature = "linked"))]
fn compare(_seed: u64, _runs: u64) -> ExitCode {
    fail("compare needs the static library: build with the feature `linked`")
}
