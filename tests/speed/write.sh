#!/bin/sh
# Compares the writer of images with a plain C version: time, then instructions, of writing an image of 574 bytes.
#
# The library that the bench links has no writer, so a crate is made in a copy of the crates, outside the repository: one function for C that
# loads an image and writes the loaded machine so many times. It is proved and built like any other, in a temporary directory, which is removed at
# the end (build.sh).
#
# usage: tests/speed/write.sh   (from the repository's root)
set -eu
here=$(cd "$(dirname "$0")" && pwd)
room=$(mktemp -d)
trap 'rm -rf "$room"' EXIT
trap 'exit 1' HUP INT TERM
mkdir -p "$room/crates/timing/src" "$room/crates/timing/proofs/core_write_times"
cat >"$room/crates/timing/src/lib.rt" <<'RT'
#![tactic(auto)]

use image::load;
use image::write;

// What is given back depends on a field that the compiler does not know, so that a load with no writing makes the whole machine too.
#[unsafe(no_mangle)]
pub extern "C" fn core_write_times(image: &[u8], out: &mut [u8], times: u32, field: usize) -> u32 {
    let loaded = load(image);
    let machine = loaded.machine;
    let mut i: u32 = 0;
    while i < times {
        let _ = write(machine, out);
        i += 1;
    }
    machine.fields.get(field).copied().unwrap_or(0) as u32
}
RT
cat >"$room/crates/timing/proofs/core_write_times/Invariants.antt" <<'ANTT'
-- The function is safe and ends: the loop is left after so many turns.
use Rattle.std.proofs.Common.{◌-◌}
use Rattle.timing.proofs.core_write_times.Given as goal

abbrev pub decreases-loop-i : goal.decreases-loop-i
decreases-loop-i l = l.times - l.i
ANTT
"$here/build.sh" "$room" image machine rules >"$room/log" 2>&1 || {
    tail -n 20 "$room/log" >&2
    exit 1
}
gcc -std=c11 -O2 -Wall -Wextra -Werror -I "$here" "$here/write.c" "$here/plain_write.c" "$room/crates/timing/out/libtiming.a" -o "$room/write"
"$room/write"

# The instructions of a whole program run of 1,000 loads: which, how many writings after each.
instructions() {
    valgrind --tool=callgrind --callgrind-out-file="$room/callgrind.out" "$room/write" only "$1" "$2" 1000 >"$room/log" 2>&1 || {
        tail -n 1 "$room/log" >&2
        exit 1
    }
    awk '$1 == "totals:" { print $2 }' "$room/callgrind.out"
}
plain_none=$(instructions plain 0)
plain_one=$(instructions plain 1)
core_none=$(instructions core 0)
core_one=$(instructions core 1)
printf '\n%-8s %6s %14s %14s %7s\n' writer bytes 'plain ins' 'core ins' ratio
awk -v plain=$((plain_one - plain_none)) -v core=$((core_one - core_none)) 'BEGIN {
    printf "%-8s %6d %14.0f %14.0f %7.2f\n", "image", 574, plain / 1000, core / 1000, core / plain
}'
