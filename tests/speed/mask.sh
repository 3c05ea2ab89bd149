#!/bin/sh
# Compares the least mask for a subroutine with a plain C version: time, then instructions, of a list of pairs.
#
# The library that the bench links has no least mask, so a crate is made in a copy of the crates, outside the repository, as write.sh makes one for the writer: a function
# for C that loads an image and asks for the least mask of one list, and one that asks for many lists. They are proved and built like any other. With two callers the
# least mask stays a call, as it is for a kernel, and nothing of it is shared between two lists.
#
# usage: tests/speed/mask.sh   (from the repository's root)
set -eu
here=$(cd "$(dirname "$0")" && pwd)
room=$(mktemp -d)
trap 'rm -rf "$room"' EXIT
trap 'exit 1' HUP INT TERM
mkdir -p "$room/crates/timing/src"
cat >"$room/crates/timing/src/lib.rt" <<'RT'
#![tactic(auto)]

use image::load;
use masks::least_mask;
use rules::{Refusal, outcome_number};

// The number and the mask, which is 0 beside a refusal, in one number.
fn answer_of(least: Result<u16, Refusal>) -> u32 {
    u32::from(outcome_number(least)) * 65536 + u32::from(least.unwrap_or(0))
}

#[unsafe(no_mangle)]
pub extern "C" fn core_least_mask(image: &[u8], pairs: &[u32]) -> u32 {
    let loaded = load(image);
    answer_of(least_mask(loaded.machine, pairs))
}

// The lists stand one behind the other, each of so many pairs.
#[unsafe(no_mangle)]
pub extern "C" fn core_least_masks(image: &[u8], lists: &[u32], count: usize, answers: &mut [u32]) {
    let loaded = load(image);
    let machine = loaded.machine;
    let mut rest = lists;
    for answer in answers.iter_mut() {
        let Some((pairs, others)) = rest.split_at_checked(count) else {
            return;
        };
        *answer = answer_of(least_mask(machine, pairs));
        rest = others;
    }
}
RT
"$here/build.sh" "$room" masks image machine rules >"$room/log" 2>&1 || {
    tail -n 20 "$room/log" >&2
    exit 1
}
nm "$room/crates/timing/out/libtiming.a" | grep -q 'masks::least_mask$' || {
    echo "the least mask is no call of its own, so that lists may share work" >&2
    exit 1
}
gcc -std=c11 -O2 -Wall -Wextra -Werror -I "$here" "$here/mask.c" "$here/plain_mask.c" "$room/crates/timing/out/libtiming.a" -o "$room/mask"
"$room/mask"

# The instructions of a whole program run: which, sort, none or all of its lists.
instructions() {
    valgrind --tool=callgrind --callgrind-out-file="$room/callgrind.out" "$room/mask" only "$1" "$2" "$3" >"$room/lists" 2>"$room/log" || {
        tail -n 1 "$room/log" >&2
        exit 1
    }
    awk '$1 == "totals:" { print $2 }' "$room/callgrind.out"
}
printf '\n%-11s %5s %14s %14s %7s\n' mask pairs 'plain ins' 'core ins' ratio
for sort in $("$room/mask" names); do
    plain_none=$(instructions plain "$sort" none)
    plain_all=$(instructions plain "$sort" all)
    core_none=$(instructions core "$sort" none)
    core_all=$(instructions core "$sort" all)
    read -r pairs lists <"$room/lists"
    # But for the last argument, the set-up and the load are the same in both runs, and cancel out.
    awk -v sort="$sort" -v pairs="$pairs" -v lists="$lists" -v plain=$((plain_all - plain_none)) -v core=$((core_all - core_none)) 'BEGIN {
        printf "%-11s %5d %14.1f %14.1f %7.4f\n", sort, pairs, plain / lists, core / lists, core / plain
    }'
done
