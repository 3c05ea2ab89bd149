#!/bin/sh
# Compares the planner of contexts with a plain C version: time, then instructions, of a plan.
#
# The library that the bench links has no planner, so a crate is made in a copy of the crates, outside the repository, as write.sh makes one for the writer: one function
# for C that plans a list and stores the sixteen places. It is proved and built like any other.
#
# usage: tests/speed/plan.sh   (from the repository's root)
set -eu
here=$(cd "$(dirname "$0")" && pwd)
room=$(mktemp -d)
trap 'rm -rf "$room"' EXIT
trap 'exit 1' HUP INT TERM
mkdir -p "$room/crates/timing/src"
cat >"$room/crates/timing/src/lib.rt" <<'RT'
#![tactic(auto)]

use planner::plan;
use rules::outcome_number;

#[unsafe(no_mangle)]
pub extern "C" fn core_plan(parents: &[u8], contexts: &mut [u16]) -> u8 {
    let planned = plan(parents);
    let places = planned.unwrap_or([0; 16]);
    for (context, place) in contexts.iter_mut().zip(&places) {
        *context = *place;
    }
    outcome_number(planned)
}
RT
"$here/build.sh" "$room" planner image machine rules >"$room/log" 2>&1 || {
    tail -n 20 "$room/log" >&2
    exit 1
}
gcc -std=c11 -O2 -Wall -Wextra -Werror -I "$here" "$here/plan.c" "$here/plain_plan.c" "$room/crates/timing/out/libtiming.a" -o "$room/plan"
"$room/plan"

# The instructions of a whole program run: which, sort, repetitions.
instructions() {
    valgrind --tool=callgrind --callgrind-out-file="$room/callgrind.out" "$room/plan" only "$1" "$2" "$3" >"$room/plans" 2>"$room/log" || {
        tail -n 1 "$room/log" >&2
        exit 1
    }
    awk '$1 == "totals:" { print $2 }' "$room/callgrind.out"
}
few=1
many=11
printf '\n%-8s %8s %14s %14s %7s\n' planner contexts 'plain ins' 'core ins' ratio
for sort in $("$room/plan" names); do
    plain_few=$(instructions plain "$sort" $few)
    plain_many=$(instructions plain "$sort" $many)
    core_few=$(instructions core "$sort" $few)
    core_many=$(instructions core "$sort" $many)
    read -r contexts plans <"$room/plans"
    # The set-up is the same in both runs and cancels out.
    awk -v sort="$sort" -v contexts="$contexts" -v plans=$((plans * (many - few))) -v plain=$((plain_many - plain_few)) -v core=$((core_many - core_few)) 'BEGIN {
        printf "%-8s %8d %14.1f %14.1f %7.2f\n", sort, contexts, plain / plans, core / plans, core / plain
    }'
done
