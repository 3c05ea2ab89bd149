#!/bin/sh
# Compares the count of rights over a site with a plain C version: time, then instructions, of a whole site.
#
# The library that the bench links has no count of rights, so a crate is made in a copy of the crates, outside the repository, as write.sh makes one for the writer: a
# function for C that counts an input and stores both columns. It is proved and built like any other.
#
# usage: tests/speed/rights.sh   (from the repository's root)
set -eu
here=$(cd "$(dirname "$0")" && pwd)
room=$(mktemp -d)
trap 'rm -rf "$room"' EXIT
trap 'exit 1' HUP INT TERM
mkdir -p "$room/crates/timing/src" "$room/crates/timing/proofs/core_count_rights"
cat >"$room/crates/timing/src/lib.rt" <<'RT'
#![tactic(auto)]

use rights::count_rights;

#[unsafe(no_mangle)]
pub extern "C" fn core_count_rights(input: &[u8], sums: &mut [u32]) -> u32 {
    if sums.len() < 34 {
        return 0;
    }
    let Some(counted) = count_rights(input) else {
        return 0;
    };
    let reads = counted.reads;
    let writes = counted.writes;
    let mut s: usize = 0;
    while s < 17 {
        sums[s] = reads[s];
        sums[s + 17] = writes[s];
        s += 1;
    }
    counted.refused
}
RT
cat >"$room/crates/timing/proofs/core_count_rights/Invariants.antt" <<'ANTT'
-- The function is safe and ends: the loop stays within the columns.
use Rattle.std.proofs.Common.{◌-◌, ◌≤◌, length}
use Rattle.timing.proofs.core_count_rights.Given as goal

abbrev pub invariant-loop-s : goal.invariant-loop-s
invariant-loop-s l = 34 ≤ length l.sums

abbrev pub decreases-loop-s : goal.decreases-loop-s
decreases-loop-s l = 17 - l.s
ANTT
"$here/build.sh" "$room" rights image machine rules >"$room/log" 2>&1 || {
    tail -n 20 "$room/log" >&2
    exit 1
}
gcc -std=c11 -O2 -Wall -Wextra -Werror -I "$here" "$here/rights.c" "$here/plain_rights.c" "$room/crates/timing/out/libtiming.a" -o "$room/rights"
"$room/rights"

# The instructions of a whole program run: which and sort.
instructions() {
    valgrind --tool=callgrind --callgrind-out-file="$room/callgrind.out" "$room/rights" only "$1" "$2" >"$room/said" 2>"$room/log" || {
        tail -n 1 "$room/log" >&2
        exit 1
    }
    awk '$1 == "totals:" { print $2 }' "$room/callgrind.out"
}
printf '\n%-8s %6s %14s %14s %7s\n' rights bytes 'plain ins' 'core ins' ratio
for sort in $("$room/rights" names); do
    none=$(instructions none "$sort")
    plain=$(instructions plain "$sort")
    core=$(instructions core "$sort")
    read -r bytes times <"$room/said"
    # What is made before the first count is the same in all three runs, and cancels out.
    awk -v sort="$sort" -v bytes="$bytes" -v times="$times" -v plain=$((plain - none)) -v core=$((core - none)) 'BEGIN {
        printf "%-8s %6d %14.1f %14.1f %7.4f\n", sort, bytes, plain / times, core / times, core / plain
    }'
done
