#!/bin/sh
# Runs the mask command on a lent register record, which no program of the repository calls. The program below is not proved, and is no part of
# the repository; `rt try` runs it on the interpreter and compiled, and what it prints is held to what the rules say (docs/RULES.md, 2.11), worked
# out by hand.
#
# usage: tests/lent.sh   (from the repository's root)
set -eu
root=$(pwd -P)
room=$(mktemp -d)
trap 'rm -rf "$room"' EXIT
mkdir -p "$room/crates/lent/src"
for crate in rules machine; do
    mkdir "$room/crates/$crate"
    for part in src specs proofs; do cp -r "$root/crates/$crate/$part" "$room/crates/$crate"; done
done
printf 'rules:\nmachine: rules\nlent: machine rules\n' >"$room/crates.txt"
cat >"$room/crates/lent/src/main.rt" <<'RT'
#![tactic(auto)]

use machine::{Mode, Registers, set_mask_lent};
use std::io;

fn try_mask(rt: &impl Print, context: u16, mode: Mode, pending: bool, mask: u16) -> io::Result<()> {
    let mut registers = Registers { context, mask: 3, mode, pending };
    let number = set_mask_lent(&mut registers, mask);
    let privileged = if registers.privileged() { 1 } else { 0 };
    let flag = if registers.pending { 1 } else { 0 };
    println!(rt; "{number} {} {} {privileged} {flag} ", registers.context, registers.mask)
}

fn main(rt: HostRuntime) -> io::Result<()> {
    try_mask(&rt, 7, Mode::User, false, 65532)?;
    try_mask(&rt, 7, Mode::User, true, 65532)?;
    try_mask(&rt, 7, Mode::Privileged, false, 65532)?;
    try_mask(&rt, 7, Mode::Privileged, true, 65532)?;
    try_mask(&rt, 7, Mode::User, false, 65528)?;
    try_mask(&rt, 7, Mode::User, true, 65528)?;
    try_mask(&rt, 7, Mode::Privileged, false, 65528)?;
    try_mask(&rt, 7, Mode::Privileged, true, 65528)?;
    try_mask(&rt, 7, Mode::User, false, 0)?;
    try_mask(&rt, 4, Mode::User, false, 3)?;
    try_mask(&rt, 0, Mode::User, false, 65535)?;
    try_mask(&rt, 33024, Mode::User, false, 32768)?;
    try_mask(&rt, 33024, Mode::User, false, 32511)
}
RT
# Number, global context, mask, mode, flag. A mask that shares domain 2 with the context, with bits outside it: done; 8; 6; 6 before 8.
printf '0 7 65532 0 0 \n8 7 3 0 1 \n6 7 3 1 0 \n6 7 3 1 1 \n' >"$room/due"
# An empty one: 19; 8 before it; 6 before it; 6 before both.
printf '19 7 3 0 0 \n8 7 3 0 1 \n6 7 3 1 0 \n6 7 3 1 1 \n' >>"$room/due"
# Mask 0; a mask that shares domains with the one before alone; any mask where the context is empty; domain 15 of a context of 8 and 15; all domains but those two.
printf '19 7 3 0 0 \n19 4 3 0 0 \n19 0 3 0 0 \n0 33024 32768 0 0 \n19 33024 3 0 0 \n' >>"$room/due"
cd "$room/crates/lent"
rt try >"$room/printed" 2>"$room/said" || { cat "$room/printed" "$room/said"; exit 1; }
# Both the interpreter and the compiled program ended so.
grep -q 'runners=2' "$room/said" || { cat "$room/said"; exit 1; }
diff "$room/due" "$room/printed"
echo "lent: as the rules say"
