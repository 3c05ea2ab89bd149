#!/usr/bin/env bash
# Holds the planner to the independent program on random lists of contexts: forests, forests with one parent altered, and parents at random. A file that gives one of the planner's
# numbers too seldom, or too few deep forests or contexts that lead into a cycle, is refused by the independent program.
# Usage: plans.sh PLANS ORACLE
set -eu
plans=$1
oracle=$2
out=$(mktemp -d)
trap 'rm -rf "$out"' EXIT
for seed in 1 2 3 4 5; do
    "$oracle" plans-random "$seed" 4000 >"$out/input"
    "$oracle" plans-text <"$out/input" >"$out/due"
    "$plans" <"$out/input" >"$out/printed"
    cmp "$out/due" "$out/printed"
done
# A list that the input cuts is left out, and so is a single byte that is left.
for size in -1 -2 -3; do
    head -c "$size" "$out/input" >"$out/cut"
    "$oracle" plans-text <"$out/cut" >"$out/due"
    "$plans" <"$out/cut" >"$out/printed"
    cmp "$out/due" "$out/printed"
done
printf '\000' >>"$out/input"
"$plans" <"$out/input" >"$out/printed"
"$oracle" plans-text <"$out/input" | cmp - "$out/printed"
echo "plans: all agree"
