#!/usr/bin/env bash
# Holds the least mask to the independent program on random images and lists of pairs: ties between masks, masks of many domains, lists for which no mask will do, and
# bad ones. A file that gives one of the numbers, or ties or large masks, too seldom is refused by the independent program.
# Usage: masks.sh LEASTMASK ORACLE
set -eu
leastmask=$1
oracle=$2
out=$(mktemp -d)
trap 'rm -rf "$out"' EXIT
agree() {
    "$oracle" masks-text <"$1" >"$out/due"
    "$leastmask" <"$1" >"$out/printed"
    cmp "$out/due" "$out/printed"
}
for seed in 1 2 3 4 5; do
    "$oracle" masks-random "$seed" 300 >"$out/input"
    agree "$out/input"
done
# A case that the input cuts is left out, wherever it is cut, and so is a single byte that is left.
printf '\000' | cat "$out/input" - >"$out/left"
agree "$out/left"
for size in 1 2 3 4 5 6 7 8 40 47 48 49 50 51; do
    head -c "-$size" "$out/input" >"$out/cut"
    agree "$out/cut"
done
for size in 0 1 2 3 33 34 35 36 37 38; do
    head -c "$size" crates/leastmask/stdin >"$out/cut"
    agree "$out/cut"
done
echo "masks: all agree"
