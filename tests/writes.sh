#!/usr/bin/env bash
# Holds the writer of images, the calls by value with what they name, and what the question for the last violation hands out, to the independent program on random cases: an image is
# loaded, calls are made on it, it is written into a buffer, and what was written is loaded, called and written again. A file that gives one of the writer's
# numbers, a violation or none, or a named domain too seldom is refused by the independent program.
# Usage: writes.sh CASES ORACLE
set -eu
cases=$1
oracle=$2
out=$(mktemp -d)
trap 'rm -rf "$out"' EXIT
for seed in 1 2 3 4 5; do
    "$oracle" writes-random "$seed" 400 >"$out/input"
    "$oracle" cases-text <"$out/input" >"$out/due"
    "$cases" <"$out/input" >"$out/printed"
    cmp "$out/due" "$out/printed"
done
echo "writes: all agree"
