#!/usr/bin/env bash
# Holds the text of runs, and in it what accesses name, to the independent program on random inputs. A file that names a domain too seldom, or that has too few
# accesses of two bytes whose pages give the right through different domains, is refused by the independent program.
# Usage: names.sh CASES ORACLE
set -eu
cases=$1
oracle=$2
out=$(mktemp -d)
trap 'rm -rf "$out"' EXIT
for seed in 1 2 3 4 5; do
    "$oracle" runs-random "$seed" 300 >"$out/input"
    "$oracle" cases-text <"$out/input" >"$out/due"
    "$cases" <"$out/input" >"$out/printed"
    cmp "$out/due" "$out/printed"
done
echo "names: all agree"
