#!/bin/sh
# Prints the counts that the documents leave out: the lines of each definition and law file, and the `ensures` and
# `requires` clauses of each source file. Files that only name others (Lib.antt), and sources without a clause, are
# not listed.
#
# usage: tools/counts.sh
set -u
cd "$(dirname "$0")/.." || exit 1

lines() {
    printf '%s\n' "$@" | grep -v '/Lib\.antt$' | xargs wc -l
}

echo "lines of the definitions:"
lines crates/*/specs/*.antt
echo "lines of the law files:"
lines crates/*/proofs/*.antt
echo "ensures and requires clauses:"
for source in crates/*/src/*.rt; do
    ensures=$(grep -c '^ *ensures' "$source")
    requires=$(grep -c '^ *requires' "$source")
    [ $((ensures + requires)) -eq 0 ] || printf '%7d %2d %s\n' "$ensures" "$requires" "$source"
done
