#!/usr/bin/env bash
# Holds pagerun to the independent program on inputs around the limits of length, fed whole and in small chunks.
# Usage: lengths.sh PAGERUN ORACLE
set -eu
pagerun=$1
oracle=$2
out=$(mktemp -d)
trap 'rm -rf "$out"' EXIT
sample=crates/pagerun/stdin
for size in 0 1 2 3 45 46 47 51 52 32763 32767 32768 32769 32770 40000; do
    # The sample's image, then entries and returns by turns, cut to the size.
    { head -c 46 "$sample"; for _ in $(seq 1 3334); do printf '\005\0\0\0\0\0\006\0\0\0\0\0'; done; } | head -c "$size" >"$out/input"
    "$oracle" text <"$out/input" >"$out/due"
    "$pagerun" <"$out/input" >"$out/whole"
    dd if="$out/input" bs=97 status=none | "$pagerun" >"$out/chunks"
    cmp "$out/due" "$out/whole"
    cmp "$out/due" "$out/chunks"
done
echo "lengths: all agree"
