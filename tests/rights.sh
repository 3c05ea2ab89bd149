#!/usr/bin/env bash
# Holds `rightsum` to the independent program on its stored sites and on random ones, each fed whole or in chunks; and what tools/pairs.sh makes of files and of a
# folder to the pairs written by hand.
# Usage: rights.sh RIGHTSUM ORACLE
set -eu -o pipefail
rightsum=$1
oracle=$2
out=$(mktemp -d)
trap 'rm -rf "$out"' EXIT
for seed in 1 2 3; do
    "$oracle" rights-compare "$rightsum" "$seed" 1000
done
# An image, one of 300 bytes so that the high byte counts, an empty file, and a folder inside that is passed over; then a file whose name could be taken for standard
# input.
mkdir -p "$out/site/inside"
tail -c +3 crates/rightsum/stdin >"$out/site/a"
head -c 300 /dev/zero >"$out/site/b"
: >"$out/site/c"
{ cat crates/rightsum/stdin; printf '\001\054'; head -c 300 /dev/zero; printf '\000\000'; } >"$out/due"
tools/pairs.sh "$out/site" | cmp - "$out/due"
tools/pairs.sh "$out/site/a" "$out/site/b" "$out/site/c" | cmp - "$out/due"
mkdir "$out/named"
cp "$out/site/a" "$out/named/-"
root=$PWD
(cd "$out/named" && "$root/tools/pairs.sh" - </dev/null) | cmp - crates/rightsum/stdin
tools/pairs.sh "$out/site" | "$rightsum" | cmp - <(sed 's/^refused 0$/refused 2/' crates/rightsum/stdout)
# What cannot be a pair is refused: no such file, and one byte more than a length can say.
head -c 65536 /dev/zero >"$out/large"
for name in "$out/site/none" "$out/large"; do
    if tools/pairs.sh "$name" >"$out/none" 2>"$out/said" || [ -s "$out/none" ] || ! grep -q -F "$name" "$out/said"; then
        echo "tools/pairs.sh takes $name, or does not say that it does not"
        exit 1
    fi
done
echo "rights: all agree"
