#!/bin/sh
# Builds a static library over the crates, outside the repository: the crate `timing`, whose src/ and proofs/ stand in a temporary directory. The
# crates are copied there, without what was built of them: rt begins with what checks on this machine kept of the same files.
#
# usage: tests/speed/build.sh ROOM CRATE ..   (from the repository's root; the crates that `timing` names)
set -eu
room=$1
shift
for crate in crates/*; do
    mkdir -p "$room/$crate"
    for part in src specs proofs; do
        if [ -d "$crate/$part" ]; then cp -r "$crate/$part" "$room/$crate"; fi
    done
done
cp crates.txt "$room"
echo "timing staticlib: $*" >>"$room/crates.txt"
cd "$room/crates/timing"
rt lib
