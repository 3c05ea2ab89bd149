#!/bin/sh
# Writes each file behind its length, 2 bytes with the high byte first, as `rightsum` and `pagerun` take an image. A folder stands for the files in it, by name, without
# folders inside and without those whose name starts with a dot.
#
# usage: tools/pairs.sh FILE|FOLDER ..
set -eu
[ $# -gt 0 ] || { echo "usage: tools/pairs.sh FILE|FOLDER .." >&2; exit 2; }
pair() {
    [ -f "$1" ] && [ -r "$1" ] || { echo "$1 is no file that can be read" >&2; exit 1; }
    size=$(wc -c <"$1")
    [ "$size" -le 65535 ] || { echo "$1 has more bytes than a length of 2 bytes can say, and no image has more than 574" >&2; exit 1; }
    printf "\\$(printf %03o $((size / 256)))\\$(printf %03o $((size % 256)))"
    cat <"$1"
}
for name; do
    if [ -d "$name" ]; then
        for file in "$name"/*; do
            # Where nothing is in the folder, the pattern stands for itself.
            [ -e "$file" ] || [ -L "$file" ] || continue
            [ -d "$file" ] || pair "$file"
        done
    else
        pair "$name"
    fi
done
