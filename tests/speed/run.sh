#!/bin/sh
# Compares the library's bench function with the plain C version: the time of
# a call, then the instructions of a call.
#
# usage: tests/speed/run.sh LIB_DIR [BUILD_DIR]
#
# LIB_DIR holds librun.a. Build products go to BUILD_DIR, or to a temporary
# directory that is removed at the end. LDLIBS, if set, is added to the link.
set -eu

stop() {
    echo "speed: $1" >&2
    exit 2
}

[ $# -eq 1 ] || [ $# -eq 2 ] || stop "usage: run.sh LIB_DIR [BUILD_DIR]"
lib=$1/librun.a
[ -f "$lib" ] || stop "no librun.a in $1"
command -v gcc >/dev/null || stop "gcc is missing"

here=$(cd "$(dirname "$0")" && pwd)
if [ $# -eq 2 ]; then
    build=$2
    mkdir -p "$build"
else
    build=$(mktemp -d)
    trap 'rm -rf "$build"' EXIT
    trap 'exit 1' HUP INT TERM
fi

# LDLIBS may hold several words, so it stands without quotes.
gcc -std=c11 -O2 -Wall -Wextra -Werror -I "$here/../../include" -I "$here" \
    "$here/speed.c" "$here/plain.c" "$lib" ${LDLIBS:-} -o "$build/speed"

"$build/speed"

command -v valgrind >/dev/null ||
    stop "valgrind is missing, so instructions are not counted"

# The instructions of a whole program run: which, name, repetitions.
instructions() {
    valgrind --tool=callgrind --callgrind-out-file="$build/callgrind.out" \
        "$build/speed" only "$1" "$2" "$3" \
        >"$build/calls" 2>"$build/callgrind.log" ||
        stop "callgrind failed: $(tail -n 1 "$build/callgrind.log")"
    awk '$1 == "totals:" { print $2 }' "$build/callgrind.out"
}

few=1
many=11
echo
printf '%-8s %6s %14s %14s %7s\n' \
    input calls 'plain ins/call' 'bench ins/call' ratio
for name in $("$build/speed" names); do
    plain_few=$(instructions plain "$name" $few)
    plain_many=$(instructions plain "$name" $many)
    bench_few=$(instructions bench "$name" $few)
    bench_many=$(instructions bench "$name" $many)
    calls=$(cat "$build/calls")
    # The set-up is the same in both runs and cancels out.
    awk -v name="$name" -v calls="$calls" -v reps=$((many - few)) \
        -v plain=$((plain_many - plain_few)) \
        -v bench=$((bench_many - bench_few)) 'BEGIN {
            printf "%-8s %6d %14.2f %14.2f %7.2f\n", name, calls,
                plain / reps / calls, bench / reps / calls, bench / plain
        }'
done
