#!/bin/sh
# Runs a command of rt. What rt says of each crate is shown as it comes, without the lines of single functions; all that it says is kept
# in target/NAME.log. Where the command fails: which functions are not proved, where the prover stopped, and the log. `rt all` begins what it
# says of a crate, once it is done with it, with '== CRATE': here and in the log the seconds since the start stand behind.
#
# usage: tools/progress.sh NAME COMMAND...
set -u
cd "$(dirname "$0")/.." || exit 1
root=$(pwd -P)
mkdir -p target
log=target/$1.log
shift
# What an earlier run said is not to be taken for this one's.
rm -f "$log"
room=$(mktemp -d) || exit 1
trap 'rm -rf "$room"' EXIT
trap 'exit 1' HUP INT TERM

start=$(date +%s)
timed() {
    while IFS= read -r line || [ -n "$line" ]; do
        case $line in
        '== summary') printf '%s\n' "$line" ;;
        '== '*) printf '%s, %d s\n' "$line" $(($(date +%s) - start)) ;;
        *) printf '%s\n' "$line" ;;
        esac
    done
}
{
    "$@" 2>&1
    echo $? >"$room/status"
} | timed | tee "$log" | grep --line-buffered -a -E -e '^rt: |^== |^[0-9]+ of [0-9]+ crates ok$' -e ': (ok|failed \([0-9]+\)|not run, since .* failed)$'
[ "$(cat "$room/status")" != 0 ] || exit 0

# The lines that name a fault, with the paths as they are from here. A line can have thousands of characters; its start says what matters.
faults() { # WORDS of grep
    grep -a "$@" "$log" | sed -e "s|$root/||g" -e 's/^\(.\{300\}\).*/\1 ../' -e 's/^/  /' | head -n 10
}
{
    faults -E '^(fn|struct|enum) .*: (not proved$|no proof)'
    faults -E '^([^ ]+: error|error\[|note: [^ ]+:[0-9]+:[0-9]+: )' | grep -v -e 'was not admitted' -e 'was rejected, was not checked'
} >"$room/faults"
[ -s "$room/faults" ] || tail -n 5 "$log" >"$room/faults"
{
    echo "This failed: $*"
    cat "$room/faults"
    echo "All that was said: $log"
} >&2
exit 1
