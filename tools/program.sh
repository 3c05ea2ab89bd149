#!/bin/sh
# Builds a program of the repository as crates/NAME/out/NAME, every crate below it proved first, over what earlier checks kept. rt runs what it
# builds: here on its stored input, and what it prints is not shown.
#
# usage: tools/program.sh NAME
set -eu
[ $# -eq 1 ] || { echo "usage: tools/program.sh NAME" >&2; exit 2; }
cd "$(dirname "$0")/../crates/$1"
input=/dev/null
[ ! -f stdin ] || input=stdin
rt run <"$input" >/dev/null
