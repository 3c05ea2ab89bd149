#!/bin/sh
# Builds the bench's static library, which include/bench.h declares, and lays it at target/staticlib/librun.a: the crate `run_c` under the
# name that C callers link. Every crate below it is proved first, over what earlier checks kept.
#
# usage: tools/library.sh
set -eu
cd "$(dirname "$0")/.."
(cd crates/run_c && rt lib)
mkdir -p target/staticlib
cp crates/run_c/out/librun_c.a target/staticlib/librun.a
