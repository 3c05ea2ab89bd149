#!/usr/bin/env bash
# The test program `cases` reads 524,288 bytes and says where there are more. One case fills them to the last byte.
#
# usage: tests/room.sh CASES
set -eu
cases=$1
input() { # BYTES
    printf '\000\007\377\374'
    head -c "$(($1 - 4))" /dev/zero
}
whole=$(printf 'case 1\nlong')
[ "$(input 524288 | "$cases")" = "$whole" ]
[ "$(input 524289 | "$cases")" = "$whole
more than 524288 bytes: the rest was not read" ]
echo "room: said"
