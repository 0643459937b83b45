#!/bin/sh
# Shows that the comparison bites: each wrong model of second/faults.h is told apart from the right one.
#   tests/bites.sh [SEED [COUNT]]     at most COUNT sessions for each
set -eu
cd "$(dirname "$0")/.."
. tests/lib/build.sh
seed=${1:-1} count=${2:-3000}

c_object "$built/bites.o" tests/bites.c -DSECOND_FAULTS
c_object "$built/wrong.o" tests/second/second.c -DSECOND_FAULTS
c_object "$built/generator.o" tests/lib/generator.c
c_object "$built/comparison.o" tests/lib/comparison.c
c_object "$built/pieces.o" tests/lib/pieces.c
c_program "$built/bites" "$built/bites.o" "$built/wrong.o" "$built/pieces.o" "$built/generator.o" "$built/comparison.o"
c_run "$built/bites" "$seed" "$count"
