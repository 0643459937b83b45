#!/bin/sh
# Compares the library with the second implementation on two logs side by side. Then shows that this bites: each wrong
# comparison of second/compared_faults.h is told apart from the right one.
#   tests/sides.sh [SEED [COUNT [PROFILE]]]     COUNT pairs (24,000) from SEED (1), of a profile of lib/pairs.h, or all
set -eu
cd "$(dirname "$0")/.."
. tests/lib/build.sh
seed=${1:-1} count=${2:-24000} profile=${3:-}
c_library compare

c_object "$built/pairs.o" tests/lib/pairs.c
c_object "$built/findings.o" tests/lib/findings.c
c_object "$built/sides.o" tests/sides.c
c_object "$built/compared.o" tests/second/compared.c
c_program "$built/sides" "$built/sides.o" "$built/compared.o" "$built/findings.o" "$built/pairs.o" \
    target/staticlib/libcompare.a
c_object "$built/sides_bite.o" tests/sides_bite.c -DSECOND_FAULTS
c_object "$built/compared_wrong.o" tests/second/compared.c -DSECOND_FAULTS
c_program "$built/sides_bite" "$built/sides_bite.o" "$built/compared_wrong.o" "$built/findings.o" "$built/pairs.o"

c_run "$built/sides" "$seed" "$count" ${profile:+"$profile"}
c_run "$built/sides_bite" "$seed" 3000
echo "$count pairs of logs compared: no difference found"
