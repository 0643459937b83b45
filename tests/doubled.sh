#!/bin/sh
# Compares sessions of document 01 with the library's reading of the same with each setting frame twice in a row (02, M-105).
#   tests/doubled.sh [SEED [COUNT [PROFILE]]]     COUNT cases (12,000) from SEED (1), of one profile of lib/generator.h, or of all
set -eu
cd "$(dirname "$0")/.."
. tests/lib/build.sh
seed=${1:-1} count=${2:-12000} profile=${3:-}
c_library session
c_library trial

c_object "$built/doubled.o" tests/doubled.c -DSECOND_FAULTS
c_object "$built/wrong.o" tests/second/second.c -DSECOND_FAULTS
c_object "$built/twice.o" tests/lib/doubled.c
c_object "$built/generator.o" tests/lib/generator.c
c_object "$built/comparison.o" tests/lib/comparison.c
c_program "$built/doubled" "$built/doubled.o" "$built/wrong.o" "$built/twice.o" "$built/generator.o" "$built/comparison.o" \
    target/staticlib/libsession.a target/staticlib/libtrial.a

c_run "$built/doubled" "$seed" "$count" ${profile:+"$profile"}
echo "$count sessions with each setting frame twice: no difference found"
