#!/bin/sh
# Compares the library with the second implementation.
#   tests/compare.sh [SEED [COUNT [PROFILE]]]     COUNT cases (24,000) from SEED (1), of one profile of lib/generator.h, or of all
set -eu
cd "$(dirname "$0")/.."
. tests/lib/build.sh
seed=${1:-1} count=${2:-24000} profile=${3:-}
c_library session
c_library trial

c_object "$built/compare.o" tests/compare.c
c_object "$built/generator.o" tests/lib/generator.c
c_object "$built/comparison.o" tests/lib/comparison.c
c_object "$built/second.o" tests/second/second.c
c_object "$built/pieces.o" tests/lib/pieces.c
c_object "$built/vector.o" tests/second/vector.c
c_program "$built/vector" "$built/vector.o" "$built/second.o" "$built/pieces.o" "$built/generator.o" "$built/comparison.o"
c_program "$built/compare" "$built/compare.o" "$built/second.o" "$built/generator.o" "$built/comparison.o" \
    target/staticlib/libsession.a target/staticlib/libtrial.a

c_run "$built/vector"
c_run "$built/compare" "$seed" "$count" ${profile:+"$profile"}
echo "$count cases compared: no difference found"
