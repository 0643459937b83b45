#!/bin/sh
# Compares the library with the second implementation on hour tables, the part of a log that holds one hour, and sessions with the
# table in use. Then shows that this bites: each wrong table of second/table_faults.h is told apart from the right one.
#   tests/tables.sh [SEED [COUNT [PROFILE]]]     COUNT cases (16,000) from SEED (1), of a profile of lib/tables.h, or all
set -eu
cd "$(dirname "$0")/.."
. tests/lib/build.sh
seed=${1:-1} count=${2:-16000} profile=${3:-}
c_library hours
c_library tabled
c_library session

c_object "$built/generator.o" tests/lib/generator.c
c_object "$built/tables_made.o" tests/lib/tables.c
c_object "$built/tallies.o" tests/lib/tallies.c
c_object "$built/tables.o" tests/tables.c
c_object "$built/table.o" tests/second/table.c
c_object "$built/second.o" tests/second/second.c
c_program "$built/tables" "$built/tables.o" "$built/table.o" "$built/second.o" "$built/tallies.o" "$built/tables_made.o" \
    "$built/generator.o" target/staticlib/libhours.a target/staticlib/libtabled.a target/staticlib/libsession.a
c_object "$built/tables_bite.o" tests/tables_bite.c -DSECOND_FAULTS
c_object "$built/table_wrong.o" tests/second/table.c -DSECOND_FAULTS
c_object "$built/wrong.o" tests/second/second.c -DSECOND_FAULTS
c_program "$built/tables_bite" "$built/tables_bite.o" "$built/table_wrong.o" "$built/wrong.o" "$built/tallies.o" \
    "$built/tables_made.o" "$built/generator.o"

c_run "$built/tables" "$seed" "$count" ${profile:+"$profile"}
c_run "$built/tables_bite" "$seed" 4000
echo "$count hour tables compared: no difference found"
