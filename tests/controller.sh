#!/bin/sh
# A C program calls the library through include/potmeander.h, and gets document 01's log; as C99 and as C++. And what the header says of the
# archives: which of them needs memset, and that they need nothing else; null with length 0, threads, less than 8 KiB of stack.
set -eu
cd "$(dirname "$0")/.."
. tests/lib/build.sh
c_library session
c_library compare
c_library hours
c_library tabled
archive=target/staticlib/libsession.a
comparing=target/staticlib/libcompare.a
hours=target/staticlib/libhours.a
tabled=target/staticlib/libtabled.a

c_object "$built/controller.o" tests/controller.c -std=c99 -pedantic
c_object "$built/controller_cpp.o" tests/controller.c -x c++ -std=c++11 -pedantic
for controller in controller controller_cpp; do
    c_program "$built/$controller" "$built/$controller.o" "$archive"
    c_run "$built/$controller" >"$built/$controller.out"
    [ "$(cat "$built/$controller.out")" = "number 0, offset 32, written 28, ticks 0
45 56 00 00 00 01 00 04 01 91 45 56 00 00 00 1F 00 04 01 79 41 4E 00 00 00 29 00 5E
number 9, offset 23, written 10, ticks 29
45 56 00 00 00 01 00 04 01 91" ]
done
cat "$built/controller.out"

# Each archive by itself, with what it needs and not without.
echo 'void *memset(void *to, int byte, unsigned long count) { (void)byte, (void)count; return to; }' >"$built/memset.c"
c_object "$built/memset.o" "$built/memset.c" -fno-builtin
alone() { entry=$1 && shift && "$c_tools/bin/ld.lld" -m elf_x86_64 -e "$entry" -o "$built/alone.out" --whole-archive "$@"; }
not_alone() {
    if alone "$@" 2>/dev/null; then
        echo "$1 links without what it needs: that is not seen" >&2
        exit 1
    fi
}
alone potmeander_session "$archive"
alone potmeander_compare "$comparing"
alone potmeander_hours "$hours" "$built/memset.o"
not_alone potmeander_hours "$hours"
alone potmeander_session_hours "$tabled" "$built/memset.o"
not_alone potmeander_session_hours "$tabled"

c_object "$built/header.o" tests/header.c
c_object "$built/generator.o" tests/lib/generator.c
c_program "$built/header" "$built/header.o" "$built/generator.o" "$archive" "$comparing" "$hours" "$tabled"
c_run "$built/header" >"$built/header.out"
cat "$built/header.out"
grep -qx 'null with length 0: as an empty slice' "$built/header.out"
grep -qx 'two threads: as one by one' "$built/header.out"
stack=$(sed -n 's/^stack: \([0-9]*\) bytes at most$/\1/p' "$built/header.out")
[ "$stack" -lt 8192 ]
