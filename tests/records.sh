#!/bin/sh
# examples/records.sh: each record byte for byte, long TKs as several, and what does not fit refused with nothing written.
set -eu
cd "$(dirname "$0")/.."
. examples/records.sh
hex() { od -An -v -tx1 | tr -d ' \n'; }
fail() {
    echo "$*" >&2
    exit 1
}

# writes HEX RECORD NUMBER...
writes() {
    want=$1
    shift
    got=$("$@" | hex)
    [ "$got" = "$want" ] || fail "$*: $got and not $want"
}

# refuses RECORD NUMBER...
refuses() {
    status=0
    got=$("$@" 2>/dev/null | hex) || :
    "$@" >/dev/null 2>&1 || status=$?
    [ "$status" -eq 2 ] || fail "$*: status $status"
    [ -z "$got" ] || fail "$*: wrote $got"
}

writes 494e0f0418 IN 15 4 24
writes 494effffff IN 255 0xFF 0xff
writes 4c4f0f0418 LO 15 4 24
writes 494d0f0302 IM 15 3 2
writes 5341000000fffe SA 0 0 65534
writes 53410102ffffff SA 1 2 16777215
writes 53410f00786e46 rgb 15 70 110 120
writes 5341ff000100ff rgb 0xFF 0xff 0 1
writes 4652010a8c FR 01 A 8c
writes 4652c13007 FR 0xC1 0x30 0x07
writes 544b0000 TK 0
writes 544bffff TK 65535
writes 544bffff544b0001 TK 65536
writes 544bffff544b1941 TK 72000
writes 544bffff544bffff TK 131070
[ "$(TK 4294967295 | wc -c)" -eq 262148 ] || fail 'TK 4294967295: not 65,537 records'

refuses IN 0 4
refuses IN 0 4 8 8
refuses IN 0 4 256
refuses IN 0 four 8
refuses LO 0 4
refuses LO 256 4 8
refuses IM 0 3
refuses IM 0 3 256
refuses SA 256 0 0
refuses SA 0 0 16777216
refuses SA 0 0 0x1000000
refuses rgb 0 70 110
refuses rgb 0 0 70 110 120
refuses rgb 256 0 0 0
refuses rgb 0 256 0 0
refuses rgb 0 0 256 0
refuses rgb 0 0 0 256
refuses FR 01 00
refuses FR 01 00 18C
refuses FR 01 00 8G
refuses FR 01 00 ''
refuses TK
refuses TK ''
refuses TK -1
refuses TK 010
refuses TK 1.5
refuses TK 4294967296
refuses TK 18446744073709551617
echo 'records by hand: 16 written, 28 refused'
