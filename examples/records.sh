# Writes the records of a session by hand. To be sourced, in a script or at a prompt:
#   . examples/records.sh
#   { IN 0 4 8 && SA 0 0 100 && TK 72000 && FR 01 00 8C; } >my.session
#
#   IN INSTANCE TYPE RESOLUTION    declares an instance: type 3, occupancy, with resolution 2; type 4, light, with 1 to 24; type 5, colour, with 24
#   LO INSTANCE TYPE RESOLUTION    declares a light instance built to the text of 2017: type 4, with 1 to 24
#   IM INSTANCE TYPE RESOLUTION    declares a movement-based occupancy instance: type 3, with resolution 2
#   SA INSTANCE STATUS VALUE       what it measures from now on: status 0 valid; 1 not ready and 2 failed, with value 0
#   rgb INSTANCE RED GREEN BLUE    an SA of a colour instance with status 0, by its three levels: 0 to 254 is a colour
#   FR BYTE1 BYTE2 BYTE3           a frame, its bytes in hexadecimal, as in the standards; one that sets something acts when it comes twice in a row
#   TK TICKS                       so many ticks of 50 ms, up to 4294967295: a record for each 65535 of them, and one for the rest
#
# Numbers are decimal without leading zeros, or hexadecimal with 0x, which FR may do without. What does not fit in its bytes is refused: that is said
# on standard error, the status is 2, and nothing of the record is written; `&&`, or `set -e` in a script, keeps the rest from being written without
# it. What fits is written: whether the model takes it, the model says.

# record_number MOST TEXT: TEXT is a number, MOST at most
record_number() {
    case $2 in
    0x*) case ${2#0x} in '' | *[!0-9A-Fa-f]* | ?????????*) return 1 ;; esac ;;
    0 | [1-9]*) case $2 in *[!0-9]* | ???????????*) return 1 ;; esac ;;
    *) return 1 ;;
    esac
    [ "$(($2))" -le "$1" ]
}

# record_fits WHAT COUNT MOST NUMBER [MOST NUMBER]...: COUNT is how many there are, and each is at most the MOST before it
record_fits() {
    record_what=$1
    if [ $# -ne $((2 + 2 * $2)) ]; then
        echo "$record_what: numbers needed: $(($# / 2 - 1)), given: $2" >&2
        return 2
    fi
    shift 2
    while [ $# -gt 0 ]; do
        record_number "$1" "$2" || { echo "$record_what: '$2' is no number from 0 to $1" >&2; return 2; }
        shift 2
    done
}

record_bytes() { for record_byte in "$@"; do printf "\\$(printf %03o "$record_byte")"; done; }

# record_declares MARK NUMBER...: IN, LO and IM are laid out alike
record_declares() {
    record_fits "$*" $(($# - 1)) 255 "${2-}" 255 "${3-}" 255 "${4-}" || return
    printf %s "$1" && record_bytes "$2" "$3" "$4"
}

IN() { record_declares IN "$@"; }

LO() { record_declares LO "$@"; }

IM() { record_declares IM "$@"; }

SA() {
    record_fits "SA $*" $# 255 "${1-}" 255 "${2-}" 16777215 "${3-}" || return
    printf SA && record_bytes "$1" "$2" $(($3 / 65536)) $(($3 / 256 % 256)) $(($3 % 256))
}

rgb() {
    record_fits "rgb $*" $# 255 "${1-}" 255 "${2-}" 255 "${3-}" 255 "${4-}" || return
    SA "$1" 0 $(($4 * 65536 + $3 * 256 + $2))
}

FR() {
    [ $# -ne 3 ] || set -- "0x${1#0x}" "0x${2#0x}" "0x${3#0x}"
    record_fits "FR $*" $# 255 "${1-}" 255 "${2-}" 255 "${3-}" || return
    printf FR && record_bytes "$1" "$2" "$3"
}

TK() {
    record_fits "TK $*" $# 4294967295 "${1-}" || return
    if [ $(($1)) -ge 65535 ]; then
        { yes "$(printf 'TK\377\377')" 2>/dev/null || :; } | head -n $(($1 / 65535)) | LC_ALL=C tr -d '\n' || return
    fi
    [ $(($1)) -gt 0 ] && [ $(($1 % 65535)) -eq 0 ] || { printf TK && record_bytes $(($1 % 65535 / 256)) $(($1 % 65535 % 256)); }
}
