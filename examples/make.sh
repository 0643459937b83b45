#!/bin/sh
# Writes the sessions of this folder, record by record, and the device's log that is to be compared.
#   examples/make.sh [FOLDER]     into FOLDER, or where this script is
set -eu
unset CDPATH
here=$(cd "$(dirname "$0")" && pwd)
. "$here/records.sh"
cd "${1:-$here}"

occupancy=3 light=4 colour=5
valid=0 unready=1 failed=2
vacant=0 still=2 moving=3  # an occupancy value: bit 0 movement, bit 1 occupied
nothing=0 movement=1  # of a movement-based one: bit 0 alone
seconds() { echo $(($1 * 20)); }
twice() { FR "$@" && FR "$@"; }  # a frame that sets something: it acts when it comes again

# ---- document 01, "A full session, bytes in hex"
full() {
    IN 0 $light 8
    SA 0 $valid 100
    TK 1
    SA 0 $valid 94
    TK 40
    FR 01 00 8C  # query the input value
}

# ---- an hour in an office, 72,000 ticks: instance 0 occupancy, instance 1 light of 10 bits
set_to() { FR C1 30 "$1" && twice 01 "$2" "$3"; }  # DTR0 loaded, and an instance's setting set from it

hour() {
    IN 0 $occupancy 2
    IN 1 $light 10
    FR 01 00 80  # the types: 3,
    FR 01 01 80  # and 4
    set_to 07 00 68  # occupancy sends when occupied, when vacant, and repeats,
    set_to 3C 00 22  # every 60 s at the latest;
    set_to 3C 01 30  # light every 60 s at the latest too,
    set_to 14 01 32  # and at most once a second

    # ten minutes: nobody, dawn
    SA 0 $valid $vacant
    for lux in 90 92 95 99 104 110 117 125 134 144; do
        SA 1 $valid $lux
        TK "$(seconds 60)"
    done

    # twenty minutes at the desk, the lamp on; each minute movement for ten seconds
    SA 1 $valid 520
    for minute in 1 2 3 4 5 6 7 8 9 10 11 12 13 14 15 16 17 18 19 20; do
        SA 0 $valid $moving
        TK "$(seconds 10)"
        SA 0 $valid $still
        TK "$(seconds 50)"
    done
    FR 01 01 8C  # the light value, of two bytes:
    FR 01 01 8D  # the second
    FR 01 00 8C  # the occupancy value

    # five minutes: the light sensor fails for one of them
    TK "$(seconds 120)"
    SA 1 $failed 0
    TK "$(seconds 30)"
    FR 01 01 82  # its error byte
    FR 01 01 83  # its status: failed and enabled
    FR 01 01 8C  # its value is all ones
    TK "$(seconds 30)"
    SA 1 $valid 525
    TK "$(seconds 120)"

    # ten minutes: occupancy's events are switched off, and on again
    twice 01 00 63
    SA 0 $valid $moving
    TK "$(seconds 300)"
    FR 01 00 86  # it does not answer that it is enabled
    twice 01 00 62
    FR 01 00 86  # now it does
    TK "$(seconds 300)"

    # the last quarter: the lamp off, the room empty, daylight that flickers
    SA 1 $valid 300
    SA 0 $valid $vacant
    for lux in 300 330 290 305 310 350 340 342 344 346 348 350 352 354 356; do
        SA 1 $valid $lux
        TK "$(seconds 60)"
    done
    FR 01 01 3E  # the report setting
    FR 01 01 3F  # and the hysteresis
}

# ---- an hour for two logs side by side: instance 0 occupancy, instance 1 light of 10 bits at the window, instance 2 light of 8 bits at the desk
compare_model() {
    IN 0 $occupancy 2
    IN 1 $light 10
    IN 2 $light 8
    set_to 00 01 30  # neither light sensor reports:
    set_to 00 02 30
    FR 01 01 3E
    FR 01 02 3E

    # a quarter: nobody
    SA 0 $valid $vacant
    SA 1 $valid 300
    SA 2 $valid 40
    TK "$(seconds 900)"

    # a quarter at the desk, the lamp on
    SA 0 $valid $moving
    SA 1 $valid 420
    SA 2 $valid 180
    TK "$(seconds 900)"

    # twenty minutes: nobody, the lamp off
    SA 0 $valid $vacant
    SA 1 $valid 300
    SA 2 $valid 40
    TK "$(seconds 1200)"

    # back again; the sensor at the desk fails
    SA 0 $valid $moving
    SA 1 $valid 420
    SA 2 $failed 0
    TK "$(seconds 300)"
    FR 01 02 82  # its error byte
    FR 01 02 83  # its status: failed and enabled
    TK "$(seconds 298)"

    # it measures again, and at tick 71,970 sends; at 71,981 more light leaves its band, and must wait for the end of dead time, tick 72,000
    TK 9
    SA 2 $valid 90
    TK 11
    SA 2 $valid 100
    TK 40

    # the room is left
    SA 0 $valid $vacant
    SA 2 $valid 40
    TK "$(seconds 60)"
    FR 01 02 8C  # the value at the desk
}

# The device's log: the model's, but for one tick. Its event of 72,000 was sent at 71,981, in dead time.
compare_device() { head -c 144 "$here/compare.model.log" && printf '\000\001\031\055' && tail -c +149 "$here/compare.model.log"; }

# ---- five hours and a half for the hour table: instance 0 occupancy, instance 1 light of 10 bits at the window, instance 2 light of 8 bits at the desk
minutes() { TK "$(seconds $((60 * $1)))"; }

morning() {
    IN 0 $occupancy 2
    IN 1 $light 10
    IN 2 $light 8
    set_to F0 01 30  # the window reports every 240 s,
    set_to 78 02 30  # the desk every 120 s

    # hour 0: nobody, dawn
    SA 0 $valid $vacant
    SA 2 $valid 12
    for lux in 40 60 90 130 180 240; do SA 1 $valid $lux && minutes 10; done

    # hour 1: somebody comes after twenty minutes, the lamp on
    SA 1 $valid 300
    minutes 20
    SA 0 $valid $moving
    SA 2 $valid 180
    minutes 40

    # hour 2: the sensor at the desk falls silent
    SA 2 $failed 0
    for lux in 380 470 570; do SA 1 $valid $lux && minutes 20; done

    # hour 3: it measures again; the lamp off
    SA 2 $valid 120
    SA 0 $valid $still
    minutes 60

    # hour 4: the room is left after half of it
    minutes 30
    SA 0 $valid $vacant
    minutes 30

    # half of hour 5
    SA 1 $valid 640
    minutes 30
    FR 01 02 8C  # the value at the desk
}

# ---- the two texts side by side: instances 0 (IN) and 1 (LO) have 10 bits, 2 (IN) and 3 (LO) have 8, and each pair is given the same samples. The band of IN is on the
# measured value v, that of LO on the input value: of 10 bits in two bytes v x 64 + v / 16, of 8 bits v itself. Width: 5 percent, or hysteresisMin, 10 or 2, if
# that is more; all rounded down. No report comes before tick 600
texts() {
    IN 0 $light 10
    LO 1 $light 10
    IN 2 $light 8
    LO 3 $light 8

    # tick 1: nobody has a band, and all send. 0: width 10, for 5 is less: 90 to 100. 1: 6406, width 320: 6086 to 6406. 2 and 3: width 5: 95 to 100
    for i in 0 1 2 3; do SA $i $valid 100; done
    TK 40

    # tick 41: 0 is inside. 1: 6021, below, alone of the two: width 301: 6021 to 6322. 2 and 3: below, both: width 4: 94 to 98
    for i in 0 1 2 3; do SA $i $valid 94; done
    TK 40

    # tick 81, above: 0 has width 50: 950 to 1000. 1: 64062, width 3203: 60859 to 64062
    # tick 121, below: 0 has width 45: 900 to 945. 1: 57656, width 2882: 57656 to 60538
    # tick 161: 0 is at the end of its band, inside. 1: 60539, above by one, alone: width 3026: 57513 to 60539
    # tick 201: 0 is below by one, alone: width 44: 899 to 943. 1: 57592, inside
    for value in 1000 900 945 899; do
        SA 0 $valid $value
        SA 1 $valid $value
        TK 40
    done
}

# ---- an hour under infrared, 72,000 ticks: instances 0 and 1 movement-based, 0 as declared, 1 with hold 1 and all triggers; instance 2 presence-based, in the same
# room. Hold: 90 x 200 ticks, and 200 ticks
up_to() { TK $(($1 - reached)) && reached=$1; }  # ticks, to tick $1
seen() { SA 0 $valid "$1" && SA 1 $valid "$1" && SA 2 $valid "$2"; }  # by the movement-based ones, and by the third

infrared_begins() {
    reached=0
    IM 0 $occupancy 2
    IM 1 $occupancy 2
    IN 2 $occupancy 2
    FR 01 00 80  # the type: 3, as for presence
    FR 01 00 2D  # hold: 90
    FR 01 00 2F  # it is not catching, and does not answer
    FR 01 02 2D  # presence has no hold, and does not answer
    set_to 01 01 21  # instance 1: hold 1,
    FR 01 01 2D
    set_to 1B 01 68  # and it sends Occupied, Vacant, Movement and No movement
    FR 01 01 90
    up_to 1200
    FR 01 00 8C  # vacant: 00
}

infrared_holds() {
    # somebody comes: at tick 1201 all three are occupied. Instance 1 has two triggers, and one event of them
    seen $movement $moving
    up_to 1300

    # and sits down: at 1301 the holds start, to 19301 and to 1501
    seen $nothing $still
    up_to 1500
    FR 01 00 8C  # occupied without movement: AA,
    FR 01 01 8C  # both
    up_to 1501  # instance 1 is vacant
    FR 01 01 8C

    # gets up: at 6001 instance 0 is occupied with movement again, and was not vacant between: Movement alone, which its filter holds back
    up_to 6000
    seen $movement $moving
    up_to 6020
    FR 01 00 8C  # FF

    # and leaves: presence is vacant at 6021. The holds start anew, to 24021 and to 6221
    seen $nothing $vacant
    up_to 19301  # where the first hold of instance 0 would have ended
    FR 01 00 8C
    up_to 24020
    FR 01 00 8C  # still AA,
    up_to 24021
    FR 01 00 8C  # and vacant
}

infrared_fails() {
    # somebody looks in: holds from 26441 on, to 44441 and to 26641
    up_to 26400
    seen $movement $moving
    up_to 26440
    seen $nothing $vacant

    # instance 0 fails before its hold ends, and is back after that: vacant at the first valid tick
    up_to 40000
    SA 0 $failed 0
    up_to 44500
    FR 01 00 82  # its error byte
    FR 01 00 83  # its status: failed and enabled
    FR 01 00 8C  # its value: AA
    SA 0 $valid $nothing
    up_to 44501
    FR 01 00 8C
}

infrared_cancelled() {
    # a hold that is cancelled: from 48021 on, and it ends at 48121 and not at 66021
    up_to 48000
    SA 0 $valid $movement
    up_to 48020
    SA 0 $valid $nothing
    up_to 48120
    FR 01 00 24  # cancel hold
    FR 01 00 8C  # not before the next tick
    up_to 48121
    FR 01 00 8C
    FR 01 00 24  # none runs: nothing
}

infrared_catches() {
    # movement caught: of four times that there is some, instance 0 sends the first, Occupied, and the third, Movement, which was asked for
    up_to 50400
    SA 0 $valid $movement
    up_to 50420
    SA 0 $valid $nothing
    up_to 50440
    SA 0 $valid $movement
    up_to 50460
    SA 0 $valid $nothing
    up_to 50480
    FR 01 00 20  # catch movement
    FR 01 00 2F  # it is catching: FF
    up_to 50500
    SA 0 $valid $movement
    up_to 50501
    FR 01 00 2F  # caught: no answer
    up_to 50520
    SA 0 $valid $nothing
    up_to 50540
    SA 0 $valid $movement
    up_to 50560
    SA 0 $valid $nothing  # the hold of 50561 ends at 68561
}

infrared_ends() {
    # instance 1, hold from 52821 on: movement at 53021, the tick where it would end, and for that tick alone. The hold starts anew at 53022 and ends at 53222; the
    # event of No movement waits for the end of dead time, 53023
    up_to 52800
    SA 1 $valid $movement
    up_to 52820
    SA 1 $valid $nothing
    up_to 53020
    SA 1 $valid $movement
    up_to 53021
    SA 1 $valid $nothing

    # hold 0 is 20 ticks, and 255 leaves it so: from 60011 on, to 60031
    up_to 60000
    set_to 00 01 21
    set_to FF 01 21
    FR 01 01 2D
    SA 1 $valid $movement
    up_to 60010
    SA 1 $valid $nothing
    up_to 72000
    FR 01 00 8C
}

infrared() {
    infrared_begins
    infrared_holds
    infrared_fails
    infrared_cancelled
    infrared_catches
    infrared_ends
}

# ---- half an hour in a chamber, 36,000 ticks: instance 0 colour, instance 1 light of 8 bits, which has no reports. Colour starts with dead time 30, a report every
# 3000 ticks, hysteresis 10 and hysteresisMin 12. Its levels are red, green and blue
colour_begins() {
    reached=0
    IN 0 $colour 24
    IN 1 $light 8
    set_to 00 01 30
    FR 01 00 80  # the type: 5,
    FR 01 00 81  # and the resolution: 24
    for query in 4E 4D 4F 4C; do FR 01 00 $query; done  # report, deadtime, hysteresis, hysteresisMin
    for query in 8C 8D 8D 8D; do FR 01 00 $query; done  # not ready: three bytes of all ones, and no fourth

    # black: at tick 1 light sends, for it has no band; of colour the change, 0, is not above the band, 0. A report at tick 3000
    rgb 0 0 0 0
    SA 1 $valid 0
    up_to 1
    FR 01 00 8C
    up_to 3600

    # the darkest blue: change 1, above 0. The band is hysteresisMin, 12
    rgb 0 0 0 1
    up_to 4200
}

# IEC 62386-305, 9.4.5, the example
colour_example() {
    # change 299, above 12: band 30
    rgb 0 70 110 120
    SA 1 $valid 100
    up_to 4800
    for query in 8C 8D 8D 8D; do FR 01 00 $query; done  # 120, 110, 70, and no fourth

    # change 19, inside
    rgb 0 80 106 125
    up_to 5400

    # change 37, above 30: band 31
    rgb 0 85 98 130
    up_to 6000
}

colour_edges() {
    # red alone: change 31, which is the band, and 32: band 34
    rgb 0 116 98 130
    up_to 6600
    rgb 0 117 98 130
    up_to 7200

    # all three at once: change 12 + 12 + 10, which is the band, and one more: band 33
    rgb 0 105 110 120
    up_to 7800
    rgb 0 105 110 119
    up_to 8400
}

colour_reports() {
    # change 26, inside. The report at 10801 leaves the band where it is
    rgb 0 115 120 125
    up_to 11400

    # 11 from what was reported, but change 37, above 33: band 37
    rgb 0 119 124 128
    up_to 14400

    # at 14401 a report is due too: the change is a cause, so that the priority is 4 and the band new, 39
    rgb 0 200 150 40
    up_to 15000
}

colour_fails() {
    SA 0 $failed 0
    SA 1 $failed 0
    up_to 15100
    FR 01 00 82  # its error byte
    FR 01 00 83  # its status: failed and enabled
    FR 01 00 8C  # its value is all ones
    up_to 15600

    # both measure what they did before: light has no band and sends, colour has kept its own and sends nothing before the report at 17401
    rgb 0 200 150 40
    SA 1 $valid 100
    up_to 18000
}

colour_hysteresis() {
    # none: change 464, and the report at 20401 alone, which makes no band
    set_to 00 00 41
    FR 01 00 4F
    rgb 0 20 220 254
    up_to 21000

    # 26 is too much, and 10 lets the change be seen: band 49
    set_to 1A 00 41
    FR 01 00 4F
    set_to 0A 00 41
    FR 01 00 4F
    up_to 21600
}

colour_settings() {
    set_to 04 00 40  # a report every 400 ticks
    FR 01 00 4E
    set_to 64 00 42  # dead time 100
    FR 01 00 4D
    set_to 50 00 43  # a band of 80 at least
    FR 01 00 4C
    up_to 22200

    # change 50, above 49: the band is 80 from here on
    rgb 0 20 220 204
    up_to 22250

    # change 100, in dead time: sent at 22301. Reports at 22701, 23101 and 23501
    rgb 0 120 220 204
    up_to 23600
    set_to 00 00 40  # no more
    FR 01 00 4E
    up_to 24000

    # change 80, which is the band, and 81
    rgb 0 120 220 124
    up_to 24600
    rgb 0 119 220 124
    up_to 25200
}

colour_filtered() {
    set_to 02 00 68  # a bit that colour does not have: no change
    FR 01 00 90
    set_to 00 00 68  # no events
    FR 01 00 90
    rgb 0 0 0 0
    SA 1 $valid 0
    up_to 25800
    set_to 01 00 68  # at 25801 the change is there still
    up_to 26400
    set_to 1E 00 40  # reports again, from here on: at 29400
    up_to 30000
}

colour_read_out() {
    FR C1 30 00
    for dtr0 in 0 1 2 3 4 5 6 7 8 9 10 11 12 13 14 15; do FR 01 00 4B; done  # 15 answers; none for DTR0 15
    FR 01 01 4B  # light does not have it, and DTR0 stays 16:
    twice 01 00 42  # dead time is set from it
    FR 01 00 4D
    FR C1 30 FF
    FR 01 00 4B  # none for 255, and DTR0 is 0:
    FR 01 00 4B  # the first answer again
}

colour_ends() {
    # the report of 32400, and white
    up_to 33000
    rgb 0 254 254 254
    SA 1 $valid 254
    up_to 36000
    for query in 8C 8D 8D; do FR 01 00 $query; done
}

colour() {
    colour_begins
    colour_example
    colour_edges
    colour_reports
    colour_fails
    colour_hysteresis
    colour_settings
    colour_filtered
    colour_read_out
    colour_ends
}

# ---- what sets something comes twice: instance 0 occupancy, instance 1 light of 8 bits. Its dead time is 30 at the start
pairs_of_light() {
    # one alone, and two with a query between: dead time stays 30
    FR C1 30 0A
    FR 01 01 32
    FR 01 01 3D
    FR 01 01 32
    FR 01 01 3D

    # two, and 2 ticks between them; a sample and the event of tick 1 lie between too. Dead time is 10 from its next start on
    FR 01 01 32
    SA 1 $valid 100
    up_to 2
    FR 01 01 32
    FR 01 01 3D
    SA 1 $valid 50
    up_to 31  # the old dead time is over, and the new one begins
    SA 1 $valid 100
    up_to 41

    # two, and 3 ticks between them: dead time stays 10
    FR C1 30 14
    FR 01 01 32
    up_to 44
    FR 01 01 32
    FR 01 01 3D

    # three: the second acts, dead time is 20, and the third is a first again
    twice 01 01 32
    FR 01 01 32
    FR 01 01 3D
}

pairs_of_occupancy() {
    # 01 and FF do the same, but are two frames: it stays enabled
    FR 01 00 63
    FR FF 00 63
    FR 01 00 86
    SA 0 $valid $moving
    up_to 45

    # two, and a tick between them: disabled. That the room is left at 47 is not sent
    FR 01 00 63
    up_to 46
    FR 01 00 63
    FR 01 00 86
    SA 0 $valid $vacant
    up_to 60

    # two, and one to another instance between them: it stays disabled. Then by FF, twice
    FR 01 00 62
    FR 01 01 62
    FR 01 00 62
    FR 01 00 86
    twice FF 00 62
    FR 01 00 86
    SA 0 $valid $moving
    up_to 61
}

pairs() {
    reached=0
    IN 0 $occupancy 2
    IN 1 $light 8
    pairs_of_light
    pairs_of_occupancy
}

# ---- one session for each refusal
refused_1() { IN 0 $light 8 && printf XX; }                      # no such mark
refused_2() { IN 0 $light 8 && printf 'TK\000'; }                # a record cut short
refused_3() { IN 0 $light 8 && TK 1 && IN 1 $occupancy 2; }      # too late to declare
refused_4() { IN 0 $light 25; }                                  # light has 1 to 24 bits
refused_4_lo() { LO 0 $occupancy 2; }                            # LO declares light alone
refused_4_im() { IM 0 $light 8; }                                # IM declares occupancy alone
refused_4_colour() { IN 0 $colour 8; }                           # colour has 24 bits
refused_5() { IN 0 $light 8 && SA 1 $valid 100; }                # only instance 0 is there
refused_6() { IN 0 $light 8 && SA 0 $valid 255; }                # 8 bits: 0 to 254
refused_6_im() { IM 0 $occupancy 2 && SA 0 $valid $still; }      # it is told of movement alone
refused_6_colour() { IN 0 $colour 24 && rgb 0 255 110 120; }     # a level is 0 to 254
refused_7() { IN 0 $light 8 && SA 0 $valid 100 && TK 1 && TK 0; }  # no ticks; what came before is logged

# to the last tick number that there is, which is 65,537 records; and one tick more
refused_8() {
    IN 0 $light 8
    twice 01 00 63  # its events are switched off
    TK 4294967295
    FR 01 00 83  # its status, at the last tick: not enabled
    TK 1
}

# not ready before the first valid sample, and again after it, with a failure between
refused_13() {
    IN 0 $light 8
    SA 0 $unready 0
    TK 1
    FR 01 00 8C  # its value is all ones
    SA 0 $valid 100
    TK 1
    SA 0 $failed 0
    TK 1
    SA 0 $unready 0
}

# not ready before the first valid sample, black, and again after it
refused_13_colour() {
    IN 0 $colour 24
    SA 0 $unready 0
    TK 1
    rgb 0 0 0 0
    TK 1
    FR 01 00 8C  # black is a value, and not all ones
    SA 0 $unready 0
}

# to the last tick of the hour table, and one tick more: taken, but with --sheets refused by 10
beyond() {
    IN 0 $light 8
    set_to FF 00 30  # a report every 255 s
    SA 0 $valid 100
    TK 3456000
    FR 01 00 8C  # its value, at the last tick of hour 47
    TK 1
}

# A log whose ticks fall: the clock of a device that was set back.
falls() { head -c 20 "$here/full.log" && head -c 10 "$here/full.log"; }

for session in full hour morning beyond texts infrared colour pairs refused_1 refused_2 refused_3 refused_4 refused_4_lo refused_4_im refused_4_colour refused_5 \
    refused_6 refused_6_im refused_6_colour refused_7 refused_8 refused_13 refused_13_colour; do
    $session >"$session.session"
done
compare_model >compare.model.session
compare_device >compare.device.log
falls >falls.log
