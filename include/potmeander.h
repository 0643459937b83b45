/* Potmeander: a model of a DALI-2 input device with up to 16 sensor instances (IEC 62386-303, occupancy, -304, light, and -305,
 * colour), for a bench controller.
 *
 * The library has five calls. potmeander_session reads a whole session, what the device is given, from a fresh model, and writes the log, what
 * the device must send and answer. potmeander_compare lays the device's log beside the model's and names the first difference. potmeander_hours
 * fills the hour table of any log, potmeander_hour gives back the part of one hour, and potmeander_session_hours reads a session and fills the
 * table of its log. Any bytes may be given as a session and as a log: a call always returns, it reads nothing outside what it is given, and it
 * writes nothing outside the log and the table that it is lent.
 *
 * This page is the manual: 1 the archives, 2 a session, 3 frames, 4 when an event goes out, 5 a log, 6 an example, 7 the numbers, 8 the call
 * for a session, 9 the call for two logs, 10 the hour table. It says in short what is proved; the definitions decide (docs/TRUST.md, 1), and above them
 * document 01 with M-100, M-102, M-103, M-104, M-105, M-106, M-107 and M-110.
 *
 *
 * 1. THE ARCHIVES
 *
 * `.ci/archive session` proves the library and makes target/staticlib/libsession.a, for x86-64 (System V ABI), with
 * one exported function: `cc controller.c libsession.a`. `.ci/archive compare` makes libcompare.a likewise, with
 * potmeander_compare, `.ci/archive hours` libhours.a with potmeander_hours and potmeander_hour, and `.ci/archive
 * tabled` libtabled.a with potmeander_session_hours; each serves without the others, and all together. Of a C library
 * the first two need nothing, and the other two memset. They have no variables: nothing is kept from one call to the
 * next, and calls in several threads do not know of each other, as long as they share nothing that is written. They
 * allocate nothing. A call uses less than 8 KiB of stack (2,904 bytes were measured), beside what a memset that is
 * bound at its first call takes there. A tick took about a microsecond where 16 instances send, and in a long TK
 * about a thousandth of that where none does, with the older kit (docs/COST.md). The header serves C99 and later, and
 * C++.
 *
 *
 * 2. A SESSION
 *
 * A row of records, one behind the other. Each begins with two ASCII letters, its mark. A field is one byte, or as many as are given behind
 * it, the most significant one first.
 *
 *   mark                                    bytes
 *   IN  instance  type  resolution            5    declares an instance
 *   LO  instance  type  resolution            5    declares a light instance built to the text of 2017 (M-107)
 *   IM  instance  type  resolution            5    declares a movement-based occupancy instance (M-100)
 *   SA  instance  status  value (3)           7    what it measures from now on
 *   FR  byte1  byte2  byte3                   5    a frame on the bus
 *   TK  count (2)                             4    1 to 65,535 ticks of 50 ms pass
 *
 * IN, LO and IM stand before all other records, in any order. Instances are numbered 0, 1, 2, .. in the order of their declarations, whichever of the
 *     three declares them; there are 16 at most, or none.
 *       type 3, occupancy: resolution 2; presence-based by IN, movement-based by IM
 *       type 4, light: resolution 1 to 24, the bits of a measured value; by IN or LO
 *       type 5, colour (M-104): resolution 24; by IN
 *     What LO declares is light in all that follows, and differs in one thing: the number that its band is taken on (part 4). What IM declares is
 *     occupancy in all that follows but where it says movement-based: it is told of movement alone, and makes its value of that and of a hold timer.
 *
 * SA  replaces the sample that the instance holds, and does no more: it shows from the next tick on, and until then queries answer as before.
 *       status              value, light               value, colour              value, occupancy
 *       0  valid            0 to 2^resolution - 2      blue, green and red,       0 to 3: bit 0 movement, bit 1 occupied;
 *                                                      a byte each: 0 to 254      movement-based 0 or 1: bit 0 alone
 *       1  not ready        0; only before the         0; only before the         not allowed
 *                           first SA with status 0     first SA with status 0
 *       2  failure          0                          0                          0
 *     Before its first sample light and colour count as not ready, and occupancy as valid with value 0.
 *
 * FR  acts on what the last tick left: at once or, where it sets something, when it comes again (part 3).
 *
 * TK  lets ticks pass. The first tick of a session is number 1, the last that may be reached 4,294,967,295, or with the hour table in use
 *     (part 10) 3,456,000. More than 65,535 ticks are several records.
 *
 *
 * 3. FRAMES. Frame bytes, opcodes and answers are in hexadecimal, all other numbers in decimal.
 *
 *   C1 30 d          loads d into DTR0, which all instances share; it is 0 at the start, and but for this only the colour query changes it
 *   01 i opcode      for instance i; FF in place of 01 does the same
 * Any other frame, one for an instance that is not declared, and an opcode that the instance does not have, is taken and does nothing.
 *
 *   set from DTR0    light   colour   occupancy   unit, or what is taken                  at the start: light   colour   occupancy
 *   report             30       40       22       20 ticks (1 s), of colour 100; 0: no reports             30       30         20
 *   deadtime           32       42       23       1 tick; 0: none                                          30       30          2
 *   hold                -        -       21       200 ticks (10 s); 0: 20 ticks; 255: no change             -        -         90; movement-based alone
 *   hysteresis         31       41        -       percent; above 25: no change                              5       10          -
 *   hysteresisMin      33       43        -       steps of v, of colour of the change (part 4)      see below       12          -
 *   filter             68       68       68       the bits that the type has; others are dropped,           1        1          3
 *                                                 of colour 0 or 1, else no change
 *   priority           61       61       61       2 to 5, else no change                                    4        4          4
 *   enable             62       62       62       DTR0 does not matter                                enabled  enabled    enabled
 *   disable            63       63       63       DTR0 does not matter
 *   catch movement      -        -       20       no setting (part 4); movement-based alone
 *   cancel hold         -        -       24       no setting (part 4); movement-based alone
 * hysteresisMin of light starts as 2^resolution / 100, rounded down, and 255 at most. Filter bits of light and of colour: bit 0, its events, the
 * reports too. Of occupancy: bit 0 Occupied, 1 Vacant, 2 Repeat (its reports: off at the start), 3 Movement, 4 No movement.
 *   What sets something, that is all of this table but catch movement and cancel hold, comes twice (M-105). The first frame of a pair is remembered, and
 * does nothing else. It acts where the same frame, in all three bytes, is the next one and comes no more than 2 ticks later; then it is forgotten, so
 * that a third is a first again. Any other frame that is taken drops the one that is remembered, also one that does nothing, and is a first itself
 * where it sets something; so is the same frame that comes later. Samples, ticks and whatever is refused, a query by 9 too, leave it remembered.
 * DTR0 is as it is when the second one comes.
 *   A new report or deadtime serves from the next start of its timer, but for these: report 0 stops the report timer at once, and a report
 * that was due no longer is; a report above 0 starts it at once where it was stopped; deadtime 0 ends a running dead time at once. A new hold serves
 * from the next start of the hold timer.
 *
 *   query            light   colour   occupancy   answer, one byte; where there is none nothing is logged
 *   type               80       80       80       04, 05 or 03
 *   resolution         81       81       81
 *   error              82       82       82       01 in a failure, else none
 *   status             83       83       83       bit 0 failure, bit 1 enabled
 *   priority           84       84       84       this and the next six: as they were set, or at the start
 *   filter             90       90       90
 *   deadtime           3D       4D       2C
 *   report             3E       4E       2E
 *   hold                -        -       2D       movement-based alone
 *   hysteresis         3F       4F        -
 *   hysteresisMin      3C       4C        -
 *   colour sensor       -       4B        -       by DTR0, which then counts up: see below
 *   enabled            86       86       86       FF, or none
 *   catching            -        -       2F       FF, or none; movement-based alone
 *   input value        8C       8C       8C       its first byte; the rest is kept for 8D of that instance, up to its next 8C
 *   its next byte      8D       8D       8D       none where nothing is left
 * The input value has the least bytes that hold the resolution. Its bits, from the top, are those of the measured value from the top, again and
 * again: bit j from the top is bit (j mod resolution) from the top, j from 0. Of colour these are blue, green and red, a byte each. Light and
 * colour that is not ready or failed has all bits 1. Occupancy has 00, 55, AA, FF for 0 to 3, and in a failure the value of the last tick that was
 * valid. Movement-based it has 00 vacant, FF occupied with movement, AA occupied without.
 *   The colour query answers, in this order for DTR0 0 to 8, the wavelengths of red, green and blue, of each the upper, the peak and the lower, as
 * (nm - 300) / 2, rounded down, 0 at 300 nm or less and 255 at 810 nm or more; for 9 to 14 the irradiance at full scale of red, green and blue in
 * uW/cm2, of each the high byte and the low one; above 14 there is no answer. The sensor is that of the example in the standard's annex: red 675, 650,
 * 625 nm, 340; green 575, 550, 500 nm, 360; blue 525, 475, 450 nm, 200. Behind it DTR0 is one more, 0 after 255, with an answer or without; where the
 * answer found no room (9) it is as before.
 *
 *
 * 4. WHEN AN EVENT GOES OUT
 *
 * At a tick the timers fall by one, whatever the instance does. Then each instance, in rising number, takes its held sample and sends one event
 * or none: none in dead time, while disabled, and while not ready or failed. An event at tick t starts dead time, so that the next may go
 * out at t + deadtime (t + 1 for 0), and the report timer, unless report is 0. The report timer runs from the declaration on, and whenever it
 * starts it takes report or deadtime, whichever is longer. So many ticks later a report is due, and it stays due until an event, or until report
 * is set to 0.
 *   Light, if its filter bit is set, sends where a report is due; and, with hysteresis above 0, where v is above its band, below it, or there is no
 * band. At any event, a report too: without a band, or with v above it, the band becomes v - width (0 at least) to v; with v below it, v to
 * v + width; else it stays. Both ends belong to the band. The width is v x hysteresis / 100, rounded down, or hysteresisMin if that is more.
 * Not ready and failure discard the band. For light declared by IN v is the measured value; for light declared by LO it is the input value, the
 * measured one filled out to whole bytes (part 3). At resolution 8, 16 and 24 the two are the same number.
 *   Colour, if its filter bit is set, sends where a report is due; and, with hysteresis above 0, where its change is above its band. The change is what
 * red, green and blue differ from the last ones, all three added up. Last ones and band are 0 at the start, and become new at an event that the change
 * is a cause of, and at no other: the last ones those of that tick, the band the sum of the three x hysteresis / 100, rounded down, or hysteresisMin if
 * that is more. Not ready and failure leave them.
 *   Occupancy compares each valid value with the valid one before it, at first with 0: Occupied and Vacant where bit 1 rose or fell, Movement and
 * No movement where bit 0 did. Such a trigger waits, if its filter bit is set and the instance enabled when it comes. One event clears all that
 * wait, opposite ones too; so do disabling and a failure, and a new filter drops those it does not allow. An event goes out where one waits, or
 * where a report is due and filter bit 2 is set.
 *   Movement-based occupancy makes its value at each valid tick, and all else is as for presence. With movement it is occupied with movement. At the first
 * valid tick without, it is occupied without, and the hold timer starts; hold ticks later, if every valid tick up to there, that one too, is without movement,
 * it is vacant. The hold timer falls in a failure too; where it has run out there, the instance is vacant at the first valid tick behind the failure,
 * unless that has movement. Disabled or not, value and hold timer go on. Cancel hold lets a running hold timer run out at the next tick, and does nothing
 * where none runs. Catch movement is for a filter without bit 3, Movement: from then on the next Movement waits and is sent as if the bit were set.
 * Catching ends with the first event that has Movement among what waited; what drops a trigger that waits (a new filter without bit 3, disabling, a
 * failure) does not end it. Where bit 3 is set, catch movement ends catching.
 *
 *
 * 5. A LOG
 *
 * A row of records, in the order in which they came; fields as in a session.
 *
 *   mark                                                    bytes
 *   EV  tick (4)  instance  priority  information (2)        10    the instance sent an event
 *   AN  tick (4)  instance  answer                            8    the instance answered a query
 *
 * `tick` is the tick number: of an event the tick that sent it, of an answer the last one before its frame, 0 before the first.
 * `priority` is 5 where a due report is all that asked for the event, and else the instance's.
 * `information` is of the value at that tick. Of light it is ten bits by the rule of the input value: at resolution 10 and above the top ten
 * bits, below that the bits again and again. Of colour: bits 0 to 2 the top three bits of red, 3 to 5 of green, 6 to 8 of blue. Of occupancy: bit 0
 * movement, bit 1 occupied, bit 2 set where a due report is all that asked, bit 3 set where it is movement-based.
 *
 *
 * 6. AN EXAMPLE (tests/controller.c runs it)
 *
 *   49 4E 00 04 08              IN  instance 0 is light with resolution 8
 *   53 41 00 00 00 00 64        SA  it measures 100
 *   54 4B 00 01                 TK  one tick: it has no band, and sends. The band is 95 to 100
 *   53 41 00 00 00 00 5E        SA  it measures 94, below the band
 *   54 4B 00 28                 TK  40 ticks: dead time ends at tick 31, where it sends
 *   46 52 01 00 8C              FR  its input value is asked for
 * gives
 *   45 56 00 00 00 01 00 04 01 91      EV  tick 1, instance 0, priority 4, information 0x191: 100 in ten bits
 *   45 56 00 00 00 1F 00 04 01 79      EV  tick 31
 *   41 4E 00 00 00 29 00 5E            AN  tick 41: 94
 */
#ifndef POTMEANDER_H
#define POTMEANDER_H

#include <stddef.h>
#include <stdint.h>

#ifdef __cplusplus
extern "C" {
#endif

/* 7. THE NUMBERS by which a record is not taken; there are no others. The session is read up to that record. It changes nothing and writes
 * nothing, and what was logged before it stands; by 9 a TK is refused at a tick, and the ticks before that stand. First it is judged whether
 * there is a mark (2), then whether it is known (1), then whether the record is whole (2), then the record's own numbers, the lowest first, but 10 before
 * 9. */
enum {
    POTMEANDER_TAKEN = 0,           /* all records were taken; an empty session too */
    POTMEANDER_UNKNOWN_MARK = 1,    /* the mark is none of IN, LO, IM, SA, FR, TK; in a log (parts 9 and 10), none of EV, AN */
    POTMEANDER_CUT = 2,             /* fewer bytes remain than the mark, or the record, needs */
    POTMEANDER_LATE_OR_SKIPPED = 3, /* IN, LO or IM after a record of another kind, or its number is not the next, from 0 */
    POTMEANDER_NO_SUCH_SENSOR = 4,  /* IN, LO or IM: number 16, after 16 others, or a type and resolution that it does not declare */
    POTMEANDER_UNDECLARED = 5,      /* SA for an instance that was not declared */
    POTMEANDER_BAD_SAMPLE = 6,      /* SA: a status or a value that the type does not allow */
    POTMEANDER_NO_TICKS = 7,        /* TK with count 0 */
    POTMEANDER_TIME_OVER = 8,       /* TK: the tick number would pass 4,294,967,295; the whole TK is not taken */
    POTMEANDER_FULL = 9,            /* the records of one tick, or one answer, do not fit in what is left of the log */
    POTMEANDER_BEYOND_TABLE = 10,   /* with the hour table in use (part 10) alone, after 8 and before 9: the tick number would pass 3,456,000; the
                                       whole TK is not taken. Of a log: a tick above that, or an hour that is none */
    POTMEANDER_NOT_READY_AGAIN = 13, /* SA: status 1, not ready, for an instance that has had a valid sample (status 0, taken) */
    POTMEANDER_TICK_FALLS = 16      /* of a log alone (part 10): a tick below that of the record before */
};

/* What a reading came to. */
typedef struct {
    uint64_t number;  /* one of the numbers above */
    uint64_t offset;  /* where the refused record begins in the session; for number 0 the session's length */
    uint64_t written; /* bytes of log written, from log[0] on: whole records */
    uint64_t ticks;   /* for number 9 inside a TK: the ticks of that TK that were carried out; else 0 */
} potmeander_reading;

/* 8. THE CALL FOR A SESSION reads it from a fresh model.
 *
 * session    session_len bytes, read only
 * log        log_len bytes: the first `written` of them become the log, each byte behind those keeps what it held
 * Both are the caller's before and after, and must not overlap. Either may be empty: with length 0 a pointer may be null.
 *
 * How much room: ten bytes for each instance and tick and eight for each query are always enough, and far more than most sessions need: while
 * its deadtime is not changed no instance sends twice within it. Light as declared sends once in 30 ticks at most, so that 16 of them need 384,000
 * bytes for an hour of 72,000 ticks, and 19,200 bytes where no value leaves its band and none fails.
 *
 * After 9, for want of room: the records that are in the log are right, and of a TK `ticks` ticks stand with them; the tick, or the query, that
 * found no room did nothing. Nothing was kept, so call again with the whole session and more room; the log begins with the same bytes. A session
 * whose log is longer than any room is for the program ./potmeander, which goes on where the room ends.
 */
potmeander_reading potmeander_session(const uint8_t *session, size_t session_len, uint8_t *log, size_t log_len);

/* The first field in which two records differ, in the order in which they are looked at. Where the marks differ nothing behind them is a field. */
enum {
    POTMEANDER_NO_FIELD = 0, /* no pair differs */
    POTMEANDER_MARK = 1,     /* one is an EV, the other an AN */
    POTMEANDER_TICK = 2,
    POTMEANDER_INSTANCE = 3,
    POTMEANDER_PRIORITY = 4,    /* of EV */
    POTMEANDER_INFORMATION = 5, /* of EV */
    POTMEANDER_ANSWER = 6       /* of AN */
};

/* Whose log. */
enum { POTMEANDER_DEVICE = 0, POTMEANDER_MODEL = 1 };

/* What two logs laid side by side come to. */
typedef struct {
    uint64_t number;        /* 0; 1 or 2 where a record of a log is refused: POTMEANDER_UNKNOWN_MARK, POTMEANDER_CUT */
    uint64_t refused;       /* for 1 and 2: whose log has that record; else 0 */
    uint64_t device_offset; /* for 0 the two are the same, as what lies before is: where the differing record begins; where none differs, the
                               bytes walked. For 1 and 2 where the refused record begins in its own log, and 0 in the other */
    uint64_t model_offset;
    uint64_t field;         /* of the differing pair: POTMEANDER_MARK to POTMEANDER_ANSWER; where none differs 0 */
    int64_t difference;     /* of the differing pair, whatever its field: the device's tick minus the model's, below zero where the device was
                               early; where none differs 0 */
    uint64_t all;           /* 1: the logs are equal, the records up to there were all there were; else 0 */
    uint64_t rest_of;       /* whose rest is handed back */
    uint64_t rest_offset;   /* where it begins in that log, and how many bytes it has: it ends where the log does */
    uint64_t rest_len;
} potmeander_finding;

/* 9. THE CALL FOR TWO LOGS walks them record by record, to the first pair that differs.
 *
 * device     device_len bytes: what the device sent and answered, as a log (part 5)
 * model      model_len bytes: the model's log
 * Both are read only, and may overlap. Either may be empty: with length 0 a pointer may be null.
 *
 * First each log is judged, whole, as a row of EV and AN records, the device's first: is there a mark (2), is it known (1), is the record whole
 * (2). Then they are walked. The rest that is handed back is the device's from the differing record on; where none differs, that of the longer log
 * behind what is equal; where the logs are equal, and for 1 and 2, the empty end of the device's (rest_of 0, rest_offset device_len, rest_len 0).
 * The ticks in a log may be any, and may fall: what is compared is the records as they stand.
 */
potmeander_finding potmeander_compare(const uint8_t *device, size_t device_len, const uint8_t *model, size_t model_len);

/* 10. THE HOUR TABLE has a number of events and a gap for each of 16 instances and each of 48 hours. Hour k, from 0 on, holds the ticks 72,000 k + 1 to
 * 72,000 (k + 1); tick 0 is in none, and 3,456,000 is the last tick of the last. No clock is known here.
 *
 * events     the EV records of instance i with a tick of hour k: entry [i * 48 + k]
 * gaps       the longest gap, in ticks, that an event of instance i ended in hour k: from the tick of its event before, in whichever hour that lies,
 *            or from tick 0 for its first; 0 where no event ended one. What follows the last event ends no gap. Entry [i * 48 + k]
 * An hour without events has 0 in both. A table that is filled gets all its 768 entries, whatever they held; entries behind those keep what they held, and
 * a table that is shorter gets the entries that it has. An EV of tick 0, or of an instance 16 or above, is in no entry. A number of events above
 * 4,294,967,295 stands as that. `log`, `events` and `gaps` are the caller's before and after, and what is written must not overlap anything else. Each may
 * be empty: with length 0 a pointer may be null. Lengths of `events` and `gaps` are in entries.
 */
enum { POTMEANDER_HOURS = 48, POTMEANDER_ENTRIES = 768 };

/* What a log came to. */
typedef struct {
    uint64_t number; /* 0, 1, 2, 10 or 16 */
    uint64_t offset; /* where the refused record begins in the log; for 0 the log's length */
} potmeander_tally;

/* The table of any log, the device's too. First the log is judged, whole: as a row of EV and AN records (1 or 2, as in part 9); then 16 at the first record, of
 * whatever mark and instance, with a tick below that of the record before; then 10 at the first record with a tick above 3,456,000. A log that is refused changes
 * no entry. */
potmeander_tally potmeander_hours(const uint8_t *log, size_t log_len, uint32_t *events, size_t events_len, uint32_t *gaps, size_t gaps_len);

/* A session read from a fresh model with the table in use: as part 8 has it, and with number 10. The table is filled from what was logged, whatever the number. */
potmeander_reading potmeander_session_hours(const uint8_t *session, size_t session_len, uint8_t *log, size_t log_len,
    uint32_t *events, size_t events_len, uint32_t *gaps, size_t gaps_len);

/* A part of a log. */
typedef struct {
    uint64_t number; /* 0, 1, 2, 10 or 16 */
    uint64_t offset; /* where it begins in the log */
    uint64_t len;    /* how many bytes it has: whole records */
} potmeander_part;

/* The part of a log with the records, EV and AN, of one hour. Where there are none it is empty, and lies before the first record of a later tick, or at the log's
 * end where there is none. First the hour is judged: 48 or above is 10. Then the log, whole: 1 or 2, then 16. Each of these has the empty end of the log: the log's
 * length, and 0. A tick above 3,456,000 is in no hour, and is not refused here. */
potmeander_part potmeander_hour(const uint8_t *log, size_t log_len, uint64_t hour);

#ifdef __cplusplus
}
#endif

#endif
