/* Compares the library with the second implementation on pairs of logs: a few by hand, whose findings are written
 * here, and those from a seed.
 *   sides SEED COUNT [PROFILE]      PROFILE is one of those in lib/pairs.h; without it, the seeds have them in turn
 * Ends with status 1 at the first difference, which it prints. */
#include "lib/findings.h"
#include "lib/pairs.h"
#include "potmeander.h"
#include "second/compared.h"

#include <stdio.h>
#include <stdlib.h>
#include <string.h>

static second_finding compare_library(const uint8_t *device, size_t device_len, const uint8_t *model, size_t model_len)
{
    potmeander_finding f = potmeander_compare(device, device_len, model, model_len);
    return (second_finding){
        .number = f.number,
        .refused = f.refused,
        .device_offset = f.device_offset,
        .model_offset = f.model_offset,
        .field = f.field,
        .difference = f.difference,
        .all = f.all,
        .rest_of = f.rest_of,
        .rest_offset = f.rest_offset,
        .rest_len = f.rest_len,
    };
}

static const comparing FIRST = {"the library", compare_library}, SECOND = {"the second implementation", second_compare};

/* ---- By hand: two logs in hexadecimal, and their finding ---- */

typedef struct {
    const char *what, *device, *model;
    second_finding finding;
} vector;

/* Records of the log that document 01 prints, and one of a later answer. */
#define EV_1 "4556 00000001 00 04 0191 "
#define EV_31 "4556 0000001F 00 04 0179 "
#define AN_41 "414E 00000029 00 5E "
#define AN_50 "414E 00000032 00 5E "

static const vector VECTORS[] = {
    {"both empty", "", "", {.all = 1}},
    {"equal", EV_1 EV_31 AN_41, EV_1 EV_31 AN_41,
     {.device_offset = 28, .model_offset = 28, .all = 1, .rest_offset = 28}},
    {"device empty", "", EV_1 AN_41, {.rest_of = POTMEANDER_MODEL, .rest_len = 18}},
    {"model empty", EV_1 AN_41, "", {.rest_len = 18}},
    {"device a start", EV_1 EV_31, EV_1 EV_31 AN_41,
     {.device_offset = 20, .model_offset = 20, .rest_of = POTMEANDER_MODEL, .rest_offset = 20, .rest_len = 8}},
    {"model a start", EV_1 EV_31 AN_41, EV_1,
     {.device_offset = 10, .model_offset = 10, .rest_offset = 10, .rest_len = 18}},
    {"first tick against the last", "4556 00000000 00 04 0191", "4556 FFFFFFFF 00 04 0191",
     {.field = POTMEANDER_TICK, .difference = -4294967295, .rest_len = 10}},
    {"last tick against the first", EV_1 "414E FFFFFFFF 00 5E", EV_1 "414E 00000000 00 5E",
     {.device_offset = 10, .model_offset = 10, .field = POTMEANDER_TICK, .difference = 4294967295,
      .rest_offset = 10, .rest_len = 8}},
    {"2^31 against 0", "414E 80000000 00 5E", "414E 00000000 00 5E",
     {.field = POTMEANDER_TICK, .difference = 2147483648, .rest_len = 8}},
    {"mark", EV_1 AN_50 EV_31, EV_1 EV_31,
     {.device_offset = 10, .model_offset = 10, .field = POTMEANDER_MARK, .difference = 19,
      .rest_offset = 10, .rest_len = 18}},
    {"mark alone", "4556 00000029 00 5E 0000", AN_41, {.field = POTMEANDER_MARK, .rest_len = 10}},
    {"tick, and all behind it", AN_41, "414E 00000032 01 5F",
     {.field = POTMEANDER_TICK, .difference = -9, .rest_len = 8}},
    {"instance, and all behind it", EV_1, "4556 00000001 0F 05 0192", {.field = POTMEANDER_INSTANCE, .rest_len = 10}},
    {"priority and information", EV_1, "4556 00000001 00 05 0192", {.field = POTMEANDER_PRIORITY, .rest_len = 10}},
    {"information", EV_1, "4556 00000001 00 04 0091", {.field = POTMEANDER_INFORMATION, .rest_len = 10}},
    {"answer", AN_41 EV_1, "414E 00000029 00 5F", {.field = POTMEANDER_ANSWER, .rest_len = 18}},
    {"device cut", EV_1 "414E 00000029 00", EV_1 AN_41,
     {.number = POTMEANDER_CUT, .device_offset = 10, .rest_offset = 17}},
    {"device with one byte more", EV_1 "FF", EV_1, {.number = POTMEANDER_CUT, .device_offset = 10, .rest_offset = 11}},
    {"mark of a session, and cut", AN_41, AN_41 "544B 00",
     {.number = POTMEANDER_UNKNOWN_MARK, .refused = POTMEANDER_MODEL, .model_offset = 8, .rest_offset = 8}},
    {"both refused, the model's before", EV_1 EV_31 "45", "454E 00000001 00 04 0191",
     {.number = POTMEANDER_CUT, .device_offset = 20, .rest_offset = 21}},
    {"refusal behind the difference", EV_1 EV_31 AN_41, EV_31 EV_31 "414E 00000029",
     {.number = POTMEANDER_CUT, .refused = POTMEANDER_MODEL, .model_offset = 20, .rest_offset = 28}},
    {"refusal behind the other's end", EV_1 AN_41 "6556", EV_1,
     {.number = POTMEANDER_UNKNOWN_MARK, .device_offset = 18, .rest_offset = 20}},
};

enum { VECTORS_COUNT = sizeof VECTORS / sizeof VECTORS[0], VECTOR_MAX = 64 };

static unsigned digit(char c)
{
    return (unsigned)(c <= '9' ? c - '0' : c - 'A' + 10);
}

/* Two digits to a byte; blanks stand between bytes. */
static size_t read_hex(const char *text, uint8_t *bytes)
{
    size_t len = 0;
    while (*text != 0) {
        if (*text == ' ') {
            text++;
            continue;
        }
        bytes[len++] = (uint8_t)(digit(text[0]) << 4 | digit(text[1]));
        text += 2;
    }
    return len;
}

static bool finds(comparing which, const vector *v)
{
    uint8_t device[VECTOR_MAX], model[VECTOR_MAX];
    size_t device_len = read_hex(v->device, device), model_len = read_hex(v->model, model);
    second_finding f = which.compare(device, device_len, model, model_len);
    if (same_finding(f, v->finding)) return true;
    printf("BY HAND, %s\n", v->what);
    print_finding("expected", v->finding);
    print_finding(which.name, f);
    return false;
}

static bool vectors_agree(void)
{
    for (unsigned i = 0; i < VECTORS_COUNT; i++) {
        if (!finds(FIRST, &VECTORS[i]) || !finds(SECOND, &VECTORS[i])) return false;
    }
    printf("%u pairs by hand: no difference\n", (unsigned)VECTORS_COUNT);
    return true;
}

/* ---- What the header says beside: null with length 0, logs that overlap; and logs of a megabyte ---- */

static bool expect(const char *what, second_finding f, second_finding expected)
{
    if (same_finding(f, expected)) return true;
    printf("%s\n", what);
    print_finding("expected", expected);
    print_finding(FIRST.name, f);
    return false;
}

static bool nulls_agree(void)
{
    static const uint8_t record[] = {'A', 'N', 0, 0, 0, 41, 0, 0x5E};
    second_finding equal = {.all = 1}, device = {.rest_len = 8}, model = {.rest_of = POTMEANDER_MODEL, .rest_len = 8};
    return expect("NULL, both", compare_library(NULL, 0, NULL, 0), equal) &&
           expect("NULL, the model's log", compare_library(record, sizeof record, NULL, 0), device) &&
           expect("NULL, the device's log", compare_library(NULL, 0, record, sizeof record), model);
}

enum { LONG_RECORDS = 100000, EV_SIZE = 10 };

static uint8_t long_log[LONG_RECORDS * EV_SIZE], other_long_log[LONG_RECORDS * EV_SIZE];

static void put_event(uint8_t *to, uint32_t tick)
{
    memcpy(to, (const uint8_t[]){'E', 'V', 0, 0, 0, 0, 0, 4, 1, 0x91}, EV_SIZE);
    for (unsigned i = 0; i < 4; i++) to[2 + i] = (uint8_t)(tick >> (24 - 8 * i));
}

/* The last record differs; and, against itself a record later, the first. */
static bool long_logs_agree(void)
{
    const size_t len = sizeof long_log, last = len - EV_SIZE;
    for (uint32_t i = 0; i < LONG_RECORDS; i++) put_event(long_log + i * EV_SIZE, 30 * i);
    memcpy(other_long_log, long_log, len);
    put_event(other_long_log + last, 30 * LONG_RECORDS);
    second_finding at_last = {.device_offset = last, .model_offset = last, .field = POTMEANDER_TICK, .difference = 30,
                              .rest_offset = last, .rest_len = EV_SIZE};
    second_finding at_first = {.field = POTMEANDER_TICK, .difference = -30, .rest_len = last};
    return expect("LONG LOGS", compare_library(other_long_log, len, long_log, len), at_last) &&
           expect("OVERLAPPING LOGS", compare_library(long_log, last, long_log + EV_SIZE, last), at_first);
}

/* ---- From a seed ---- */

static bool pairs_agree(uint64_t seed, uint64_t count, char profile)
{
    for (uint64_t i = 0; i < count; i++) {
        log_pair p = generate_pair(seed + i, profile);
        if (findings_agree(&p, FIRST, SECOND)) continue;
        print_pair_difference(&p, FIRST, SECOND);
        return false;
    }
    return true;
}

static bool is_profile(const char *text)
{
    return text[0] >= 'a' && text[0] <= PAIRS_LAST_PROFILE && text[1] == 0;
}

int main(int argc, char **argv)
{
    if (argc < 3 || argc > 4 || (argc == 4 && !is_profile(argv[3]))) {
        printf("usage: sides SEED COUNT [PROFILE a to %c]\n", PAIRS_LAST_PROFILE);
        return 2;
    }
    uint64_t seed = strtoull(argv[1], NULL, 10), count = strtoull(argv[2], NULL, 10);
    char profile = argc == 4 ? argv[3][0] : 0;
    if (!vectors_agree() || !nulls_agree() || !long_logs_agree()) return 1;
    printf("null with length 0, a megabyte, logs that overlap: no difference\n");
    if (!pairs_agree(seed, count, profile)) return 1;
    printf("%lu pairs, seeds %lu to %lu, %s: no difference\n", (unsigned long)count, (unsigned long)seed,
           (unsigned long)(seed + count - 1), profile ? argv[3] : "all profiles");
    return 0;
}
