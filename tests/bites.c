/* Shows that the comparison bites: each wrong model of second/faults.h must be told apart from the right one by the generator's
 * sessions.
 *   bites SEED COUNT      at most COUNT sessions for each wrong model
 * Ends with status 1 if a wrong model was not told apart. */
#include "lib/comparison.h"
#include "lib/generator.h"
#include "lib/pieces.h"
#include "second/second.h"

#include <stdio.h>
#include <stdlib.h>

static const char *const FAULT_NAMES[] = {
    "none",
#define X(name, text) text,
    SECOND_FAULT_LIST(X)
#undef X
};

static int fault; /* the wrong model that is sought */

static second_reading read_whole(const test_case *c, uint8_t *log, size_t log_len)
{
    return second_case(c, second_read, log, log_len);
}

static second_reading read_wrong(const test_case *c, uint8_t *log, size_t log_len)
{
    second_fault = fault;
    second_reading r = read_whole(c, log, log_len);
    second_fault = NO_FAULT;
    return r;
}

/* What a wrong model leaves behind in its state shows when the reading goes on from it. */
static second_reading read_wrong_in_pieces(const test_case *c, uint8_t *log, size_t log_len)
{
    second_fault = fault;
    second_reading r = second_case(c, second_in_pieces, log, log_len);
    second_fault = NO_FAULT;
    return r;
}

static const implementation RIGHT = {"right", read_whole};

/* The wrong model, read in one call and, if that does not tell, in pieces. */
static const implementation WRONG[] = {{"in one call", read_wrong}, {"in pieces", read_wrong_in_pieces}};

/* The first case that tells the fault apart. */
static bool seek(uint64_t seed, uint64_t count, implementation wrong, test_case *found)
{
    for (uint64_t i = 0; i < count; i++) {
        *found = generate(seed + i, 0);
        if (!agree(found, wrong, RIGHT)) return true;
    }
    return false;
}

static bool told_apart(uint64_t seed, uint64_t count)
{
    for (int how = 0; how < 2; how++) {
        test_case c;
        if (!seek(seed, count, WRONG[how], &c)) continue;
        printf("%3d  seed %5lu  profile %c  %-11s  %s\n", fault, (unsigned long)c.seed, c.profile, WRONG[how].name,
               FAULT_NAMES[fault]);
        return true;
    }
    printf("%3d  NOT TOLD APART  %s\n", fault, FAULT_NAMES[fault]);
    return false;
}

int main(int argc, char **argv)
{
    if (argc != 3) {
        printf("usage: bites SEED COUNT\n");
        return 2;
    }
    uint64_t seed = strtoull(argv[1], NULL, 10), count = strtoull(argv[2], NULL, 10);
    int missed = 0;
    for (fault = 1; fault < FAULTS_END; fault++) missed += !told_apart(seed, count);
    printf("%d of %d wrong models told apart\n", FAULTS_END - 1 - missed, FAULTS_END - 1);
    return missed > 0;
}
