/* Shows that the comparison of two logs bites: each wrong comparison of second/compared_faults.h must be told apart
 * from the right one by the generator's pairs.
 *   sides_bite SEED COUNT      at most COUNT pairs for each
 * Ends with status 1 if a wrong comparison was not told apart. */
#include "lib/findings.h"
#include "lib/pairs.h"
#include "second/compared.h"

#include <stdio.h>
#include <stdlib.h>

static const char *const FAULT_NAMES[] = {
    "none",
#define X(name, text) text,
    COMPARED_FAULT_LIST(X)
#undef X
};

static int fault; /* the wrong comparison that is sought */

static second_finding compare_wrong(const uint8_t *device, size_t device_len, const uint8_t *model, size_t model_len)
{
    compared_fault = fault;
    second_finding f = second_compare(device, device_len, model, model_len);
    compared_fault = COMPARED_NO_FAULT;
    return f;
}

static const comparing RIGHT = {"right", second_compare}, WRONG = {"wrong", compare_wrong};

/* How many pairs it takes to tell the fault apart; 0 where COUNT do not. */
static uint64_t pairs_needed(uint64_t seed, uint64_t count)
{
    for (uint64_t i = 0; i < count; i++) {
        log_pair p = generate_pair(seed + i, 0);
        if (findings_agree(&p, WRONG, RIGHT)) continue;
        printf("%3d  seed %5lu  profile %c  %s\n", fault, (unsigned long)p.seed, p.profile, FAULT_NAMES[fault]);
        return i + 1;
    }
    printf("%3d  NOT TOLD APART  %s\n", fault, FAULT_NAMES[fault]);
    return 0;
}

int main(int argc, char **argv)
{
    if (argc != 3) {
        printf("usage: sides_bite SEED COUNT\n");
        return 2;
    }
    uint64_t seed = strtoull(argv[1], NULL, 10), count = strtoull(argv[2], NULL, 10), most = 0;
    int missed = 0;
    for (fault = 1; fault < COMPARED_FAULTS_END; fault++) {
        uint64_t needed = pairs_needed(seed, count);
        missed += needed == 0;
        if (needed > most) most = needed;
    }
    printf("%d of %d wrong comparisons told apart, each within %lu pairs\n", COMPARED_FAULTS_END - 1 - missed,
           COMPARED_FAULTS_END - 1, (unsigned long)most);
    return missed > 0;
}
