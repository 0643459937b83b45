/* What include/potmeander.h says beside the records: null with length 0, the stack that a call uses, calls from two threads. */
#include "lib/generator.h"
#include "potmeander.h"

#include <pthread.h>
#include <stdbool.h>
#include <stdio.h>
#include <string.h>

enum { CASES = 4000, STACK = 1 << 17 };

static bool same(potmeander_reading a, potmeander_reading b)
{
    return a.number == b.number && a.offset == b.offset && a.written == b.written && a.ticks == b.ticks;
}

/* ---- null with length 0 */

static bool nulls(void)
{
    static const uint8_t declared_and_asked[] = {'I', 'N', 0, 4, 8, 'F', 'R', 1, 0, 0x80};
    potmeander_reading nothing = {POTMEANDER_TAKEN, 0, 0, 0}, full = {POTMEANDER_FULL, 5, 0, 0};
    uint8_t log[8];
    return same(potmeander_session(NULL, 0, log, sizeof log), nothing) && same(potmeander_session(NULL, 0, NULL, 0), nothing) &&
           same(potmeander_session(declared_and_asked, sizeof declared_and_asked, NULL, 0), full);
}

/* ---- the stack: a call on one that is painted, and the paint that is left */

static uint8_t stack[STACK] __attribute__((aligned(16)));
static uint8_t log_of_case[GENERATOR_LOG_MAX];
static test_case case_read;

static void read_case(void)
{
    potmeander_session(case_read.session, case_read.session_len, log_of_case, case_read.log_len);
}

static void on_painted_stack(void (*call)(void))
{
    __asm__ volatile("movq %%rsp, %%rbx\n\tmovq %0, %%rsp\n\tcall *%1\n\tmovq %%rbx, %%rsp"
                     :
                     : "r"(stack + STACK), "r"(call)
                     : "rbx", "rax", "rcx", "rdx", "rsi", "rdi", "r8", "r9", "r10", "r11", "cc", "memory", "xmm0", "xmm1", "xmm2",
                       "xmm3", "xmm4", "xmm5", "xmm6", "xmm7", "xmm8", "xmm9", "xmm10", "xmm11", "xmm12", "xmm13", "xmm14", "xmm15");
}

static void compare_logs(void)
{
    static const uint8_t device[] = "EV\0\0\0\1\0\4\1\x91" "AN\0\0\0\2\0\x5E", model[] = "EV\0\0\0\1\0\4\1\x91" "AN\0\0\0\2\0\x5F";
    potmeander_compare(device, sizeof device - 1, model, sizeof model - 1);
}

/* The calls of the hour table, on the same session and on its log. */
static void fill_tables(void)
{
    static uint32_t events[POTMEANDER_ENTRIES], gaps[POTMEANDER_ENTRIES];
    potmeander_reading r = potmeander_session_hours(case_read.session, case_read.session_len, log_of_case, case_read.log_len, events,
                                                    POTMEANDER_ENTRIES, gaps, POTMEANDER_ENTRIES);
    potmeander_hours(log_of_case, r.written, events, POTMEANDER_ENTRIES, gaps, POTMEANDER_ENTRIES);
    potmeander_hour(log_of_case, r.written, 0);
}

static size_t stack_used(void (*call)(void))
{
    memset(stack, 0xA5, STACK);
    on_painted_stack(call);
    size_t left = 0;
    while (left < STACK && stack[left] == 0xA5) left++;
    return STACK - left;
}

static size_t most_stack(void)
{
    size_t most = stack_used(compare_logs);
    for (uint64_t seed = 1; seed <= CASES; seed++) {
        case_read = generate(seed, 0);
        size_t used = stack_used(read_case), tables = stack_used(fill_tables);
        if (used < tables) used = tables;
        if (used > most) most = used;
    }
    return most;
}

/* ---- two threads, each with a session and a log of its own */

typedef struct {
    uint8_t session[8192], log[GENERATOR_LOG_MAX], alone[GENERATOR_LOG_MAX];
    size_t session_len, log_len;
    potmeander_reading reading;
    bool good;
} reader;

static void *read_again(void *given)
{
    reader *r = given;
    r->good = true;
    for (int i = 0; i < 2000; i++) {
        memset(r->log, 0, sizeof r->log);
        potmeander_reading now = potmeander_session(r->session, r->session_len, r->log, r->log_len);
        r->good = r->good && same(now, r->reading) && memcmp(r->log, r->alone, sizeof r->log) == 0;
    }
    return NULL;
}

static bool take_case(reader *r, uint64_t seed)
{
    test_case c = generate(seed, 'a');
    if (c.session_len > sizeof r->session) return false;
    memcpy(r->session, c.session, c.session_len);
    r->session_len = c.session_len, r->log_len = c.log_len;
    r->reading = potmeander_session(r->session, r->session_len, r->alone, r->log_len);
    return r->reading.written > 0;
}

static bool threads(void)
{
    static reader one, two;
    pthread_t other;
    if (!take_case(&one, 1) || !take_case(&two, 2)) return false;
    if (pthread_create(&other, NULL, read_again, &two) != 0) return false;
    read_again(&one);
    return pthread_join(other, NULL) == 0 && one.good && two.good;
}

int main(void)
{
    printf("null with length 0: %s\n", nulls() ? "as an empty slice" : "NOT as an empty slice");
    printf("two threads: %s\n", threads() ? "as one by one" : "NOT as one by one");
    printf("stack: %lu bytes at most\n", (unsigned long)most_stack());
    return 0;
}
