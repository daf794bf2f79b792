/* measure list|bytes|same|count|stack|time|repeat, a set of inputs and a side: one call for each input of the set, on buffers made ready.
   Every line printed begins with the number of the input; under callgrind, count dumps one part for each. */
#define _GNU_SOURCE
#include "carolivy.h"
#include "families.h"
#include "yardstick.h"
#include "../tests/stack/painted.h"
#include <stdio.h>
#include <stdlib.h>
#include <string.h>
#include <time.h>
#if defined __x86_64__ && __has_include(<valgrind/callgrind.h>)
#include <valgrind/callgrind.h>
#else
#define CALLGRIND_DUMP_STATS_AT(name) ((void)(name))
#endif

static const families_input *in;
static int inputs;

/* The lent buffers of each side; the room's contents beforehand show what is written. */
static uint8_t asked[2][CAROLIVY_ASKED], pairs[CAROLIVY_NUMBERS], room_pairs[CAROLIVY_ROOM];
static uint16_t numbers[CAROLIVY_NUMBERS / 2], room[CAROLIVY_ROOM / 2];
static uint8_t third[2][CAROLIVY_THIRD];
static carolivy_decision library;
static carolivy_ends library_ends;
static carolivy_starts library_starts;
static yardstick_decision yardstick;
static yardstick_ends ends;
static yardstick_starts starts;

static void make_ready(void)
{
    memset(asked, 0xa5, sizeof asked);
    memset(pairs, 0xa5, sizeof pairs);
    memset(numbers, 0xa5, sizeof numbers);
    memset(room, 0xa5, sizeof room);
    memset(room_pairs, 0xa5, sizeof room_pairs);
    memset(third, 0xa5, sizeof third);
}

/* What is counted. Each side is called the same way; the call of nothing is the count to take off. */
__attribute__((noinline)) carolivy_decision nothing(const uint8_t *site, size_t site_length, const uint8_t *rule, size_t rule_length,
    uint32_t start, uint32_t end, uint8_t *a, size_t a_length, uint8_t *n, size_t n_length, uint8_t *r, size_t r_length)
{
    __asm__ volatile("" : : "r"(site), "r"(rule), "r"(a), "r"(n), "r"(r), "r"(site_length + rule_length + a_length + n_length + r_length) : "memory");
    return (carolivy_decision){ 0, start == end, 0, 0, 0 };
}

__attribute__((noinline)) void measured_nothing(const families_input *i)
{
    library = nothing(i->site, i->site_length, i->rule, i->rule_length, i->start, i->end,
                      asked[0], sizeof asked[0], pairs, sizeof pairs, room_pairs, sizeof room_pairs);
}

__attribute__((noinline)) void measured_library(const families_input *i)
{
    library = carolivy_decide(i->site, i->site_length, i->rule, i->rule_length, i->start, i->end,
                              asked[0], sizeof asked[0], pairs, sizeof pairs, room_pairs, sizeof room_pairs);
}

__attribute__((noinline)) void measured_yardstick(const families_input *i)
{
    yardstick = yardstick_decide(i->site, i->site_length, i->rule, i->rule_length, i->start, i->end,
                                 asked[1], sizeof asked[1], numbers, CAROLIVY_NUMBERS / 2, room, CAROLIVY_ROOM / 2);
}

__attribute__((noinline)) void measured_library_ends(const families_input *i)
{
    library_ends = carolivy_list_ends(i->site, i->site_length, i->rule, i->rule_length, i->start,
                                      asked[0], sizeof asked[0], pairs, sizeof pairs, third[0], sizeof third[0]);
}

__attribute__((noinline)) void measured_yardstick_ends(const families_input *i)
{
    ends = yardstick_list_ends(i->site, i->site_length, i->rule, i->rule_length, i->start,
                               asked[1], sizeof asked[1], numbers, CAROLIVY_NUMBERS / 2, third[1], sizeof third[1]);
}

__attribute__((noinline)) void measured_library_starts(const families_input *i)
{
    library_starts = carolivy_list_starts(i->site, i->site_length, i->rule, i->rule_length, i->end,
                                          asked[0], sizeof asked[0], pairs, sizeof pairs, third[0], sizeof third[0]);
}

__attribute__((noinline)) void measured_yardstick_starts(const families_input *i)
{
    starts = yardstick_list_starts(i->site, i->site_length, i->rule, i->rule_length, i->end,
                                   asked[1], sizeof asked[1], numbers, CAROLIVY_NUMBERS / 2, third[1], sizeof third[1]);
}

typedef void (*side)(const families_input *);

static side side_named(const char *name)
{
    static const struct { const char *name; side call; } sides[] = {
        { "nothing", measured_nothing }, { "library", measured_library }, { "yardstick", measured_yardstick },
        { "library_ends", measured_library_ends }, { "yardstick_ends", measured_yardstick_ends },
        { "library_starts", measured_library_starts }, { "yardstick_starts", measured_yardstick_starts },
    };
    for (size_t i = 0; i < sizeof sides / sizeof *sides; i++)
        if (strcmp(name, sides[i].name) == 0) return sides[i].call;
    fprintf(stderr, "measure: no side %s\n", name);
    exit(2);
}

/* list: what each input is, with its answer by the yardstick */
static void list(void)
{
    printf("input,family,size,name,start,end,records,triples,ceiling,refusal,yes,figure,steps\n");
    for (int i = 0; i < inputs; i++) {
        uint64_t records = 0, figure = 0;
        for (size_t at = 0; at < in[i].rule_length; at += in[i].rule[at] == 2 ? 4 : in[i].rule[at] < 4 ? 2 : 1) records++;
        make_ready();
        measured_yardstick(&in[i]);
        for (size_t q = 0; q < sizeof asked[1]; q++) figure += asked[1][q]; /* at refusal 15 no figure is returned */
        yardstick_ceiling most = yardstick_ceiling_of(in[i].site, in[i].site_length, in[i].rule, in[i].rule_length);
        printf("%d,\"%s\",%d,\"%s\",%u,%u,%lu,%lu,%lu,%u,%u,%lu,%lu\n", i, in[i].family, in[i].size, in[i].name, in[i].start, in[i].end,
               (unsigned long)records, (unsigned long)in[i].site_length / 7, (unsigned long)most.ceiling, yardstick.refusal, yardstick.yes,
               (unsigned long)figure, (unsigned long)(yardstick.refusal ? yardstick.place : yardstick.steps));
    }
}

/* bytes: the site, the rule */

static void print_bytes(const uint8_t *bytes, size_t length)
{
    putchar(',');
    for (size_t i = 0; i < length; i++) printf("%02x", bytes[i]);
}

static void bytes(void)
{
    for (int i = 0; i < inputs; i++) {
        printf("%d", i);
        print_bytes(in[i].site, in[i].site_length);
        print_bytes(in[i].rule, in[i].rule_length);
        putchar('\n');
    }
}

/* same: both sides on every input, all that comes back compared */

static int pair_differs(const uint8_t *bytes, const uint16_t *native, size_t length)
{
    for (size_t i = 0; i < length; i++)
        if (bytes[2 * i] * 256 + bytes[2 * i + 1] != native[i]) return 1;
    return 0;
}

static int tables_differ(void)
{
    return memcmp(asked[0], asked[1], sizeof asked[0]) || pair_differs(pairs, numbers, CAROLIVY_NUMBERS / 2) || memcmp(third[0], third[1], sizeof third[0]);
}

static const char *list_that_differs(const families_input *i)
{
    make_ready();
    measured_library_ends(i);
    measured_yardstick_ends(i);
    if (library_ends.refusal != ends.refusal || library_ends.ends != ends.ends || library_ends.figure != ends.figure || tables_differ()) return "list of ends";
    make_ready();
    measured_library_starts(i);
    measured_yardstick_starts(i);
    if (library_starts.refusal != starts.refusal || library_starts.starts != starts.starts || tables_differ()) return "list of starts";
    return NULL;
}

static int same(void)
{
    int differ = 0;
    for (int i = 0; i < inputs; i++) {
        const char *what = NULL;
        make_ready();
        measured_library(&in[i]);
        measured_yardstick(&in[i]);
        if (library.refusal != yardstick.refusal || library.place != yardstick.place) what = "refusal";
        else if (library.yes != yardstick.yes || library.steps != yardstick.steps) what = "answer";
        else if (library.figure != yardstick.figure) what = "figure";
        else if (memcmp(asked[0], asked[1], sizeof asked[0])) what = "byte table";
        else if (pair_differs(pairs, numbers, CAROLIVY_NUMBERS / 2)) what = "number table";
        else if (pair_differs(room_pairs, room, CAROLIVY_ROOM / 2)) what = "path";
        else what = list_that_differs(&in[i]);
        if (!what) continue;
        printf("%d: %s, %d, %s: the %s differs\n", i, in[i].family, in[i].size, in[i].name, what);
        differ++;
    }
    printf("%d inputs, %d differ\n", inputs, differ);
    return differ != 0;
}

/* count: one part of callgrind's file for each input, of what the side's function takes */
static void count(side call)
{
    make_ready();
    call(&in[0]); /* what is done once only, such as binding names, is not a call's */
    CALLGRIND_DUMP_STATS_AT("first");
    for (int i = 0; i < inputs; i++) {
        char name[16];
        snprintf(name, sizeof name, "%d", i);
        make_ready();
        call(&in[i]);
        CALLGRIND_DUMP_STATS_AT(name);
    }
}

/* stack: the call on a stack painted beforehand; what is no longer paint was used */

static side stack_call;
static const families_input *stack_input;

static void on_painted_stack(void) { stack_call(stack_input); }

static size_t used(side call, const families_input *i)
{
    stack_call = call;
    stack_input = i;
    return painted_use(on_painted_stack, 0x5e);
}

/* The call of nothing takes its return address and the arguments on the stack as the side does; the address is counted. */
static void stack(side call)
{
    for (int i = 0; i < inputs; i++) {
        make_ready();
        size_t base = used(measured_nothing, &in[i]), all = used(call, &in[i]);
        printf("%d,%zu\n", i, all - base + 8);
    }
}

/* time: nanoseconds of one call, once, after one that warms the caches */

static long nanoseconds(clockid_t clock, side call, const families_input *i)
{
    struct timespec from, to;
    clock_gettime(clock, &from);
    call(i);
    clock_gettime(clock, &to);
    return (to.tv_sec - from.tv_sec) * 1000000000L + to.tv_nsec - from.tv_nsec;
}

static void clock_calls(side call)
{
    for (int i = 0; i < inputs; i++) {
        make_ready();
        call(&in[i]);
        make_ready();
        printf("%d,%ld\n", i, nanoseconds(CLOCK_MONOTONIC, call, &in[i]));
    }
}

/* repeat: nanoseconds on the processor, of the quickest and of the middle one of many calls, and how many */

enum { CALLS = 2001 };

static int by_size(const void *a, const void *b) { return (*(const long *)a > *(const long *)b) - (*(const long *)a < *(const long *)b); }

static void repeat(side call)
{
    static long took[CALLS];
    for (int i = 0; i < inputs; i++) {
        for (int n = 0; n < CALLS / 10; n++) call(&in[i]);
        for (int n = 0; n < CALLS; n++) {
            make_ready();
            took[n] = nanoseconds(CLOCK_THREAD_CPUTIME_ID, call, &in[i]);
        }
        qsort(took, CALLS, sizeof *took, by_size);
        printf("%d,%ld,%ld,%d\n", i, took[0], took[CALLS / 2], CALLS);
    }
}

int main(int words, char **word)
{
    if (words < 3 || words > 4) {
        fprintf(stderr, "usage: measure list|bytes|same SET, or measure count|stack|time|repeat SET SIDE; SET is families, slots or peers, SIDE library or yardstick, or one of these with _ends or _starts\n");
        return 2;
    }
    inputs = strcmp(word[2], "slots") == 0 ? families_slots(&in) : strcmp(word[2], "peers") == 0 ? families_peers(&in) : families_all(&in);
    if (strcmp(word[1], "list") == 0) list();
    else if (strcmp(word[1], "bytes") == 0) bytes();
    else if (strcmp(word[1], "same") == 0) return same();
    else if (words == 4 && strcmp(word[1], "count") == 0) count(side_named(word[3]));
    else if (words == 4 && strcmp(word[1], "stack") == 0) stack(side_named(word[3]));
    else if (words == 4 && strcmp(word[1], "time") == 0) clock_calls(side_named(word[3]));
    else if (words == 4 && strcmp(word[1], "repeat") == 0) repeat(side_named(word[3]));
    else return 2;
    return 0;
}
