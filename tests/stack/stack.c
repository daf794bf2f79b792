/* stack N SEED: how many bytes of stack each C call takes, the deepest of N inputs, measured on a painted stack.
   A call runs on a stack of its own, filled with a pattern beforehand; the lowest byte that is not the pattern tells. */
#define _DEFAULT_SOURCE
#include "carolivy.h"
#include "../compare/inputs.h"
#include "painted.h"
#include <stdio.h>
#include <stdlib.h>

enum { CALLS = 4 };

static const char *const names[CALLS] = { "carolivy_decide", "carolivy_list_ends", "carolivy_list_starts", "carolivy_ceiling_of" };
static uint8_t asked[BOTH_LENT], numbers[BOTH_LENT], third[BOTH_LENT], room[BOTH_LENT];
static both_input in;

/* What is called: a call of the library, or one of the same shape that does nothing, which takes its return address. */
typedef carolivy_decision decide_call(const uint8_t *, size_t, const uint8_t *, size_t, uint32_t, uint32_t, uint8_t *, size_t, uint8_t *, size_t, uint8_t *, size_t);
typedef carolivy_ends ends_call(const uint8_t *, size_t, const uint8_t *, size_t, uint32_t, uint8_t *, size_t, uint8_t *, size_t, uint8_t *, size_t);
typedef carolivy_starts starts_call(const uint8_t *, size_t, const uint8_t *, size_t, uint32_t, uint8_t *, size_t, uint8_t *, size_t, uint8_t *, size_t);
typedef carolivy_ceiling ceiling_call(const uint8_t *, size_t, const uint8_t *, size_t);
enum { RETURN_ADDRESS = 8 };

static carolivy_decision no_decide(const uint8_t *s, size_t sl, const uint8_t *r, size_t rl, uint32_t z, uint32_t v, uint8_t *a, size_t al, uint8_t *n, size_t nl, uint8_t *m, size_t ml)
{
    carolivy_decision nothing = { 0, 0, 0, 0, 0 };
    (void)s, (void)sl, (void)r, (void)rl, (void)z, (void)v, (void)a, (void)al, (void)n, (void)nl, (void)m, (void)ml;
    return nothing;
}
static carolivy_ends no_ends(const uint8_t *s, size_t sl, const uint8_t *r, size_t rl, uint32_t z, uint8_t *a, size_t al, uint8_t *n, size_t nl, uint8_t *m, size_t ml)
{
    carolivy_ends nothing = { 0, 0, 0, 0, 0 };
    (void)s, (void)sl, (void)r, (void)rl, (void)z, (void)a, (void)al, (void)n, (void)nl, (void)m, (void)ml;
    return nothing;
}
static carolivy_starts no_starts(const uint8_t *s, size_t sl, const uint8_t *r, size_t rl, uint32_t v, uint8_t *a, size_t al, uint8_t *n, size_t nl, uint8_t *m, size_t ml)
{
    carolivy_starts nothing = { 0, 0, 0, 0 };
    (void)s, (void)sl, (void)r, (void)rl, (void)v, (void)a, (void)al, (void)n, (void)nl, (void)m, (void)ml;
    return nothing;
}
static carolivy_ceiling no_ceiling(const uint8_t *s, size_t sl, const uint8_t *r, size_t rl)
{
    carolivy_ceiling nothing = { 0, 0, 0, 0 };
    (void)s, (void)sl, (void)r, (void)rl;
    return nothing;
}

/* One that is known to take KNOWN bytes and little more, to see that the measuring works. */
enum { KNOWN = 3000, LITTLE = 64 };
static carolivy_ceiling known_ceiling(const uint8_t *s, size_t sl, const uint8_t *r, size_t rl)
{
    volatile uint8_t local[KNOWN];
    for (int i = 0; i < KNOWN; i++) local[i] = (uint8_t)i;
    (void)local[KNOWN / 2];
    return no_ceiling(s, sl, r, rl);
}

static decide_call *volatile decide;
static ends_call *volatile ends;
static starts_call *volatile starts;
static ceiling_call *volatile ceiling;

static int called;
static void call(void)
{
    static volatile uint64_t result; /* so that no call is left out */
    if (called == 0) result = decide(in.site, in.site_length, in.rule, in.rule_length, in.start, in.end, asked, in.asked_length,
                                    numbers, in.numbers_length, room, in.room_length).figure;
    if (called == 1) result = ends(in.site, in.site_length, in.rule, in.rule_length, in.start, asked, in.asked_length,
                                  numbers, in.numbers_length, third, in.third_length).figure;
    if (called == 2) result = starts(in.site, in.site_length, in.rule, in.rule_length, in.end, asked, in.asked_length,
                                    numbers, in.numbers_length, third, in.third_length).starts;
    if (called == 3) result = ceiling(in.site, in.site_length, in.rule, in.rule_length).ceiling;
    (void)result;
}

/* A byte that is left as painted by chance is written in another paint. */
static size_t deepest(int which)
{
    called = which;
    size_t one = painted_use(call, 0xa5), other = painted_use(call, 0x3c);
    return one > other ? one : other;
}

/* Beyond the empty call lies what the call itself takes; its return address, which the empty call pushes too, is its own. */
static size_t taken(int which, ceiling_call *of)
{
    decide = no_decide, ends = no_ends, starts = no_starts, ceiling = no_ceiling;
    size_t empty = deepest(which);
    decide = carolivy_decide, ends = carolivy_list_ends, starts = carolivy_list_starts, ceiling = of;
    return deepest(which) - empty + RETURN_ADDRESS;
}

/* Rules of 32 records that nest as deep as they can: first operands in first operands, second in second, which is where the
   reader recurses deepest, tests in tests, and stars under the second operand of a join. */
enum { WAYS = 4 };
static void add(int kind, int times)
{
    for (; times > 0; times--) {
        in.rule[in.rule_length++] = (uint8_t)kind;
        if (kind < 4) in.rule[in.rule_length++] = kind == 1; /* next, or a tested self */
    }
}
static void nest(int way)
{
    in.rule_length = 0;
    add(1, way == 1 ? 16 : way == 3 ? 2 : 1);
    if (way == 0) for (int i = 1; i < 16; i++) add(1, 1), add(4, 1);
    if (way == 1) add(5, 15);
    if (way == 2) add(3, 31);
    if (way == 3) add(6, 29), add(4, 1);
    if (way < 2) add(6, 1);
}

int main(int count, char **words)
{
    size_t most[CALLS] = { 0 }, deep;
    if (count != 3) {
        fprintf(stderr, "usage: stack N SEED\n");
        return 2;
    }
    unsigned long wanted = strtoul(words[1], NULL, 10);
    inputs_dice dice = { strtoul(words[2], NULL, 10) };
    for (unsigned long i = 0; i < wanted; i++) {
        if (i % 4 == 3) inputs_extreme(&in, &dice, 3 + (int)(i / 4 % 9)); /* those that take no second each */
        else inputs_sound(&in, &dice);
        if (i % 8 == 6) inputs_damage(&in, &dice);
        if (i % 4 == 0) nest((int)(i / 4 % WAYS));
        for (int which = 0; which < CALLS; which++)
            if ((deep = taken(which, carolivy_ceiling_of)) > most[which]) most[which] = deep;
    }
    for (int which = 0; which < CALLS; which++) printf("%s %zu\n", names[which], most[which]);
    deep = taken(CALLS - 1, known_ceiling);
    if (deep < KNOWN || deep > KNOWN + LITTLE) printf("%d bytes were measured as %zu\n", KNOWN, deep);
    return deep < KNOWN || deep > KNOWN + LITTLE;
}
