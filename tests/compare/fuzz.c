/* fuzz MINUTES SEED: inputs mutated again and again, through the C calls and the second program, until the time is up.
   Mutants that still find a way go back among the parents, so that the mutations pile up on readable inputs. */
#include "both.h"
#include "inputs.h"
#include <stdio.h>
#include <stdlib.h>
#include <string.h>
#include <time.h>

enum { PARENTS = 64, SLICE = 24 };

static both_input parents[PARENTS];
static inputs_dice dice;

static uint32_t roll(uint32_t sides) { return inputs_roll(&dice, sides); }

/* One change to a run of bytes; another run may be copied in. */
static void mutate(uint8_t *bytes, size_t *length, size_t most, const uint8_t *other, size_t other_length)
{
    size_t at = roll((uint32_t)*length + 1), n = 1 + roll(SLICE), from = roll((uint32_t)other_length + 1);
    if (n > *length - at) n = *length - at;
    switch (roll(6)) {
    case 0:
        if (n) bytes[at] ^= (uint8_t)(1 << roll(8));
        break;
    case 1:
        if (n) bytes[at] = (uint8_t)(roll(2) ? roll(21) : roll(256));
        break;
    case 2:
        if (*length < most) {
            memmove(bytes + at + 1, bytes + at, (*length)++ - at);
            bytes[at] = (uint8_t)roll(roll(2) ? 12 : 256);
        }
        break;
    case 3:
        memmove(bytes + at, bytes + at + n, *length - at - n);
        *length -= n;
        break;
    case 4:
        if (*length + n <= most) {
            memmove(bytes + at + n, bytes + at, *length - at);
            *length += n;
        }
        break;
    default:
        if (n > other_length - from) n = other_length - from;
        memcpy(bytes + at, other + from, n);
    }
}

/* A site made readable again: whole triples, terms in range, in order. */
static void mend_site(both_input *in)
{
    in->site_length -= in->site_length % 7;
    if (in->site_length > 7 * 1024) in->site_length = 7 * 1024;
    for (size_t i = 0; i < in->site_length; i += 7) {
        in->site[i] = 10;
        in->site[i + 1] = in->site[i + 3] = in->site[i + 5] = 0;
    }
    inputs_put_in_order(in);
}

/* A rule made readable again: what cannot be read is left out, and what is left over is joined. */
static void mend_rule(both_input *in)
{
    static const size_t body[] = { 0, 1, 3, 1, 0, 0, 0 };
    static const int wanted[] = { 0, 0, 0, 1, 2, 2, 1 };
    uint8_t made[BOTH_RULE];
    size_t length = 0;
    int height = 0, records = 0;
    for (size_t i = 0; i < in->rule_length;) {
        int kind = in->rule[i] % 8;
        size_t size = kind > 6 ? 1 : 1 + body[kind];
        int height_after = kind > 2 ? height - (wanted[kind % 7] == 2) : height + 1;
        /* every further expression costs a record to join it */
        if (kind >= 1 && kind <= 6 && i + size <= in->rule_length && height >= wanted[kind] && records + height_after <= 32) {
            made[length++] = (uint8_t)kind;
            if (body[kind]) made[length++] = in->rule[i + 1] % 7;
            if (kind == 2) {
                made[length++] = 0;
                made[length++] = in->rule[i + 3];
            }
            height = height_after;
            records++;
        }
        i += size;
    }
    for (; height > 1; height--) made[length++] = (uint8_t)(4 + roll(2));
    memcpy(in->rule, made, length);
    in->rule_length = length;
}

static uint32_t likely_term(const both_input *in)
{
    if (roll(32) == 0) return (uint32_t)inputs_draw(&dice);
    if (in->site_length < 7 || roll(4) == 0) return roll(256);
    return in->site[roll((uint32_t)(in->site_length / 7)) * 7 + 2 + 2 * roll(3)];
}

static void breed(both_input *child, const both_input *parent, const both_input *other)
{
    *child = *parent;
    child->contents = (uint32_t)inputs_draw(&dice);
    for (uint32_t n = 1 + roll(4); n > 0; n--) {
        uint32_t way = roll(16);
        if (way < 6) mutate(child->site, &child->site_length, BOTH_SITE - SLICE, other->site, other->site_length);
        else if (way < 12) mutate(child->rule, &child->rule_length, BOTH_RULE - 2 * SLICE, other->rule, other->rule_length);
        else if (way == 12) child->start = likely_term(child);
        else if (way == 13) child->end = likely_term(child);
        else if (way == 14) { /* another's rule on this site */
            memcpy(child->rule, other->rule, other->rule_length);
            child->rule_length = other->rule_length;
        } else if (roll(8) == 0) inputs_damage(child, &dice);
    }
    if (roll(4)) mend_site(child);
    if (roll(4)) mend_rule(child);
}

static unsigned long ways(const both_seen *seen) { return seen->count[SEEN_YES] + seen->count[SEEN_LONG_PATH]; }

static void renew(uint32_t chosen, unsigned long turn)
{
    if (turn % 2) inputs_extreme(&parents[chosen], &dice, inputs_turn(turn / 2));
    else inputs_sound(&parents[chosen], &dice);
}

int main(int count, char **words)
{
    static both_input child;
    both_seen seen = { { 0 } };
    if (count != 3) {
        fprintf(stderr, "usage: fuzz MINUTES SEED\n");
        return 2;
    }
    double minutes = strtod(words[1], NULL);
    unsigned long seed = strtoul(words[2], NULL, 10), executions = 0;
    int differences = 0;
    time_t began = time(NULL);
    both_begin();
    dice.state = seed;
    for (uint32_t i = 0; i < PARENTS; i++) renew(i, i);
    while (!differences && difftime(time(NULL), began) < 60 * minutes) {
        uint32_t chosen = roll(PARENTS);
        unsigned long before = ways(&seen);
        breed(&child, &parents[chosen], &parents[roll(PARENTS)]);
        differences = both_check(&child, &seen);
        executions++;
        if (ways(&seen) > before) parents[chosen] = child;
        else if (roll(32) == 0) renew(chosen, executions); /* fresh blood, or all parents grow alike */
    }
    both_print_seen(&seen);
    printf("%lu executions, %lu calls, seed %lu, %.1f minutes: %d differences\n", executions, seen.count[SEEN_CALLS], seed,
           difftime(time(NULL), began) / 60, differences);
    return differences != 0;
}
