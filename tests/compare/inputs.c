/* Inputs for the comparison: sound ones, extreme ones, and damage done to either.
   Half of the sound rules are grown along a walk through the site, since rules drawn blindly mostly say no. */
#include "inputs.h"
#include "second.h"
#include <stdlib.h>
#include <string.h>

enum { ANY, NAMED_ONE, TESTED_ONE }; /* labels */
enum { AXES = 7, TRIPLES = 1024, RECORDS = 32 };

uint64_t inputs_draw(inputs_dice *dice)
{
    uint64_t x = dice->state += 0x9e3779b97f4a7c15u;
    x = (x ^ x >> 30) * 0xbf58476d1ce4e5b9u;
    x = (x ^ x >> 27) * 0x94d049bb133111ebu;
    return x ^ x >> 31;
}

uint32_t inputs_roll(inputs_dice *dice, uint32_t sides) { return (uint32_t)(inputs_draw(dice) >> 33) % sides; }

static int chance(inputs_dice *dice, uint32_t in, uint32_t of) { return inputs_roll(dice, of) < in; }
static int between(inputs_dice *dice, int low, int high) { return low + (int)inputs_roll(dice, (uint32_t)(high - low + 1)); }

/* Sites */

static void clear(both_input *in, inputs_dice *dice)
{
    memset(in, 0, sizeof *in);
    in->asked_length = 8192;
    in->numbers_length = 16384;
    in->third_length = 256;
    in->room_length = 6144;
    in->contents = (uint32_t)inputs_draw(dice);
}

static void add_triple(both_input *in, int s, int p, int o)
{
    uint8_t bytes[7] = { 10, 0, (uint8_t)s, 0, (uint8_t)p, 0, (uint8_t)o };
    memcpy(in->site + in->site_length, bytes, 7);
    in->site_length += 7;
}

static int by_bytes(const void *a, const void *b) { return memcmp(a, b, 7); }

void inputs_put_in_order(both_input *in)
{
    size_t kept = 0, whole = in->site_length / 7;
    qsort(in->site, whole, 7, by_bytes); /* terms are high byte first, so bytes order them */
    for (size_t i = 0; i < whole; i++)
        if (kept == 0 || memcmp(in->site + 7 * (kept - 1), in->site + 7 * i, 7) != 0)
            memmove(in->site + 7 * kept++, in->site + 7 * i, 7);
    in->site_length = 7 * kept;
}

static void shuffle(int *terms, inputs_dice *dice)
{
    for (int i = 0; i < 256; i++) terms[i] = i;
    for (int i = 255; i > 0; i--) {
        int j = (int)inputs_roll(dice, (uint32_t)i + 1), t = terms[i];
        terms[i] = terms[j];
        terms[j] = t;
    }
    for (int i = 0; i < 2; i++) /* the outermost terms are worth having often */
        for (int j = 0; chance(dice, 1, 2) && j < 256; j++)
            if (terms[j] == 255 * i) {
                int t = terms[i];
                terms[i] = terms[j];
                terms[j] = t;
            }
}

static void scattered_site(both_input *in, inputs_dice *dice, int places, int predicates, int triples)
{
    int terms[256];
    shuffle(terms, dice);
    /* the predicates are the places themselves, or others, or some of both */
    int from = chance(dice, 1, 3) ? 0 : chance(dice, 1, 3) ? places / 2 : places;
    if (from + predicates > 256) from = 256 - predicates;
    for (int tries = 0; tries < 4; tries++) {
        while (in->site_length < 7 * (size_t)triples) {
            int s = terms[inputs_roll(dice, (uint32_t)places)], p = terms[from + (int)inputs_roll(dice, (uint32_t)predicates)];
            add_triple(in, s, p, terms[inputs_roll(dice, (uint32_t)places)]);
        }
        inputs_put_in_order(in);
    }
}

static void ring_site(both_input *in, inputs_dice *dice, int places, int predicates, int chords)
{
    int terms[256];
    shuffle(terms, dice);
    int closed = chance(dice, 2, 3), from = places + predicates > 256 ? 256 - predicates : places;
    for (int i = 0; i < places - !closed; i++)
        add_triple(in, terms[i], terms[from + (int)inputs_roll(dice, (uint32_t)predicates)], terms[(i + 1) % places]);
    for (int i = 0; i < chords; i++)
        add_triple(in, terms[inputs_roll(dice, (uint32_t)places)], terms[inputs_roll(dice, 256)],
                   terms[inputs_roll(dice, (uint32_t)places)]);
    inputs_put_in_order(in);
}

static void full_site(both_input *in, inputs_dice *dice)
{
    int places = between(dice, 48, 256);
    scattered_site(in, dice, places, between(dice, 1, 16), TRIPLES);
    while (in->site_length < 7 * TRIPLES) {
        for (int i = 0; i < 64 && in->site_length < 7 * TRIPLES; i++)
            add_triple(in, (int)inputs_roll(dice, 256), (int)inputs_roll(dice, 256), (int)inputs_roll(dice, 256));
        inputs_put_in_order(in);
    }
}

static void random_site(both_input *in, inputs_dice *dice)
{
    static const struct { int places, predicates, triples; } size[] = {
        { 2, 1, 3 }, { 3, 2, 5 }, { 4, 3, 8 }, { 6, 2, 12 }, { 6, 6, 16 }, { 10, 3, 20 },
        { 12, 4, 40 }, { 30, 4, 45 }, { 60, 8, 120 }, { 200, 3, 260 }, { 256, 256, 60 }, { 256, 20, 500 },
    };
    uint32_t style = inputs_roll(dice, 64);
    if (style == 0) return;
    if (style == 1) full_site(in, dice);
    else if (style < 12) ring_site(in, dice, between(dice, 2, chance(dice, 1, 8) ? 255 : 40), between(dice, 1, 4), between(dice, 0, 4));
    else {
        uint32_t i = inputs_roll(dice, sizeof size / sizeof *size);
        scattered_site(in, dice, between(dice, 1, size[i].places), between(dice, 1, size[i].predicates), between(dice, 1, size[i].triples));
    }
}

/* Rules */

typedef struct {
    both_input *in;
    inputs_dice *dice;
    int star, test, sequence, choice; /* how often each is drawn */
    int axes;                         /* which axes are drawn */
} maker;

static int triples(const both_input *in) { return (int)(in->site_length / 7); }
static int term_of(const both_input *in, int triple, int place) { return in->site[7 * triple + 2 + 2 * place]; }

static void put(both_input *in, int byte) { in->rule[in->rule_length++] = (uint8_t)byte; }

static void put_step(both_input *in, int label, int axis, int name)
{
    put(in, 1 + label);
    put(in, axis);
    if (label == NAMED_ONE) {
        put(in, 0);
        put(in, name);
    }
}

/* A triple as an axis takes it: places 0, 1, 2 are subject, predicate, object. */
static const int source_of[AXES] = { 0, 0, 2, 0, 1, 1, 2 }, target_of[AXES] = { 0, 2, 0, 1, 0, 2, 1 };
static const int middle_of[AXES] = { 0, 1, 1, 2, 2, 0, 0 };

static int draw_axis(maker *m)
{
    static const int often[4][8] = {
        { 0, 1, 2, 3, 4, 5, 6, 1 }, { 1, 1, 1, 1, 1, 1, 2, 0 }, { 1, 1, 2, 3, 4, 5, 6, 3 }, { 0, 0, 0, 1, 2, 3, 4, 5 },
    };
    return often[m->axes][inputs_roll(m->dice, 8)];
}

static int draw_term(maker *m, int place)
{
    int n = triples(m->in);
    if (n == 0 || chance(m->dice, 1, 12)) return (int)inputs_roll(m->dice, 256);
    return term_of(m->in, (int)inputs_roll(m->dice, (uint32_t)n), place);
}

static int draw_kind(maker *m, int records)
{
    int all = m->star + m->test + (records > 2 ? m->sequence + m->choice : 0);
    int x = (int)inputs_roll(m->dice, (uint32_t)all);
    return x < m->star ? 6 : x < m->star + m->test ? 3 : x < m->star + m->test + m->sequence ? 4 : 5;
}

static void blind(maker *m, int records)
{
    if (records == 1) {
        int axis = draw_axis(m);
        put_step(m->in, chance(m->dice, 1, 2) ? ANY : NAMED_ONE, axis, draw_term(m, axis ? middle_of[axis] : between(m->dice, 0, 2)));
        return;
    }
    int kind = draw_kind(m, records);
    if (kind == 4 || kind == 5) {
        int one = between(m->dice, 1, records - 2);
        blind(m, one);
        blind(m, records - 1 - one);
        put(m->in, kind);
        return;
    }
    blind(m, records - 1);
    if (kind == 6) put(m->in, 6);
    else put_step(m->in, TESTED_ONE, draw_axis(m), 0);
}

/* A step that leaves a term, if the site has one; else self, which stays. */
static int leave(maker *m, int from, int *axis, int *middle)
{
    int n = triples(m->in);
    for (int tries = 0; n > 0 && tries < 400; tries++) {
        int i = (int)inputs_roll(m->dice, (uint32_t)n);
        *axis = draw_axis(m);
        if (*axis == 0 && tries < 200 && chance(m->dice, 3, 4)) continue;
        if (*axis == 0 || term_of(m->in, i, source_of[*axis]) != from) continue;
        *middle = term_of(m->in, i, middle_of[*axis]);
        return term_of(m->in, i, target_of[*axis]);
    }
    *axis = 0;
    *middle = from;
    return from;
}

/* An expression that relates a term to the one returned (unless a self or an empty round outside the vocabulary stops it). */
static int along(maker *m, int from, int records)
{
    int axis, middle, to;
    if (records == 1) {
        to = leave(m, from, &axis, &middle);
        put_step(m->in, chance(m->dice, 1, 2) ? ANY : NAMED_ONE, axis, middle);
        return to;
    }
    int kind = draw_kind(m, records), one = records > 2 ? between(m->dice, 1, records - 2) : 0;
    if (kind == 6) {
        to = along(m, from, records - 1);
        put(m->in, 6);
    } else if (kind == 3) {
        to = leave(m, from, &axis, &middle);
        along(m, middle, records - 1);
        put_step(m->in, TESTED_ONE, axis, 0);
    } else if (kind == 4) {
        to = along(m, along(m, from, one), records - 1 - one);
        put(m->in, 4);
    } else if (chance(m->dice, 1, 3)) {
        blind(m, one);
        to = along(m, from, records - 1 - one);
        put(m->in, 5);
    } else {
        to = along(m, from, one);
        if (chance(m->dice, 1, 2)) blind(m, records - 1 - one);
        else along(m, from, records - 1 - one);
        put(m->in, 5);
    }
    return to;
}

static maker new_maker(both_input *in, inputs_dice *dice)
{
    static const int weights[6][4] = { { 3, 3, 5, 4 }, { 6, 1, 4, 4 }, { 1, 7, 3, 3 }, { 1, 1, 9, 1 }, { 2, 1, 6, 6 }, { 5, 5, 3, 3 } };
    const int *w = weights[inputs_roll(dice, 6)];
    maker m = { in, dice, w[0], w[1], w[2], w[3], (int)inputs_roll(dice, 4) };
    return m;
}

static int draw_records(inputs_dice *dice)
{
    uint32_t x = inputs_roll(dice, 20);
    return x < 8 ? between(dice, 1, 5) : x < 14 ? between(dice, 4, 10) : x < 18 ? between(dice, 8, 31) : RECORDS;
}

static int draw_place(both_input *in, inputs_dice *dice)
{
    int n = triples(in);
    if (n == 0 || chance(dice, 1, 16)) return (int)inputs_roll(dice, 256);
    return term_of(in, (int)inputs_roll(dice, (uint32_t)n), chance(dice, 1, 4) ? 1 : chance(dice, 1, 3) ? 2 : 0);
}

/* An end that is one, if the start has any; else a likely term. */
static void draw_end(both_input *in, inputs_dice *dice)
{
    static uint8_t asked[8192], numbers[16384], third[256];
    in->end = (uint32_t)draw_place(in, dice);
    if (chance(dice, 1, 4)) return;
    second_answer ends = second_list_ends(in->site, in->site_length, in->rule, in->rule_length, in->start, asked,
                                          sizeof asked, numbers, sizeof numbers, third, sizeof third);
    if (ends.refusal || ends.count == 0) return;
    in->end = inputs_roll(dice, 256);
    while (!third[in->end]) in->end = (in->end + 1) % 256;
}

void inputs_sound(both_input *in, inputs_dice *dice)
{
    clear(in, dice);
    random_site(in, dice);
    maker m = new_maker(in, dice);
    in->start = (uint32_t)draw_place(in, dice);
    if (chance(dice, 2, 3)) along(&m, (int)in->start, draw_records(dice));
    else blind(&m, draw_records(dice));
    draw_end(in, dice);
}

/* Extremes */

/* Places 0 to n - 1 in a ring, all by predicate 255, and the star of so many next steps. */
static void round_the_ring(both_input *in, int places, int steps, uint32_t end)
{
    for (int i = 0; i < places; i++) add_triple(in, i, 255, (i + 1) % places);
    inputs_put_in_order(in);
    for (int i = 0; i < steps; i++) {
        put_step(in, ANY, 1, 0);
        if (i > 0) put(in, 4);
    }
    put(in, 6);
    in->end = end;
}

static void one_step(maker *m)
{
    int axis = draw_axis(m);
    put_step(m->in, chance(m->dice, 1, 2) ? ANY : NAMED_ONE, axis, draw_term(m, middle_of[axis]));
}

/* Sixteen steps joined by fifteen records of one kind, grouped to the left, to the right, or both; and a star. */
static void sixteen(maker *m, int kind)
{
    int grouping = (int)inputs_roll(m->dice, 3), height = 0;
    for (int i = 0; i < 16; i++) {
        one_step(m);
        height++;
        while (height > 1 && (grouping == 0 || (grouping == 2 && chance(m->dice, 1, 2)))) {
            put(m->in, kind);
            height--;
        }
    }
    for (; height > 1; height--) put(m->in, kind);
    if (chance(m->dice, 1, 2)) put(m->in, 6);
}

static void deep_tests(maker *m)
{
    /* self keeps the term, so that tests all the way down can hold; where others stand, most do not */
    int selves = chance(m->dice, 1, 2);
    one_step(m);
    for (int i = 0; i < RECORDS - 1; i++) put_step(m->in, TESTED_ONE, selves && chance(m->dice, 7, 8) ? 0 : draw_axis(m), 0);
}

/* A star whose rounds end at predicates, which are mostly outside the vocabulary, and what may stand after it. */
static void star_outside(maker *m)
{
    put_step(m->in, ANY, 3, 0);
    put(m->in, 6);
    if (chance(m->dice, 1, 2)) put(m->in, 6);
    if (chance(m->dice, 1, 3)) {
        one_step(m);
        put(m->in, 6);
        put(m->in, 4);
    } else if (chance(m->dice, 1, 3)) {
        one_step(m);
        put(m->in, 5);
        put(m->in, 6);
    }
}

static void tested_self_outside(maker *m)
{
    put_step(m->in, ANY, 3, 0);
    put_step(m->in, ANY, chance(m->dice, 1, 2) ? 4 : 5, 0); /* holds at a predicate */
    put_step(m->in, TESTED_ONE, 0, 0);
    put(m->in, chance(m->dice, 3, 4) ? 4 : 5);
    if (chance(m->dice, 1, 2)) put(m->in, 6);
}

static void all_selves(maker *m)
{
    int parts = between(m->dice, 2, 8);
    for (int i = 0; i < parts; i++) {
        int label = between(m->dice, ANY, TESTED_ONE);
        if (label == TESTED_ONE) one_step(m);
        put_step(m->in, label, 0, draw_term(m, between(m->dice, 0, 2)));
        if (chance(m->dice, 1, 4)) put(m->in, 6);
        if (i > 0) put(m->in, between(m->dice, 4, 5));
    }
}

/* Many ways of the same length, so that only the order of records and triples settles the path. */
static void many_ways(both_input *in, inputs_dice *dice)
{
    int layers = between(dice, 2, 6), wide = between(dice, 2, 4), predicates = between(dice, 1, 3);
    for (int l = 0; l < layers; l++)
        for (int a = 0; a < (l ? wide : 1); a++)
            for (int b = 0; b < (l < layers - 1 ? wide : 1); b++)
                for (int p = 0; p < predicates; p++)
                    if (chance(dice, 3, 4)) add_triple(in, 10 * l + a, 200 + p, 10 * (l + 1) + b);
    inputs_put_in_order(in);
    int ways = between(dice, 1, 4);
    for (int i = 0; i < ways; i++) {
        put_step(in, chance(dice, 1, 2) ? ANY : NAMED_ONE, 1, 200 + between(dice, 0, predicates - 1));
        if (chance(dice, 1, 4)) put(in, 6);
        if (i > 0) put(in, 5);
    }
    put(in, 6);
    in->end = (uint32_t)(10 * layers);
}

int inputs_turn(unsigned long number) { return (int)(number % 9 ? 3 + number % 9 : number / 9 % 4); }

void inputs_extreme(both_input *in, inputs_dice *dice, int which)
{
    clear(in, dice);
    maker m = new_maker(in, dice);
    m.axes = (int)inputs_roll(dice, 3);
    switch (which) {
    case 0: round_the_ring(in, 255, 16, 254); return; /* 3,824 steps */
    case 1: round_the_ring(in, 255, 16, 4); return;   /* 1,024 steps, the whole room */
    case 2: round_the_ring(in, 254, 5, 9); return;    /* 1,025 steps, one too many */
    case 3: round_the_ring(in, between(dice, 1, 255), between(dice, 1, 16), inputs_roll(dice, 256)); return;
    case 4: many_ways(in, dice); return;
    case 5: full_site(in, dice); break;
    default: random_site(in, dice);
    }
    if (which == 6) deep_tests(&m);
    else if (which == 7) sixteen(&m, 5);
    else if (which == 8) sixteen(&m, 4);
    else if (which == 9) star_outside(&m);
    else if (which == 10) tested_self_outside(&m);
    else if (which == 11) all_selves(&m);
    else blind(&m, draw_records(dice));
    if (which == 6 && chance(dice, 1, 8)) { /* nothing but stars, one inside the other */
        in->rule_length = 0;
        one_step(&m);
        for (int i = 0; i < RECORDS - 1; i++) put(in, 6);
    }
    in->start = (uint32_t)draw_place(in, dice);
    draw_end(in, dice);
}

/* Damage */

static uint8_t odd_byte(inputs_dice *dice)
{
    static const uint8_t some[] = { 0, 1, 2, 3, 4, 5, 6, 7, 10, 20, 127, 128, 254, 255 };
    return chance(dice, 1, 3) ? (uint8_t)inputs_roll(dice, 256) : some[inputs_roll(dice, sizeof some)];
}

static void append(uint8_t *bytes, size_t *length, size_t most, inputs_dice *dice)
{
    for (int n = between(dice, 1, 9); n > 0 && *length < most; n--) bytes[(*length)++] = odd_byte(dice);
}

static int insert(uint8_t *bytes, size_t *length, size_t most, size_t at, const uint8_t *record, size_t size)
{
    if (*length + size > most) return 0;
    memmove(bytes + at + size, bytes + at, *length - at);
    memcpy(bytes + at, record, size);
    *length += size;
    return 1;
}

/* A record with two faults, ahead of the others or behind them: which of the two is refused shows the order. */
static void fault_in_site(both_input *in, inputs_dice *dice)
{
    static const uint8_t faults[][7] = {
        { 10, 0, 0, 0, 0, 1, 0 }, { 10, 0, 0, 1, 0, 0, 0 }, { 10, 1, 0, 0, 0, 0, 0 }, { 9, 0, 0, 0, 0, 0, 0 }, { 10, 0, 0, 0, 0, 0, 0 },
    };
    size_t n = in->site_length / 7, at = 7 * (chance(dice, 1, 4) ? 0 : chance(dice, 1, 2) ? n : inputs_roll(dice, (uint32_t)n + 1));
    const uint8_t *fault = faults[inputs_roll(dice, sizeof faults / sizeof *faults)];
    if (insert(in->site, &in->site_length, BOTH_SITE, at, fault, 7) && chance(dice, 1, 4))
        in->site_length = at + inputs_roll(dice, 7); /* the same, cut short */
}

static void fault_in_rule(both_input *in, inputs_dice *dice)
{
    static const struct { uint8_t bytes[4]; size_t size; } faults[] = {
        { { 1, 7 }, 2 }, { { 3, 7 }, 2 }, { { 3, 6 }, 2 }, { { 2, 7, 1, 0 }, 4 }, { { 2, 7, 0, 255 }, 4 }, { { 2, 6, 1, 0 }, 4 },
        { { 2, 7, 1 }, 3 }, { { 2, 6, 0 }, 3 }, { { 3 }, 1 }, { { 7 }, 1 }, { { 0 }, 1 }, { { 4 }, 1 }, { { 5 }, 1 }, { { 6 }, 1 },
    };
    uint32_t i = inputs_roll(dice, sizeof faults / sizeof *faults);
    size_t at = chance(dice, 1, 2) ? 0 : in->rule_length;
    if (chance(dice, 1, 3)) { /* a rule of exactly 32 records, and then that */
        in->rule_length = 0;
        put_step(in, ANY, between(dice, 0, 6), 0);
        for (int n = 1; n < RECORDS; n++) put(in, 6);
        at = in->rule_length;
    }
    insert(in->rule, &in->rule_length, BOTH_RULE, at, faults[i].bytes, faults[i].size);
}

static void damage_site(both_input *in, inputs_dice *dice)
{
    uint32_t n = (uint32_t)triples(in);
    size_t record = n ? 7 * inputs_roll(dice, n) : 0, other = n ? 7 * inputs_roll(dice, n) : 0;
    uint8_t kept[7];
    uint32_t way = inputs_roll(dice, 11);
    if (way >= 9) fault_in_site(in, dice);
    else if (n == 0 || way == 0) append(in->site, &in->site_length, BOTH_SITE, dice);
    else if (way == 1) in->site[inputs_roll(dice, (uint32_t)in->site_length)] = odd_byte(dice);
    else if (way == 2) in->site[record] = odd_byte(dice);
    else if (way == 3) in->site_length = inputs_roll(dice, (uint32_t)in->site_length);
    else if (way == 4) in->site_length -= 1 + inputs_roll(dice, 6);
    else if (way == 5) in->site[record + 1 + 2 * inputs_roll(dice, 3)] = (uint8_t)(chance(dice, 1, 2) ? 1 : between(dice, 1, 255));
    else if (way == 6) memcpy(in->site + record, in->site + other, 7);
    else if (way == 7) {
        memcpy(kept, in->site + record, 7);
        memcpy(in->site + record, in->site + other, 7);
        memcpy(in->site + other, kept, 7);
    } else if (in->site_length + 7 <= BOTH_SITE) {
        memcpy(in->site + in->site_length, in->site + record, 7);
        in->site_length += 7;
    }
}

static void overfill_site(both_input *in, inputs_dice *dice)
{
    in->site_length = 0;
    full_site(in, dice);
    if (chance(dice, 1, 2)) append(in->site, &in->site_length, BOTH_SITE, dice);
    else {
        static const uint8_t last[7] = { 10, 0, 255, 0, 255, 0, 255 };
        memcpy(in->site + in->site_length, last, 7);
        in->site_length += 7;
    }
    if (chance(dice, 1, 4)) damage_site(in, dice);
}

static void damage_rule(both_input *in, inputs_dice *dice)
{
    uint32_t way = inputs_roll(dice, 13);
    size_t i = in->rule_length ? inputs_roll(dice, (uint32_t)in->rule_length) : 0;
    if (way >= 10) fault_in_rule(in, dice);
    else if (in->rule_length == 0 || way == 0) append(in->rule, &in->rule_length, BOTH_RULE, dice);
    else if (way == 1) in->rule[i] = odd_byte(dice);
    else if (way == 2) in->rule_length = i;
    else if (way == 3) in->rule_length--;
    else if (way == 4) memmove(in->rule + i, in->rule + i + 1, --in->rule_length - i);
    else if (way == 5 && in->rule_length < BOTH_RULE) {
        memmove(in->rule + i + 1, in->rule + i, in->rule_length++ - i);
        in->rule[i] = odd_byte(dice);
    } else if (way == 6) in->rule[0] = (uint8_t)between(dice, 3, 6);
    else if (way == 7) { /* the first step's axis, or its name's high byte, out of range */
        if (in->rule[0] == 2 && chance(dice, 1, 2)) in->rule[2] = (uint8_t)between(dice, 1, 255);
        else in->rule[1] = (uint8_t)(chance(dice, 1, 2) ? 7 : between(dice, 7, 255));
    } else if (way == 8) {
        in->rule[in->rule_length++] = 1;
        in->rule[in->rule_length++] = (uint8_t)between(dice, 0, 6);
    } else for (int n = between(dice, 1, 40); n > 0; n--) in->rule[in->rule_length++] = 6;
}

static void damage_lengths(both_input *in, inputs_dice *dice)
{
    static const uint16_t some[] = { 0, 1, 255, 256, 257, 2048, 3072, 6143, 6144, 6145, 8191, 8192, 8193, 12288, 16383, 16384, 16385, 32767 };
    size_t *one[] = { &in->asked_length, &in->numbers_length, &in->third_length, &in->room_length };
    *one[inputs_roll(dice, 4)] = some[inputs_roll(dice, sizeof some / sizeof *some)];
}

static void damage_query(both_input *in, inputs_dice *dice)
{
    static const uint32_t some[] = { 256, 257, 511, 65535, 65536, 65541, 65541, 65541, 0x7fffffff, 0x80000000, 0xffffffff };
    uint32_t *term = chance(dice, 1, 2) ? &in->start : &in->end;
    /* a valid term under higher bits: whoever cuts the number takes it for that term */
    if (chance(dice, 1, 4)) *term |= (uint32_t)1 << between(dice, 8, 31);
    else *term = some[inputs_roll(dice, sizeof some / sizeof *some)];
    if (chance(dice, 1, 4)) damage_query(in, dice); /* both, at times */
}

void inputs_damage(both_input *in, inputs_dice *dice)
{
    uint32_t way = inputs_roll(dice, 24);
    if (way < 9) damage_site(in, dice);
    else if (way < 17) damage_rule(in, dice);
    else if (way == 17) overfill_site(in, dice);
    else if (way < 20) damage_lengths(in, dice);
    else if (way < 23) damage_query(in, dice);
    else in->rule_length = 0;
    if (in->rule_length + 64 > BOTH_RULE) in->rule_length = BOTH_RULE - 64;
    if (chance(dice, 1, 4)) inputs_damage(in, dice); /* which of two is refused shows the order */
}
