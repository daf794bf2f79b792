/* The calls of carolivy.h by the fastest method we know, in plain C, unproved: what the proved calls are measured against.
   Levels of a breadth-first search from each body's finish, sets of step records as bits; then questions by a work-list. */
#include "yardstick.h"
#include <stdbool.h>
#include <string.h>

enum { TERMS = 256, TRIPLES = 1024, RECORDS = 32, TABLE = RECORDS * TERMS, ROOM = 3 * 1024, NONE = 65535, ANYWHERE = TERMS };
enum { PLAIN = 1, NAMED, TESTED, SEQUENCE, CHOICE, STAR, TRIPLE = 10 };
enum { BY_SELF, BY_NEXT, BY_NEXT_INVERSE, BY_EDGE, BY_EDGE_INVERSE, BY_NODE, BY_NODE_INVERSE, AXES };
enum { SIZE = 7, SUBJECT = 2, PREDICATE = 4, OBJECT = 6 }; /* of a triple record, and where the low bytes of its terms lie */

/* Where an axis leaves a triple, what it passes and where it arrives. */
static const uint8_t leaves[AXES] = { 0, SUBJECT, OBJECT, SUBJECT, PREDICATE, PREDICATE, OBJECT };
static const uint8_t passes[AXES] = { 0, PREDICATE, PREDICATE, OBJECT, OBJECT, SUBJECT, SUBJECT };
static const uint8_t arrives[AXES] = { 0, OBJECT, SUBJECT, PREDICATE, SUBJECT, OBJECT, PREDICATE };

/* The lent byte table is scratch until the questions are written into it. It may lie at any address. */
typedef uint16_t half __attribute__((aligned(1), may_alias));
typedef uint32_t word __attribute__((aligned(1), may_alias));
typedef uint64_t wide __attribute__((aligned(1), may_alias));
typedef struct {
    half by_predicate[TRIPLES], by_object[TRIPLES]; /* triple number + 1 of the next one with the same term; 0 ends */
    half first_predicate[TERMS], first_object[TERMS];
    half outside[TERMS];                            /* 0 in the vocabulary, 65,535 outside */
    union {
        struct { half allows[TERMS], open[TERMS], left[TERMS]; } level; /* sets of a body's step records */
        struct { word allows[TERMS], open[TERMS]; } question;           /* sets of records */
    };
    uint8_t list[2][TERMS];
} scratch;
_Static_assert(sizeof(scratch) <= TABLE, "the scratch fits the byte table");

typedef struct {
    const uint8_t *site;
    int triples, records;
    uint8_t kind[RECORDS], axis[RECORDS], name[RECORDS], one[RECORDS], two[RECORDS];
    uint8_t up[RECORDS];    /* what it is an operand of; of the rule and of a test, itself */
    uint8_t offers[RECORDS]; /* itself or what is above it: the nearest that says what may follow (see shorter) */
    uint8_t bit[RECORDS], next[RECORDS], steps_of[RECORDS]; /* a step's place among its body's, the next of them, their head */
    uint32_t steps, axes[AXES], tested;
    /* The first index is 1 for a term in the vocabulary, where a star may pass empty. */
    uint32_t empty[2], last[2];                          /* passes with no step; after it the body may finish */
    uint32_t enters[2][RECORDS], follows[2][RECORDS];    /* asked where it is asked; asked where it is finished */
    uint16_t ends_with[2][RECORDS], before[2][RECORDS];  /* steps that may be its last; steps that it may come right after */
    uint16_t begin[TERMS], end[TERMS];                   /* bytes of the site with this subject */
    union {
        uint16_t now[2][TERMS];                          /* done at this term at this level, and at the next */
        uint32_t pending[TERMS];
    };
    scratch *x;
    uint16_t *numbers;
} work;

/* A whole table, in stores of sixteen bytes: the C library fills as much by one repeated instruction, which callgrind counts once a byte. */
typedef uint64_t block __attribute__((vector_size(16), aligned(1), may_alias));
static void fill(void *table, size_t size, uint64_t with)
{
    block value = { with, with };
    for (block *p = table, *end = p + size / sizeof *p; p != end; p += 8) {
        p[0] = p[1] = p[2] = p[3] = p[4] = p[5] = p[6] = p[7] = value;
    }
}

typedef struct { uint32_t number; uint64_t place; } refusal;
#define EACH_BIT(b, set) for (uint32_t b##_set = (set), b; b##_set && (b = (uint32_t)__builtin_ctz(b##_set), 1); b##_set &= b##_set - 1)

/* Reading */

static refusal refuse_triple(const uint8_t *site, size_t length, size_t at)
{
    if (at == SIZE * TRIPLES) return (refusal){ 4, at };
    if (site[at] != TRIPLE) return (refusal){ 2, at };
    if (length - at < SIZE) return (refusal){ 3, at };
    if (site[at + 1] | site[at + 3] | site[at + 5]) return (refusal){ 5, at };
    return (refusal){ 6, at };
}

/* Sound triples are told by one comparison of their seven bytes with a mask and one with those before. */
static refusal read_site(work *w, const uint8_t *site, size_t length)
{
    size_t whole = length > SIZE * TRIPLES ? SIZE * TRIPLES : length - length % SIZE, at = 0;
    uint64_t before = 0;
    w->site = site;
    w->triples = (int)(whole / SIZE);
    memset(w->begin, 0, sizeof w->begin);
    memset(w->end, 0, sizeof w->end);
    for (; at < whole; at += SIZE) {
        uint64_t v = 0;
        if (at) v = *(const wide *)(site + at - 1); /* the byte ahead is shifted out below */
        else memcpy((uint8_t *)&v + 1, site, SIZE);
        v = __builtin_bswap64(v) << 8;
        if ((v & 0xffff00ff00ff0000u) != (uint64_t)TRIPLE << 56 || v <= before) return refuse_triple(site, length, at);
        before = v;
        w->end[site[at + SUBJECT]] = (uint16_t)(at + SIZE);
    }
    return at < length ? refuse_triple(site, length, at) : (refusal){ 0, 0 };
}

static refusal read_rule(work *w, const uint8_t *rule, size_t length)
{
    static const uint8_t size[] = { 0, 2, 4, 2, 1, 1, 1 }, wanted[] = { 0, 0, 0, 1, 2, 2, 1 };
    uint8_t stack[RECORDS + 1];
    int height = 0, n = 0;
    size_t at = 0;
    w->steps = w->tested = 0;
    memset(w->axes, 0, sizeof w->axes);
    while (at < length) {
        unsigned kind = rule[at];
        if (n == RECORDS) return (refusal){ 7, at };
        if (kind - PLAIN > STAR - PLAIN) return (refusal){ 8, at };
        if (length - at < size[kind]) return (refusal){ 9, at };
        if (kind <= TESTED) {
            unsigned axis = rule[at + 1];
            if (axis >= AXES) return (refusal){ 10, at };
            if (kind == NAMED) {
                if (rule[at + 2]) return (refusal){ 11, at };
                w->name[n] = rule[at + 3];
            }
            w->axis[n] = (uint8_t)axis;
            w->steps |= 1u << n;
            w->axes[axis] |= 1u << n;
            if (kind == TESTED) w->tested |= 1u << n;
        }
        if (height < wanted[kind]) return (refusal){ 12, at };
        if (wanted[kind] == 2) w->two[n] = stack[--height];
        if (wanted[kind]) w->one[n] = stack[--height];
        stack[height++] = (uint8_t)n;
        w->kind[n++] = (uint8_t)kind;
        at += size[kind];
    }
    if (height != 1) return (refusal){ 13, length };
    w->records = n;
    return (refusal){ 0, 0 };
}

static refusal read_both(work *w, const uint8_t *site, size_t site_length, const uint8_t *rule, size_t rule_length)
{
    refusal r = read_site(w, site, site_length);
    return r.number ? r : read_rule(w, rule, rule_length);
}

/* The rule: which records follow which, with no step between */

/* From the whole rule down: what each is an operand of, and the steps of each body. */
static void find_bodies(work *w)
{
    uint8_t body[RECORDS], count[RECORDS];
    int whole = w->records - 1;
    body[whole] = w->up[whole] = (uint8_t)whole;
    for (int r = whole; r >= 0; r--) {
        int one = w->one[r];
        if (w->up[r] == r) {
            count[r] = 0;
            w->steps_of[r] = RECORDS;
        }
        if (w->kind[r] <= TESTED) {
            int b = body[r];
            w->bit[r] = count[b]++;
            w->next[r] = w->steps_of[b];
            w->steps_of[b] = (uint8_t)r;
            if (w->kind[r] == TESTED) body[one] = w->up[one] = (uint8_t)one;
            continue;
        }
        body[one] = body[r];
        w->up[one] = (uint8_t)r;
        if (w->kind[r] != STAR) {
            body[w->two[r]] = body[r];
            w->up[w->two[r]] = (uint8_t)r;
        }
    }
}

static void join_up(work *w, int in)
{
    uint32_t empty = 0, *enters = w->enters[in];
    uint16_t *ends_with = w->ends_with[in];
    for (int r = 0; r < w->records; r++) {
        int one = w->one[r], two = w->two[r];
        uint32_t me = 1u << r;
        switch (w->kind[r]) {
        case SEQUENCE:
            enters[r] = me | enters[one];
            ends_with[r] = ends_with[two];
            if (empty >> one & 1) enters[r] |= enters[two];
            if (empty >> two & 1) {
                ends_with[r] |= ends_with[one];
                if (empty >> one & 1) empty |= me;
            }
            break;
        case CHOICE:
            enters[r] = me | enters[one] | enters[two];
            ends_with[r] = ends_with[one] | ends_with[two];
            if ((empty >> one | empty >> two) & 1) empty |= me;
            break;
        case STAR:
            enters[r] = me | enters[one];
            ends_with[r] = ends_with[one];
            if (in || empty >> one & 1) empty |= me;
            break;
        default:
            enters[r] = me;
            ends_with[r] = (uint16_t)(1u << w->bit[r]);
        }
    }
    w->empty[in] = empty;
}

static void join_down(work *w, int in)
{
    uint32_t last = 0, empty = w->empty[in], *enters = w->enters[in], *follows = w->follows[in];
    uint16_t *ends_with = w->ends_with[in], *before = w->before[in];
    for (int r = w->records - 1; r >= 0; r--) {
        int one = w->one[r], two = w->two[r];
        if (w->up[r] == r) {
            follows[r] = before[r] = 0;
            last |= 1u << r;
        }
        uint32_t after = follows[r], mine = last >> r & 1;
        uint16_t ahead = before[r];
        switch (w->kind[r]) {
        case SEQUENCE:
            follows[two] = after;
            last |= mine << two;
            follows[one] = enters[two];
            if (empty >> two & 1) {
                follows[one] |= after;
                last |= mine << one;
            }
            before[one] = ahead;
            before[two] = ends_with[one];
            if (empty >> one & 1) before[two] |= ahead;
            break;
        case CHOICE:
            follows[one] = follows[two] = after;
            before[one] = before[two] = ahead;
            last |= mine << one | mine << two;
            break;
        case STAR:
            follows[one] = after | enters[one];
            before[one] = ahead | ends_with[one];
            last |= mine << one;
        }
    }
    w->last[in] = last;
}

static void order_rule(work *w)
{
    find_bodies(w);
    for (int in = 0; in < 2; in++) {
        join_up(w, in);
        join_down(w, in);
    }
}

/* The site: triples by predicate and by object, chained in their order; the vocabulary */

static inline __attribute__((always_inline)) void chain_triples(work *w, bool by_predicate, bool by_object)
{
    scratch *x = w->x;
    const uint8_t *p = w->site + SIZE * w->triples;
    for (int number = w->triples; number > 0; number--) {
        p -= SIZE;
        unsigned s = p[SUBJECT], o = p[OBJECT];
        w->begin[s] = (uint16_t)(p - w->site);
        x->outside[s] = x->outside[o] = 0;
        if (by_object) {
            x->by_object[number - 1] = x->first_object[o];
            x->first_object[o] = (half)number;
        }
        if (by_predicate) {
            unsigned q = p[PREDICATE];
            x->by_predicate[number - 1] = x->first_predicate[q];
            x->first_predicate[q] = (half)number;
        }
    }
}

static void order_site(work *w)
{
    scratch *x = w->x;
    memset(x->first_predicate, 0, sizeof x->first_predicate + sizeof x->first_object);
    memset(x->outside, 255, sizeof x->outside);
    if (w->axes[BY_EDGE] | w->axes[BY_EDGE_INVERSE] | w->axes[BY_NODE] | w->axes[BY_NODE_INVERSE]) chain_triples(w, true, true);
    else if (w->axes[BY_NEXT] | w->axes[BY_NEXT_INVERSE]) chain_triples(w, false, true);
    else chain_triples(w, false, false);
}

static inline int inside(const work *w, unsigned term) { return !w->x->outside[term]; }

/* An axis as a walk takes it: the records that use it, and how the triples at a term are found. */
typedef struct {
    uint32_t set;
    const uint8_t *to, *middle;  /* of the first triple: where the walk goes, and what it passes */
    const half *first, *link;    /* the chain of the terms it comes from; none if these are subjects, whose triples lie together */
} route;

static route route_of(const work *w, int axis, bool ahead, uint32_t set)
{
    unsigned from = ahead ? leaves[axis] : arrives[axis], to = ahead ? arrives[axis] : leaves[axis];
    route r = { set, w->site + to, w->site + passes[axis], NULL, NULL };
    if (from == OBJECT) {
        r.first = w->x->first_object;
        r.link = w->x->by_object;
    } else if (from == PREDICATE) {
        r.first = w->x->first_predicate;
        r.link = w->x->by_predicate;
    }
    return r;
}

/* The numbers of the step records of one body, level by level from its finish */

typedef struct {
    scratch *x;
    uint16_t *row[16], *next; /* next: what is done at each term, at the level to come */
    uint16_t before[2][16];
    uint8_t *tail;            /* of the list of those terms */
    unsigned level;
} levels;

/* The step records of a set are entered at a term for the first time, so what they may follow is done there. */
static inline __attribute__((always_inline)) void reach(levels *l, unsigned term, unsigned set)
{
    scratch *x = l->x;
    const uint16_t *before = l->before[!x->outside[term]];
    uint16_t level = (uint16_t)l->level;
    unsigned done = 0;
    x->level.open[term] ^= (half)set;
    do {
        unsigned b = (unsigned)__builtin_ctz(set);
        l->row[b][term] = level;
        done |= before[b];
        set &= set - 1;
    } while (set);
    done &= x->level.left[term];
    if (!done) return;
    x->level.left[term] ^= (half)done;
    unsigned there = l->next[term];
    if (!there) *l->tail++ = (uint8_t)term;
    l->next[term] = (uint16_t)(there | done);
}

/* All triples that arrive at a term, each read once for all step records of the set. */
static void back_along(levels *l, const work *w, const route *r, unsigned from, unsigned set)
{
    scratch *x = l->x;
    const uint8_t *to = r->to, *middle = r->middle;
    const half *link = r->link;
    if (!link) {
        for (unsigned at = w->begin[from], end = w->end[from]; at != end; at += SIZE) {
            unsigned t = to[at], fresh = set & x->level.allows[middle[at]] & x->level.open[t];
            if (fresh) reach(l, t, fresh);
        }
        return;
    }
    for (size_t i = r->first[from]; i; i = link[i - 1]) {
        size_t at = SIZE * i - SIZE;
        unsigned t = to[at], fresh = set & x->level.allows[middle[at]] & x->level.open[t];
        if (fresh) reach(l, t, fresh);
    }
}

/* A test's body finishes anywhere: the first level is one scan of the triples for each axis. */
static void back_from_anywhere(levels *l, const work *w, int axis, unsigned set, unsigned set_outside)
{
    scratch *x = l->x;
    if (axis == BY_SELF) {
        for (unsigned t = 0; t < TERMS; t++) {
            unsigned fresh = set & x->level.allows[t] & x->level.open[t];
            if (fresh && x->outside[t]) fresh &= set_outside;
            if (fresh) reach(l, t, fresh);
        }
        return;
    }
    const uint8_t *from = w->site + leaves[axis], *middle = w->site + passes[axis], *to = w->site + arrives[axis];
    for (unsigned at = 0, end = SIZE * (unsigned)w->triples; at != end; at += SIZE) {
        unsigned t = from[at], fresh = set & x->level.allows[middle[at]] & x->level.open[t];
        if (!fresh) continue;
        if (x->outside[to[at]]) fresh &= set_outside;
        if (fresh) reach(l, t, fresh);
    }
}

/* Rows are lent as restricted pointers to functions of one loop, so that the compiler takes several terms at a time. */
static void allow_where_holds(half *restrict allows, const uint16_t *restrict test, half me)
{
    for (int t = 0; t < TERMS; t++) allows[t] |= test[t] != NONE ? me : 0;
}

static void allow_inside(half *restrict allows, const half *restrict outside, half me)
{
    for (int t = 0; t < TERMS; t++) allows[t] |= (half)(me & ~outside[t]);
}

static void forbid_outside(half *restrict allows, const half *restrict outside, half me)
{
    for (int t = 0; t < TERMS; t++) allows[t] &= (half)~(me & outside[t]);
}

/* Which step records of the body allow which middle; self stays at the middle. */
static void allow(work *w, levels *l, int body, unsigned *axes)
{
    half *allows = w->x->level.allows, *outside = w->x->outside;
    unsigned plain = 0;
    for (int r = w->steps_of[body]; r != RECORDS; r = w->next[r]) {
        int b = w->bit[r];
        l->row[b] = w->numbers + TERMS * r;
        l->before[0][b] = w->before[0][r];
        l->before[1][b] = w->before[1][r];
        axes[w->axis[r]] |= 1u << b;
        if (w->kind[r] == PLAIN && w->axis[r] != BY_SELF) plain |= 1u << b;
    }
    for (int t = 0; t < TERMS; t++) allows[t] = (half)plain;
    for (int r = w->steps_of[body]; r != RECORDS; r = w->next[r]) {
        half me = (half)(1u << w->bit[r]);
        if (w->kind[r] == NAMED) {
            allows[w->name[r]] |= me;
        } else if (w->kind[r] == TESTED) {
            allow_where_holds(allows, w->numbers + TERMS * w->one[r], me);
            if (w->axis[r] == BY_SELF) forbid_outside(allows, outside, me);
        } else if (w->axis[r] == BY_SELF) {
            allow_inside(allows, outside, me);
        }
    }
}

static void number_steps(work *w, int body, unsigned goal)
{
    levels l;
    unsigned axes[AXES] = { 0 };
    route routes[AXES], *routes_end = routes;
    scratch *x = w->x;
    uint16_t set_outside = w->ends_with[0][body], set = w->ends_with[1][body];
    l.x = x;
    allow(w, &l, body, axes);
    for (int a = BY_NEXT; a < AXES; a++)
        if (axes[a]) *routes_end++ = route_of(w, a, false, axes[a]);
    memset(x->level.open, 255, sizeof x->level.open + sizeof x->level.left);
    uint8_t *list = x->list[0], *other_list = x->list[1];
    uint16_t *now = w->now[0], *other_now = w->now[1];
    l.tail = list;
    l.next = now;
    l.level = 1;
    if (goal == ANYWHERE) {
        for (int t = 0; t < TERMS; t++) x->level.left[t] = (half)~(set_outside | (set & ~x->outside[t]));
        for (int a = 0; a < AXES; a++)
            if (set & axes[a]) back_from_anywhere(&l, w, a, set & axes[a], set_outside);
        l.level = 2;
    } else {
        if (!inside(w, goal)) set = set_outside;
        if (!set) return;
        x->level.left[goal] ^= set;
        now[goal] = set;
        *l.tail++ = (uint8_t)goal;
    }
    while (l.tail != list) {
        const uint8_t *p = list, *end = l.tail;
        l.tail = other_list;
        l.next = other_now;
        do {
            unsigned u = *p++, done = now[u], by_self = done & axes[BY_SELF];
            now[u] = 0;
            if (by_self && (by_self &= x->level.allows[u] & x->level.open[u])) reach(&l, u, by_self);
            for (const route *r = routes; r != routes_end; r++)
                if (done & r->set) back_along(&l, w, r, u, done & r->set);
        } while (p != end);
        uint8_t *swap_list = list;
        uint16_t *swap_now = now;
        list = other_list;
        other_list = swap_list;
        now = other_now;
        other_now = swap_now;
        l.level++;
    }
}

/* The numbers of sequences, choices and stars, from those of the step records */

static void lower(uint16_t *restrict row, const uint16_t *restrict other)
{
    for (int t = 0; t < TERMS; t++) row[t] = row[t] < other[t] ? row[t] : other[t];
}

static void lower_inside(uint16_t *restrict row, const uint16_t *restrict other, const half *outside)
{
    for (int t = 0; t < TERMS; t++) {
        uint16_t v = other[t] | outside[t];
        row[t] = row[t] < v ? row[t] : v;
    }
}

/* A star at a vocabulary term may also end at once: what is left there is the second operand's number, or else the
   smallest of the step records that may follow, never another star's, which would go round in a circle. */
static void number_star(work *w, int r, unsigned goal)
{
    uint16_t *row = w->numbers + TERMS * r;
    int one = w->one[r], up = w->up[r];
    memcpy(row, w->numbers + TERMS * one, TERMS * sizeof *row);
    if (up != r && w->kind[up] == SEQUENCE && w->one[up] == r) {
        lower_inside(row, w->numbers + TERMS * w->two[up], w->x->outside);
        return;
    }
    EACH_BIT(q, w->follows[1][r] & w->steps & ~w->enters[1][one]) lower_inside(row, w->numbers + TERMS * q, w->x->outside);
    if (!(w->last[1] >> r & 1)) return;
    if (goal != ANYWHERE) {
        if (inside(w, goal)) row[goal] = 0;
    } else {
        for (int t = 0; t < TERMS; t++) row[t] &= w->x->outside[t];
    }
}

/* Operands before what they are operands of, and of a sequence the second first. */
static void number_rest(work *w, int body, unsigned goal)
{
    uint8_t stack[RECORDS], order[RECORDS];
    int height = 0, count = 0;
    stack[height++] = (uint8_t)body;
    while (height) {
        int r = stack[--height];
        if (w->kind[r] <= TESTED) continue;
        order[count++] = (uint8_t)r;
        if (w->kind[r] != STAR) stack[height++] = w->two[r];
        stack[height++] = w->one[r];
    }
    while (count) {
        int r = order[--count];
        uint16_t *row = w->numbers + TERMS * r;
        if (w->kind[r] == STAR) {
            number_star(w, r, goal);
            continue;
        }
        memcpy(row, w->numbers + TERMS * w->one[r], TERMS * sizeof *row);
        if (w->kind[r] == CHOICE) lower(row, w->numbers + TERMS * w->two[r]);
    }
}

static void number_all(work *w, unsigned goal)
{
    fill(w->numbers, TABLE * sizeof *w->numbers, ~(uint64_t)0);
    memset(w->now, 0, sizeof w->now);
    for (int r = 0; r < w->records; r++) {
        if (w->up[r] != r) continue;
        unsigned to = r == w->records - 1 ? goal : ANYWHERE;
        number_steps(w, r, to);
        number_rest(w, r, to);
    }
}

/* Which records allow which middle, for the walks ahead: the questions, the ends and the path */

static void allow_all_where_holds(word *restrict allows, const uint16_t *restrict test, uint32_t me)
{
    for (int t = 0; t < TERMS; t++) allows[t] |= test[t] != NONE ? me : 0;
}

static void allow_all_inside(word *restrict allows, const half *restrict outside, uint32_t me)
{
    for (int t = 0; t < TERMS; t++) allows[t] |= outside[t] ? 0 : me;
}

static void forbid_all_outside(word *restrict allows, const half *restrict outside, uint32_t me)
{
    for (int t = 0; t < TERMS; t++) allows[t] &= outside[t] ? ~me : ~(uint32_t)0;
}

static void allow_all(work *w)
{
    word *allows = w->x->question.allows;
    half *outside = w->x->outside;
    uint32_t plain = w->steps & ~w->tested & ~w->axes[BY_SELF];
    EACH_BIT(r, w->steps & ~w->tested) if (w->kind[r] == NAMED) plain &= ~(1u << r);
    for (int t = 0; t < TERMS; t++) allows[t] = plain;
    EACH_BIT(s, w->steps & ~plain) {
        uint32_t me = 1u << s;
        if (w->kind[s] == NAMED) {
            allows[w->name[s]] |= me;
        } else if (w->kind[s] == TESTED) {
            allow_all_where_holds(allows, w->numbers + TERMS * w->one[s], me);
            if (w->axis[s] == BY_SELF) forbid_all_outside(allows, outside, me);
        } else {
            allow_all_inside(allows, outside, me);
        }
    }
}

/* The questions: each record at each term is worked once, a triple once for all records that wait at its term */

typedef struct {
    scratch *x;
    work *w;
    unsigned head, tail;      /* the list is a ring: a term stands in it while something is pending there */
    uint32_t moved, after[2]; /* what follows the set of steps last moved by */
} asking;

static inline __attribute__((always_inline)) void ask(asking *a, unsigned term, uint32_t set)
{
    scratch *x = a->x;
    uint32_t fresh = set & x->question.open[term];
    if (!fresh) return;
    x->question.open[term] ^= fresh;
    uint32_t there = a->w->pending[term];
    if (!there) x->list[0][a->tail++ % TERMS] = (uint8_t)term;
    a->w->pending[term] = there | fresh;
}

static inline __attribute__((always_inline)) void follow(asking *a, uint32_t moved)
{
    uint32_t outside = 0, in = 0;
    a->moved = moved;
    do {
        unsigned r = (unsigned)__builtin_ctz(moved);
        outside |= a->w->follows[0][r];
        in |= a->w->follows[1][r];
        moved &= moved - 1;
    } while (moved);
    a->after[0] = outside;
    a->after[1] = in;
}

static inline __attribute__((always_inline)) void ask_by(asking *a, unsigned u, unsigned m, uint32_t set, const uint32_t *tests)
{
    const scratch *x = a->x;
    uint32_t moved = set & x->question.allows[m];
    if (tests) ask(a, m, tests[!x->outside[m]]);
    if (!moved) return;
    if (moved != a->moved) follow(a, moved);
    ask(a, u, a->after[!x->outside[u]]);
}

static inline __attribute__((always_inline)) void ask_route(asking *a, const route *r, unsigned term, uint32_t set, const uint32_t *tests)
{
    const uint8_t *to = r->to, *middle = r->middle;
    const half *link = r->link;
    if (!link) {
        for (unsigned at = a->w->begin[term], end = a->w->end[term]; at != end; at += SIZE)
            ask_by(a, to[at], middle[at], set, tests);
        return;
    }
    for (size_t i = r->first[term]; i; i = link[i - 1]) ask_by(a, to[SIZE * i - SIZE], middle[SIZE * i - SIZE], set, tests);
}

/* What the tests of a set ask at a middle outside the vocabulary, and inside. */
static void ask_tested(asking *a, const route *r, unsigned term, uint32_t set)
{
    uint32_t tests[2] = { 0, 0 };
    EACH_BIT(q, set & a->w->tested) {
        tests[0] |= a->w->enters[0][a->w->one[q]];
        tests[1] |= a->w->enters[1][a->w->one[q]];
    }
    ask_route(a, r, term, set, tests);
}

static void ask_self(asking *a, unsigned term, uint32_t set)
{
    const work *w = a->w;
    int in = inside(w, term);
    uint32_t more = 0;
    if (in) EACH_BIT(r, set & w->tested) more |= w->enters[1][w->one[r]];
    EACH_BIT(s, set & w->x->question.allows[term]) more |= w->follows[in][s];
    ask(a, term, more);
}

static void ask_all(work *w, unsigned start)
{
    asking a = { w->x, w, 0, 0, 0, { 0, 0 } };
    route routes[AXES], *routes_end = routes;
    for (int axis = BY_NEXT; axis < AXES; axis++)
        if (w->axes[axis]) *routes_end++ = route_of(w, axis, true, w->axes[axis]);
    memset(w->x->question.open, 255, sizeof w->x->question.open);
    memset(w->pending, 0, sizeof w->pending);
    ask(&a, start, w->enters[inside(w, start)][w->records - 1]);
    while (a.head != a.tail) {
        unsigned t = w->x->list[0][a.head++ % TERMS];
        uint32_t now = w->pending[t];
        w->pending[t] = 0;
        if (now & w->axes[BY_SELF]) ask_self(&a, t, now & w->axes[BY_SELF]);
        for (const route *r = routes; r != routes_end; r++) {
            uint32_t set = now & r->set;
            if (set & w->tested) ask_tested(&a, r, t, set);
            else if (set) ask_route(&a, r, t, set, NULL);
        }
    }
}

/* Eight terms at a time: a byte of eight records' bits for each, then a byte a term for each record. */
static uint64_t spread(uint8_t *rows, int count, const uint32_t *set, int shift)
{
    uint64_t bits = 0, sum = 0;
    for (int t = 7; t >= 0; t--) bits = bits << 8 | (set[t] >> shift & 255);
    if (!bits) return 0;
    for (int r = 0; r < count; r++) {
        uint64_t ones = bits >> r & 0x0101010101010101u;
        *(wide *)(rows + TERMS * r) = ones;
        sum += ones;
    }
    return sum * 0x0101010101010101u >> 56;
}

/* The questions' sets lie in the byte table themselves, so they are taken out before it is written. */
static uint64_t write_asked(work *w, uint8_t *asked)
{
    uint64_t figure = 0;
    uint32_t *sets = w->pending;
    memcpy(sets, w->x->question.open, sizeof w->pending);
    fill(asked, TABLE, 0);
    for (int t = 0; t < TERMS; t += 8) {
        uint32_t any = 0;
        for (int i = 0; i < 8; i++) any |= sets[t + i] = ~sets[t + i];
        if (!any) continue;
        for (int r = 0; r < w->records; r += 8)
            figure += spread(asked + TERMS * r + t, w->records - r < 8 ? w->records - r : 8, sets + t, r);
    }
    return figure;
}

/* The path: of the steps that shorten the way, the one with the smallest record, then triple, each time */

/* The nearest record at or above each that says what may follow: the rule, the first of a sequence, a star's operand. A
   star right inside a star says nothing that the outer does not. */
static void find_offers(work *w)
{
    for (int r = w->records - 1; r >= 0; r--) {
        int up = w->up[r];
        bool first = w->kind[up] == SEQUENCE && w->one[up] == r, round = w->kind[up] == STAR;
        if (up == r || first) w->offers[r] = (uint8_t)r;
        else if (round && !(w->up[up] != up && w->kind[w->up[up]] == STAR)) w->offers[r] = (uint8_t)r;
        else w->offers[r] = w->offers[up];
    }
}

/* Finished at this term, the record leaves exactly that many steps; it never leaves fewer. */
static bool shorter(const work *w, int r, unsigned term, unsigned goal, unsigned wanted)
{
    for (;;) {
        r = w->offers[r];
        int up = w->up[r];
        if (up == r) return wanted == 0 && term == goal;
        if (w->kind[up] == SEQUENCE) return w->numbers[TERMS * w->two[up] + term] == wanted;
        if (w->numbers[TERMS * r + term] == wanted) return true;
        r = up;
    }
}

static unsigned find_triple(const work *w, int r, unsigned from, unsigned goal, unsigned wanted)
{
    const scratch *x = w->x;
    int axis = w->axis[r];
    const uint8_t *middle = w->site + passes[axis], *to = w->site + arrives[axis];
    uint32_t me = 1u << r;
    if (leaves[axis] == SUBJECT) {
        unsigned at = w->begin[from];
        while (!(x->question.allows[middle[at]] & me) || !shorter(w, r, to[at], goal, wanted)) at += SIZE;
        return at / SIZE;
    }
    bool object = leaves[axis] == OBJECT;
    const half *link = object ? x->by_object : x->by_predicate;
    size_t i = object ? x->first_object[from] : x->first_predicate[from];
    while (!(x->question.allows[middle[SIZE * i - SIZE]] & me) || !shorter(w, r, to[SIZE * i - SIZE], goal, wanted)) i = link[i - 1];
    return (unsigned)i - 1;
}

static void write_path(work *w, uint16_t *room, unsigned start, unsigned goal, unsigned steps)
{
    unsigned term = start;
    uint32_t may = w->enters[inside(w, start)][w->records - 1] & w->steps;
    find_offers(w);
    for (; steps; steps--, room += 3) {
        int r = __builtin_ctz(may);
        while (w->numbers[TERMS * r + term] != steps) {
            may &= may - 1;
            r = __builtin_ctz(may);
        }
        unsigned triple = NONE;
        if (w->axis[r] != BY_SELF) {
            triple = find_triple(w, r, term, goal, steps - 1);
            term = w->site[SIZE * triple + arrives[w->axis[r]]];
        }
        room[0] = (uint16_t)r;
        room[1] = (uint16_t)triple;
        room[2] = (uint16_t)term;
        may = w->follows[inside(w, term)][r] & w->steps;
    }
}

/* The calls */

static refusal begin(work *w, const uint8_t *site, size_t site_length, const uint8_t *rule, size_t rule_length,
                     uint8_t *asked, uint16_t *numbers)
{
    w->x = (scratch *)asked;
    w->numbers = numbers;
    return read_both(w, site, site_length, rule, rule_length);
}

static void fill_numbers(work *w, unsigned goal)
{
    order_rule(w);
    order_site(w);
    number_all(w, goal);
}

yardstick_decision yardstick_decide(const uint8_t *site, size_t site_length, const uint8_t *rule, size_t rule_length, uint32_t start, uint32_t end,
    uint8_t *asked, size_t asked_length, uint16_t *numbers, size_t numbers_length, uint16_t *room, size_t room_length)
{
    work w;
    if (asked_length != TABLE || numbers_length != TABLE || room_length != ROOM) return (yardstick_decision){ .refusal = 1 };
    refusal r = begin(&w, site, site_length, rule, rule_length, asked, numbers);
    if (!r.number && start >= TERMS) r = (refusal){ 14, 0 };
    if (!r.number && end >= TERMS) r = (refusal){ 14, 1 };
    if (r.number) return (yardstick_decision){ .refusal = r.number, .place = r.place };
    fill_numbers(&w, end);
    allow_all(&w);
    unsigned steps = numbers[TERMS * (w.records - 1) + start];
    bool yes = steps != NONE, fits = !yes || 3 * steps <= ROOM;
    if (yes && fits) write_path(&w, room, start, end, steps);
    ask_all(&w, start);
    uint64_t figure = write_asked(&w, asked);
    if (!fits) return (yardstick_decision){ .refusal = 15, .place = steps };
    return (yardstick_decision){ .yes = yes, .figure = figure, .steps = yes ? steps : 0 };
}

/* Ends: where a last step of the rule's own body, asked at some term, arrives; and the start, if the rule may pass empty. */
static uint64_t mark_ends(const work *w, uint8_t *third, unsigned start)
{
    const scratch *x = w->x;
    int whole = w->records - 1;
    uint32_t own = 0;
    uint64_t count = 0;
    for (int r = w->steps_of[whole]; r != RECORDS; r = w->next[r]) own |= 1u << r;
    memset(third, 0, TERMS);
    third[start] = w->empty[inside(w, start)] >> whole & 1;
    for (int i = 0; i < w->triples; i++) {
        const uint8_t *p = w->site + SIZE * i;
        EACH_BIT(r, own & w->last[1] & ~w->axes[BY_SELF]) {
            int axis = w->axis[r];
            unsigned t = p[leaves[axis]], u = p[arrives[axis]], m = p[passes[axis]];
            if (~x->question.open[t] & x->question.allows[m] & w->last[inside(w, u)] & 1u << r) third[u] = 1;
        }
    }
    for (unsigned t = 0; t < TERMS; t++) {
        if (~x->question.open[t] & x->question.allows[t] & w->last[inside(w, t)] & own & w->axes[BY_SELF]) third[t] = 1;
        count += third[t];
    }
    return count;
}

yardstick_ends yardstick_list_ends(const uint8_t *site, size_t site_length, const uint8_t *rule, size_t rule_length, uint32_t start,
    uint8_t *asked, size_t asked_length, uint16_t *numbers, size_t numbers_length, uint8_t *third, size_t third_length)
{
    work w;
    if (asked_length != TABLE || numbers_length != TABLE || third_length != TERMS) return (yardstick_ends){ .refusal = 1 };
    refusal r = begin(&w, site, site_length, rule, rule_length, asked, numbers);
    if (!r.number && start >= TERMS) r = (refusal){ 14, 0 };
    if (r.number) return (yardstick_ends){ .refusal = r.number, .place = r.place };
    fill_numbers(&w, ANYWHERE);
    allow_all(&w);
    ask_all(&w, start);
    uint64_t ends = mark_ends(&w, third, start);
    return (yardstick_ends){ .ends = ends, .figure = write_asked(&w, asked) };
}

yardstick_starts yardstick_list_starts(const uint8_t *site, size_t site_length, const uint8_t *rule, size_t rule_length, uint32_t end,
    uint8_t *asked, size_t asked_length, uint16_t *numbers, size_t numbers_length, uint8_t *third, size_t third_length)
{
    work w;
    uint64_t count = 0;
    if (asked_length != TABLE || numbers_length != TABLE || third_length != TERMS) return (yardstick_starts){ .refusal = 1 };
    refusal r = begin(&w, site, site_length, rule, rule_length, asked, numbers);
    if (!r.number && end >= TERMS) r = (refusal){ 14, 1 };
    if (r.number) return (yardstick_starts){ .refusal = r.number, .place = r.place };
    fill_numbers(&w, end);
    fill(asked, TABLE, 0);
    for (int t = 0; t < TERMS; t++) count += third[t] = numbers[TERMS * (w.records - 1) + t] != NONE;
    return (yardstick_starts){ .starts = count };
}

yardstick_ceiling yardstick_ceiling_of(const uint8_t *site, size_t site_length, const uint8_t *rule, size_t rule_length)
{
    work w;
    uint8_t stands[TERMS] = { 0 };
    uint64_t terms = 0;
    refusal r = read_both(&w, site, site_length, rule, rule_length);
    if (r.number) return (yardstick_ceiling){ .refusal = r.number, .place = r.place };
    for (int i = 0; i < w.triples; i++) {
        const uint8_t *p = site + SIZE * i;
        stands[p[SUBJECT]] = stands[p[PREDICATE]] = stands[p[OBJECT]] = 1;
    }
    for (int t = 0; t < TERMS; t++) terms += stands[t];
    return (yardstick_ceiling){ .ceiling = (uint64_t)w.records * (terms + 1) };
}
