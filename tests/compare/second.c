/* Document 01 computed from its definitions, as a second program to compare the library with.
   Whole relations as sets of pairs, and breadth-first search over positions: slow, so that no method is shared. */
#include "second.h"
#include <stdbool.h>
#include <stdio.h>
#include <stdlib.h>
#include <string.h>

enum { TERMS = 256, TRIPLES = 1024, RECORDS = 32, WORDS = TERMS / 64 };
enum { TABLE = RECORDS * TERMS, ROOM_STEPS = 1024, NONE = 65535, ANYWHERE = TERMS };
enum { PLAIN = 1, NAMED = 2, TESTED = 3, SEQUENCE = 4, CHOICE = 5, STAR = 6, TRIPLE = 10 };
enum { BY_SELF, BY_NEXT, BY_NEXT_INVERSE, BY_EDGE, BY_EDGE_INVERSE, BY_NODE, BY_NODE_INVERSE };

typedef struct { int subject, predicate, object; } triple;
typedef struct { int kind, axis, name, one, two; } record; /* one, two: the operands; a test and a star's operand are one */
typedef struct { uint64_t bits[TERMS][WORDS]; } pairs;

/* All that is known of the input at hand. It is too large for a stack, and only one input is at hand at a time. */
static struct {
    int triples, records;
    triple site[TRIPLES];
    record rule[RECORDS];
    bool vocabulary[TERMS], mentioned[TERMS];
    pairs relation[RECORDS], rounds[RECORDS]; /* rounds: of a star, one or more */
    bool holds[RECORDS][TERMS], asked[RECORDS][TERMS];
    /* Between two steps of a path the term stays, so what may come next depends only on the records and on whether
       that term is in the vocabulary: the first index, 1 if it is. Sets of step records are bits. */
    bool empty[2][RECORDS], last[2][RECORDS]; /* done with no step at all; after it the body may finish */
    uint32_t first[2][RECORDS], after[2][RECORDS];
    bool own[RECORDS]; /* belongs to the rule's own body */
    uint16_t rest[RECORDS][TERMS]; /* steps still wanted when that step record has been taken to that term */
    uint16_t number[RECORDS][TERMS];
    second_notes notes;
} at;

static bool related(const pairs *p, int from, int to) { return p->bits[from][to / 64] >> (to % 64) & 1; }
static void relate(pairs *p, int from, int to) { p->bits[from][to / 64] |= (uint64_t)1 << (to % 64); }

static bool refuse(second_answer *answer, uint32_t number, uint64_t place)
{
    answer->refusal = number;
    answer->place = place;
    return false;
}

/* Reading */

static int wide(const uint8_t *bytes) { return bytes[0] * 256 + bytes[1]; }

static bool above(triple a, triple b)
{
    if (a.subject != b.subject) return a.subject > b.subject;
    if (a.predicate != b.predicate) return a.predicate > b.predicate;
    return a.object > b.object;
}

static bool read_site(const uint8_t *bytes, size_t length, second_answer *answer)
{
    at.triples = 0;
    memset(at.vocabulary, 0, sizeof at.vocabulary);
    memset(at.mentioned, 0, sizeof at.mentioned);
    for (size_t place = 0; place < length; place += 7) {
        if (at.triples == TRIPLES) return refuse(answer, 4, place);
        if (bytes[place] != TRIPLE) return refuse(answer, 2, place);
        if (length - place < 7) return refuse(answer, 3, place);
        triple t = { wide(bytes + place + 1), wide(bytes + place + 3), wide(bytes + place + 5) };
        if (t.subject > 255 || t.predicate > 255 || t.object > 255) return refuse(answer, 5, place);
        if (at.triples > 0 && !above(t, at.site[at.triples - 1])) return refuse(answer, 6, place);
        at.site[at.triples++] = t;
        at.vocabulary[t.subject] = at.vocabulary[t.object] = true;
        at.mentioned[t.subject] = at.mentioned[t.predicate] = at.mentioned[t.object] = true;
    }
    return true;
}

static bool read_rule(const uint8_t *bytes, size_t length, second_answer *answer)
{
    static const size_t body[] = { 0, 1, 3, 1, 0, 0, 0 };
    static const int wanted[] = { 0, 0, 0, 1, 2, 2, 1 };
    int stack[RECORDS], height = 0;
    size_t place = 0;
    at.records = 0;
    while (place < length) {
        if (at.records == RECORDS) return refuse(answer, 7, place);
        int kind = bytes[place];
        if (kind < PLAIN || kind > STAR) return refuse(answer, 8, place);
        if (length - place < 1 + body[kind]) return refuse(answer, 9, place);
        record r = { kind, 0, 0, -1, -1 };
        if (kind <= TESTED) r.axis = bytes[place + 1];
        if (r.axis > BY_NODE_INVERSE) return refuse(answer, 10, place);
        if (kind == NAMED) r.name = wide(bytes + place + 2);
        if (r.name > 255) return refuse(answer, 11, place);
        if (height < wanted[kind]) return refuse(answer, 12, place);
        if (wanted[kind] == 2) r.two = stack[--height];
        if (wanted[kind] >= 1) r.one = stack[--height];
        stack[height++] = at.records;
        at.rule[at.records++] = r;
        place += 1 + body[kind];
    }
    if (height != 1) return refuse(answer, 13, length);
    return true;
}

/* The relation */

/* How an axis takes one triple. */
static void take(int axis, triple t, int *from, int *to, int *middle)
{
    bool edge = axis == BY_EDGE || axis == BY_EDGE_INVERSE, node = axis == BY_NODE || axis == BY_NODE_INVERSE;
    int a = node ? t.predicate : t.subject, b = edge ? t.predicate : t.object;
    bool back = axis == BY_NEXT_INVERSE || axis == BY_EDGE_INVERSE || axis == BY_NODE_INVERSE;
    *middle = edge ? t.object : node ? t.subject : t.predicate;
    *from = back ? b : a;
    *to = back ? a : b;
}

static bool label_allows(const record *r, int middle)
{
    return r->kind == PLAIN || (r->kind == NAMED && middle == r->name) || (r->kind == TESTED && at.holds[r->one][middle]);
}

static bool self_allows(const record *r, int term)
{
    if (r->kind == NAMED) return term == r->name;
    return at.vocabulary[term] && label_allows(r, term);
}

static void relate_all(int n)
{
    const record *r = &at.rule[n];
    pairs *all = &at.relation[n];
    memset(all, 0, sizeof *all);
    if (r->kind <= TESTED && r->axis == BY_SELF) {
        for (int t = 0; t < TERMS; t++)
            if (self_allows(r, t)) relate(all, t, t);
    } else if (r->kind <= TESTED) {
        for (int i = 0; i < at.triples; i++) {
            int from, to, middle;
            take(r->axis, at.site[i], &from, &to, &middle);
            if (label_allows(r, middle)) relate(all, from, to);
        }
    } else if (r->kind == SEQUENCE) {
        for (int t = 0; t < TERMS; t++)
            for (int common = 0; common < TERMS; common++)
                if (related(&at.relation[r->one], t, common))
                    for (int w = 0; w < WORDS; w++) all->bits[t][w] |= at.relation[r->two].bits[common][w];
    } else if (r->kind == CHOICE) {
        for (int t = 0; t < TERMS; t++)
            for (int w = 0; w < WORDS; w++)
                all->bits[t][w] = at.relation[r->one].bits[t][w] | at.relation[r->two].bits[t][w];
    } else {
        *all = at.relation[r->one];
        for (int by = 0; by < TERMS; by++)
            for (int t = 0; t < TERMS; t++)
                if (related(all, t, by))
                    for (int w = 0; w < WORDS; w++) all->bits[t][w] |= all->bits[by][w];
        at.rounds[n] = *all;
        for (int t = 0; t < TERMS; t++)
            if (at.vocabulary[t]) relate(all, t, t);
    }
    for (int t = 0; t < TERMS; t++) {
        at.holds[n][t] = false;
        for (int w = 0; w < WORDS; w++) at.holds[n][t] |= all->bits[t][w] != 0;
    }
}

/* The questions */

static void ask(int n, int term)
{
    const record *r = &at.rule[n];
    if (at.asked[n][term]) return;
    at.asked[n][term] = true;
    if (r->kind == SEQUENCE) {
        ask(r->one, term);
        for (int t = 0; t < TERMS; t++)
            if (related(&at.relation[r->one], term, t)) ask(r->two, t);
    } else if (r->kind == CHOICE) {
        ask(r->one, term);
        ask(r->two, term);
    } else if (r->kind == STAR) {
        ask(r->one, term);
        for (int t = 0; t < TERMS; t++)
            if (related(&at.rounds[n], term, t)) ask(r->one, t);
    } else if (r->kind == TESTED && r->axis == BY_SELF) {
        if (at.vocabulary[term]) ask(r->one, term);
    } else if (r->kind == TESTED) {
        for (int i = 0; i < at.triples; i++) {
            int from, to, middle;
            take(r->axis, at.site[i], &from, &to, &middle);
            if (from == term) ask(r->one, middle);
        }
    }
}

/* The numbers */

/* Which step records may come first in each subexpression and which after it, at a term inside or outside. */
static void order_steps(int inside)
{
    bool *empty = at.empty[inside], *last = at.last[inside];
    uint32_t *first = at.first[inside], *after = at.after[inside];
    for (int n = 0; n < at.records; n++) {
        const record *r = &at.rule[n];
        empty[n] = false;
        if (r->kind <= TESTED) {
            first[n] = (uint32_t)1 << n;
        } else if (r->kind == SEQUENCE) {
            empty[n] = empty[r->one] && empty[r->two];
            first[n] = first[r->one] | (empty[r->one] ? first[r->two] : 0);
        } else if (r->kind == CHOICE) {
            empty[n] = empty[r->one] || empty[r->two];
            first[n] = first[r->one] | first[r->two];
        } else {
            empty[n] = inside || empty[r->one];
            first[n] = first[r->one];
        }
    }
    int whole = at.records - 1;
    after[whole] = 0;
    last[whole] = at.own[whole] = true;
    for (int n = whole; n >= 0; n--) { /* an operand stands before what it is an operand of */
        const record *r = &at.rule[n];
        if (r->kind == TESTED) {
            after[r->one] = 0;
            last[r->one] = true;
            at.own[r->one] = false;
        } else if (r->kind >= SEQUENCE) {
            after[r->one] = after[n];
            last[r->one] = last[n];
            at.own[r->one] = at.own[n];
            if (r->two >= 0) {
                after[r->two] = after[n];
                last[r->two] = last[n];
                at.own[r->two] = at.own[n];
            }
        }
        if (r->kind == SEQUENCE) {
            after[r->one] = first[r->two] | (empty[r->two] ? after[n] : 0);
            last[r->one] = empty[r->two] && last[n];
        }
        if (r->kind == STAR) after[r->one] |= first[r->one];
    }
}

static bool goal(int n, int term, int end) { return !at.own[n] || end == ANYWHERE || term == end; }

/* Breadth first, from where a body may finish backwards: a state is a step record just taken and the term reached. */
static void count_rest(int end)
{
    static struct { int step, term; } queue[RECORDS * TERMS];
    int head = 0, tail = 0;
    for (int n = 0; n < at.records; n++)
        for (int t = 0; t < TERMS; t++) {
            at.rest[n][t] = NONE;
            if (at.rule[n].kind <= TESTED && at.last[at.vocabulary[t]][n] && goal(n, t, end)) {
                at.rest[n][t] = 0;
                queue[tail].step = n;
                queue[tail++].term = t;
            }
        }
    while (head < tail) {
        int step = queue[head].step, to = queue[head].term;
        head++;
        for (int from = 0; from < TERMS; from++) {
            if (!related(&at.relation[step], from, to)) continue;
            for (int n = 0; n < at.records; n++)
                if (at.rule[n].kind <= TESTED && at.rest[n][from] == NONE
                    && at.after[at.vocabulary[from]][n] >> step & 1) {
                    at.rest[n][from] = (uint16_t)(at.rest[step][to] + 1);
                    queue[tail].step = n;
                    queue[tail++].term = from;
                }
        }
    }
}

static void count_numbers(int end)
{
    static uint16_t by[RECORDS][TERMS]; /* steps wanted if that step record is the next */
    order_steps(0);
    order_steps(1);
    count_rest(end);
    for (int n = 0; n < at.records; n++)
        for (int t = 0; t < TERMS; t++) {
            by[n][t] = NONE;
            if (at.rule[n].kind > TESTED || !at.holds[n][t]) continue;
            for (int to = 0; to < TERMS; to++)
                if (related(&at.relation[n], t, to) && at.rest[n][to] != NONE && at.rest[n][to] + 1 < by[n][t])
                    by[n][t] = (uint16_t)(at.rest[n][to] + 1);
        }
    for (int n = 0; n < at.records; n++)
        for (int t = 0; t < TERMS; t++) {
            int inside = at.vocabulary[t];
            bool empty = at.empty[inside][n];
            uint32_t next = at.first[inside][n] | (empty ? at.after[inside][n] : 0);
            at.number[n][t] = empty && at.last[inside][n] && goal(n, t, end) ? 0 : NONE;
            for (int q = 0; q < at.records; q++)
                if ((next >> q & 1) && by[q][t] < at.number[n][t]) at.number[n][t] = by[q][t];
        }
}

/* The relation and the numbers are found in two ways, and a body can be finished from a term exactly if it relates it. */
static void agree(int end)
{
    for (int n = 0; n < at.records; n++) {
        bool body = n == at.records - 1;
        for (int m = 0; m < at.records; m++) body |= at.rule[m].kind == TESTED && at.rule[m].one == n;
        for (int t = 0; body && t < TERMS; t++) {
            bool yes = at.own[n] && end != ANYWHERE ? related(&at.relation[n], t, end) : at.holds[n][t];
            if (yes != (at.number[n][t] != NONE)) {
                fprintf(stderr, "second: relation and number disagree at record %d, term %d\n", n, t);
                abort();
            }
        }
    }
}

/* The path: of the steps that shorten the way, the one with the smallest record, then triple, each time. */

static int shortening(uint32_t allowed, int from, int wanted, int *step, int *used, int *reached)
{
    int found = 0;
    for (int n = 0; n < at.records; n++) {
        const record *r = &at.rule[n];
        if (!(allowed >> n & 1)) continue;
        for (int i = 0; i < (r->axis == BY_SELF ? 1 : at.triples); i++) {
            int source = from, to = from, middle = from;
            if (r->axis != BY_SELF) take(r->axis, at.site[i], &source, &to, &middle);
            bool can = r->axis == BY_SELF ? self_allows(r, from) : source == from && label_allows(r, middle);
            if (can && at.rest[n][to] == wanted && found++ == 0) {
                *step = n;
                *used = r->axis == BY_SELF ? NONE : i;
                *reached = to;
            }
        }
    }
    return found;
}

static void put(uint8_t *bytes, int number)
{
    bytes[0] = (uint8_t)(number / 256);
    bytes[1] = (uint8_t)(number % 256);
}

static void write_path(uint8_t *room, int start)
{
    int term = start, step = 0, used = 0;
    uint32_t allowed = at.first[at.vocabulary[start]][at.records - 1];
    for (int wanted = at.number[at.records - 1][start]; wanted > 0; wanted--) {
        int found = shortening(allowed, term, wanted - 1, &step, &used, &term);
        if (found == 0) {
            fprintf(stderr, "second: no step shortens the way at term %d\n", term);
            abort();
        }
        if (found > 1) at.notes.several_shortest = 1;
        put(room, step);
        put(room + 2, used);
        put(room + 4, term);
        room += 6;
        allowed = at.after[at.vocabulary[term]][step];
    }
}

/* The calls */

static bool read_both(const uint8_t *site, size_t site_length, const uint8_t *rule, size_t rule_length, second_answer *answer)
{
    memset(&at.notes, 0, sizeof at.notes);
    if (!read_site(site, site_length, answer) || !read_rule(rule, rule_length, answer)) return false;
    int depth[RECORDS] = { 0 };
    for (int n = 0; n < at.records; n++) {
        const record *r = &at.rule[n];
        if (r->one >= 0) depth[n] = depth[r->one] + (r->kind == TESTED);
        if (r->two >= 0 && depth[r->two] > depth[n]) depth[n] = depth[r->two];
        at.notes.test_depth = depth[n] > at.notes.test_depth ? depth[n] : at.notes.test_depth;
    }
    return true;
}

static void relate_rule(void)
{
    for (int n = 0; n < at.records; n++) relate_all(n);
}

static uint64_t figure(int start)
{
    uint64_t count = 0;
    memset(at.asked, 0, sizeof at.asked);
    ask(at.records - 1, start);
    for (int n = 0; n < at.records; n++)
        for (int t = 0; t < TERMS; t++) {
            const record *r = &at.rule[n];
            if (!at.asked[n][t]) continue;
            count++;
            if (r->kind == TESTED && r->axis == BY_SELF && !at.vocabulary[t] && at.holds[r->one][t])
                at.notes.tested_self_outside = 1;
            for (int u = 0; r->kind == STAR && u < TERMS; u++)
                if (!at.vocabulary[u] && related(&at.rounds[n], t, u)) at.notes.star_ends_outside = 1;
        }
    return count;
}

static void fill_tables(uint8_t *asked, uint8_t *numbers)
{
    for (int n = 0; n < RECORDS; n++)
        for (int t = 0; t < TERMS; t++) {
            asked[n * TERMS + t] = n < at.records && at.asked[n][t];
            put(numbers + 2 * (n * TERMS + t), n < at.records ? at.number[n][t] : NONE);
        }
}

second_answer second_decide(const uint8_t *site, size_t site_length, const uint8_t *rule, size_t rule_length,
                            uint32_t start, uint32_t end, uint8_t *asked, size_t asked_length,
                            uint8_t *numbers, size_t numbers_length, uint8_t *room, size_t room_length)
{
    second_answer answer = { 0 };
    if (asked_length != TABLE || numbers_length != 2 * TABLE || room_length != 6 * ROOM_STEPS) {
        refuse(&answer, 1, 0);
        return answer;
    }
    if (!read_both(site, site_length, rule, rule_length, &answer)) return answer;
    if (start >= TERMS || end >= TERMS) {
        refuse(&answer, 14, start >= TERMS ? 0 : 1);
        return answer;
    }
    relate_rule();
    uint64_t questions = figure((int)start);
    count_numbers((int)end);
    agree((int)end);
    fill_tables(asked, numbers);
    bool yes = related(&at.relation[at.records - 1], (int)start, (int)end);
    uint64_t steps = yes ? at.number[at.records - 1][start] : 0;
    if (steps > ROOM_STEPS) {
        refuse(&answer, 15, steps);
        return answer;
    }
    if (yes) write_path(room, (int)start);
    answer.yes = yes;
    answer.figure = questions;
    answer.steps = steps;
    return answer;
}

/* What both lists begin with; false where the answer is a refusal. */
static bool begin_list(bool long_enough, const uint8_t *site, size_t site_length, const uint8_t *rule, size_t rule_length,
                       uint32_t term, uint64_t place, second_answer *answer)
{
    if (!long_enough) refuse(answer, 1, 0);
    else if (read_both(site, site_length, rule, rule_length, answer)) {
        if (term < TERMS) {
            relate_rule();
            return true;
        }
        refuse(answer, 14, place);
    }
    return false;
}

second_answer second_list_ends(const uint8_t *site, size_t site_length, const uint8_t *rule, size_t rule_length,
                               uint32_t start, uint8_t *asked, size_t asked_length,
                               uint8_t *numbers, size_t numbers_length, uint8_t *third, size_t third_length)
{
    second_answer answer = { 0 };
    bool long_enough = asked_length == TABLE && numbers_length == 2 * TABLE && third_length == TERMS;
    if (!begin_list(long_enough, site, site_length, rule, rule_length, start, 0, &answer)) return answer;
    answer.figure = figure((int)start);
    count_numbers(ANYWHERE);
    agree(ANYWHERE);
    fill_tables(asked, numbers);
    for (int t = 0; t < TERMS; t++) {
        third[t] = related(&at.relation[at.records - 1], (int)start, t);
        answer.count += third[t];
    }
    return answer;
}

second_answer second_list_starts(const uint8_t *site, size_t site_length, const uint8_t *rule, size_t rule_length,
                                 uint32_t end, uint8_t *asked, size_t asked_length,
                                 uint8_t *numbers, size_t numbers_length, uint8_t *third, size_t third_length)
{
    second_answer answer = { 0 };
    bool long_enough = asked_length == TABLE && numbers_length == 2 * TABLE && third_length == TERMS;
    /* the place is by role: 1 is an end, though no start is taken */
    if (!begin_list(long_enough, site, site_length, rule, rule_length, end, 1, &answer)) return answer;
    memset(at.asked, 0, sizeof at.asked);
    count_numbers((int)end);
    agree((int)end);
    fill_tables(asked, numbers);
    for (int t = 0; t < TERMS; t++) {
        third[t] = related(&at.relation[at.records - 1], t, (int)end);
        answer.count += third[t];
    }
    return answer;
}

second_answer second_ceiling_of(const uint8_t *site, size_t site_length, const uint8_t *rule, size_t rule_length)
{
    second_answer answer = { 0 };
    if (!read_both(site, site_length, rule, rule_length, &answer)) return answer;
    uint64_t terms = 0;
    for (int t = 0; t < TERMS; t++) terms += at.mentioned[t];
    answer.ceiling = (uint64_t)at.records * (terms + 1);
    return answer;
}

second_notes second_look(void) { return at.notes; }
