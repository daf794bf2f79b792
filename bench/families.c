/* The inputs of the bench: each family after one way in which a site or a rule can be hard, or usual.
   Rules are written in postfix: next, next- (inverse), next:12 (named), [next] (tested by what stands before), / | and *. */
#include "families.h"
#include <stdarg.h>
#include <stdio.h>
#include <stdlib.h>
#include <string.h>

enum { TERMS = 256, TRIPLES = 1024, RECORDS = 32, INPUTS = 2048 };

static families_input *made;
static int count;

/* The dice */

static uint64_t state;

static uint32_t roll(uint32_t sides)
{
    uint64_t x = state += 0x9e3779b97f4a7c15u;
    x = (x ^ x >> 30) * 0xbf58476d1ce4e5b9u;
    x = (x ^ x >> 27) * 0x94d049bb133111ebu;
    return (uint32_t)((x ^ x >> 31) >> 33) % sides;
}

static void give_up(const char *why, const char *what)
{
    fprintf(stderr, "families: %s: %s\n", why, what);
    exit(2);
}

/* Sites */

typedef struct {
    uint8_t bytes[FAMILIES_SITE];
    size_t length;
} site;

static int by_bytes(const void *a, const void *b) { return memcmp(a, b, 7); }
static int triples(const site *s) { return (int)(s->length / 7); }

/* Adds a triple unless it is there or the site is full; whether it did. */
static int add(site *s, int subject, int predicate, int object)
{
    uint8_t t[7] = { 10, 0, (uint8_t)subject, 0, (uint8_t)predicate, 0, (uint8_t)object };
    if (s->length + 7 > sizeof s->bytes) return 0;
    for (size_t i = 0; i < s->length; i += 7)
        if (memcmp(s->bytes + i, t, 7) == 0) return 0;
    memcpy(s->bytes + s->length, t, 7);
    s->length += 7;
    return 1;
}

static void put_in_order(site *s) { qsort(s->bytes, s->length / 7, 7, by_bytes); }

/* Rules */

typedef struct {
    uint8_t bytes[FAMILIES_RULE];
    size_t length;
    int records;
} rule;

static void put(rule *r, int kind, int axis, int name)
{
    if (r->records++ == RECORDS) give_up("more than 32 records", "");
    r->bytes[r->length++] = (uint8_t)kind;
    if (kind <= 3) r->bytes[r->length++] = (uint8_t)axis;
    if (kind == 2) {
        r->bytes[r->length++] = 0;
        r->bytes[r->length++] = (uint8_t)name;
    }
}

static void put_word(rule *r, const char *word)
{
    static const char *const axes[] = { "self", "next", "next-", "edge", "edge-", "node", "node-" };
    char axis[16];
    int name = 0;
    if (strcmp(word, "/") == 0) put(r, 4, 0, 0);
    else if (strcmp(word, "|") == 0) put(r, 5, 0, 0);
    else if (strcmp(word, "*") == 0) put(r, 6, 0, 0);
    else {
        int kind = sscanf(word, "[%15[a-z-]]", axis) == 1 ? 3 : sscanf(word, "%15[a-z-]:%d", axis, &name);
        for (int a = 0; a < 7; a++)
            if (kind > 0 && strcmp(axis, axes[a]) == 0) {
                put(r, kind, a, name);
                return;
            }
        give_up("not a word of a rule", word);
    }
}

/* The text may hold numbers of names, given after it as to printf. */
static void append(rule *r, const char *text, ...)
{
    char words[512];
    va_list given;
    va_start(given, text);
    vsnprintf(words, sizeof words, text, given);
    va_end(given);
    for (char *word = strtok(words, " "); word; word = strtok(NULL, " ")) put_word(r, word);
}

/* So many expressions are joined by one kind of record. */
static void join(rule *r, const char *by, int expressions)
{
    for (int i = 1; i < expressions; i++) put_word(r, by);
}

static void draw_step(rule *r, int predicates, int first_predicate)
{
    static const int axes[] = { 1, 1, 1, 2, 3, 4, 5, 6, 0, 1 };
    int axis = axes[roll(10)];
    if (axis && axis <= 2 && roll(2)) put(r, 2, axis, first_predicate + (int)roll((uint32_t)predicates));
    else put(r, 1, axis, 0);
}

static void draw_expression(rule *r, int records, int predicates, int first_predicate)
{
    if (records == 1) {
        draw_step(r, predicates, first_predicate);
        return;
    }
    uint32_t kind = roll(records > 2 ? 10 : 4);
    if (kind >= 4) {
        int one = 1 + (int)roll((uint32_t)records - 2);
        draw_expression(r, one, predicates, first_predicate);
        draw_expression(r, records - 1 - one, predicates, first_predicate);
        put(r, kind < 7 ? 4 : 5, 0, 0);
        return;
    }
    draw_expression(r, records - 1, predicates, first_predicate);
    if (kind < 2) put(r, 6, 0, 0);
    else put(r, 3, 1 + (int)roll(6), 0);
}

/* Inputs */

static void give(const char *family, int size, const site *s, const rule *r, int start, int end, const char *name, ...)
{
    if (count == INPUTS) give_up("too many inputs", name);
    families_input *in = &made[count++];
    va_list given;
    memset(in, 0, sizeof *in);
    in->family = family;
    va_start(given, name);
    vsnprintf(in->name, sizeof in->name, name, given);
    va_end(given);
    in->size = size;
    memcpy(in->site, s->bytes, s->length);
    in->site_length = s->length;
    memcpy(in->rule, r->bytes, r->length);
    in->rule_length = r->length;
    in->start = (uint32_t)start;
    in->end = (uint32_t)end;
}

/* The small depot, and the same with many rings of three places */
static void depot(int rings)
{
    static const struct { const char *name, *rule; int start, end; } cases[] = {
        { "P1 one named step", "next:10", 0, 1 }, { "P2 star of a named step", "next:10 *", 0, 0 }, { "P3 star", "next *", 0, 2 },
        { "P4 tested step", "next:12 self:13 / [next]", 0, 1 }, { "P5 tested self", "next:12 [self]", 0, 0 },
        { "P6 edge, self", "edge self /", 10, 12 }, { "P7 node inverse", "node-:0", 1, 10 }, { "P8 choice", "next:10 next |", 0, 1 },
        { "P9 star in star", "next * *", 0, 0 }, { "P10 star outside", "next *", 12, 12 }, { "a strange term", "next", 200, 200 },
    };
    site s = { .length = 0 };
    for (int i = 0; i < rings; i++) {
        int a = i ? 14 + 3 * i : 0;
        add(&s, a, 10, a + 1);
        add(&s, a + 1, 11, a + 2);
        add(&s, a + 2, 10, a);
    }
    add(&s, 10, 12, 13);
    add(&s, 11, 12, 13);
    put_in_order(&s);
    for (size_t i = 0; i < sizeof cases / sizeof *cases; i++) {
        rule r = { .length = 0 };
        append(&r, cases[i].rule);
        give("depot", triples(&s), &s, &r, cases[i].start, cases[i].end, "%s", cases[i].name);
    }
}

static void depots(void)
{
    depot(1);
    depot(65);
}

/* Warehouses: floors of aisles and bays, lifts between the floors, and connections that are described by triples of their own */

enum { ALLOWS = 240, LOADED, EMPTY, PART, STATE, OPEN, SHUT, LIFT, SPEED, SLOW, FAST, ISLE };

typedef struct {
    int floors, aisles, bays, connections, first_connection;
} warehouse;

static int bay(const warehouse *h, int floor, int aisle, int at) { return (floor * h->aisles + aisle) * h->bays + at; }
static int far_bay(const warehouse *h) { return bay(h, h->floors - 1, h->aisles - 1, h->bays / 2); }
static int allows_loads(int connection) { return connection % 4 != 3; }
static int some_connection(const warehouse *h) { return h->first_connection + (int)roll((uint32_t)h->connections); }

static int connection_for_loads(const warehouse *h)
{
    int connection = some_connection(h);
    while (!allows_loads(connection)) connection = some_connection(h);
    return connection;
}

static void warehouse_site(site *s, warehouse *h, int size)
{
    int floors = size < 512 ? 2 : 3, aisles = size < 512 ? 4 : 5, bays = size < 512 ? 6 : 10;
    *h = (warehouse){ floors, aisles, bays, size < 512 ? 28 : 84, floors * aisles * bays };
    s->length = 0;
    for (int c = 0; c < h->connections; c++) { /* what each connection is */
        int connection = h->first_connection + c;
        add(s, connection, ALLOWS, allows_loads(connection) ? LOADED : EMPTY);
        add(s, connection, PART, h->first_connection + c % 7);
        if (roll(2)) add(s, connection, SPEED, roll(2) ? SLOW : FAST);
        if (c < 7) add(s, connection, STATE, c == 3 ? SHUT : OPEN);
    }
    for (int f = 0; f < floors; f++)
        for (int a = 0; a < aisles; a++) {
            int along = connection_for_loads(h), back = some_connection(h), across = connection_for_loads(h);
            for (int b = 0; b + 1 < bays; b++) {
                add(s, bay(h, f, a, b), along, bay(h, f, a, b + 1));
                if (a % 2) add(s, bay(h, f, a, b + 1), back, bay(h, f, a, b));
            }
            if (a + 1 < aisles) {
                add(s, bay(h, f, a, bays - 1), across, bay(h, f, a + 1, bays - 1));
                add(s, bay(h, f, a + 1, 0), across, bay(h, f, a, 0));
            }
        }
    add(s, ISLE, PART, ISLE); /* a place that nothing leads to */
    for (int lifts = size / 10; lifts > 0; lifts--) {
        int f = (int)roll((uint32_t)floors - 1), a = (int)roll((uint32_t)aisles), b = (int)roll((uint32_t)bays);
        add(s, bay(h, f, a, b), LIFT, bay(h, f + 1, a, b));
        add(s, bay(h, f + 1, a, b), LIFT, bay(h, f, a, b));
    }
    add(s, LIFT, ALLOWS, LOADED);
    while (triples(s) < size) { /* shortcuts within a floor, by connections of all sorts */
        int f = (int)roll((uint32_t)floors);
        add(s, bay(h, f, (int)roll((uint32_t)aisles), (int)roll((uint32_t)bays)), some_connection(h),
            bay(h, f, (int)roll((uint32_t)aisles), (int)roll((uint32_t)bays)));
    }
    put_in_order(s);
}

/* The seven rules; the second has 28 records. */
static const char *const warehouse_rule_names[] = {
    "loaded star", "four alternatives", "lifts or any", "one step", "what a connection allows", "open parts", "by connections",
};
enum { WAREHOUSE_RULES = sizeof warehouse_rule_names / sizeof *warehouse_rule_names };

static void warehouse_rule(rule *r, int which)
{
    *r = (rule){ .length = 0 };
    switch (which) {
    case 0: append(r, "next:%d self:%d / [next] *", ALLOWS, LOADED); break;
    case 1:
        append(r, "next:%d self:%d / [next]", ALLOWS, LOADED);
        append(r, "next:%d next:%d / self:%d / [next]", PART, STATE, OPEN);
        append(r, "next:%d next next:%d / | | | *", LIFT, LIFT);
        append(r, "next next:%d / [self] /", LIFT);
        append(r, "next:%d next- | * /", LIFT);
        break;
    case 2: append(r, "next:%d * next / next:%d / *", LIFT, LIFT); break;
    case 3: append(r, "next"); break;
    case 4: append(r, "edge next:%d / self:%d /", ALLOWS, LOADED); break;
    case 5: append(r, "next:%d next:%d self:%d / / [next] next:%d [self] next- / | *", PART, STATE, OPEN, LIFT); break;
    case 6: append(r, "edge node / edge- node- / | *"); break;
    }
}

static void warehouses(void)
{
    static const int sizes[] = { 256, 850, 1024 };
    for (size_t i = 0; i < 3; i++) {
        site s;
        warehouse h;
        state = 7;
        warehouse_site(&s, &h, sizes[i]);
        for (int w = 0; w < WAREHOUSE_RULES; w++) {
            rule r;
            warehouse_rule(&r, w);
            const char *name = warehouse_rule_names[w];
            give("warehouse", sizes[i], &s, &r, 0, far_bay(&h), "%s, across", name);
            give("warehouse", sizes[i], &s, &r, 0, ISLE, "%s, no route", name);
            give("warehouse", sizes[i], &s, &r, 0, w == 4 ? LOADED : 1, "%s, next door", name);
        }
    }
}

/* Random sites of several densities and predicates, long rules */
static void randoms(void)
{
    static const struct { const char *name; int few, many, predicates; } of[] = {
        { "crowded, 2 predicates", 16, 32, 2 }, { "crowded, 1 predicate", 32, 64, 1 }, { "crowded, 16 predicates", 16, 64, 16 },
        { "loose, 4 predicates", 32, 128, 4 }, { "loose, 1 predicate", 50, 200, 1 }, { "loose, 40 predicates", 50, 200, 40 },
    };
    for (int size = 256; size <= 1024; size *= 4)
        for (int k = 0; k < 6; k++) {
            site s = { .length = 0 };
            int places = size == 256 ? of[k].few : of[k].many, predicates = of[k].predicates, first = 256 - predicates;
            state = 100 + (uint64_t)k;
            while (triples(&s) < size) add(&s, (int)roll((uint32_t)places), first + (int)roll((uint32_t)predicates), (int)roll((uint32_t)places));
            put_in_order(&s);
            for (int n = 0; n < 5; n++) {
                rule r = { .length = 0 };
                state = 1000 + 10 * (uint64_t)k + (uint64_t)n;
                draw_expression(&r, n < 3 ? RECORDS - 1 : 20, predicates, first);
                if (n < 3) put(&r, 6, 0, 0);
                give("random", size, &s, &r, 0, places / 2, "%s, rule %d", of[k].name, n);
            }
        }
}

/* Chains: so many places one after another, in a numbering; with noise, triples that lead back */

static int place_of(int numbering, int i, int places)
{
    enum { STRIDE = 97 }; /* has no factor in common with 64 or 255, so that it visits all places before it repeats one */
    return numbering == 0 ? i : numbering == 1 ? places - 1 - i : i * STRIDE % places;
}

static void chains(void)
{
    static const char *const numberings[] = { "ascending", "descending", "shuffled" };
    static const struct { const char *name, *rule; } rules[] = {
        { "forward", "next:255 *" }, { "inverse", "next-:255 *" }, { "unlabelled", "next *" },
        { "as a test in a star", "next:255 * self:%d / [self] next:255 / *" },
    };
    for (int noise = 0; noise < 2; noise++)
        for (int places = 64; places <= 255; places += 191)
            for (int n = 0; n < 3; n++)
                for (int w = 0; w < 4; w++) {
                    int size = !noise ? places - 1 : places == 64 ? 256 : 1024;
                    site s = { .length = 0 };
                    rule r = { .length = 0 };
                    int first = place_of(n, 0, places), last = place_of(n, places - 1, places), inverse = w == 1;
                    state = 5;
                    for (int i = 0; i + 1 < places; i++) add(&s, place_of(n, i, places), 255, place_of(n, i + 1, places));
                    while (triples(&s) < size) {
                        int from = 1 + (int)roll((uint32_t)places - 1);
                        add(&s, place_of(n, from, places), (int)roll(16), place_of(n, (int)roll((uint32_t)from), places));
                    }
                    put_in_order(&s);
                    append(&r, rules[w].rule, last);
                    give(noise ? "chain, noise" : "chain", size, &s, &r, inverse ? last : first, inverse ? first : last, "%s, %s",
                         numberings[n], rules[w].name);
                }
}

/* An odd cycle under a star of sixteen steps: every place is met with every record */
static void cycles(void)
{
    for (int places = 63; places <= 255; places += 192) {
        static const struct { const char *name; int end; } ends[] = { { "few steps", 16 }, { "many steps", 4 }, { "most steps", -1 } };
        site s = { .length = 0 };
        rule r = { .length = 0 };
        for (int i = 0; i < places; i++) add(&s, i, 255, (i + 1) % places);
        put_in_order(&s);
        for (int i = 0; i < 16; i++) append(&r, "next");
        join(&r, "/", 16);
        append(&r, "*");
        for (int e = 0; e < 3; e++) give("odd cycle", places, &s, &r, 0, ends[e].end < 0 ? places - 1 : ends[e].end, "%s", ends[e].name);
    }
}

/* Dense: every place to every place, by every predicate */
static void denses(void)
{
    static const struct { int size, places, predicates; } of[] = { { 256, 8, 4 }, { 1024, 16, 4 }, { 256, 16, 1 }, { 1024, 32, 1 } };
    for (int k = 0; k < 4; k++) {
        site s = { .length = 0 };
        const char *kind = of[k].predicates == 1 ? "one predicate" : "four predicates";
        for (int a = 0; a < of[k].places; a++)
            for (int b = 0; b < of[k].places; b++)
                for (int p = 0; p < of[k].predicates; p++) add(&s, a, 200 + p, b);
        put_in_order(&s);
        rule star = { .length = 0 }, sixteen = { .length = 0 }, tested = { .length = 0 }, axes = { .length = 0 };
        append(&star, "next next / *");
        for (int i = 0; i < 16; i++) append(&sixteen, i % 2 ? "next-" : "next:200");
        join(&sixteen, "/", 16);
        append(&sixteen, "*");
        for (int i = 0; i < 10; i++) append(&tested, i % 2 ? "edge- [next]" : "node [next-]");
        join(&tested, "/", 10);
        append(&tested, "*");
        append(&axes, "next next- edge edge- node node- node node- / / / / / / / *");
        give("dense", of[k].size, &s, &star, 0, 1, "%s, star of two", kind);
        give("dense", of[k].size, &s, &sixteen, 0, 1, "%s, star of sixteen", kind);
        give("dense", of[k].size, &s, &tested, 0, 1, "%s, ten tested", kind);
        give("dense", of[k].size, &s, &axes, 0, 1, "%s, all axes", kind);
    }
}

/* A site on which the hard rules below are tried: places in a ring with chords, predicates that are places too */
static void ring_with_chords(site *s, int size)
{
    int places = size / 5;
    s->length = 0;
    state = 31;
    for (int i = 0; i < places; i++) add(s, i, 220 + i % 8, (i + 1) % places);
    while (triples(s) < size / 2) add(s, (int)roll((uint32_t)places), (int)roll((uint32_t)places), (int)roll((uint32_t)places));
    while (triples(s) < size) add(s, (int)roll((uint32_t)places), 220 + (int)roll(8), (int)roll((uint32_t)places));
    put_in_order(s);
}

static void hard_rules(void)
{
    static const char *const steps[] = { "next", "next-", "edge", "node", "next:221", "edge-", "node-", "next-:222" };
    for (int size = 256; size <= 1024; size *= 4) {
        site s;
        ring_with_chords(&s, size);
        int end = size / 10;
        for (int w = 0; w < 3; w++) { /* stars in stars */
            static const char *const names[] = { "31 stars over one step", "star of ten stars", "stars of stars of two" };
            rule r = { .length = 0 };
            if (w == 0) {
                append(&r, "next:221");
                for (int i = 0; i < 31; i++) append(&r, "*");
            } else if (w == 1) {
                for (int i = 0; i < 10; i++) append(&r, "%s *", steps[i % 8]);
                join(&r, "/", 10);
                append(&r, "* *");
            } else {
                for (int i = 0; i < 4; i++) append(&r, "%s * %s | * *", steps[i], steps[7 - i]);
                join(&r, "/", 4);
                append(&r, "*");
            }
            give("stars in stars", size, &s, &r, 0, end, "%s", names[w]);
        }
        for (int w = 0; w < 3; w++) { /* tests 31 deep */
            static const char *const names[] = { "all next", "all self", "all axes" };
            rule r = { .length = 0 };
            append(&r, "next");
            for (int i = 0; i < 31; i++) {
                static const char *const tests[] = { "[next]", "[edge]", "[next-]", "[node]", "[self]", "[edge-]", "[node-]" };
                append(&r, w == 0 ? "[next]" : w == 1 ? "[self]" : tests[i % 7]);
            }
            give("tests 31 deep", size, &s, &r, 0, w == 1 ? 0 : 1, "%s", names[w]);
        }
        for (int w = 0; w < 3; w++) { /* choices of 16 */
            static const char *const names[] = { "named", "all axes", "all axes, no star" };
            rule r = { .length = 0 };
            for (int i = 0; i < 16; i++) {
                if (w == 0) append(&r, "next:%d", 220 + i % 8);
                else append(&r, "%s", steps[i % 8]);
            }
            join(&r, "|", 16);
            if (w < 2) append(&r, "*");
            give("choices of 16", size, &s, &r, 0, end, "%s", names[w]);
        }
    }
}

/* A chain whose places each point to a fresh low one: whoever works terms in their order starts over at each place */
static void adversaries(void)
{
    for (int size = 256; size <= 1024; size *= 4) {
        int places = size == 256 ? 64 : 127, predicates = size == 256 ? 2 : 4;
        site s = { .length = 0 };
        for (int i = 0; i < places; i++)
            for (int p = 0; p < predicates; p++) {
                add(&s, 128 + i, 250 + p, places - 1 - i);
                if (i + 1 < places) add(&s, 128 + i, 250 + p, 129 + i);
            }
        put_in_order(&s);
        for (int w = 0; w < 3; w++) {
            static const char *const names[] = { "star", "star of sixteen", "forward or back" };
            rule r = { .length = 0 };
            if (w == 0) append(&r, "next *");
            else if (w == 2) append(&r, "next next- | *");
            else {
                for (int i = 0; i < 16; i++) append(&r, "next");
                join(&r, "/", 16);
                append(&r, "*");
            }
            give("fresh low places", size, &s, &r, 128, w == 1 ? 128 + 48 : 127 + places, "%s", names[w]);
        }
    }
}

static void begin(void)
{
    if (!made) made = malloc(INPUTS * sizeof *made);
    if (!made) give_up("no memory", "");
    count = 0;
}

int families_all(const families_input **inputs)
{
    begin();
    depots();
    warehouses();
    randoms();
    chains();
    cycles();
    denses();
    hard_rules();
    adversaries();
    *inputs = made;
    return count;
}

int families_slots(const families_input **inputs)
{
    site s;
    warehouse h;
    begin();
    state = 7;
    warehouse_site(&s, &h, 850);
    state = 77;
    for (int i = 0; i < 150; i++)
        for (int w = 0; w < WAREHOUSE_RULES; w++) {
            rule r;
            int places = h.floors * h.aisles * h.bays, start = (int)roll((uint32_t)places);
            int end = w == 4 ? (roll(2) ? LOADED : EMPTY) : roll(12) ? (int)roll((uint32_t)places) : ISLE;
            warehouse_rule(&r, w);
            give("slots", 850, &s, &r, start, end, "%s", warehouse_rule_names[w]);
        }
    *inputs = made;
    return count;
}

/* Plain rules first, which the peers are made for; where nothing leads, all must be looked through. */
int families_peers(const families_input **inputs)
{
    static const struct { const char *name, *rule; } plain[] = {
        { "star", "next *" }, { "star of the inverse", "next- *" }, { "star of a name", "next:%d *" },
        { "star of a choice", "next:%d next- | *" }, { "sequence", "next next / next:%d /" },
    };
    begin();
    depot(1);
    for (int size = 850; size <= 1024; size += 174) {
        site s;
        warehouse h;
        state = 7;
        warehouse_site(&s, &h, size);
        for (size_t i = 0; i < sizeof plain / sizeof *plain; i++) {
            rule r = { .length = 0 };
            append(&r, plain[i].rule, LIFT);
            give("warehouse", size, &s, &r, 0, far_bay(&h), "%s", plain[i].name);
            if (i == 0) give("warehouse", size, &s, &r, 0, ISLE, "%s, no route", plain[i].name);
        }
        for (int w = 0; w < WAREHOUSE_RULES; w++) {
            rule r;
            warehouse_rule(&r, w);
            give("warehouse", size, &s, &r, 0, w == 4 ? LOADED : far_bay(&h), "%s", warehouse_rule_names[w]);
            if (w == 0) give("warehouse", size, &s, &r, 0, ISLE, "%s, no route", warehouse_rule_names[w]);
        }
    }
    *inputs = made;
    return count;
}
