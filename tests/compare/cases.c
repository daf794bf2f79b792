/* Document 01's cases, edges and refusals with the results typed from it by hand, for the second program and the C calls.
   Results are rendered as text (the query program's lines, sets by record), so that a case reads as the document does. */
#include "carolivy.h"
#include "second.h"
#include <stdarg.h>
#include <stdio.h>
#include <stdlib.h>
#include <string.h>

/* Sites and rules are hex; x*n stands n times; "ring n" is places 0 to n - 1 in a ring by predicate 255;
   "full" is 1,024 triples (i, 7, t), i from 0 to 3 and t from 0 to 255. */
#define DEPOT "0a0000000a0001 0a0001000b0002 0a0002000a0000 0a000a000c000d 0a000b000c000d"

typedef struct {
    const char *name, *site, *rule;
    uint32_t start, end;
    const char *line;    /* answer, figure, ceiling, steps; or refused, number, place */
    const char *path;    /* record triple term; ... */
    const char *asked;   /* record: terms; ... */
    const char *numbers; /* record: term=number; ... where there is one */
} decision;

static const decision decisions[] = {
    { "P1 next::10", DEPOT, "0201000a", 0, 1, "yes 1 8 1", "0 0 1", "0: 0", "0: 0=1" },
    { "P2 (next::10)*", DEPOT, "0201000a 06", 0, 0, "yes 3 16 0", "", "0: 0 1; 1: 0", "0: 2=1; 1: 0=0 2=1" },
    { "P3 next*", DEPOT, "0101 06", 0, 2, "yes 4 16 2", "0 0 1; 0 1 2", "0: 0 1 2; 1: 0",
      "0: 0=2 1=1 2=3; 1: 0=2 1=1 2=0" },
    { "P4 next::[next::12/self::13]", DEPOT, "0201000c 0200000d 04 0301", 0, 1, "yes 4 32 1", "3 0 1",
      "0: 10; 1: 13; 2: 10; 3: 0", "0: 10=2 11=2; 1: 13=1; 2: 10=2 11=2; 3: 0=1" },
    { "P5 self::[next::12]", DEPOT, "0201000c 0300", 0, 0, "no 2 16 0", "", "0: 0; 1: 0", "0: 10=1 11=1" },
    { "P6 edge/self", DEPOT, "0103 0100 04", 10, 12, "no 3 24 0", "", "0: 10; 1: 12; 2: 10", "" },
    { "P7 node inverse::0", DEPOT, "02060000", 1, 10, "yes 1 8 1", "0 0 10", "0: 1", "0: 1=1" },
    { "P8 next::10 | next", DEPOT, "0201000a 0101 05", 0, 1, "yes 3 24 1", "0 0 1", "0: 0; 1: 0; 2: 0",
      "0: 0=1; 1: 0=1; 2: 0=1" },
    { "P9 (next*)*", DEPOT, "0101 06 06", 0, 0, "yes 7 24 0", "", "0: 0 1 2; 1: 0 1 2; 2: 0",
      "0: 0=3 1=2 2=1; 1: 0=0 1=2 2=1; 2: 0=0 1=2 2=1" },
    { "P10 next*", DEPOT, "0101 06", 12, 12, "no 2 16 0", "", "0: 12; 1: 12", "" },
    { "11 next at a strange term", DEPOT, "0101", 200, 200, "no 1 8 0", "", "0: 200", "" },
    { "12 self::5, empty site", "", "02000005", 5, 5, "yes 1 1 1", "0 - 5", "0: 5", "0: 5=1" },
    { "13 self, empty site", "", "0100", 5, 5, "no 1 1 0", "", "0: 5", "" },
    /* stars that end outside the vocabulary */
    { "edge*", DEPOT, "0103 06", 10, 12, "yes 3 16 1", "0 3 12", "0: 10 12; 1: 10",
      "0: 0=2 1=2 2=2 10=1 11=1; 1: 0=2 1=2 2=2 10=1 11=1" },
    { "(edge*)*", DEPOT, "0103 06 06", 10, 12, "yes 5 24 1", "0 3 12", "0: 10 12; 1: 10 12; 2: 10",
      "0: 0=2 1=2 2=2 10=1 11=1; 1: 0=2 1=2 2=2 10=1 11=1; 2: 0=2 1=2 2=2 10=1 11=1" },
    { "edge*/self", DEPOT, "0103 06 0100 04", 10, 12, "no 6 32 0", "", "0: 10 12; 1: 10; 2: 10 12; 3: 10", "" },
    { "(self::12)*", DEPOT, "0200000c 06", 12, 12, "yes 2 16 1", "0 - 12", "0: 12; 1: 12", "0: 12=1; 1: 12=1" },
    { "edge*/self, empty round", DEPOT, "0103 06 0100 04", 13, 13, "yes 4 32 1", "2 - 13", "0: 13; 1: 13; 2: 13; 3: 13",
      "1: 13=1; 2: 13=1; 3: 13=1" },
    /* edges of the sizes */
    { "term 255 read", "0a00ff00ff00ff", "020100ff", 255, 255, "yes 1 2 1", "0 0 255", "0: 255", "0: 255=1" },
    { "32 records read", DEPOT, "0101 06*31", 0, 2, "yes 94 256 2", "0 0 1; 0 1 2", "94 in all", "96 in all" },
    { "1024 triples read", "full", "0101", 3, 255, "yes 1 257 1", "0 1023 255", "0: 3", "0: 0=1 1=1 2=1 3=1" },
    { "1024 steps fill the room", "ring 255", "0101 010104*15 06", 0, 4, "yes 7906 8224 1024", "0 0 1 ... 29 3 4",
      "7906 in all", "8160 in all" },
    { "1025 steps do not", "ring 254", "0101 010104*4 06", 0, 9, "refused 15 1025", "", "2287 in all", "2540 in all" },
    { "3824 steps", "ring 255", "0101 010104*15 06", 0, 254, "refused 15 3824", "", "7906 in all", "8160 in all" },
};

/* Refusals: of all four calls where the site or the rule is at fault. */
static const struct { const char *name, *site, *rule, *line; } unread[] = {
    { "2 first byte", "0b0000000a0001", "0101", "refused 2 0" },
    { "2 second record", "0a0000000a0001 14", "0101", "refused 2 7" },
    { "2 before 3", "09", "0101", "refused 2 0" },
    { "3 a lone kind", "0a", "0101", "refused 3 0" },
    { "3 the last byte missing", "0a0000000a0001 0a0001000b00", "0101", "refused 3 7" },
    { "3 before 5", "0a0100", "0101", "refused 3 0" },
    { "4 a byte more", "full 0a", "0101", "refused 4 7168" },
    { "4 before 2", "full 00", "0101", "refused 4 7168" },
    { "4 a triple more", "full 0a00ff00ff00ff", "0101", "refused 4 7168" },
    { "5 subject 256", "0a0100000a0001", "0101", "refused 5 0" },
    { "5 predicate 256", "0a000001000001", "0101", "refused 5 0" },
    { "5 object 256", "0a0000000a0001 0a0001000a0100", "0101", "refused 5 7" },
    { "5 before 6", "0a0005000a0001 0a0001000a0100", "0101", "refused 5 7" },
    { "6 repeated", "0a0000000a0001*2", "0101", "refused 6 7" },
    { "6 subject below", "0a0001000a0001 0a0000000b0002", "0101", "refused 6 7" },
    { "6 predicate below", "0a0000000b0001 0a0000000a0002", "0101", "refused 6 7" },
    { "6 object below", "0a0000000a0002 0a0000000a0001", "0101", "refused 6 7" },
    { "6 before the rule's", "0a0000000a0001*2", "", "refused 6 7" },
    { "7 a byte more", DEPOT, "0101 06*32", "refused 7 33" },
    { "7 before 8", DEPOT, "0101 06*31 00", "refused 7 33" },
    { "8 kind 0", DEPOT, "00", "refused 8 0" },
    { "8 kind 7", DEPOT, "0101 07", "refused 8 2" },
    { "8 kind 255", DEPOT, "0101 06 ff", "refused 8 3" },
    { "9 no axis", DEPOT, "01", "refused 9 0" },
    { "9 no term", DEPOT, "0101 0201", "refused 9 2" },
    { "9 half a term", DEPOT, "0101 020100", "refused 9 2" },
    { "9 before 10", DEPOT, "0207", "refused 9 0" },
    { "9 before 12", DEPOT, "03", "refused 9 0" },
    { "10 axis 7", DEPOT, "0107", "refused 10 0" },
    { "10 before 11", DEPOT, "0101 02070100", "refused 10 2" },
    { "10 before 12", DEPOT, "0307", "refused 10 0" },
    { "11 term 256", DEPOT, "02010100", "refused 11 0" },
    { "11 term 65535", DEPOT, "0101 0200ffff", "refused 11 2" },
    { "12 star of nothing", DEPOT, "06", "refused 12 0" },
    { "12 test of nothing", DEPOT, "0300", "refused 12 0" },
    { "12 sequence of one", DEPOT, "0101 04", "refused 12 2" },
    { "12 choice of one", DEPOT, "0101 06 05", "refused 12 3" },
    { "13 an empty rule", DEPOT, "", "refused 13 0" },
    { "13 empty rule and site", "", "", "refused 13 0" },
    { "13 two expressions", DEPOT, "0101 0101", "refused 13 4" },
    { "13 a test leaves the one before", DEPOT, "0101 0101 0301", "refused 13 6" },
};

/* Query terms: the decision's line, then that of the ends and of the starts where they take the term. */
static const struct { const char *name, *rule; uint32_t start, end; const char *decide, *ends, *starts; } queries[] = {
    { "14 start 256", "0101", 256, 0, "refused 14 0", "refused 14 0", NULL },
    { "14 end 256", "0101", 0, 256, "refused 14 1", NULL, "refused 14 1" },
    { "14 start before end", "0101", 256, 256, "refused 14 0", "refused 14 0", "refused 14 1" },
    { "14 start 65541, not 5", "0101", 65541, 0, "refused 14 0", "refused 14 0", NULL },
    { "14 end 65541, not 5", "0101", 0, 65541, "refused 14 1", NULL, "refused 14 1" },
    { "14 start 65536, not 0", "0101", 65536, 1, "refused 14 0", "refused 14 0", NULL },
    { "14 the largest end", "0101", 0, 0xffffffff, "refused 14 1", NULL, "refused 14 1" },
    { "13 before 14", "", 256, 256, "refused 13 0", "refused 13 0", "refused 13 0" },
};

/* Lent lengths: place 0, ahead of a fault in the site. */
static const struct { const char *name; size_t asked, numbers, third, room; } lengths[] = {
    { "1 byte table short", 8191, 16384, 256, 6144 },    { "1 byte table long", 8193, 16384, 256, 6144 },
    { "1 byte table missing", 0, 16384, 256, 6144 },     { "1 number table short", 8192, 16383, 256, 6144 },
    { "1 number table by entries", 8192, 8192, 256, 6144 }, { "1 number table long", 8192, 16386, 256, 6144 },
    { "1 third and room short", 8192, 16384, 255, 6143 }, { "1 third and room long", 8192, 16384, 257, 6145 },
    { "1 third and room missing", 8192, 16384, 0, 0 },   { "1 room by numbers", 8192, 16384, 512, 3072 },
};

/* Lists: how many, the figure where there is one, and which. */
static const struct { const char *name, *site, *rule; int ends; uint32_t term; const char *line, *asked, *numbers; } lists[] = {
    { "ends of next* from 0", DEPOT, "0101 06", 1, 0, "3 ends, figure 4: 0 1 2", "0: 0 1 2; 1: 0",
      "0: 0=1 1=1 2=1 10=1 11=1; 1: 0=0 1=0 2=0 10=0 11=0 13=0" },
    { "ends of next* from 10", DEPOT, "0101 06", 1, 10, "2 ends, figure 3: 10 13", "0: 10 13; 1: 10", NULL },
    { "ends of next* from 12", DEPOT, "0101 06", 1, 12, "0 ends, figure 2:", "0: 12; 1: 12", NULL },
    { "ends of edge* from 0", DEPOT, "0103 06", 1, 0, "3 ends, figure 4: 0 10 12", "0: 0 10 12; 1: 0", NULL },
    { "ends of self::12", DEPOT, "0200000c", 1, 12, "1 ends, figure 1: 12", "0: 12", "0: 12=1" },
    { "ends round the ring", "ring 255", "0101 010104*15 06", 1, 0, "255 ends, figure 7906: ...", "7906 in all", "8160 in all" },
    { "starts of next* to 2", DEPOT, "0101 06", 0, 2, "3 starts: 0 1 2", "", "0: 0=2 1=1 2=3; 1: 0=2 1=1 2=0" },
    { "starts of edge* to 12", DEPOT, "0103 06", 0, 12, "5 starts: 0 1 2 10 11", "",
      "0: 0=2 1=2 2=2 10=1 11=1; 1: 0=2 1=2 2=2 10=1 11=1" },
    { "starts of edge/self to 12", DEPOT, "0103 0100 04", 0, 12, "0 starts:", "", "" },
    { "starts, empty site", "", "02000005", 0, 5, "1 starts: 5", "", "0: 5=1" },
};

/* The two programs behind one face */

typedef struct {
    uint8_t site[8192], rule[512], asked[16384], numbers[32768], third[1024], room[8192];
    size_t site_length, rule_length, asked_length, numbers_length, third_length, room_length;
} lent;
static lent it, before;

static second_answer unused_fields(second_answer a, uint32_t unused)
{
    if (unused) a.ceiling = a.figure = 999999; /* no case expects it */
    return a;
}

static second_answer decide(int library, uint32_t start, uint32_t end)
{
    if (!library) return second_decide(it.site, it.site_length, it.rule, it.rule_length, start, end, it.asked,
                                       it.asked_length, it.numbers, it.numbers_length, it.room, it.room_length);
    carolivy_decision r = carolivy_decide(it.site, it.site_length, it.rule, it.rule_length, start, end, it.asked,
                                          it.asked_length, it.numbers, it.numbers_length, it.room, it.room_length);
    second_answer a = { r.refusal, r.yes, r.place, r.figure, r.steps, 0, 0 };
    return a;
}

static second_answer list(int library, int ends, uint32_t term)
{
    if (!library) return (ends ? second_list_ends : second_list_starts)(it.site, it.site_length, it.rule, it.rule_length, term,
            it.asked, it.asked_length, it.numbers, it.numbers_length, it.third, it.third_length);
    if (ends) {
        carolivy_ends r = carolivy_list_ends(it.site, it.site_length, it.rule, it.rule_length, term,
            it.asked, it.asked_length, it.numbers, it.numbers_length, it.third, it.third_length);
        second_answer a = { r.refusal, 0, r.place, r.figure, 0, r.ends, 0 };
        return unused_fields(a, r.unused);
    }
    carolivy_starts r = carolivy_list_starts(it.site, it.site_length, it.rule, it.rule_length, term,
        it.asked, it.asked_length, it.numbers, it.numbers_length, it.third, it.third_length);
    second_answer a = { r.refusal, 0, r.place, 0, 0, r.starts, 0 };
    return unused_fields(a, r.unused);
}

static second_answer ceiling(int library)
{
    if (!library) return second_ceiling_of(it.site, it.site_length, it.rule, it.rule_length);
    carolivy_ceiling r = carolivy_ceiling_of(it.site, it.site_length, it.rule, it.rule_length);
    second_answer a = { r.refusal, 0, r.place, 0, 0, 0, r.ceiling };
    return unused_fields(a, r.unused);
}

/* Reading a case */

static size_t read_hex(uint8_t *bytes, const char *word, size_t digits)
{
    for (size_t i = 0; i < digits / 2; i++) {
        char pair[3] = { word[2 * i], word[2 * i + 1], 0 };
        bytes[i] = (uint8_t)strtoul(pair, NULL, 16);
    }
    return digits / 2;
}

static size_t put_triple(uint8_t *bytes, int s, int p, int o)
{
    uint8_t record[7] = { 10, 0, (uint8_t)s, 0, (uint8_t)p, 0, (uint8_t)o };
    memcpy(bytes, record, 7);
    return 7;
}

static size_t read_text(uint8_t *bytes, const char *text)
{
    size_t length = 0;
    for (text += strspn(text, " "); *text; text += strspn(text, " ")) {
        size_t digits = strcspn(text, " *");
        if (strncmp(text, "ring", 4) == 0) {
            int n = (int)strtol(text + 4, (char **)&text, 10);
            for (int i = 0; i < n; i++) length += put_triple(bytes + length, i, 255, (i + 1) % n);
        } else if (strncmp(text, "full", 4) == 0) {
            for (int i = 0; i < 1024; i++) length += put_triple(bytes + length, i / 256, 7, i % 256);
            text += 4;
        } else {
            long times = 1;
            const char *word = text;
            text += digits;
            if (*text == '*') times = strtol(text + 1, (char **)&text, 10);
            for (; times > 0; times--) length += read_hex(bytes + length, word, digits);
        }
    }
    return length;
}

static void set(const char *site, const char *rule)
{
    memset(&it, 0xa5, sizeof it); /* what no call would write by chance everywhere */
    it.site_length = read_text(it.site, site);
    it.rule_length = read_text(it.rule, rule);
    it.asked_length = CAROLIVY_ASKED;
    it.numbers_length = CAROLIVY_NUMBERS;
    it.third_length = CAROLIVY_THIRD;
    it.room_length = CAROLIVY_ROOM;
    before = it;
}

/* Rendering a result */

static char text[4096]; /* what does not fit is cut: too long to be what a case expects */
static size_t written;

static void begin(void) { text[written = 0] = 0; }

static void add(const char *format, ...)
{
    va_list rest;
    va_start(rest, format);
    written += (size_t)vsnprintf(text + written, sizeof text - written, format, rest);
    if (written >= sizeof text) written = sizeof text - 1;
    va_end(rest);
}

static unsigned long long number(uint64_t n) { return (unsigned long long)n; }
static int wide(const uint8_t *bytes) { return bytes[0] * 256 + bytes[1]; }

static void render_path(uint64_t steps)
{
    begin();
    for (uint64_t i = 0; i < steps; i++) {
        const uint8_t *step = it.room + 6 * i;
        if (steps > 20 && i > 0 && i < steps - 1) continue;
        add(i == 0 ? "" : steps > 20 ? " ... " : "; ");
        if (wide(step + 2) == 65535) add("%d - %d", wide(step), wide(step + 4));
        else add("%d %d %d", wide(step), wide(step + 2), wide(step + 4));
    }
}

/* Both tables by record; a byte other than 0 and 1 shows as itself. */
static void render_table(int numbers)
{
    int all = 0, odd = 0;
    begin();
    for (int n = 0; n < 32; n++) {
        int in_row = 0;
        for (int t = 0; t < 256; t++) {
            int value = numbers ? wide(it.numbers + 2 * (256 * n + t)) : it.asked[256 * n + t];
            if (value == (numbers ? 65535 : 0)) continue;
            if (in_row++ == 0) add(all ? "; %d:" : "%d:", n);
            if (numbers || value != 1) add(" %d=%d", t, value);
            else add(" %d", t);
            all++;
            odd += !numbers && value != 1;
        }
    }
    if (all > 60 && !odd) {
        begin();
        add("%d in all", all);
    }
}

static void render_list(second_answer a, int ends)
{
    begin();
    if (ends) add("%llu ends, figure %llu:", number(a.count), number(a.figure));
    else add("%llu starts:", number(a.count));
    if (a.count > 20) add(" ...");
    else for (int t = 0; t < 256; t++)
        if (it.third[t]) add(it.third[t] == 1 ? " %d" : " %d=%d", t, it.third[t]);
}

static void render_refusal(second_answer a)
{
    begin();
    add("refused %u %llu", (unsigned)a.refusal, number(a.place));
    if (a.yes || a.figure || a.steps || a.count || a.ceiling) add(" and more");
}

/* Judging */

static int passed, failed, faults;

static void expect(const char *what, const char *want)
{
    if (want == NULL || strcmp(text, want) == 0) return;
    if (faults++ == 0) printf("FAILED\n");
    printf("    %s: %.400s, expected: %s\n", what, text, want);
}

static void expect_kept(const char *what, const void *now, const void *then, size_t length)
{
    begin();
    add(memcmp(now, then, length) ? "changed" : "kept");
    expect(what, "kept");
}

/* All that is not to be written: the parts read, what lies behind each buffer, and the buffers named. */
static void expect_rest_kept(int tables, int third, size_t room_from)
{
    expect_kept("site", it.site, before.site, sizeof it.site);
    expect_kept("rule", it.rule, before.rule, sizeof it.rule);
    size_t a = tables ? CAROLIVY_ASKED : 0, n = tables ? CAROLIVY_NUMBERS : 0, t = third ? CAROLIVY_THIRD : 0;
    expect_kept("byte table", it.asked + a, before.asked + a, sizeof it.asked - a);
    expect_kept("number table", it.numbers + n, before.numbers + n, sizeof it.numbers - n);
    expect_kept("third table", it.third + t, before.third + t, sizeof it.third - t);
    expect_kept("room", it.room + room_from, before.room + room_from, sizeof it.room - room_from);
}

static void open_case(int library, const char *name)
{
    faults = 0;
    printf("%-8s%-36s", library ? "library" : "second", name);
}

static void close_case(void)
{
    if (faults) failed++;
    else {
        passed++;
        printf("ok\n");
    }
}

static void expect_refused(const char *what, second_answer a, const char *line)
{
    render_refusal(a);
    expect(what, line);
    expect_rest_kept(0, 0, 0);
}

static void try_decision(int library, const decision *c)
{
    open_case(library, c->name);
    set(c->site, c->rule);
    second_answer most = ceiling(library), a = decide(library, c->start, c->end);
    if (a.refusal) render_refusal(a);
    else {
        begin();
        add("%s %llu %llu %llu", a.yes ? "yes" : "no", number(a.figure), number(most.ceiling), number(a.steps));
    }
    expect("line", c->line);
    render_path(a.steps <= 1024 ? a.steps : 0);
    expect("path", c->path);
    render_table(0);
    expect("asked", c->asked);
    render_table(1);
    expect("numbers", c->numbers);
    expect_rest_kept(1, 0, a.steps <= 1024 ? 6 * (size_t)a.steps : 0);
    close_case();
}

static void try_all(int library)
{
    for (size_t i = 0; i < sizeof decisions / sizeof *decisions; i++) try_decision(library, &decisions[i]);
    for (size_t i = 0; i < sizeof lists / sizeof *lists; i++) {
        open_case(library, lists[i].name);
        set(lists[i].site, lists[i].rule);
        second_answer a = list(library, lists[i].ends, lists[i].term);
        if (a.refusal) render_refusal(a);
        else render_list(a, lists[i].ends);
        expect("list", lists[i].line);
        render_table(0);
        expect("asked", lists[i].asked);
        render_table(1);
        expect("numbers", lists[i].numbers);
        expect_rest_kept(1, 1, 0);
        close_case();
    }
    for (size_t i = 0; i < sizeof unread / sizeof *unread; i++) {
        open_case(library, unread[i].name);
        set(unread[i].site, unread[i].rule);
        expect_refused("decide", decide(library, 0, 1), unread[i].line);
        expect_refused("decide, ahead of 14", decide(library, 256, 256), unread[i].line);
        expect_refused("ends", list(library, 1, 0), unread[i].line);
        expect_refused("starts", list(library, 0, 0), unread[i].line);
        expect_refused("ceiling", ceiling(library), unread[i].line);
        close_case();
    }
    for (size_t i = 0; i < sizeof queries / sizeof *queries; i++) {
        open_case(library, queries[i].name);
        set(DEPOT, queries[i].rule);
        expect_refused("decide", decide(library, queries[i].start, queries[i].end), queries[i].decide);
        if (queries[i].ends) expect_refused("ends", list(library, 1, queries[i].start), queries[i].ends);
        if (queries[i].starts) expect_refused("starts", list(library, 0, queries[i].end), queries[i].starts);
        close_case();
    }
    for (size_t i = 0; i < sizeof lengths / sizeof *lengths; i++) {
        static const char *const sites[] = { DEPOT, "0b" };
        open_case(library, lengths[i].name);
        for (int s = 0; s < 2; s++) {
            set(sites[s], "0101");
            it.asked_length = lengths[i].asked;
            it.numbers_length = lengths[i].numbers;
            it.third_length = lengths[i].third;
            it.room_length = lengths[i].room;
            expect_refused("decide", decide(library, 0, 1), "refused 1 0");
            expect_refused("ends", list(library, 1, 0), "refused 1 0");
            expect_refused("starts", list(library, 0, 1), "refused 1 0");
        }
        close_case();
    }
}

int main(void)
{
    try_all(0);
    try_all(1);
    printf("%d passed, %d failed\n", passed, failed);
    return failed != 0;
}
