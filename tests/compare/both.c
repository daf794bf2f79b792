/* One input through the four C calls and through the second program, everything compared.
   Lent buffers lie between canaries or against a page that cannot be touched, so that no stray read or write stays unseen. */
#define _DEFAULT_SOURCE
#include "both.h"
#include "second.h"
#include "carolivy.h"
#include <signal.h>
#include <stdio.h>
#include <stdlib.h>
#include <string.h>
#include <sys/mman.h>
#include <unistd.h>
#ifdef MEMCHECK /* under valgrind what a call may not touch is shut, and what it may not depend on is undefined */
#include <valgrind/memcheck.h>
#define SHUT(bytes, length) VALGRIND_MAKE_MEM_NOACCESS(bytes, length)
#define UNSET(bytes, length) VALGRIND_MAKE_MEM_UNDEFINED(bytes, length)
#define OPEN(bytes, length) VALGRIND_MAKE_MEM_DEFINED(bytes, length)
#else
#define SHUT(bytes, length) ((void)0)
#define UNSET(bytes, length) ((void)0)
#define OPEN(bytes, length) ((void)0)
#endif

enum { MARGIN = 64, SPAN = BOTH_LENT + 2 * MARGIN, SHOWN = 12, PATIENCE = 120 };

/* A buffer as lent: the bytes, what lay there and around it before, and the second program's copy. */
typedef struct {
    const char *name;
    uint8_t *base, *bytes;
    size_t length, behind; /* canary bytes behind: none where the page that cannot be touched begins */
    uint8_t before[SPAN], own[BOTH_LENT];
} lent;

static lent site = { .name = "site" }, rule = { .name = "rule" }, asked = { .name = "byte table" },
            numbers = { .name = "number table" }, third = { .name = "third table" }, room = { .name = "room" };
static const both_input *input;
static const char *call;
static int differences;
static uint64_t dice;

static uint64_t scatter(void)
{
    uint64_t x = dice += 0x9e3779b97f4a7c15u;
    x = (x ^ x >> 30) * 0xbf58476d1ce4e5b9u;
    x = (x ^ x >> 27) * 0x94d049bb133111ebu;
    return x ^ x >> 31;
}

static int differ(void)
{
    if (++differences == SHOWN + 1) printf("difference: more of them\n");
    return differences <= SHOWN;
}

static void same(const char *what, uint64_t library, uint64_t second)
{
    if (library != second && differ())
        printf("difference: %s: %s: library %llu, second %llu\n", call, what,
               (unsigned long long)library, (unsigned long long)second);
}

/* Two results of the library itself. */
static void alike(const char *what, uint64_t one, uint64_t other)
{
    if (one != other && differ())
        printf("difference: the library's own calls: %s: %llu and %llu\n", what, (unsigned long long)one, (unsigned long long)other);
}

/* Lending */

static size_t page(void) { return (size_t)sysconf(_SC_PAGESIZE); }

static void reserve(lent *l)
{
    size_t size = (SPAN + page() - 1) / page() * page();
    uint8_t *whole = mmap(NULL, size + page(), PROT_READ | PROT_WRITE, MAP_PRIVATE | MAP_ANONYMOUS, -1, 0);
    if (whole == MAP_FAILED || mprotect(whole + size, page(), PROT_NONE)) {
        perror("both: no memory to lend");
        exit(2);
    }
    l->base = whole + size - SPAN; /* so that the span ends at the page that cannot be touched */
}

/* Bytes that read well as more of the same, so that reading past the end changes an answer. */
static uint8_t likely(const lent *l, size_t i)
{
    static const uint8_t triple[] = { 10, 0, 255, 0, 255, 0, 255 }, star[] = { 6, 6, 1, 1, 4 };
    return l == &site ? triple[i % sizeof triple] : star[i % sizeof star];
}

static void lend(lent *l, size_t length, const uint8_t *source)
{
    int flush = scatter() % 2, style = (int)(scatter() % 8);
    OPEN(l->base, SPAN);
    l->length = length;
    l->behind = flush ? 0 : MARGIN;
    l->bytes = flush ? l->base + SPAN - length : l->base + MARGIN;
    for (size_t i = 0; i < MARGIN + length + l->behind; i += 8) {
        uint64_t x = style == 0 ? 0 : style == 1 ? ~(uint64_t)0 : style == 2 ? 0x0101010101010101u : scatter();
        size_t left = MARGIN + length + l->behind - i;
        memcpy(l->bytes - MARGIN + i, &x, left < 8 ? left : 8);
    }
    if (length && source) memcpy(l->bytes, source, length);
    for (size_t i = 0; source && i < l->behind; i++) l->bytes[length + i] = likely(l, i);
    memcpy(l->before, l->bytes - MARGIN, MARGIN + length + l->behind);
    memcpy(l->own, l->bytes, length);
    SHUT(l->bytes - MARGIN, MARGIN);
    SHUT(l->bytes + length, l->behind);
    if (!source) UNSET(l->bytes, length);
}

/* What a caller passes: nothing at all may stand for a buffer of no length. */
static uint8_t *passed(const lent *l, int none) { return l->length == 0 && none ? NULL : l->bytes; }

static void show_entry(const lent *l, size_t i)
{
    if (l == &asked) printf("record %zu, term %zu", i / 256, i % 256);
    else if (l == &numbers) printf("record %zu, term %zu, its byte %zu", i / 512, i / 2 % 256, i % 2);
    else if (l == &room) printf("step %zu, number %zu, its byte %zu", i / 6, i / 2 % 3, i % 2);
    else printf("place %zu", i);
    if (l == &numbers && l->length == CAROLIVY_NUMBERS)
        printf(": library %d, second %d\n", l->bytes[i & ~(size_t)1] * 256 + l->bytes[i | 1],
               l->own[i & ~(size_t)1] * 256 + l->own[i | 1]);
    else printf(": library %d, second %d\n", l->bytes[i], l->own[i]);
}

static void returned(const lent *l)
{
    OPEN(l->base, SPAN);
    for (size_t i = 0; i < MARGIN; i++)
        if ((l->bytes - MARGIN)[i] != l->before[i] && differ())
            printf("difference: %s: byte %zu ahead of the %s was written\n", call, MARGIN - i, l->name);
    for (size_t i = 0; i < l->behind; i++)
        if (l->bytes[l->length + i] != l->before[MARGIN + l->length + i] && differ())
            printf("difference: %s: byte %zu behind the %s was written\n", call, i, l->name);
    if (l->length == 0 || memcmp(l->bytes, l->own, l->length) == 0) return;
    for (size_t i = 0; i < l->length; i++)
        if (l->bytes[i] != l->own[i] && differ()) {
            printf("difference: %s: %s, ", call, l->name);
            show_entry(l, i);
        }
}

/* After a call on both tables and on one buffer more. */
static void all_returned(const lent *more)
{
    returned(&site);
    returned(&rule);
    returned(&asked);
    returned(&numbers);
    returned(more);
}

/* The calls. Each is made on freshly lent buffers; NULL and the placing are drawn anew. */

static int lend_parts(const char *name)
{
    call = name;
    lend(&site, input->site_length, input->site);
    lend(&rule, input->rule_length, input->rule);
    lend(&asked, input->asked_length, NULL);
    lend(&numbers, input->numbers_length, NULL);
    lend(&third, input->third_length, NULL);
    lend(&room, input->room_length, NULL);
    return (int)(scatter() % 2);
}

static void count_refusal(both_seen *seen, const second_answer *answer)
{
    seen->count[SEEN_CALLS]++;
    if (answer->refusal) seen->count[SEEN_REFUSAL + answer->refusal]++;
}

static void count_corners(both_seen *seen)
{
    second_notes notes = second_look();
    seen->count[SEEN_STAR_OUTSIDE] += notes.star_ends_outside;
    seen->count[SEEN_SELF_OUTSIDE] += notes.tested_self_outside;
    seen->count[SEEN_SEVERAL] += notes.several_shortest;
    seen->count[SEEN_DEEP] += notes.test_depth == CAROLIVY_RECORDS - 1;
}

static uint64_t check_ceiling(both_seen *seen)
{
    int none = lend_parts("ceiling");
    carolivy_ceiling got = carolivy_ceiling_of(passed(&site, none), site.length, passed(&rule, none), rule.length);
    second_answer want = second_ceiling_of(input->site, input->site_length, input->rule, input->rule_length);
    same("refusal", got.refusal, want.refusal);
    same("place", got.place, want.place);
    same("ceiling", got.ceiling, want.ceiling);
    same("unused", got.unused, 0);
    returned(&site);
    returned(&rule);
    count_refusal(seen, &want);
    return got.ceiling;
}

static carolivy_ends check_ends(both_seen *seen)
{
    int none = lend_parts("ends");
    carolivy_ends got = carolivy_list_ends(passed(&site, none), site.length, passed(&rule, none), rule.length, input->start,
        passed(&asked, none), asked.length, passed(&numbers, none), numbers.length, passed(&third, none), third.length);
    second_answer want = second_list_ends(input->site, input->site_length, input->rule, input->rule_length, input->start,
        asked.own, asked.length, numbers.own, numbers.length, third.own, third.length);
    same("refusal", got.refusal, want.refusal);
    same("place", got.place, want.place);
    same("number of ends", got.ends, want.count);
    same("figure", got.figure, want.figure);
    same("unused", got.unused, 0);
    all_returned(&third);
    count_refusal(seen, &want);
    if (!want.refusal) count_corners(seen);
    if (want.count > 0) seen->count[SEEN_ENDS]++;
    return got;
}

static carolivy_starts check_starts(both_seen *seen)
{
    int none = lend_parts("starts");
    carolivy_starts got = carolivy_list_starts(passed(&site, none), site.length, passed(&rule, none), rule.length, input->end,
        passed(&asked, none), asked.length, passed(&numbers, none), numbers.length, passed(&third, none), third.length);
    second_answer want = second_list_starts(input->site, input->site_length, input->rule, input->rule_length, input->end,
        asked.own, asked.length, numbers.own, numbers.length, third.own, third.length);
    same("refusal", got.refusal, want.refusal);
    same("place", got.place, want.place);
    same("number of starts", got.starts, want.count);
    same("unused", got.unused, 0);
    all_returned(&third);
    count_refusal(seen, &want);
    if (want.count > 0) seen->count[SEEN_STARTS]++;
    return got;
}

static int stands_at_an_end_of_a_triple(uint32_t term)
{
    for (size_t i = 0; i + 7 <= input->site_length; i += 7)
        if (input->site[i + 2] == term || input->site[i + 6] == term) return 1;
    return 0;
}

static void count_decision(both_seen *seen, const second_answer *answer, uint32_t end)
{
    count_refusal(seen, answer);
    if (input->start == 65541 || end == 65541) seen->count[SEEN_WIDE_TERM] += answer->refusal == 14;
    if (answer->refusal == 15 && answer->place > 1024) seen->count[SEEN_LONG_PATH]++;
    if (answer->refusal) return;
    count_corners(seen);
    seen->count[answer->yes ? SEEN_YES : SEEN_NO]++;
    if (answer->yes && answer->steps == 0) seen->count[SEEN_YES_NO_STEPS]++;
    if (answer->steps == 1024) seen->count[SEEN_FULL_ROOM]++;
    if (answer->steps >= 4) seen->count[SEEN_MANY_STEPS]++;
    if (answer->yes && !stands_at_an_end_of_a_triple(end)) seen->count[SEEN_OUTSIDE]++;
    if (input->site_length == 0) seen->count[SEEN_EMPTY_SITE]++;
    if (input->site_length == 7 * CAROLIVY_TRIPLES) seen->count[SEEN_FULL_SITE]++;
}

static carolivy_decision check_decision(both_seen *seen, uint32_t end)
{
    int none = lend_parts("decide");
    if (none && (input->site_length == 0 || input->rule_length == 0)) seen->count[SEEN_NULL]++;
    carolivy_decision got = carolivy_decide(passed(&site, none), site.length, passed(&rule, none), rule.length, input->start, end,
        passed(&asked, none), asked.length, passed(&numbers, none), numbers.length, passed(&room, none), room.length);
    second_answer want = second_decide(input->site, input->site_length, input->rule, input->rule_length, input->start, end,
        asked.own, asked.length, numbers.own, numbers.length, room.own, room.length);
    int before = differences;
    same("refusal", got.refusal, want.refusal);
    same("place", got.place, want.place);
    same("yes", got.yes, want.yes);
    same("figure", got.figure, want.figure);
    same("steps", got.steps, want.steps);
    all_returned(&room);
    if (differences > before && end != input->end) printf("difference: that was with end %lu\n", (unsigned long)end);
    count_decision(seen, &want, end);
    return got;
}

/* Within the library itself: one figure for one start whatever the end, the byte table its count, the lists the answers. */
static void check_together(both_seen *seen)
{
    static uint8_t ends_table[CAROLIVY_THIRD], starts_table[CAROLIVY_THIRD], questions[CAROLIVY_ASKED];
    uint64_t most = check_ceiling(seen);
    carolivy_ends ends = check_ends(seen);
    if (!ends.refusal) {
        memcpy(ends_table, third.bytes, sizeof ends_table);
        memcpy(questions, asked.bytes, sizeof questions);
    }
    carolivy_starts starts = check_starts(seen);
    if (!starts.refusal) memcpy(starts_table, third.bytes, sizeof starts_table);
    uint32_t other[3] = { input->end, input->end, (uint32_t)(scatter() % 256) };
    for (uint32_t i = 0, t = (uint32_t)scatter(); !ends.refusal && other[1] == input->end && i < 256; i++, t++)
        if (ends_table[t % 256]) other[1] = t % 256;
    for (int i = 0; i < 3; i++) {
        if (i > 0 && (other[i] == input->end || input->end > 255)) continue;
        carolivy_decision got = check_decision(seen, other[i]);
        int answered = !got.refusal || got.refusal == 15;
        if (!answered || ends.refusal || starts.refusal || input->start > 255 || other[i] > 255) continue;
        uint64_t ones = 0;
        for (size_t q = 0; q < CAROLIVY_ASKED; q++) ones += asked.bytes[q];
        alike("yes and the list of ends", got.yes || got.refusal == 15, ends_table[other[i]]);
        if (i == 0) alike("yes and the list of starts", got.yes || got.refusal == 15, starts_table[input->start]);
        if (!got.refusal) alike("figure with this end and of the list of ends", got.figure, ends.figure);
        alike("ones in the byte table and figure", ones, ends.figure);
        alike("byte table with this end differs from that of the list of ends", memcmp(questions, asked.bytes, sizeof questions) != 0, 0);
        alike("figure above the ceiling", ends.figure > most, 0);
        size_t last = 2 * (CAROLIVY_RECORDS - 1) * CAROLIVY_TERMS;
        seen->count[SEEN_FULL_RULE] += numbers.own[last + 2 * input->start] != 255; /* an unused row holds 65,535 */
    }
}

int both_check(const both_input *in, both_seen *seen)
{
    input = in;
    dice = in->contents;
    differences = 0;
    alarm(PATIENCE);
    check_together(seen);
    alarm(0);
    if (differences) both_print(in);
    return differences;
}

/* A read or write where nothing was lent, or a call that does not come back, is a difference too: the input is shown. */
static void stopped(int number)
{
    printf("difference: %s: stopped by signal %d (%s)\n", call ? call : "?", number,
           number == SIGALRM ? "it did not come back" : number == SIGABRT ? "second gave up" : "it touched what was not lent");
    if (input) both_print(input);
    fflush(stdout);
    _exit(1);
}

void both_begin(void)
{
    static uint8_t stack[65536];
    stack_t other = { .ss_sp = stack, .ss_size = sizeof stack };
    struct sigaction action;
    lent *all[] = { &site, &rule, &asked, &numbers, &third, &room };
    for (size_t i = 0; i < sizeof all / sizeof *all; i++) reserve(all[i]);
    sigaltstack(&other, NULL);
    memset(&action, 0, sizeof action);
    action.sa_handler = stopped;
    action.sa_flags = SA_ONSTACK;
    static const int numbers_caught[] = { SIGSEGV, SIGBUS, SIGFPE, SIGILL, SIGABRT, SIGALRM };
    for (size_t i = 0; i < sizeof numbers_caught / sizeof *numbers_caught; i++) sigaction(numbers_caught[i], &action, NULL);
}

/* An input as text */

static void print_hex(const uint8_t *bytes, size_t length)
{
    if (length == 0) printf("-");
    for (size_t i = 0; i < length; i++) printf("%02x", bytes[i]);
    printf(" ");
}

void both_print(const both_input *in)
{
    printf("replay ");
    print_hex(in->site, in->site_length);
    print_hex(in->rule, in->rule_length);
    printf("%lu %lu %zu %zu %zu %zu %lu\n", (unsigned long)in->start, (unsigned long)in->end, in->asked_length,
           in->numbers_length, in->third_length, in->room_length, (unsigned long)in->contents);
}

static int read_hex(const char *word, uint8_t *bytes, size_t most, size_t *length)
{
    *length = 0;
    if (strcmp(word, "-") == 0) return 1;
    for (; *word; word += 2) {
        char pair[3] = { word[0], word[1], 0 }, *rest;
        unsigned long value = strtoul(pair, &rest, 16);
        if (rest != pair + 2 || *length == most) return 0;
        bytes[(*length)++] = (uint8_t)value;
    }
    return 1;
}

int both_read(both_input *in, char **words)
{
    size_t *lengths[] = { &in->asked_length, &in->numbers_length, &in->third_length, &in->room_length };
    memset(in, 0, sizeof *in);
    if (!read_hex(words[0], in->site, BOTH_SITE, &in->site_length)) return 0;
    if (!read_hex(words[1], in->rule, BOTH_RULE, &in->rule_length)) return 0;
    in->start = (uint32_t)strtoul(words[2], NULL, 10);
    in->end = (uint32_t)strtoul(words[3], NULL, 10);
    for (int i = 0; i < 4; i++) {
        *lengths[i] = strtoul(words[4 + i], NULL, 10);
        if (*lengths[i] > BOTH_LENT) return 0;
    }
    in->contents = (uint32_t)strtoul(words[8], NULL, 10);
    return 1;
}

/* What was seen */

static const char *const both_names[SEEN_KINDS] = {
    [SEEN_CALLS] = "calls", [SEEN_YES] = "yes", [SEEN_YES_NO_STEPS] = "yes with 0 steps", [SEEN_NO] = "no",
    [SEEN_REFUSAL + 1] = "refusal 1", [SEEN_REFUSAL + 2] = "refusal 2", [SEEN_REFUSAL + 3] = "refusal 3",
    [SEEN_REFUSAL + 4] = "refusal 4", [SEEN_REFUSAL + 5] = "refusal 5", [SEEN_REFUSAL + 6] = "refusal 6",
    [SEEN_REFUSAL + 7] = "refusal 7", [SEEN_REFUSAL + 8] = "refusal 8", [SEEN_REFUSAL + 9] = "refusal 9",
    [SEEN_REFUSAL + 10] = "refusal 10", [SEEN_REFUSAL + 11] = "refusal 11", [SEEN_REFUSAL + 12] = "refusal 12",
    [SEEN_REFUSAL + 13] = "refusal 13", [SEEN_REFUSAL + 14] = "refusal 14", [SEEN_REFUSAL + 15] = "refusal 15",
    [SEEN_LONG_PATH] = "a path over 1024 steps", [SEEN_FULL_ROOM] = "a path of 1024 steps",
    [SEEN_STAR_OUTSIDE] = "a star that ends outside the vocabulary",
    [SEEN_SELF_OUTSIDE] = "a tested self outside it, where the test holds", [SEEN_DEEP] = "tests 31 deep",
    [SEEN_SEVERAL] = "several shortest paths", [SEEN_MANY_STEPS] = "4 steps or more", [SEEN_ENDS] = "ends found",
    [SEEN_STARTS] = "starts found", [SEEN_EMPTY_SITE] = "an empty site answered",
    [SEEN_FULL_SITE] = "1024 triples answered", [SEEN_FULL_RULE] = "32 records, a way from the start",
    [SEEN_OUTSIDE] = "yes at an end outside the vocabulary", [SEEN_WIDE_TERM] = "query term 65541 refused",
    [SEEN_NULL] = "nothing lent as NULL",
};

void both_print_seen(const both_seen *seen)
{
    for (int i = 0; i < SEEN_KINDS; i++)
        if (both_names[i]) printf("%10lu  %s\n", seen->count[i], both_names[i]);
}

int both_missing(const both_seen *seen)
{
    int missing = 0;
    for (int i = 0; i < SEEN_KINDS; i++)
        if (both_names[i] && seen->count[i] == 0) {
            printf("never seen: %s\n", both_names[i]);
            missing++;
        }
    return missing;
}
