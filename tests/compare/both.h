/* One input given to the four C calls and to the second program, and everything that comes back compared.
   Both drivers (compare, fuzz) and the replay of a difference go through here, so that they check the same things. */
#ifndef BOTH_H
#define BOTH_H
#include <stddef.h>
#include <stdint.h>

enum { BOTH_SITE = 8192, BOTH_RULE = 512, BOTH_LENT = 32768 }; /* the longest an input's parts may get */

typedef struct {
    uint8_t site[BOTH_SITE], rule[BOTH_RULE];
    size_t site_length, rule_length;
    uint32_t start, end;
    size_t asked_length, numbers_length, third_length, room_length;
    uint32_t contents; /* settles what the lent buffers hold beforehand and where they lie */
} both_input;

/* How often each kind of outcome was seen; the order is that of both_names. */
enum {
    SEEN_CALLS, SEEN_YES, SEEN_YES_NO_STEPS, SEEN_NO, SEEN_REFUSAL, /* SEEN_REFUSAL + n is refusal n, 1 to 15 */
    SEEN_LONG_PATH = SEEN_REFUSAL + 16, SEEN_FULL_ROOM, SEEN_STAR_OUTSIDE, SEEN_SELF_OUTSIDE, SEEN_DEEP,
    SEEN_SEVERAL, SEEN_MANY_STEPS, SEEN_ENDS, SEEN_STARTS, SEEN_EMPTY_SITE, SEEN_FULL_SITE, SEEN_FULL_RULE,
    SEEN_OUTSIDE, SEEN_WIDE_TERM, SEEN_NULL, SEEN_KINDS
};
typedef struct { unsigned long count[SEEN_KINDS]; } both_seen;

void both_begin(void);
/* How many differences there were; each is printed, then the input as both_read takes it. */
int both_check(const both_input *input, both_seen *seen);
void both_print(const both_input *input);
/* From the nine words that both_print wrote; 0 if they are not that. */
int both_read(both_input *input, char **words);
void both_print_seen(const both_seen *seen);
/* Prints the kinds never seen and says how many. */
int both_missing(const both_seen *seen);
#endif
