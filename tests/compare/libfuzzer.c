/* The comparison as a libFuzzer target: the second program's branches steer, and any difference or stray access ends the run.
   An input is start, end, a byte of choices, the rule's length, the rule, and the site as triples of three bytes or as it is. */
#include "both.h"
#include "inputs.h"
#include <stdio.h>
#include <stdlib.h>
#include <string.h>

enum { AHEAD = 4, CHOICES = 192, RAW_SITE = 1, WIDE_START = 2, WIDE_END = 4, LENGTHS = 8 };

static both_seen seen;

static void report(void) { both_print_seen(&seen); }

/* Three bytes a triple, sorted: most inputs then have a site that can be read. */
static void read_triples(both_input *in, const uint8_t *data, size_t size)
{
    for (size_t i = 0; i + 3 <= size && in->site_length < 7 * 1024; i += 3) {
        uint8_t record[7] = { 10, 0, data[i], 0, data[i + 1], 0, data[i + 2] };
        memcpy(in->site + in->site_length, record, 7);
        in->site_length += 7;
    }
    inputs_put_in_order(in);
}

int LLVMFuzzerInitialize(int *count, char ***words);
int LLVMFuzzerTestOneInput(const uint8_t *data, size_t size);

int LLVMFuzzerInitialize(int *count, char ***words)
{
    (void)count, (void)words;
    both_begin();
    atexit(report);
    return 0;
}

int LLVMFuzzerTestOneInput(const uint8_t *data, size_t size)
{
    static both_input in;
    if (size < AHEAD) return 0;
    memset(&in, 0, sizeof in);
    int choices = data[2] < CHOICES ? 0 : data[2]; /* most inputs choose nothing */
    in.start = data[0] + (choices & WIDE_START ? 65536u : 0);
    in.end = data[1] + (choices & WIDE_END ? 256u : 0);
    size_t lengths[4] = { 8192, 16384, 256, 6144 };
    if (choices & LENGTHS) lengths[choices >> 4 & 3] += data[0] % 2 ? 1 : (size_t)-1;
    in.asked_length = lengths[0], in.numbers_length = lengths[1], in.third_length = lengths[2], in.room_length = lengths[3];
    in.contents = data[0] * 256u + data[1];
    in.rule_length = data[3] < size - AHEAD ? data[3] : size - AHEAD;
    memcpy(in.rule, data + AHEAD, in.rule_length);
    data += AHEAD + in.rule_length;
    size -= AHEAD + in.rule_length;
    if (choices & RAW_SITE) memcpy(in.site, data, in.site_length = size < BOTH_SITE ? size : BOTH_SITE);
    else read_triples(&in, data, size);
    if (both_check(&in, &seen)) exit(1);
    return 0;
}
