/* The yardstick under the names of the library's calls, so that the driver of tests/compare checks it as it checks the library.
   Only the pairs of bytes differ: they are read into native numbers ahead of the call and written back behind it. */
#include "carolivy.h"
#include "yardstick.h"

static uint16_t numbers_in[CAROLIVY_NUMBERS / 2], room_in[CAROLIVY_ROOM / 2];

static size_t from_pairs(uint16_t *to, const uint8_t *bytes, size_t length, size_t wanted)
{
    if (length != wanted) return 0; /* no native length stands for a wrong one: 0 is refused as well */
    for (size_t i = 0; i < wanted / 2; i++) to[i] = (uint16_t)(bytes[2 * i] * 256 + bytes[2 * i + 1]);
    return wanted / 2;
}

static void to_pairs(uint8_t *bytes, const uint16_t *from, size_t count)
{
    for (size_t i = 0; i < count; i++) {
        bytes[2 * i] = (uint8_t)(from[i] / 256);
        bytes[2 * i + 1] = (uint8_t)from[i];
    }
}

carolivy_decision carolivy_decide(const uint8_t *site, size_t site_length, const uint8_t *rule, size_t rule_length, uint32_t start, uint32_t end,
    uint8_t *asked, size_t asked_length, uint8_t *numbers, size_t numbers_length, uint8_t *room, size_t room_length)
{
    size_t n = from_pairs(numbers_in, numbers, numbers_length, CAROLIVY_NUMBERS), m = from_pairs(room_in, room, room_length, CAROLIVY_ROOM);
    yardstick_decision a = yardstick_decide(site, site_length, rule, rule_length, start, end, asked, asked_length, numbers_in, n, room_in, m);
    to_pairs(numbers, numbers_in, n);
    to_pairs(room, room_in, m);
    return (carolivy_decision){ a.refusal, a.yes, a.place, a.figure, a.steps };
}

carolivy_ends carolivy_list_ends(const uint8_t *site, size_t site_length, const uint8_t *rule, size_t rule_length, uint32_t start,
    uint8_t *asked, size_t asked_length, uint8_t *numbers, size_t numbers_length, uint8_t *third, size_t third_length)
{
    size_t n = from_pairs(numbers_in, numbers, numbers_length, CAROLIVY_NUMBERS);
    yardstick_ends a = yardstick_list_ends(site, site_length, rule, rule_length, start, asked, asked_length, numbers_in, n, third, third_length);
    to_pairs(numbers, numbers_in, n);
    return (carolivy_ends){ a.refusal, a.unused, a.place, a.ends, a.figure };
}

carolivy_starts carolivy_list_starts(const uint8_t *site, size_t site_length, const uint8_t *rule, size_t rule_length, uint32_t end,
    uint8_t *asked, size_t asked_length, uint8_t *numbers, size_t numbers_length, uint8_t *third, size_t third_length)
{
    size_t n = from_pairs(numbers_in, numbers, numbers_length, CAROLIVY_NUMBERS);
    yardstick_starts a = yardstick_list_starts(site, site_length, rule, rule_length, end, asked, asked_length, numbers_in, n, third, third_length);
    to_pairs(numbers, numbers_in, n);
    return (carolivy_starts){ a.refusal, a.unused, a.place, a.starts };
}

carolivy_ceiling carolivy_ceiling_of(const uint8_t *site, size_t site_length, const uint8_t *rule, size_t rule_length)
{
    yardstick_ceiling a = yardstick_ceiling_of(site, site_length, rule, rule_length);
    return (carolivy_ceiling){ a.refusal, a.unused, a.place, a.ceiling };
}
