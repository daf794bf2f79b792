/* The four C calls by the second program itself, to try the drivers without the library.
   BROKEN=n in the environment breaks them in the n-th way: the drivers must then fail. */
#include "carolivy.h"
#include "second.h"
#include <stdlib.h>

/* 1 to 16: figure, a number, behind the room, ahead of a table, the site, 14's place, cut query terms, the room's rest,
   the room on no, a table on a refusal, the third table, a figure at 15, an unused field, a read past the rule's end,
   tables untouched at 15, lengths unchecked. */
static int broken(int way)
{
    static int which = -1;
    const char *text = getenv("BROKEN");
    if (which < 0) which = text ? atoi(text) : 0;
    return which == way;
}
static uint32_t query(uint32_t term) { return broken(7) ? term % 65536 : term; }

carolivy_decision carolivy_decide(const uint8_t *site, size_t site_length, const uint8_t *rule, size_t rule_length, uint32_t start, uint32_t end,
    uint8_t *asked, size_t asked_length, uint8_t *numbers, size_t numbers_length, uint8_t *room, size_t room_length)
{
    uint8_t first = asked_length ? asked[0] : 0;
    static uint8_t other_asked[CAROLIVY_ASKED], other_numbers[CAROLIVY_NUMBERS];
    if (broken(14)) second_ceiling_of(site, site_length, rule, rule_length + 1);
    if (broken(16) && room_length > CAROLIVY_ROOM) room_length = CAROLIVY_ROOM;
    second_answer a = second_decide(site, site_length, rule, rule_length, query(start), query(end),
        asked, asked_length, numbers, numbers_length, room, room_length);
    carolivy_decision r = { a.refusal, a.yes, a.place, a.figure, a.steps };
    if (broken(1) && !a.refusal) r.figure++;
    if (broken(2) && !a.refusal && numbers[511] != 255) numbers[511]++;
    if (broken(3) && a.steps > 0) room[room_length]++;
    if (broken(4) && a.yes) asked[-1]++;
    if (broken(5) && a.yes && site_length) ((uint8_t *)site)[site_length - 1]++;
    if (broken(8) && a.yes && a.steps < 1024) room[6 * a.steps] = 0;
    if (broken(9) && !a.refusal && !a.yes) room[0]++;
    if (broken(10) && a.refusal == 14) asked[0] = !first;
    if (broken(12) && a.refusal == 15) r.figure = second_list_ends(site, site_length, rule, rule_length, start,
        other_asked, sizeof other_asked, other_numbers, sizeof other_numbers, other_asked, CAROLIVY_THIRD).figure;
    if (broken(15) && a.refusal == 15) asked[0] = 9;
    return r;
}

carolivy_ends carolivy_list_ends(const uint8_t *site, size_t site_length, const uint8_t *rule, size_t rule_length, uint32_t start,
    uint8_t *asked, size_t asked_length, uint8_t *numbers, size_t numbers_length, uint8_t *third, size_t third_length)
{
    uint8_t first = third_length ? third[0] : 0;
    second_answer a = second_list_ends(site, site_length, rule, rule_length, query(start),
        asked, asked_length, numbers, numbers_length, third, third_length);
    carolivy_ends r = { a.refusal, 0, a.place, a.count, a.figure };
    if (broken(11) && !a.refusal && a.count == 0) third[0] = first;
    if (broken(13)) r.unused = 1;
    return r;
}

carolivy_starts carolivy_list_starts(const uint8_t *site, size_t site_length, const uint8_t *rule, size_t rule_length, uint32_t end,
    uint8_t *asked, size_t asked_length, uint8_t *numbers, size_t numbers_length, uint8_t *third, size_t third_length)
{
    second_answer a = second_list_starts(site, site_length, rule, rule_length, query(end),
        asked, asked_length, numbers, numbers_length, third, third_length);
    carolivy_starts r = { a.refusal, 0, a.place, a.count };
    if (broken(6) && a.refusal == 14) r.place = 0;
    return r;
}

carolivy_ceiling carolivy_ceiling_of(const uint8_t *site, size_t site_length, const uint8_t *rule, size_t rule_length)
{
    second_answer a = second_ceiling_of(site, site_length, rule, rule_length);
    carolivy_ceiling r = { a.refusal, 0, a.place, a.ceiling };
    return r;
}
