/* The yardstick: the calls of carolivy.h by the fastest method we know, in plain C, unproved.
   The number table and the room are native 16-bit numbers here, and their lengths count numbers: 8,192 and 3,072. */
#ifndef YARDSTICK_H
#define YARDSTICK_H
#include <stddef.h>
#include <stdint.h>
typedef struct { uint32_t refusal; uint32_t yes; uint64_t place; uint64_t figure; uint64_t steps; } yardstick_decision;
typedef struct { uint32_t refusal; uint32_t unused; uint64_t place; uint64_t ends; uint64_t figure; } yardstick_ends;
typedef struct { uint32_t refusal; uint32_t unused; uint64_t place; uint64_t starts; } yardstick_starts;
typedef struct { uint32_t refusal; uint32_t unused; uint64_t place; uint64_t ceiling; } yardstick_ceiling;
yardstick_decision yardstick_decide(const uint8_t *site, size_t site_length, const uint8_t *rule, size_t rule_length, uint32_t start, uint32_t end,
    uint8_t *asked, size_t asked_length, uint16_t *numbers, size_t numbers_length, uint16_t *room, size_t room_length);
yardstick_ends yardstick_list_ends(const uint8_t *site, size_t site_length, const uint8_t *rule, size_t rule_length, uint32_t start,
    uint8_t *asked, size_t asked_length, uint16_t *numbers, size_t numbers_length, uint8_t *third, size_t third_length);
yardstick_starts yardstick_list_starts(const uint8_t *site, size_t site_length, const uint8_t *rule, size_t rule_length, uint32_t end,
    uint8_t *asked, size_t asked_length, uint16_t *numbers, size_t numbers_length, uint8_t *third, size_t third_length);
yardstick_ceiling yardstick_ceiling_of(const uint8_t *site, size_t site_length, const uint8_t *rule, size_t rule_length);
#endif
