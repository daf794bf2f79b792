/* The second program: document 01's questions answered from its definitions, for C buffers.
   Buffers and lengths are those of carolivy.h, so that both can be given the same input and compared byte by byte. */
#ifndef SECOND_H
#define SECOND_H
#include <stddef.h>
#include <stdint.h>

/* One shape for all four calls; what a call does not answer, or a refusal leaves unanswered, is 0. */
typedef struct {
    uint32_t refusal, yes;
    uint64_t place, figure, steps, count, ceiling;
} second_answer;

/* What the last answered call met, so that the comparison can say which corners its inputs reached. */
typedef struct {
    int star_ends_outside;   /* a star asked somewhere relates it to a term outside the vocabulary */
    int tested_self_outside; /* a tested self asked outside the vocabulary, at a term where its test holds */
    int several_shortest;    /* at some step of the path shown another step would have been as short */
    int test_depth;          /* the most tests inside one another */
} second_notes;

second_answer second_decide(const uint8_t *site, size_t site_length, const uint8_t *rule, size_t rule_length,
                            uint32_t start, uint32_t end, uint8_t *asked, size_t asked_length,
                            uint8_t *numbers, size_t numbers_length, uint8_t *room, size_t room_length);
second_answer second_list_ends(const uint8_t *site, size_t site_length, const uint8_t *rule, size_t rule_length,
                               uint32_t start, uint8_t *asked, size_t asked_length,
                               uint8_t *numbers, size_t numbers_length, uint8_t *third, size_t third_length);
second_answer second_list_starts(const uint8_t *site, size_t site_length, const uint8_t *rule, size_t rule_length,
                                 uint32_t end, uint8_t *asked, size_t asked_length,
                                 uint8_t *numbers, size_t numbers_length, uint8_t *third, size_t third_length);
second_answer second_ceiling_of(const uint8_t *site, size_t site_length, const uint8_t *rule, size_t rule_length);
second_notes second_look(void);
#endif
