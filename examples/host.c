/* A host program: loads the small depot, asks whether next* leads from 0 to 2, and prints the answer and the path.
   examples/run builds and runs it. */
#include "carolivy.h"
#include <stdio.h>

/* five triples: subject, predicate, object, two bytes each, high byte first */
static const uint8_t site[] = {
    10, 0, 0,  0, 10, 0, 1,
    10, 0, 1,  0, 11, 0, 2,
    10, 0, 2,  0, 10, 0, 0,
    10, 0, 10, 0, 12, 0, 13,
    10, 0, 11, 0, 12, 0, 13,
};

/* next*: a step along axis 1 with any label, and the star of it */
static const uint8_t rule[] = { 1, 1, 6 };

/* what is lent to the call; the controller keeps these from slot to slot */
static uint8_t asked[CAROLIVY_ASKED], numbers[CAROLIVY_NUMBERS], room[CAROLIVY_ROOM];

static unsigned number(const uint8_t *bytes) { return bytes[0] * 256u + bytes[1]; }

static int refused(uint32_t refusal, uint64_t place)
{
    printf("refused %u %llu\n", (unsigned)refusal, (unsigned long long)place);
    return 1;
}

int main(void)
{
    /* when site and rule are loaded: are they sound, and how much work can a query be? */
    carolivy_ceiling most = carolivy_ceiling_of(site, sizeof site, rule, sizeof rule);
    if (most.refusal != CAROLIVY_ANSWERED) return refused(most.refusal, most.place);
    printf("a query asks at most %llu questions\n", (unsigned long long)most.ceiling);

    /* in a planning slot: does the rule lead from 0 to 2? */
    carolivy_decision d = carolivy_decide(site, sizeof site, rule, sizeof rule, 0, 2,
        asked, sizeof asked, numbers, sizeof numbers, room, sizeof room);
    if (d.refusal != CAROLIVY_ANSWERED) return refused(d.refusal, d.place);
    if (!d.yes) {
        printf("no, after %llu questions\n", (unsigned long long)d.figure);
        return 0;
    }
    printf("yes, after %llu questions, in %llu steps:\n", (unsigned long long)d.figure, (unsigned long long)d.steps);
    for (uint64_t i = 0; i < d.steps; i++) {
        const uint8_t *step = room + 6 * i; /* record, triple, term reached */
        if (number(step + 2) == CAROLIVY_NONE) printf("  by record %u, staying", number(step));
        else printf("  by record %u and triple %u", number(step), number(step + 2));
        printf(" to %u\n", number(step + 4));
    }
    return 0;
}
