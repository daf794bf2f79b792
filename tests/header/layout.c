/* The layout of each result as the compiler sees it, in the words of docs/HOST.md: offset, size, field.
   It also compiles as C++, so that both languages are shown to agree. */
#include "carolivy.h"
#include <stdio.h>

#define FIELD(type, field) \
    printf("| `%s` | %u | %u | `%s` |\n", #type, (unsigned)offsetof(type, field), (unsigned)sizeof(((type *)0)->field), #field)
#define WHOLE(type) printf("| `%s` | | %u | whole |\n", #type, (unsigned)sizeof(type))

int main(void)
{
    FIELD(carolivy_decision, refusal);
    FIELD(carolivy_decision, yes);
    FIELD(carolivy_decision, place);
    FIELD(carolivy_decision, figure);
    FIELD(carolivy_decision, steps);
    WHOLE(carolivy_decision);
    FIELD(carolivy_ends, refusal);
    FIELD(carolivy_ends, unused);
    FIELD(carolivy_ends, place);
    FIELD(carolivy_ends, ends);
    FIELD(carolivy_ends, figure);
    WHOLE(carolivy_ends);
    FIELD(carolivy_starts, refusal);
    FIELD(carolivy_starts, unused);
    FIELD(carolivy_starts, place);
    FIELD(carolivy_starts, starts);
    WHOLE(carolivy_starts);
    FIELD(carolivy_ceiling, refusal);
    FIELD(carolivy_ceiling, unused);
    FIELD(carolivy_ceiling, place);
    FIELD(carolivy_ceiling, ceiling);
    WHOLE(carolivy_ceiling);
    return 0;
}
