/* carolivy.h: does this traffic rule lead from this place to that one?

   A site is a table of triples, a rule is a nested regular expression over them; both are lent as bytes. Four calls:

       carolivy_decide       one pair: yes or no, the work figure, a shortest path
       carolivy_list_ends    every place that a start leads to, and the work figure
       carolivy_list_starts  every place from which an end is reached
       carolivy_ceiling_of   the most that the work figure can be, known before the run

   Each always ends, whatever the bytes are, and what it returns is proved for every input (docs/PROMISES.md). No call
   allocates, keeps anything between calls, or writes anywhere but into its result and the buffers lent to it; so calls on
   different buffers may run at the same time. The layout of the results, the link line and the stack are in docs/HOST.md.

   How to call

       static uint8_t asked[CAROLIVY_ASKED], numbers[CAROLIVY_NUMBERS], room[CAROLIVY_ROOM];
       const uint8_t site[] = { 10, 0, 0, 0, 10, 0, 1,      triple 0: from 0 by 10 to 1
                                10, 0, 1, 0, 11, 0, 2 };    triple 1: from 1 by 11 to 2
       const uint8_t rule[] = { 1, 1, 6 };                  next, as often as one likes
       carolivy_decision d = carolivy_decide(site, sizeof site, rule, sizeof rule, 0, 2,
           asked, sizeof asked, numbers, sizeof numbers, room, sizeof room);
       if (d.refusal) ...                                   d.refusal says why, d.place where
       else if (d.yes) ...                                  d.steps steps, in front of the room

   examples/host.c is a whole program.

   Terms are 0 to 255. In the lent parts every number takes two bytes, high byte first; only kinds and axes take one.

   The site: at most 1,024 records of 7 bytes, kind 10 then subject, predicate, object, strictly ascending in that order.
   It may be empty. The vocabulary is the terms that stand as subject or object of some triple.

   The rule: at most 32 records in postfix order, numbered from 0.

       1 axis         step, any label               4    sequence of the two expressions before it
       2 axis, term   step, named label             5    choice of the two before it
       3 axis         step tested by the            6    star of the one before it: any number of rounds,
                      expression before it               none only at a term of the vocabulary

   Axes, for a triple (s, p, o): 0 self, which stays where it is; 1 next, from s to o past the middle p; 3 edge, from s to p
   past o; 5 node, from p to o past s; 2, 4, 6 the same three backwards. A named step wants that middle, a tested one a
   middle from which the test leads somewhere. Self is for vocabulary terms, self named for that very term.

   The path: three numbers a step in the room: the rule's record, the triple (65,535 for self), the term reached. It is a
   shortest one, and of these the smallest, step by step, by record and then triple. It may have no steps.

   The figure counts the different questions (a subexpression at a term) that the rule at the start leads to. It depends
   neither on the end nor on the answer, and is never above the ceiling: ask carolivy_ceiling_of when a site and a rule are
   loaded, and size the planning slot by it. The ceiling is records times one more than the site's different terms.

   What is lent

       asked    the byte table, 32 rows of 256 bytes, row by record and place by term: 1 for each question asked, else 0
                (after carolivy_list_starts all 0)
       numbers  the number table, 32 rows of 256 numbers: the fewest steps with which a path that enters that subexpression
                at that term can finish, a test anywhere and the rest of the rule at the end asked for (anywhere after
                carolivy_list_ends); 65,535 if none, and in unused rows
       third    256 bytes: 1 at each end, or at each start, else 0
       room     the path's numbers in front; the rest, and on no the whole room, keeps its contents

   On a refusal everything lent keeps its contents; only at CAROLIVY_PATH_ROOM both tables are filled as for an answer.

   What the caller keeps: the buffers of one call do not overlap; a pointer is NULL only if its length is 0; each pointer
   leads to as many bytes as its length says, and nobody else touches them while the call runs. Lengths of tables and
   room other than those below are refused, not trusted. Nothing needs to be aligned, or cleared beforehand. */
#ifndef CAROLIVY_H
#define CAROLIVY_H

#include <stddef.h>
#include <stdint.h>

#ifdef __cplusplus
extern "C" {
#endif

#define CAROLIVY_TERMS 256     /* terms are 0 to 255 */
#define CAROLIVY_TRIPLES 1024  /* triples of a site, at most */
#define CAROLIVY_RECORDS 32    /* records of a rule, at most */
#define CAROLIVY_STEPS 1024    /* steps of a path that the room holds */
#define CAROLIVY_NONE 65535    /* in the number table: no way; in a path: self has no triple */

#define CAROLIVY_ASKED 8192    /* bytes of the byte table: records x terms */
#define CAROLIVY_NUMBERS 16384 /* bytes of the number table: records x terms x 2 */
#define CAROLIVY_THIRD 256     /* bytes of a third table: terms */
#define CAROLIVY_ROOM 6144     /* bytes of the room: steps x 3 x 2 */

/* Why a call refuses, in the order in which it looks: lengths, the site record by record, the rule record by record,
   the query. The place of a site's or a rule's refusal is a byte, counted from the front of that part. */
typedef enum carolivy_refusal {
    CAROLIVY_ANSWERED = 0,         /* not refused */
    CAROLIVY_TABLE_LENGTH = 1,     /* a table or the room has another length; place 0 */
    CAROLIVY_SITE_KIND = 2,        /* site record's kind is not 10; its byte */
    CAROLIVY_SITE_CUT = 3,         /* site record cut short; its byte */
    CAROLIVY_SITE_LONG = 4,        /* bytes follow 1,024 triples; their first */
    CAROLIVY_SITE_TERM = 5,        /* site term above 255; its record's byte */
    CAROLIVY_SITE_ORDER = 6,       /* triple not above the one before; its byte */
    CAROLIVY_RULE_LONG = 7,        /* bytes follow 32 rule records; their first */
    CAROLIVY_RULE_KIND = 8,        /* rule record's kind is not 1 to 6; its byte */
    CAROLIVY_RULE_CUT = 9,         /* rule record cut short; its byte */
    CAROLIVY_RULE_AXIS = 10,       /* axis above 6; its record's byte */
    CAROLIVY_RULE_TERM = 11,       /* rule term above 255; its record's byte */
    CAROLIVY_TOO_FEW = 12,         /* too few expressions before a record; its byte */
    CAROLIVY_NOT_ONE = 13,         /* not exactly one expression at the end; the rule's length */
    CAROLIVY_QUERY_TERM = 14,      /* start or end above 255; 0 for the start, 1 for the end */
    CAROLIVY_PATH_ROOM = 15,       /* the path has more than 1,024 steps; how many */
    CAROLIVY_PROGRAM_INPUT = 16    /* only the query program refuses so; no call does */
} carolivy_refusal;

/* The results. A field that an outcome does not use is 0; after a refusal only refusal and place are used. */

typedef struct carolivy_decision {
    uint32_t refusal; /* a carolivy_refusal; 0 if answered */
    uint32_t yes;     /* 1 if the rule leads from start to end, 0 if not */
    uint64_t place;   /* of the refusal */
    uint64_t figure;  /* questions asked */
    uint64_t steps;   /* of the path in the room; 0 on no */
} carolivy_decision;

typedef struct carolivy_ends {
    uint32_t refusal; /* a carolivy_refusal; 0 if answered */
    uint32_t unused;  /* always 0, so that the struct has no gaps */
    uint64_t place;   /* of the refusal */
    uint64_t ends;    /* how many there are, 0 to 256; which, is in the third table */
    uint64_t figure;  /* questions asked */
} carolivy_ends;

typedef struct carolivy_starts {
    uint32_t refusal; /* a carolivy_refusal; 0 if answered */
    uint32_t unused;  /* always 0 */
    uint64_t place;   /* of the refusal */
    uint64_t starts;  /* how many there are, 0 to 256; which, is in the third table */
} carolivy_starts;

typedef struct carolivy_ceiling {
    uint32_t refusal; /* a carolivy_refusal; 0 if answered */
    uint32_t unused;  /* always 0 */
    uint64_t place;   /* of the refusal */
    uint64_t ceiling; /* no figure for this site and rule is above it */
} carolivy_ceiling;

/* Does the rule lead from start to end? Both tables are filled for this pair, the path goes into the room. */
carolivy_decision carolivy_decide(
    const uint8_t *site, size_t site_length, const uint8_t *rule, size_t rule_length, uint32_t start, uint32_t end,
    uint8_t *asked, size_t asked_length, uint8_t *numbers, size_t numbers_length, uint8_t *room, size_t room_length);

/* Where does the rule lead from start? The number table then counts the steps to any end. */
carolivy_ends carolivy_list_ends(
    const uint8_t *site, size_t site_length, const uint8_t *rule, size_t rule_length, uint32_t start,
    uint8_t *asked, size_t asked_length, uint8_t *numbers, size_t numbers_length, uint8_t *third, size_t third_length);

/* From where does the rule lead to end? Nothing is asked: the byte table is cleared, and there is no figure. */
carolivy_starts carolivy_list_starts(
    const uint8_t *site, size_t site_length, const uint8_t *rule, size_t rule_length, uint32_t end,
    uint8_t *asked, size_t asked_length, uint8_t *numbers, size_t numbers_length, uint8_t *third, size_t third_length);

/* The most that a figure can be for this site and rule. It also reads both through, so that their faults show early. */
carolivy_ceiling carolivy_ceiling_of(const uint8_t *site, size_t site_length, const uint8_t *rule, size_t rule_length);

#ifdef __cplusplus
}
#endif

#endif
