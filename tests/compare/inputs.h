/* Inputs for the comparison: sound ones, extreme ones, and damage done to either.
   All are drawn from one stream of numbers, so that a seed gives the same inputs everywhere. */
#ifndef INPUTS_H
#define INPUTS_H
#include "both.h"

typedef struct { uint64_t state; } inputs_dice;

uint64_t inputs_draw(inputs_dice *dice);
uint32_t inputs_roll(inputs_dice *dice, uint32_t sides); /* 0 to sides - 1 */
void inputs_sound(both_input *in, inputs_dice *dice);
/* Which of the extremes has its turn; each comes round within 36, the rings (which are slow) least often. */
int inputs_turn(unsigned long number);
void inputs_extreme(both_input *in, inputs_dice *dice, int which);
void inputs_damage(both_input *in, inputs_dice *dice);
/* Sorts the site's whole records and drops repeats, so that changed triples can be read again. */
void inputs_put_in_order(both_input *in);
#endif
