/* compare N SEED [FROM]: N random inputs through the C calls and through the second program; any difference fails.
   It also fails where N is large and a kind of outcome never came up, so that a pass says what was tried. */
#include "both.h"
#include "inputs.h"
#include <stdio.h>
#include <stdlib.h>
#include <string.h>

enum { ENOUGH = 2000, MOST_FAILED = 5 };

static void draw(both_input *in, uint64_t seed, unsigned long number)
{
    inputs_dice dice = { seed * 0x2545f4914f6cdd1du + number };
    dice.state = inputs_draw(&dice); /* neighbouring numbers must not give neighbouring streams */
    unsigned long turn = number % 16;
    if (turn % 4 == 1) inputs_extreme(in, &dice, inputs_turn(number / 4));
    else inputs_sound(in, &dice);
    if (turn >= 11) inputs_damage(in, &dice);
}

static int replay(char **words)
{
    static both_input in;
    both_seen seen = { { 0 } };
    if (!both_read(&in, words)) {
        fprintf(stderr, "compare: these are not the nine words of a replay line\n");
        return 2;
    }
    int differences = both_check(&in, &seen);
    both_print_seen(&seen);
    printf("%d differences\n", differences);
    return differences != 0;
}

int main(int count, char **words)
{
    static both_input in;
    both_seen seen = { { 0 } };
    unsigned long number, failed = 0;
    both_begin();
    if (count == 11 && strcmp(words[1], "replay") == 0) return replay(words + 2);
    if (count != 3 && count != 4) {
        fprintf(stderr, "usage: compare N SEED [FROM], or compare and a replay line that it printed\n");
        return 2;
    }
    unsigned long wanted = strtoul(words[1], NULL, 10), seed = strtoul(words[2], NULL, 10);
    unsigned long from = count == 4 ? strtoul(words[3], NULL, 10) : 0;
    for (number = 0; number < wanted && failed < MOST_FAILED; number++) {
        draw(&in, seed, from + number);
        if (both_check(&in, &seen)) {
            printf("that was case %lu of seed %lu: compare 1 %lu %lu\n", from + number, seed, seed, from + number);
            failed++;
        }
    }
    both_print_seen(&seen);
    int missing = wanted >= ENOUGH && number == wanted ? both_missing(&seen) : 0;
    printf("%lu cases, seed %lu: %lu with differences, %d kinds never seen\n", number, seed, failed, missing);
    return failed || missing;
}
