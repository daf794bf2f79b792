/* The inputs of the bench, in families; the same ones everywhere, since every draw comes from a fixed seed.
   Two further sets: the slots, many queries on one warehouse, what the latency sheet is drawn from; and what the peers are asked. */
#ifndef FAMILIES_H
#define FAMILIES_H
#include <stddef.h>
#include <stdint.h>

enum { FAMILIES_SITE = 7 * 1024, FAMILIES_RULE = 4 * 32 };
typedef struct {
    const char *family;
    char name[64];
    int size; /* what the site was made for: triples, where these can be chosen */
    uint8_t site[FAMILIES_SITE], rule[FAMILIES_RULE];
    size_t site_length, rule_length;
    uint32_t start, end;
} families_input;

/* All inputs of the bench, of the latency sheet, or for the peers; how many there are. */
int families_all(const families_input **inputs);
int families_slots(const families_input **inputs);
int families_peers(const families_input **inputs);
#endif
