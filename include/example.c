/*
 * The reference network of the scope document, from C: check, prepare, and case P1 by the contracted search.
 *   (cd crates/exports && rt lib) && gcc -Iinclude include/example.c crates/exports/out/libexports.a -o crates/exports/out/example && crates/exports/out/example
 */
#include "journeys.h"
#include <stdio.h>

enum { NODES = 7, EDGES = 8, LENT = 16, ROOM = 64 };

static const uint8_t node_modes[NODES] = {1, 1, 1, 2, 2, 1, 1};
static const uint16_t node_ranks[NODES] = {5, 0, 65535, 65535, 65535, 65535, 5};
static const uint16_t tails[EDGES] = {0, 1, 2, 3, 4, 5, 0, 2}, heads[EDGES] = {1, 2, 3, 4, 5, 6, 2, 5};
static const uint8_t modes[EDGES] = {1, 1, 0, 2, 0, 1, 1, 1};
static const uint16_t lengths[EDGES] = {4, 3, 2, 6, 2, 5, 9, 30};
static const uint8_t sheet_a[24] = {2, 2, 3, 4, 1, 0}; /* on foot, by rail and on foot again */
static uint16_t row_tails[LENT], row_heads[LENT], row_counts[LENT], row_firsts[LENT], row_seconds[LENT], journey[ROOM];
static uint8_t row_modes[LENT];
static uint32_t row_lengths[LENT], narrow[32 * NODES];
static uint64_t wide[16 * NODES];

#define NETWORK node_modes, NODES, node_ranks, NODES, tails, EDGES, heads, EDGES, modes, EDGES, lengths, EDGES
#define ROWS(n) row_tails, n, row_heads, n, row_modes, n, row_lengths, n, row_counts, n, row_firsts, n, row_seconds, n
#define WORK wide, 16 * NODES, narrow, 32 * NODES

int main(void) {
    printf("check: number %u\n", journeys_check(NETWORK).number);
    struct journeys_answer made = journeys_prepare(NETWORK, ROWS(LENT), WORK);
    printf("prepare: number %u, shortcuts %u\n", made.number, made.count);
    struct journeys_answer p1 = journeys_contracted(NETWORK, ROWS(made.count), sheet_a, 24, 2, 0, 6, journey, ROOM, WORK);
    printf("contracted: number %u, %lu s, %u edges:", p1.number, (unsigned long)p1.time, p1.count);
    for (uint32_t i = 0; p1.number == JOURNEYS_ANSWERED && i < p1.count; i++)
        printf(" %u", journey[i]);
    printf("\n");
    return 0;
}
