/*
 * The journey core, for C. The library is made by `rt lib` in crates/exports; link crates/exports/out/libexports.a.
 *
 * A column is an array, handed over as a pointer to its first number and how many numbers it has. A pointer points to that many numbers of its
 * type, also where there are none: it is never null. Arrays that a function writes (those that are not const) overlap no other array of the
 * same call. Nothing else is asked of a caller: whatever the numbers are, each function ends, reads and writes the lent arrays only, keeps no
 * pointer, takes no memory of its own but the stack, and says what is wrong by number and place.
 * How much stack is not proved: opening and the contracted search call themselves as deep as shortcuts lie inside each other. The program
 * journeys, whose own arrays take about 250 KB of its stack, ran on every card tried with 512 KB, and not on all with 320 KB (measured with an
 * older compiler).
 *
 * A network is six columns: of each node its mode (1 to 7) and its rank (65535: core, never contracted), of each edge its tail, its head, its mode
 * (0: a link) and its length in seconds. There are 1 to 512 nodes and 0 to 2048 edges.
 *
 * Rows are the shortcuts that preparation writes, seven columns: tail, head, mode, length, count of edges, first child, second child. A child is a
 * row number: the edges count first, then the shortcuts. There are at most 4096 edges and shortcuts together.
 *
 * A sheet is 24 bytes: three for each of eight states, state after state: the modes that may be ridden (bit i: mode i), the states that a link may
 * lead to (bit j: state j), and the ends (1 initial, 2 final, 3 both, 0 neither). `states` tells how many of the eight are meant, 1 to 8.
 *
 * The work rooms are one array of 64-bit and one of 32-bit numbers, at least 16 and 32 for each node. What they hold at first does not matter.
 * They are untouched by the numbers 1 to 6, 10 and 11, and all zero after 0, 7, 8 and 9.
 */
#ifndef JOURNEYS_H
#define JOURNEYS_H

#include <stddef.h>
#include <stdint.h>

#ifdef __cplusplus
extern "C" {
#endif

/* The number of an answer. The place is 0 but where another is named. The first that applies is given. */
enum {
    JOURNEYS_ANSWERED = 0,
    JOURNEYS_SIZES = 1,         /* a size is outside the limits, columns differ in length, or the sheet is not 24 bytes */
    JOURNEYS_NODE_MODE = 2,     /* a node's mode is 0 or above 7; place: the lowest such node */
    JOURNEYS_EDGE = 3,          /* an edge breaks a rule; place: the lowest such edge */
    JOURNEYS_TRANSFER = 4,      /* a node with a link is not core; place: the lowest such node */
    JOURNEYS_SHEET = 5,         /* the sheet breaks a rule; place: the lowest such state, 0 for a wrong number of states */
    JOURNEYS_QUESTION = 6,      /* the question names no node; place: 0 for from, else 1 for to */
    JOURNEYS_NO_JOURNEY = 7,    /* the sheet accepts no path */
    JOURNEYS_JOURNEY_ROOM = 8,  /* the journey has more edges than the journey room has places */
    JOURNEYS_SHORTCUT_ROOM = 9, /* the shortcuts exceed the lent rows, or 4096 rows in all */
    JOURNEYS_SHORTCUT = 10,     /* a shortcut row is unsound; place: the lowest such row, edges counted first */
    JOURNEYS_WORK_ROOM = 11     /* a work room is too small */
};

/* What is answered. Time and count are 0 with every number but 0 and 8. */
struct journeys_answer {
    uint8_t number; /* one of the above */
    uint64_t place; /* what broke the rule */
    uint64_t time;  /* of a search: the seconds of the journey */
    uint32_t count; /* of a search: the edges of the journey; of preparation: how many shortcuts it wrote */
};

/*
 * Checks a network. Numbers, in the order in which they are looked for: 1, 2, 3, 4; 0 where the network keeps every rule.
 */
struct journeys_answer journeys_check(
    const uint8_t *node_modes, size_t node_modes_length,
    const uint16_t *node_ranks, size_t node_ranks_length,
    const uint16_t *tails, size_t tails_length,
    const uint16_t *heads, size_t heads_length,
    const uint8_t *modes, size_t modes_length,
    const uint16_t *lengths, size_t lengths_length);

/*
 * Prepares a network: writes its shortcuts to the front of the lent rows, zeroes the rows behind them, and answers by `count` how many there are.
 * Hand the first `count` rows of each column to the functions below. Any number of rows may be lent, the same number in each column.
 * Numbers: 1, 11, 2, 3, 4, which change no row, and 9, which zeroes all lent rows.
 */
struct journeys_answer journeys_prepare(
    const uint8_t *node_modes, size_t node_modes_length,
    const uint16_t *node_ranks, size_t node_ranks_length,
    const uint16_t *tails, size_t tails_length,
    const uint16_t *heads, size_t heads_length,
    const uint8_t *modes, size_t modes_length,
    const uint16_t *lengths, size_t lengths_length,
    uint16_t *row_tails, size_t row_tails_length,
    uint16_t *row_heads, size_t row_heads_length,
    uint8_t *row_modes, size_t row_modes_length,
    uint32_t *row_lengths, size_t row_lengths_length,
    uint16_t *row_counts, size_t row_counts_length,
    uint16_t *row_firsts, size_t row_firsts_length,
    uint16_t *row_seconds, size_t row_seconds_length,
    uint64_t *wide, size_t wide_length,
    uint32_t *narrow, size_t narrow_length);

/*
 * Searches the edges alone for the least journey from `from` to `to` that the sheet accepts: least in time, then in edges. With number 0 the first
 * `count` places of the journey room are its edge numbers in order, and the rest of the room is as it was; with any other number the whole room is.
 * Numbers: 1, 11, 2, 3, 4, 5, 6, 7, and 8, which tells time and count of the journey that did not fit.
 */
struct journeys_answer journeys_plain(
    const uint8_t *node_modes, size_t node_modes_length,
    const uint16_t *node_ranks, size_t node_ranks_length,
    const uint16_t *tails, size_t tails_length,
    const uint16_t *heads, size_t heads_length,
    const uint8_t *modes, size_t modes_length,
    const uint16_t *lengths, size_t lengths_length,
    const uint8_t *sheet, size_t sheet_length,
    uint8_t states, uint16_t from, uint16_t to,
    uint16_t *journey, size_t journey_length,
    uint64_t *wide, size_t wide_length,
    uint32_t *narrow, size_t narrow_length);

/*
 * The same over the edges and the rows that preparation wrote; the journey's rows are opened into edges. Over the rows of journeys_prepare the
 * answer is that of journeys_plain. Over other rows that are sound it is the least journey over row paths that go up and then down by the order of
 * contraction, or 7 where there is none.
 * Numbers: 1, 11, 2, 3, 4, 10, 5, 6, 7, 8.
 */
struct journeys_answer journeys_contracted(
    const uint8_t *node_modes, size_t node_modes_length,
    const uint16_t *node_ranks, size_t node_ranks_length,
    const uint16_t *tails, size_t tails_length,
    const uint16_t *heads, size_t heads_length,
    const uint8_t *modes, size_t modes_length,
    const uint16_t *lengths, size_t lengths_length,
    const uint16_t *row_tails, size_t row_tails_length,
    const uint16_t *row_heads, size_t row_heads_length,
    const uint8_t *row_modes, size_t row_modes_length,
    const uint32_t *row_lengths, size_t row_lengths_length,
    const uint16_t *row_counts, size_t row_counts_length,
    const uint16_t *row_firsts, size_t row_firsts_length,
    const uint16_t *row_seconds, size_t row_seconds_length,
    const uint8_t *sheet, size_t sheet_length,
    uint8_t states, uint16_t from, uint16_t to,
    uint16_t *journey, size_t journey_length,
    uint64_t *wide, size_t wide_length,
    uint32_t *narrow, size_t narrow_length);

/*
 * Opens a row: writes its edge numbers in order to the front of the room, leaves the rest, and answers how many it wrote. Answers 0 and writes
 * nothing where the network or the rows break a rule, where there is no such row, or where the room is too short.
 */
size_t journeys_open(
    const uint8_t *node_modes, size_t node_modes_length,
    const uint16_t *node_ranks, size_t node_ranks_length,
    const uint16_t *tails, size_t tails_length,
    const uint16_t *heads, size_t heads_length,
    const uint8_t *modes, size_t modes_length,
    const uint16_t *lengths, size_t lengths_length,
    const uint16_t *row_tails, size_t row_tails_length,
    const uint16_t *row_heads, size_t row_heads_length,
    const uint8_t *row_modes, size_t row_modes_length,
    const uint32_t *row_lengths, size_t row_lengths_length,
    const uint16_t *row_counts, size_t row_counts_length,
    const uint16_t *row_firsts, size_t row_firsts_length,
    const uint16_t *row_seconds, size_t row_seconds_length,
    uint16_t row,
    uint16_t *room, size_t room_length);

#ifdef __cplusplus
}
#endif

#endif
