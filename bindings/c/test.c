/*
 * Calls every function of replica.h: each refusal is provoked and compared by its constant, each
 * longest length is needed to its last byte, and each field of an answer is read by its name. So a
 * wrong constant or a wrong order of fields in the header is found here. What C does not look at,
 * the names of parameters, tests/comparison/tests/header.rs holds.
 */
#include <inttypes.h>
#include <stdio.h>
#include <stdlib.h>
#include <string.h>

#include "replica.h"

enum { MAX_DEGREE = 40, MAX_EDGES = 4000, RECORD_BYTES = 4, SPARE = 8, GUARD = 0xA5 };

/* The state, and bytes behind each buffer for a length that is too long. */
static uint8_t journal[REPLICA_JOURNAL_BYTES + SPARE];
static uint8_t adjacency[REPLICA_ADJACENCY_BYTES + SPARE];
static uint8_t swaps[REPLICA_LOG_BYTES + SPARE];
/* The state before a call: a refused one leaves it so. */
static uint8_t journal_before[sizeof journal];
static uint8_t adjacency_before[sizeof adjacency];
static uint8_t swaps_before[sizeof swaps];
/* Longer than any output. All of it is GUARD before a call. */
static uint8_t output[1 << 16];

/* What every call on a state is lent. */
#define STATE journal, REPLICA_JOURNAL_BYTES, adjacency, REPLICA_ADJACENCY_BYTES
/* What those that may change the graph are lent besides. */
#define LOG swaps, REPLICA_LOG_BYTES
/* first to fifth of an answer; those not named are 0. */
#define NUMBERS(...) ((const uint64_t[5]){__VA_ARGS__})
/* first, second and the two switches of a join that was done. */
#define JOIN(...) ((const uint64_t[8]){__VA_ARGS__})
#define NO_SWITCH REPLICA_UNUSED, REPLICA_UNUSED, REPLICA_UNUSED

static void fail(const char *call, const char *what)
{
    fprintf(stderr, "FAILED: %s: %s\n", call, what);
    exit(1);
}

static void print_numbers(const char *what, size_t count, const uint64_t *numbers)
{
    fprintf(stderr, " %s", what);
    for (size_t i = 0; i < count; i++)
        fprintf(stderr, " %" PRIu64, numbers[i]);
}

/* Ends the test unless the call answered these numbers. */
static void same(const char *call, size_t count, const uint64_t *got, const uint64_t *wanted)
{
    if (memcmp(got, wanted, count * sizeof *got) == 0)
        return;
    fprintf(stderr, "FAILED: %s", call);
    print_numbers("answered", count, got);
    print_numbers("and not", count, wanted);
    fprintf(stderr, "\n");
    exit(1);
}

/* By name, so that the order of the fields in the header counts. */
static void same_answer(const char *call, struct ReplicaAnswer got, const uint64_t *wanted)
{
    const uint64_t numbers[] = {
        got.number, got.first, got.second, got.third, got.fourth, got.fifth,
    };
    same(call, 6, numbers, wanted);
}

static void same_join(const char *call, struct ReplicaJoin got, const uint64_t *wanted)
{
    const uint64_t numbers[] = {
        got.number, got.first, got.second, got.a1, got.b1, got.t1, got.a2, got.b2, got.t2,
    };
    same(call, 9, numbers, wanted);
}

static void keep(void)
{
    memcpy(journal_before, journal, sizeof journal);
    memcpy(adjacency_before, adjacency, sizeof adjacency);
    memcpy(swaps_before, swaps, sizeof swaps);
}

/* All output bytes from here on are as they were. */
static void untouched(const char *call, size_t from)
{
    for (size_t i = from; i < sizeof output; i++)
        if (output[i] != GUARD)
            fail(call, "wrote behind its output");
}

static void unchanged(const char *call)
{
    if (memcmp(journal, journal_before, sizeof journal) != 0)
        fail(call, "changed the journal");
    if (memcmp(adjacency, adjacency_before, sizeof adjacency) != 0)
        fail(call, "changed the adjacency matrix");
    if (memcmp(swaps, swaps_before, sizeof swaps) != 0)
        fail(call, "changed the log");
    untouched(call, 0);
}

static void done(const char *call, struct ReplicaAnswer got, const uint64_t *numbers)
{
    uint64_t wanted[6] = {0};

    memcpy(wanted + 1, numbers, 5 * sizeof *numbers);
    same_answer(call, got, wanted);
    keep();
}

static void refused(const char *call, struct ReplicaAnswer got, uint64_t number,
                    uint64_t first, uint64_t second)
{
    const uint64_t wanted[6] = {number, first, second};

    same_answer(call, got, wanted);
    unchanged(call);
}

static void join_done(const char *call, struct ReplicaJoin got, const uint64_t *numbers)
{
    uint64_t wanted[9] = {0};

    memcpy(wanted + 1, numbers, 8 * sizeof *numbers);
    same_join(call, got, wanted);
    keep();
}

static void join_refused(const char *call, struct ReplicaJoin got, uint64_t number,
                         uint64_t first, uint64_t second)
{
    const uint64_t wanted[9] = {number, first, second};

    same_join(call, got, wanted);
    unchanged(call);
}

/* Moves what a call has written out of the output. */
static void collect(const char *call, uint8_t *to, size_t length)
{
    untouched(call, length);
    memcpy(to, output, length);
    memset(output, GUARD, length);
}

/* Ends the test unless the call has written these bytes and no others. */
static void wrote(const char *call, const uint8_t *bytes, size_t length)
{
    static uint8_t got[sizeof output];

    collect(call, got, length);
    if (memcmp(got, bytes, length) != 0)
        fail(call, "wrote other bytes");
}

static void clear(void)
{
    done("clear", replica_clear(STATE, LOG), NUMBERS(0));
}

static void take(uint64_t number, const uint8_t *block, size_t length)
{
    done("take_block", replica_take_block(STATE, number, block, length), NUMBERS(0, number + 1));
}

/* Lays out a table of one block. */
static struct ReplicaAnswer lay_out(const uint8_t *block, size_t length)
{
    clear();
    take(0, block, length);
    return replica_lay_out(STATE);
}

static void put_record(uint8_t *to, int k, int l, int count)
{
    to[0] = (uint8_t)k;
    to[1] = (uint8_t)l;
    to[2] = (uint8_t)(count % 256);
    to[3] = (uint8_t)(count / 256);
}

/* Every call that is not lent the log and asks for a valid state, refused whatever the phase. */
static void state_refused(uint64_t number, size_t j, size_t a)
{
    refused("take_block", replica_take_block(journal, j, adjacency, a, 0, output, 0), number, 0, 0);
    refused("held_block", replica_held_block(journal, j, adjacency, a, 0), number, 0, 0);
    refused("lay_out", replica_lay_out(journal, j, adjacency, a), number, 0, 0);
    refused("edge_list", replica_edge_list(journal, j, adjacency, a, output, sizeof output),
            number, 0, 0);
    refused("figures", replica_figures(journal, j, adjacency, a), number, 0, 0);
}

/* Every call that is lent the log and asks for a valid one. */
static void log_refused(uint64_t number, size_t j, size_t a, size_t l)
{
    join_refused("add_edge", replica_add_edge(journal, j, adjacency, a, swaps, l, 1, 2),
                 number, 0, 0);
    refused("remove_edge", replica_remove_edge(journal, j, adjacency, a, swaps, l, 1, 2),
            number, 0, 0);
    refused("swap_edges", replica_swap_edges(journal, j, adjacency, a, swaps, l, 1, 2, 3, 4),
            number, 0, 0);
    refused("undo_swap", replica_undo_swap(journal, j, adjacency, a, swaps, l), number, 0, 0);
    refused("complete",
            replica_complete(journal, j, adjacency, a, swaps, l, output, sizeof output),
            number, 0, 0);
    refused("complete_shuffled",
            replica_complete_shuffled(journal, j, adjacency, a, swaps, l, 5, output, sizeof output),
            number, 0, 0);
}

/* Ends the test unless a buffer is 0 up to its length, and GUARD behind it. */
static void cleared(const uint8_t *bytes, size_t size, const char *what)
{
    for (size_t i = 0; i < size; i++)
        if (bytes[i] != (i < size - SPARE ? 0 : GUARD))
            fail("clear", what);
}

/* Journal, adjacency matrix and log are neither a byte shorter nor a byte longer. */
static void lengths(void)
{
    const size_t j = REPLICA_JOURNAL_BYTES, a = REPLICA_ADJACENCY_BYTES, l = REPLICA_LOG_BYTES;
    const size_t wrong[][3] = {
        {j - 1, a, l}, {j + 1, a, l}, {j, a - 1, l}, {j, a + 1, l}, {j, a, l - 1}, {j, a, l + 1},
    };

    memset(journal, GUARD, sizeof journal);
    memset(adjacency, GUARD, sizeof adjacency);
    memset(swaps, GUARD, sizeof swaps);
    keep();
    for (size_t i = 0; i < sizeof wrong / sizeof *wrong; i++) {
        const size_t *w = wrong[i];
        refused("clear", replica_clear(journal, w[0], adjacency, w[1], swaps, w[2]),
                REPLICA_REFUSED_WRONG_LENGTH, 0, 0);
        log_refused(REPLICA_REFUSED_WRONG_LENGTH, w[0], w[1], w[2]);
        if (w[2] == l)
            state_refused(REPLICA_REFUSED_WRONG_LENGTH, w[0], w[1]);
    }
    state_refused(REPLICA_REFUSED_INVALID_STATE, j, a);
    log_refused(REPLICA_REFUSED_INVALID_STATE, j, a, l);
    clear();
    cleared(journal, sizeof journal, "left another journal");
    cleared(adjacency, sizeof adjacency, "left another adjacency matrix");
    cleared(swaps, sizeof swaps, "left another log");
    done("figures", replica_figures(STATE), NUMBERS(0));
}

/* A longest block is taken, held and read back. */
static void longest_block(void)
{
    uint8_t block[REPLICA_MAX_BLOCK_BYTES + RECORD_BYTES];
    const size_t wrong[] = {
        REPLICA_MAX_BLOCK_BYTES + RECORD_BYTES, REPLICA_MAX_BLOCK_BYTES - 1,
    };

    for (size_t i = 0; i + RECORD_BYTES <= sizeof block; i += RECORD_BYTES)
        put_record(block + i, 1, 2 + (int)i / RECORD_BYTES, 3);
    clear();
    for (size_t i = 0; i < sizeof wrong / sizeof *wrong; i++)
        refused("take_block", replica_take_block(STATE, 0, block, wrong[i]),
                REPLICA_REFUSED_BLOCK_LENGTH, 0, 0);
    take(0, block, REPLICA_MAX_BLOCK_BYTES);
    done("take_block", replica_take_block(STATE, 0, block, REPLICA_MAX_BLOCK_BYTES), NUMBERS(1));
    take(1, block, RECORD_BYTES);
    done("held_block", replica_held_block(STATE, 0), NUMBERS(3, REPLICA_MAX_BLOCK_BYTES));
    if (memcmp(journal + 3, block, REPLICA_MAX_BLOCK_BYTES) != 0)
        fail("take_block", "left other bytes in the journal");
    done("held_block", replica_held_block(STATE, 1), NUMBERS(68, RECORD_BYTES));
}

/* Blocks that are refused, on the state that longest_block leaves. */
static void refused_blocks(void)
{
    static const uint8_t good[] = {1, 1, 2, 0}, bad[] = {1, 1, 2, 0, 2, 2, 2, 0, 2, 1, 1, 0};

    refused("take_block", replica_take_block(STATE, 2, bad, sizeof bad),
            REPLICA_REFUSED_BAD_RECORD, 2, 0);
    refused("take_block", replica_take_block(STATE, 3, good, sizeof good),
            REPLICA_REFUSED_BLOCK_NUMBER, 0, 0);
    refused("held_block", replica_held_block(STATE, 2), REPLICA_REFUSED_BLOCK_NUMBER, 0, 0);
    refused("take_block", replica_take_block(STATE, 1, good, sizeof good),
            REPLICA_REFUSED_BLOCK_DIFFERS, 0, 0);
}

/* A journal takes its most blocks, empty ones here, and no more. */
static void most_blocks(void)
{
    clear();
    for (uint64_t number = 0; number < REPLICA_MAX_BLOCKS; number++)
        take(number, output, 0);
    refused("take_block", replica_take_block(STATE, REPLICA_MAX_BLOCKS, output, 0),
            REPLICA_REFUSED_JOURNAL_FULL, 0, 0);
    done("figures", replica_figures(STATE), NUMBERS(0, REPLICA_MAX_BLOCKS));
}

static void refused_tables(void)
{
    static const uint8_t odd[] = {2, 2, 5, 0}, row[] = {1, 3, 1, 0}, large[] = {4, 6, 12, 0};
    uint8_t isolated[RECORD_BYTES];

    refused("lay_out", lay_out(odd, sizeof odd), REPLICA_REFUSED_ODD_DIAGONAL, 2, 2);
    refused("lay_out", lay_out(row, sizeof row), REPLICA_REFUSED_ROW_NOT_DIVISIBLE, 3, 0);
    refused("lay_out", lay_out(large, sizeof large), REPLICA_REFUSED_CELL_TOO_LARGE, 4, 6);
    put_record(isolated, 0, 0, REPLICA_MAX_VERTICES + 1);
    refused("lay_out", lay_out(isolated, sizeof isolated),
            REPLICA_REFUSED_TOO_MANY_VERTICES, 0, 0);
    put_record(isolated, 0, 0, REPLICA_MAX_VERTICES);
    done("lay_out", lay_out(isolated, sizeof isolated), NUMBERS(REPLICA_MAX_VERTICES));
}

/* Calls of the other phase, before and after laying out. */
static void phases(void)
{
    static const uint8_t block[] = {1, 1, 2, 0};
    const uint64_t wrong = REPLICA_REFUSED_WRONG_PHASE;

    clear();
    take(0, block, sizeof block);
    join_refused("add_edge", replica_add_edge(STATE, LOG, 0, 1), wrong, 0, 0);
    refused("remove_edge", replica_remove_edge(STATE, LOG, 0, 1), wrong, 0, 0);
    refused("complete", replica_complete(STATE, LOG, output, sizeof output), wrong, 0, 0);
    refused("complete_shuffled", replica_complete_shuffled(STATE, LOG, 5, output, sizeof output),
            wrong, 0, 0);
    refused("swap_edges", replica_swap_edges(STATE, LOG, 0, 1, 2, 3), wrong, 0, 0);
    refused("undo_swap", replica_undo_swap(STATE, LOG), wrong, 0, 0);
    refused("edge_list", replica_edge_list(STATE, output, sizeof output), wrong, 0, 0);
    done("lay_out", replica_lay_out(STATE), NUMBERS(2));
    refused("lay_out", replica_lay_out(STATE), wrong, 0, 0);
    refused("take_block", replica_take_block(STATE, 1, block, sizeof block), wrong, 0, 0);
    done("take_block", replica_take_block(STATE, 0, block, sizeof block), NUMBERS(1));
}

/* A small table: vertex 0 is isolated, 1 has degree 1, 2 and 3 have degree 2, 4 has degree 3. */
static const uint8_t small[] = {0, 0, 1, 0, 1, 3, 1, 0, 2, 2, 2, 0, 2, 3, 2, 0};

/* Adds an edge that moves no other. */
static void add(uint64_t v, uint64_t w)
{
    join_done("add_edge", replica_add_edge(STATE, LOG, v, w), JOIN(0, 0, NO_SWITCH, NO_SWITCH));
}

static void add_refused(uint64_t v, uint64_t w, uint64_t number, uint64_t first, uint64_t second)
{
    join_refused("add_edge", replica_add_edge(STATE, LOG, v, w), number, first, second);
}

static void remove_refused(uint64_t v, uint64_t w, uint64_t number)
{
    refused("remove_edge", replica_remove_edge(STATE, LOG, v, w), number, 0, 0);
}

/* Edges added and removed one by one, and all reasons to refuse one. */
static void edges_by_hand(void)
{
    done("lay_out", lay_out(small, sizeof small), NUMBERS(5));
    add(1, 4);
    if (adjacency[1 * REPLICA_MAX_VERTICES + 4] != 1
        || adjacency[4 * REPLICA_MAX_VERTICES + 1] != 1)
        fail("add_edge", "set other bytes");
    add_refused(0, 5, REPLICA_REFUSED_NO_SUCH_VERTEX, 0, 0);
    add_refused(2, 2, REPLICA_REFUSED_SAME_VERTEX, 0, 0);
    add_refused(4, 1, REPLICA_REFUSED_EDGE_PRESENT, 0, 0);
    add_refused(2, 1, REPLICA_REFUSED_CELL_NOT_SHORT, 1, 2);
    add_refused(0, 4, REPLICA_REFUSED_CELL_NOT_SHORT, 0, 3);
    remove_refused(5, 0, REPLICA_REFUSED_NO_SUCH_VERTEX);
    remove_refused(2, 2, REPLICA_REFUSED_SAME_VERTEX);
    remove_refused(2, 3, REPLICA_REFUSED_EDGE_ABSENT);
    done("remove_edge", replica_remove_edge(STATE, LOG, 4, 1), NUMBERS(0));
}

/* The only graph of the small table, on the state of edges_by_hand: no edge has to move. */
static void only_graph(void)
{
    static const uint8_t edges[] = {1, 4, 2, 3, 2, 4, 3, 4};
    uint8_t records[sizeof edges / 2 * REPLICA_JOIN_RECORD_BYTES];

    memset(records, REPLICA_UNUSED, sizeof records);
    for (size_t i = 0; i < sizeof edges; i++)
        records[i / 2 * REPLICA_JOIN_RECORD_BYTES + i % 2] = edges[i];
    done("complete", replica_complete(STATE, LOG, output, sizeof output),
         NUMBERS(4, 0, sizeof records));
    wrote("complete", records, sizeof records);
    done("edge_list", replica_edge_list(STATE, output, sizeof output), NUMBERS(sizeof edges));
    wrote("edge_list", edges, sizeof edges);
    done("jdm_of_edges", replica_jdm_of_edges(edges, sizeof edges, 5, output, sizeof output),
         NUMBERS(sizeof small));
    wrote("jdm_of_edges", small, sizeof small);
}

/*
 * Eight vertices of degree 2, from 1 on, and two blocks. 1 and 2 each have their two edges, 7 and 8
 * miss one: joining 1 and 2 takes two switches, and their six vertices all differ.
 */
static void switches_by_hand(void)
{
    static const uint8_t block[] = {0, 0, 1, 0, 2, 2, 16, 0};
    static const uint8_t hand[] = {1, 3, 1, 4, 3, 4, 2, 5, 2, 6, 5, 6, 7, 8};

    clear();
    take(0, block, sizeof block);
    take(1, block, 0);
    done("lay_out", replica_lay_out(STATE), NUMBERS(9));
    for (size_t i = 0; i < sizeof hand; i += 2)
        add(hand[i], hand[i + 1]);
    done("figures", replica_figures(STATE), NUMBERS(1, 2, 9, 8, 7));
    join_done("add_edge", replica_add_edge(STATE, LOG, 1, 2), JOIN(2, 0, 1, 7, 3, 2, 8, 5));
    done("figures", replica_figures(STATE), NUMBERS(1, 2, 9, 8, 8));
}

/* One edge is missing, on the state of switches_by_hand: the room of one join record, and less. */
static void one_join_record(void)
{
    static const uint8_t record[] = {1, 3, 1, 5, 2, 3, 8, 4};

    done("complete", replica_complete(STATE, LOG, output, 0), NUMBERS(0));
    done("remove_edge", replica_remove_edge(STATE, LOG, 5, 8), NUMBERS(0));
    refused("complete", replica_complete(STATE, LOG, output, REPLICA_JOIN_RECORD_BYTES - 1),
            REPLICA_REFUSED_OUTPUT_TOO_SHORT, 0, 0);
    done("complete", replica_complete(STATE, LOG, output, REPLICA_JOIN_RECORD_BYTES),
         NUMBERS(1, 2, REPLICA_JOIN_RECORD_BYTES));
    wrote("complete", record, sizeof record);
}

/* Ends the test unless the log has so many swaps and this last one, and zeros behind it. */
static void logged(const char *call, size_t count, const uint8_t *last)
{
    size_t end = 2 + count * REPLICA_SWAP_RECORD_BYTES;

    if (swaps[0] + 256u * swaps[1] != count)
        fail(call, "left another number of swaps");
    if (count > 0 && memcmp(swaps + end - REPLICA_SWAP_RECORD_BYTES, last,
                            REPLICA_SWAP_RECORD_BYTES) != 0)
        fail(call, "left another swap in the log");
    for (size_t i = end; i < REPLICA_LOG_BYTES; i++)
        if (swaps[i] != 0)
            fail(call, "left a byte behind the swaps");
}

static void swap_refused(uint64_t a, uint64_t b, uint64_t c, uint64_t d, uint64_t number)
{
    refused("swap_edges", replica_swap_edges(STATE, LOG, a, b, c, d), number, 0, 0);
}

/*
 * Edges 1-2 and 3-4 of degree 1 behind an isolated vertex: the most swaps, there and back, and all
 * reasons to refuse one.
 */
static void most_swaps(void)
{
    static const uint8_t block[] = {0, 0, 1, 0, 1, 1, 4, 0};
    static const uint8_t there[] = {1, 2, 3, 4}, back[] = {1, 4, 3, 2};
    static uint8_t first[sizeof adjacency];

    done("lay_out", lay_out(block, sizeof block), NUMBERS(5));
    add(1, 2);
    add(3, 4);
    memcpy(first, adjacency, sizeof adjacency);
    refused("undo_swap", replica_undo_swap(STATE, LOG), REPLICA_REFUSED_LOG_EMPTY, 0, 0);
    swap_refused(1, 2, 3, 5, REPLICA_REFUSED_NO_SUCH_VERTEX);
    swap_refused(1, 3, 2, 4, REPLICA_REFUSED_SWAP_NOT_ALLOWED);
    swap_refused(1, 2, 1, 2, REPLICA_REFUSED_SWAP_NOT_ALLOWED);
    for (size_t i = 0; i < REPLICA_MAX_SWAPS; i++) {
        const uint8_t *s = i % 2 == 0 ? there : back;
        done("swap_edges", replica_swap_edges(STATE, LOG, s[0], s[1], s[2], s[3]), NUMBERS(0));
        logged("swap_edges", i + 1, s);
    }
    swap_refused(1, 2, 3, 4, REPLICA_REFUSED_LOG_FULL);
    done("complete", replica_complete(STATE, LOG, output, 0), NUMBERS(0));
    for (size_t i = REPLICA_MAX_SWAPS; i > 0; i--) {
        logged("undo_swap", i, i % 2 == 0 ? back : there);
        done("undo_swap", replica_undo_swap(STATE, LOG), NUMBERS(0));
    }
    logged("undo_swap", 0, there);
    if (memcmp(adjacency, first, sizeof adjacency) != 0)
        fail("undo_swap", "left other edges");
}

/* A swap moves the edges it names, and a log that cannot be undone is refused by every call. */
static void one_swap(void)
{
    static const uint8_t edges[] = {1, 4, 2, 3};

    done("swap_edges", replica_swap_edges(STATE, LOG, 1, 2, 3, 4), NUMBERS(0));
    done("edge_list", replica_edge_list(STATE, output, sizeof output), NUMBERS(sizeof edges));
    wrote("edge_list", edges, sizeof edges);
    swaps[3] = 3;
    keep();
    log_refused(REPLICA_REFUSED_INVALID_STATE, REPLICA_JOURNAL_BYTES, REPLICA_ADJACENCY_BYTES,
                REPLICA_LOG_BYTES);
    swaps[3] = 2;
    done("remove_edge", replica_remove_edge(STATE, LOG, 4, 1), NUMBERS(0));
    logged("remove_edge", 0, edges);
}

/* The switches that join records tell of. */
static uint64_t switches_in(const uint8_t *records, size_t length)
{
    uint64_t count = 0;

    for (size_t i = 0; i < length; i += REPLICA_JOIN_RECORD_BYTES)
        for (size_t j = i + 2; j < i + REPLICA_JOIN_RECORD_BYTES; j += 3)
            count += records[j] != REPLICA_UNUSED;
    return count;
}

/* The most vertices, all of the highest degree: the longest edge list and the most join records. */
static void most_edges(void)
{
    static uint8_t records[REPLICA_MAX_JOIN_RECORDS_BYTES], edges[REPLICA_MAX_EDGE_LIST_BYTES];
    struct ReplicaAnswer completed;
    uint8_t block[RECORD_BYTES];

    put_record(block, MAX_DEGREE, MAX_DEGREE, 2 * MAX_EDGES);
    done("lay_out", lay_out(block, sizeof block), NUMBERS(REPLICA_MAX_VERTICES));
    refused("complete", replica_complete(STATE, LOG, output, REPLICA_MAX_JOIN_RECORDS_BYTES - 1),
            REPLICA_REFUSED_OUTPUT_TOO_SHORT, 0, 0);
    completed = replica_complete(STATE, LOG, output, REPLICA_MAX_JOIN_RECORDS_BYTES);
    collect("complete", records, sizeof records);
    done("complete", completed, NUMBERS(MAX_EDGES, switches_in(records, sizeof records),
                                        REPLICA_MAX_JOIN_RECORDS_BYTES));
    refused("edge_list", replica_edge_list(STATE, output, REPLICA_MAX_EDGE_LIST_BYTES - 1),
            REPLICA_REFUSED_OUTPUT_TOO_SHORT, 0, 0);
    done("edge_list", replica_edge_list(STATE, output, REPLICA_MAX_EDGE_LIST_BYTES),
         NUMBERS(REPLICA_MAX_EDGE_LIST_BYTES));
    collect("edge_list", edges, sizeof edges);
    done("jdm_of_edges", replica_jdm_of_edges(edges, sizeof edges, REPLICA_MAX_VERTICES,
                                              output, sizeof block), NUMBERS(sizeof block));
    wrote("jdm_of_edges", block, sizeof block);
}

/* The same shuffled, on the state of most_edges without its edges. */
static void most_edges_shuffled(void)
{
    static uint8_t records[REPLICA_MAX_JOIN_RECORDS_BYTES];
    struct ReplicaAnswer completed;
    uint32_t x = 5;

    memset(adjacency, 0, REPLICA_ADJACENCY_BYTES);
    keep();
    refused("complete_shuffled",
            replica_complete_shuffled(STATE, LOG, x, output, REPLICA_MAX_JOIN_RECORDS_BYTES - 1),
            REPLICA_REFUSED_OUTPUT_TOO_SHORT, 0, 0);
    completed = replica_complete_shuffled(STATE, LOG, x, output, REPLICA_MAX_JOIN_RECORDS_BYTES);
    for (int i = 0; i < MAX_EDGES; i++)
        x = x * UINT32_C(1664525) + UINT32_C(1013904223);
    collect("complete_shuffled", records, sizeof records);
    done("complete_shuffled", completed,
         NUMBERS(MAX_EDGES, switches_in(records, sizeof records),
                 REPLICA_MAX_JOIN_RECORDS_BYTES, x));
}

/* Vertices of degree k, so few that each degree can still meet every other and itself. */
static int vertices_of(int k)
{
    return (MAX_DEGREE + k) / k;
}

/*
 * Writes a table that has every cell and two isolated vertices, 200 vertices in all, as records in
 * their order. Every cell gets its least count. What a degree then has left is dealt out to its
 * cells with other degrees, one edge each in turn, the high degrees first.
 */
static size_t table_of_all_cells(uint8_t *records)
{
    int cells[MAX_DEGREE + 1][MAX_DEGREE + 1], left[MAX_DEGREE + 1];
    size_t length = RECORD_BYTES;

    for (int k = 1; k <= MAX_DEGREE; k++) {
        left[k] = k * vertices_of(k) - MAX_DEGREE - 1;
        for (int l = k; l <= MAX_DEGREE; l++)
            cells[k][l] = k == l ? 2 : 1;
    }
    for (int round = 0; round < MAX_DEGREE; round++)
        for (int l = MAX_DEGREE; l >= 1; l--)
            for (int k = 1; k < l; k++)
                if (left[k] > 0 && left[l] > 0 && cells[k][l] < vertices_of(k) * vertices_of(l)) {
                    cells[k][l]++;
                    left[k]--;
                    left[l]--;
                }
    put_record(records, 0, 0, 2);
    for (int k = 1; k <= MAX_DEGREE; k++)
        for (int l = k; l <= MAX_DEGREE; l++, length += RECORD_BYTES)
            put_record(records + length, k, l, cells[k][l]);
    return length;
}

/* A graph with every cell has the longest records. */
static void most_records(void)
{
    static uint8_t records[sizeof output], edges[REPLICA_MAX_EDGE_LIST_BYTES];
    size_t length = table_of_all_cells(records), taken = 0;
    struct ReplicaAnswer list;

    clear();
    for (uint64_t number = 0; taken < length; number++) {
        size_t rest = length - taken;
        size_t part = rest < REPLICA_MAX_BLOCK_BYTES ? rest : REPLICA_MAX_BLOCK_BYTES;
        take(number, records + taken, part);
        taken += part;
    }
    done("lay_out", replica_lay_out(STATE), NUMBERS(REPLICA_MAX_VERTICES));
    replica_complete(STATE, LOG, output, sizeof output);
    memset(output, GUARD, sizeof output);
    keep();
    list = replica_edge_list(STATE, output, sizeof edges);
    collect("edge_list", edges, list.first);
    refused("jdm_of_edges",
            replica_jdm_of_edges(edges, list.first, REPLICA_MAX_VERTICES,
                                 output, REPLICA_MAX_RECORDS_BYTES - 1),
            REPLICA_REFUSED_OUTPUT_TOO_SHORT, 0, 0);
    done("jdm_of_edges", replica_jdm_of_edges(edges, list.first, REPLICA_MAX_VERTICES,
                                              output, REPLICA_MAX_RECORDS_BYTES),
         NUMBERS(REPLICA_MAX_RECORDS_BYTES));
    wrote("jdm_of_edges", records, length);
}

/* The graph of all pairs has the longest graph6 text, and the longest edge list of one. */
static void longest_text(void)
{
    static uint8_t pairs[REPLICA_MAX_VERTICES * REPLICA_MAX_VERTICES];
    static uint8_t text[REPLICA_MAX_GRAPH6_BYTES];
    const size_t total = REPLICA_MAX_VERTICES;
    size_t length = 0;

    for (size_t v = 0; v < total; v++)
        for (size_t w = v + 1; w < total; w++) {
            pairs[length++] = (uint8_t)v;
            pairs[length++] = (uint8_t)w;
        }
    refused("graph6_write",
            replica_graph6_write(pairs, length, total, output, REPLICA_MAX_GRAPH6_BYTES - 1),
            REPLICA_REFUSED_OUTPUT_TOO_SHORT, 0, 0);
    done("graph6_write",
         replica_graph6_write(pairs, length, total, output, REPLICA_MAX_GRAPH6_BYTES),
         NUMBERS(REPLICA_MAX_GRAPH6_BYTES));
    collect("graph6_write", text, sizeof text);
    refused("graph6_read", replica_graph6_read(text, sizeof text, output,
                                               REPLICA_MAX_GRAPH6_EDGE_LIST_BYTES - 1),
            REPLICA_REFUSED_OUTPUT_TOO_SHORT, 0, 0);
    done("graph6_read", replica_graph6_read(text, sizeof text, output,
                                            REPLICA_MAX_GRAPH6_EDGE_LIST_BYTES),
         NUMBERS(REPLICA_MAX_GRAPH6_EDGE_LIST_BYTES, REPLICA_MAX_VERTICES));
    wrote("graph6_read", pairs, length);
}

/* Edge lists that the two calls which are given one refuse, at the place of the fault. */
static void refused_edge_lists(void)
{
    static const uint8_t edges[] = {0, 1, 0, 2, 0, 2};
    static const struct { size_t length; uint64_t total, place; } wrong[] = {
        {2, REPLICA_MAX_VERTICES + 1, 0}, {5, 3, 2}, {6, 3, 2}, {4, 2, 1},
    };
    uint8_t star[2 * (MAX_DEGREE + 1)];

    for (size_t i = 0; i < sizeof wrong / sizeof *wrong; i++) {
        refused("jdm_of_edges", replica_jdm_of_edges(edges, wrong[i].length, wrong[i].total,
                                                     output, sizeof output),
                REPLICA_REFUSED_BAD_EDGE_LIST, wrong[i].place, 0);
        refused("graph6_write", replica_graph6_write(edges, wrong[i].length, wrong[i].total,
                                                     output, sizeof output),
                REPLICA_REFUSED_BAD_EDGE_LIST, wrong[i].place, 0);
    }
    for (size_t i = 0; i < sizeof star; i += 2) {
        star[i] = 3;
        star[i + 1] = (uint8_t)(4 + i / 2);
    }
    refused("jdm_of_edges", replica_jdm_of_edges(star, sizeof star, REPLICA_MAX_VERTICES,
                                                 output, sizeof output),
            REPLICA_REFUSED_DEGREE_TOO_HIGH, 3, 0);
}

/* The text of four vertices that the header has, and texts that are none. */
static void texts(void)
{
    static const uint8_t edges[] = {0, 3, 1, 2, 1, 3, 2, 3}, text[] = {'C', 'N'};
    static const uint8_t no_text[] = {'C', 'N', '\n'}, too_large[] = {126, 63, 66, 72};

    done("graph6_write", replica_graph6_write(edges, sizeof edges, 4, output, sizeof text),
         NUMBERS(sizeof text));
    wrote("graph6_write", text, sizeof text);
    done("graph6_read", replica_graph6_read(text, sizeof text, output, sizeof edges),
         NUMBERS(sizeof edges, 4));
    wrote("graph6_read", edges, sizeof edges);
    refused("graph6_read", replica_graph6_read(no_text, sizeof no_text, output, sizeof output),
            REPLICA_REFUSED_GRAPH6_TEXT, 0, 0);
    refused("graph6_read", replica_graph6_read(too_large, sizeof too_large, output, sizeof output),
            REPLICA_REFUSED_GRAPH6_SIZE, 0, 0);
}

int main(void)
{
    memset(output, GUARD, sizeof output);
    lengths();
    longest_block();
    refused_blocks();
    most_blocks();
    refused_tables();
    phases();
    edges_by_hand();
    only_graph();
    switches_by_hand();
    one_join_record();
    most_swaps();
    one_swap();
    most_edges();
    most_edges_shuffled();
    most_records();
    longest_text();
    refused_edge_lists();
    texts();
    printf("every call, refusal and longest length is as replica.h says\n");
    return 0;
}
