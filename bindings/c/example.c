/*
 * Lays out six vertices of degree 2 and one isolated vertex, adds three edges by hand and completes
 * the rest. A copy of the graph, as a patch frame would keep one, follows by what each join says has
 * moved. Prints what moved and the edges, and counts the table of the graph it got. Then it rewires
 * the graph by two swaps, which keep the table, and takes them back. It makes two more replicas of
 * the table, which differ. Last, another graph goes out as graph6 and comes back.
 */
#include <inttypes.h>
#include <stdio.h>
#include <stdlib.h>
#include <string.h>

#include "replica.h"

static uint8_t journal[REPLICA_JOURNAL_BYTES];
static uint8_t adjacency[REPLICA_ADJACENCY_BYTES];
static uint8_t swaps[REPLICA_LOG_BYTES];
static uint8_t copy[REPLICA_ADJACENCY_BYTES];
static uint8_t joins[REPLICA_MAX_JOIN_RECORDS_BYTES];
static uint8_t edges[REPLICA_MAX_EDGE_LIST_BYTES];
static uint8_t records[REPLICA_MAX_RECORDS_BYTES];
static uint8_t text[REPLICA_MAX_GRAPH6_BYTES];
static uint8_t pairs[REPLICA_MAX_GRAPH6_EDGE_LIST_BYTES];

static const uint8_t block[] = {
    0, 0, 1, 0,  /* one vertex without an edge: it is vertex 0 */
    2, 2, 12, 0, /* six edges among vertices of degree 2, counted twice */
};

/* Ends the program on a refusal. */
static void check(const char *what, uint64_t number, uint64_t first, uint64_t second)
{
    if (number != 0) {
        fprintf(stderr, "%s: refused %" PRIu64 " %" PRIu64 " %" PRIu64 "\n",
                what, number, first, second);
        exit(1);
    }
}

static struct ReplicaAnswer done(const char *what, struct ReplicaAnswer answer)
{
    check(what, answer.number, answer.first, answer.second);
    return answer;
}

static void set(int v, int w, uint8_t joined)
{
    copy[v * REPLICA_MAX_VERTICES + w] = joined;
    copy[w * REPLICA_MAX_VERTICES + v] = joined;
}

/* Plays a join record onto the copy: what moved first, then the edge itself. */
static void play(const uint8_t *join)
{
    for (int i = 2; i < REPLICA_JOIN_RECORD_BYTES && join[i] != REPLICA_UNUSED; i += 3) {
        int a = join[i], b = join[i + 1], t = join[i + 2];
        set(a, t, 0);
        set(b, t, 1);
        printf("%d-%d became %d-%d, ", a, t, b, t);
    }
    set(join[0], join[1], 1);
    printf("%d-%d came\n", join[0], join[1]);
}

/* Adds an edge by hand. The pair and the triples of the answer are a join record. */
static void add(uint8_t v, uint8_t w)
{
    struct ReplicaJoin join = replica_add_edge(journal, sizeof journal,
                                               adjacency, sizeof adjacency,
                                               swaps, sizeof swaps, v, w);
    uint8_t record[REPLICA_JOIN_RECORD_BYTES] = {
        v, w, (uint8_t)join.a1, (uint8_t)join.b1, (uint8_t)join.t1,
        (uint8_t)join.a2, (uint8_t)join.b2, (uint8_t)join.t2,
    };

    check("add_edge", join.number, join.first, join.second);
    play(record);
}

/* Takes the first bytes of the table as block `number`. */
static void take(uint64_t number, size_t length)
{
    done("take_block", replica_take_block(journal, sizeof journal, adjacency, sizeof adjacency,
                                          number, block, length));
}

/* Takes the table and fixes the vertices. Returns their number. */
static uint64_t lay_out(void)
{
    done("clear", replica_clear(journal, sizeof journal, adjacency, sizeof adjacency,
                                swaps, sizeof swaps));
    take(0, sizeof block);
    take(0, sizeof block); /* sent again after a time-out: held, and not added twice */
    take(1, 0); /* nothing to report: a block too; its pointer is not read, but is not NULL */
    return done("lay_out", replica_lay_out(journal, sizeof journal,
                                           adjacency, sizeof adjacency)).first;
}

/* Prints the edges of the graph as it is, in one line. */
static void print_edges(void)
{
    struct ReplicaAnswer list =
        done("edge_list", replica_edge_list(journal, sizeof journal, adjacency, sizeof adjacency,
                                            edges, sizeof edges));

    for (uint64_t i = 0; i < list.first; i += 2)
        printf(" %d-%d", edges[i], edges[i + 1]);
    printf("\n");
}

/* Edges a-b and c-d become a-d and b-c. */
static void swap(uint64_t a, uint64_t b, uint64_t c, uint64_t d)
{
    done("swap_edges", replica_swap_edges(journal, sizeof journal, adjacency, sizeof adjacency,
                                          swaps, sizeof swaps, a, b, c, d));
}

/* Rewires the graph by two swaps, and takes those in the log back, the last one first. */
static void rewire(void)
{
    swap(1, 3, 5, 6);
    swap(4, 1, 2, 3);
    printf("rewired:");
    print_edges();
    for (int left = swaps[0] + 256 * swaps[1]; left > 0; left--) {
        const uint8_t *last = swaps + 2 + (left - 1) * REPLICA_SWAP_RECORD_BYTES;
        printf("%d-%d and %d-%d are back\n", last[0], last[1], last[2], last[3]);
        done("undo_swap", replica_undo_swap(journal, sizeof journal, adjacency, sizeof adjacency,
                                            swaps, sizeof swaps));
    }
}

/*
 * Makes one more replica of the table, from no edges and the number x, and prints it. The same x gives
 * the same replica. Returns the last x.
 */
static uint32_t another(uint32_t x)
{
    struct ReplicaAnswer completed;

    /* No edges and no swaps: the state is as it was when laid out. */
    memset(adjacency, 0, sizeof adjacency);
    memset(swaps, 0, sizeof swaps);
    completed = done("complete_shuffled",
                     replica_complete_shuffled(journal, sizeof journal, adjacency, sizeof adjacency,
                                               swaps, sizeof swaps, x, joins, sizeof joins));
    printf("from %" PRIu32 ":", x);
    print_edges();
    return (uint32_t)completed.fourth;
}

/* Writes four edges among four vertices as graph6 and reads them back: neither needs a state. */
static int exchange(void)
{
    static const uint8_t four[] = {0, 3, 1, 2, 1, 3, 2, 3};
    struct ReplicaAnswer out, in;

    out = done("graph6_write", replica_graph6_write(four, sizeof four, 4, text, sizeof text));
    in = done("graph6_read", replica_graph6_read(text, out.first, pairs, sizeof pairs));
    /* The text has no byte 0 at its end: its length is told. */
    printf("%.*s has %" PRIu64 " vertices\n", (int)out.first, (const char *)text, in.second);
    return in.first == sizeof four && memcmp(pairs, four, sizeof four) == 0;
}

int main(void)
{
    struct ReplicaAnswer completed, list, survey;
    uint64_t vertices = lay_out();

    add(1, 2);
    add(1, 3);
    add(1, 4); /* vertex 1 has its two edges already and gives one of them away */
    completed = done("complete", replica_complete(journal, sizeof journal,
                                                  adjacency, sizeof adjacency,
                                                  swaps, sizeof swaps, joins, sizeof joins));
    for (uint64_t i = 0; i < completed.third; i += REPLICA_JOIN_RECORD_BYTES)
        play(joins + i);
    if (memcmp(copy, adjacency, sizeof copy) != 0) {
        fprintf(stderr, "the copy has other edges\n");
        return 1;
    }

    list = done("edge_list", replica_edge_list(journal, sizeof journal, adjacency, sizeof adjacency,
                                               edges, sizeof edges));
    for (uint64_t i = 0; i < list.first; i += 2)
        printf("%d %d\n", edges[i], edges[i + 1]);

    /* A list of edges does not show isolated vertices: the total of all vertices goes with it. */
    survey = done("jdm_of_edges", replica_jdm_of_edges(edges, list.first, vertices,
                                                       records, sizeof records));
    if (survey.first != sizeof block || memcmp(records, block, sizeof block) != 0) {
        fprintf(stderr, "the graph has another table\n");
        return 1;
    }
    rewire();
    if (memcmp(copy, adjacency, sizeof copy) != 0) {
        fprintf(stderr, "taken back, other edges\n");
        return 1;
    }
    another(another(0)); /* the next replica's number is the last one of this */
    if (!exchange()) {
        fprintf(stderr, "the text has other edges\n");
        return 1;
    }
    return 0;
}
