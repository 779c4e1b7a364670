/*
 * replica.h - build a simple graph with a given joint degree matrix
 *
 * Link with libreplica.a (pkg-config replica).
 *
 * WHAT IT DOES
 *
 * A graph here is a set of vertices, some pairs of which are joined by an edge; no vertex is joined
 * to itself and no pair is joined twice. The degree of a vertex is the number of its edges. The
 * joint degree matrix of a graph has one cell for each pair of degrees (k, l):
 *
 *   - for k != l, cell (k, l) is the number of edges that join a vertex of degree k to one of
 *     degree l; cell (l, k) is the same cell;
 *   - cell (k, k) is TWICE the number of edges that join two vertices of degree k.
 *
 * A vertex without any edge is isolated. No cell tells of isolated vertices; their number stands
 * beside the matrix.
 *
 * You hand in such a matrix and a number of isolated vertices, which may be 0, and the library
 * builds a graph that has both: up to 200 vertices in all, degrees up to 40, up to 4,000 edges. You
 * may add and remove edges by hand in between; the library completes whatever you have left.
 *
 * THE CALLS, IN THEIR USUAL ORDER
 *
 *   1. replica_clear       all three buffers to zero
 *   2. replica_take_block  the matrix, block by block, numbered 0, 1, 2, ...
 *   3. replica_lay_out     tests that a graph exists and fixes the vertices
 *   4. replica_add_edge, replica_remove_edge   by hand, as often as you like
 *   5. replica_complete    adds all edges still missing, and writes down which edges moved; or
 *      replica_complete_shuffled, for replicas that differ, each repeatable from its number x
 *   6. replica_swap_edges  rewires two edges, no cell changes; replica_undo_swap takes it back
 *   7. replica_edge_list   the graph as a list of edges
 *
 * A block that is sent again under its old number is recognised and not added twice. Vertices are
 * numbered from 0 by rising degree: first the isolated ones, then all of degree 1, then all of
 * degree 2, and so on. Once laid out, any two vertices that are not joined and whose cell is still
 * short of edges can be joined, in any order; there is no dead end.
 *
 * Every graph that has the matrix, and at each vertex the degree laid out for it, is within reach
 * from every laid state: remove the edges that it does not have, then add those that are missing,
 * in any order and direction. No call is refused, no edge is moved, and nothing is left to
 * complete.
 *
 * Three calls need no state: replica_jdm_of_edges counts the matrix of an edge list,
 * replica_graph6_write gives its graph6 text, and replica_graph6_read the edge list of such a text.
 *
 * FORMATS
 *
 * A record is 4 bytes: k, l, then a 16-bit count, low byte first; the count may be 0. There are two
 * forms:
 *
 *   - with 1 <= k <= l <= 40 it adds its count to cell (k, l);
 *   - with k = l = 0 it adds that many isolated vertices.
 *
 * The same pair may come in several records; counts add up.
 * A block is up to 16 records, so at most 64 bytes and a multiple of 4. One of 0 bytes is a block
 * too, sent by whoever has nothing to report: it takes a number and adds nothing.
 * An edge list is 2 bytes an edge, v then w, v < w, ascending by v and then w.
 *
 * A switch moves an edge that nobody named. It is three vertices a, b, t: the edge a-t went and the
 * edge b-t came. A join record is 8 bytes and tells of one edge added and what moved for it:
 *
 *   bytes 0, 1     v and w, the two vertices joined
 *   bytes 2, 3, 4  a, b, t of the first switch made for it
 *   bytes 5, 6, 7  a, b, t of the second
 *
 * A switch that was not needed has REPLICA_UNUSED in its bytes; a single one always stands first,
 * whether v or w was in need of it. To play a join record onto a graph, do its switches in their
 * order, each removing a-t and adding b-t, and then add v-w. What is removed is there when its turn
 * comes, and what is added is not.
 *
 * A swap rewires two edges: a-b and c-d become a-d and b-c, where a and c have the same degree. It
 * changes no cell and no vertex's number of edges. The log holds the swaps that can be taken back:
 *
 *   bytes 0, 1     how many there are, a 16-bit count, low byte first, at most REPLICA_MAX_SWAPS
 *   from byte 2    a swap record of 4 bytes for each, a, b, c, d as they were named, in the order
 *                  made; zeros behind them
 *
 * Played in this order onto the graph of before them, each record removing a-b and c-d and adding
 * a-d and b-c, they give the graph as it is now. Every call that changes the graph in another way
 * empties the log: all its bytes are 0 then.
 *
 * A graph6 text is one graph in McKay's format, in which many programs exchange them. It is bytes
 * from 63 to 126, without a header, a line end or a byte 0 behind it:
 *
 *   - the number of vertices n: up to 62 one byte, n + 63; from 63 to 200 byte 126 and then three
 *     bytes, each 63 plus six of the 18 bits of n, high bits first. The longer form is not allowed
 *     for an n of 62 or less;
 *   - one bit for each pair of vertices, 1 where they are joined, in the order 0-1, 0-2, 1-2, 0-3,
 *     1-3, 2-3, 0-4 and on: six bits a byte, high bit first, plus 63. The last byte is filled up
 *     with bits 0.
 *
 * The edges 0-3, 1-2, 1-3 and 2-3 among 4 vertices are the text CN. A graph has exactly one text.
 *
 * MEMORY
 *
 * The library owns no memory, allocates none, and keeps no pointer after a call. You own all buffers
 * and may copy, save and reload them as plain bytes, those of one state together; two states in
 * buffers of their own are independent, also in two threads.
 *
 *   - journal: REPLICA_JOURNAL_BYTES bytes, the blocks taken and the phase
 *   - adjacency: REPLICA_ADJACENCY_BYTES bytes; byte v * 200 + w is 1 if v and w are joined, else 0
 *   - log: REPLICA_LOG_BYTES bytes, the swaps that can be taken back. Only the calls that may
 *     change the graph are given it
 *
 * Every buffer is passed as a pointer and its length in bytes. Pointers must not be NULL, also
 * where the length is 0, and must point to that many readable bytes (writable ones where the
 * pointer is not const). A buffer that a call may write must not overlap any other buffer of the
 * same call. No alignment is needed. Bytes may hold anything: every call checks them.
 *
 * ANSWERS AND REFUSALS
 *
 * Every function returns a struct by value: replica_add_edge a struct ReplicaJoin, all others a
 * struct ReplicaAnswer. If `number` is 0, the call did its work, and the fields named with the
 * function hold its results; all others are 0. Otherwise `number` says why the call was refused
 * (the REPLICA_REFUSED_ constants below), `first` and `second` say where if the constant's comment
 * names a place, all other fields are 0, and EVERY byte of every buffer is as it was before the
 * call, outputs included.
 *
 * When several reasons hold at once, the first in the order listed with the function is given.
 */
#ifndef REPLICA_H
#define REPLICA_H

#include <stddef.h>
#include <stdint.h>

#ifdef __cplusplus
extern "C" {
#endif

/* Bytes of a journal. */
#define REPLICA_JOURNAL_BYTES 4162
/* Bytes of an adjacency matrix, 200 rows of 200. */
#define REPLICA_ADJACENCY_BYTES 40000
/* Bytes of a log. */
#define REPLICA_LOG_BYTES 4098
/* Most swaps in a log. */
#define REPLICA_MAX_SWAPS 1024
/* Bytes of a swap record. */
#define REPLICA_SWAP_RECORD_BYTES 4
/* Most bytes in a block. */
#define REPLICA_MAX_BLOCK_BYTES 64
/* Most blocks in a journal. */
#define REPLICA_MAX_BLOCKS 64
/* Most vertices, and the width of a row of the adjacency matrix. */
#define REPLICA_MAX_VERTICES 200
/* An output of this many bytes is never too short for replica_edge_list. */
#define REPLICA_MAX_EDGE_LIST_BYTES 8000
/* An output of this many bytes is never too short for replica_jdm_of_edges: 820 cells, and the
 * isolated vertices. */
#define REPLICA_MAX_RECORDS_BYTES 3284
/* An output of this many bytes is never too short for replica_graph6_write: 4 bytes for the number
 * of vertices, 3,317 for the pairs of 200 vertices. */
#define REPLICA_MAX_GRAPH6_BYTES 3321
/* An output of this many bytes is never too short for replica_graph6_read: all 19,900 pairs of 200
 * vertices. */
#define REPLICA_MAX_GRAPH6_EDGE_LIST_BYTES 39800
/* Bytes of a join record. */
#define REPLICA_JOIN_RECORD_BYTES 8
/* An output of this many bytes is never too short for replica_complete and
 * replica_complete_shuffled: 4,000 join records. */
#define REPLICA_MAX_JOIN_RECORDS_BYTES 32000
/* Stands for a, b and t of a switch that was not needed. No vertex has this number. */
#define REPLICA_UNUSED 255

/* What every function but replica_add_edge returns. */
struct ReplicaAnswer {
    uint64_t number; /* 0: done; else the refusal, one of the constants below */
    uint64_t first;
    uint64_t second;
    uint64_t third;
    uint64_t fourth;
    uint64_t fifth;
};

/* What replica_add_edge returns. */
struct ReplicaJoin {
    uint64_t number;     /* 0: done; else the refusal, one of the constants below */
    uint64_t first;      /* done: switches made; refused: a place */
    uint64_t second;     /* done: 0; refused: a place */
    uint64_t a1, b1, t1; /* the first switch: edge a1-t1 went, edge b1-t1 came */
    uint64_t a2, b2, t2; /* the second switch */
};

/* Why a call was refused. Places are in `first` and `second`; where none is named, both are 0. */
enum {
    /* The journal, the adjacency matrix or the log has another length than the three above. */
    REPLICA_REFUSED_WRONG_LENGTH = 1,
    /* Journal and adjacency matrix are not a valid state, or the log is not a valid log of theirs:
     * something other than these functions has written them, or they were never cleared. A log is
     * valid if its bytes are as described above and its swaps can be undone, last first, each by a
     * swap that is allowed. Before laying out it is empty. */
    REPLICA_REFUSED_INVALID_STATE = 2,
    /* Not in this phase: laid out already, or not laid out yet. */
    REPLICA_REFUSED_WRONG_PHASE = 3,
    /* The block has more than 64 bytes, or not a multiple of 4. */
    REPLICA_REFUSED_BLOCK_LENGTH = 4,
    /* A record has a degree outside 1 to 40, or k > l; 0, 0 is the only pair with a zero that is
     * allowed. first: index of the first such record. */
    REPLICA_REFUSED_BAD_RECORD = 5,
    /* The block number is too high to come next, or no such block is held. */
    REPLICA_REFUSED_BLOCK_NUMBER = 6,
    /* A block with this number but other bytes is held. */
    REPLICA_REFUSED_BLOCK_DIFFERS = 7,
    /* 64 blocks are held; there is no room for a new one. */
    REPLICA_REFUSED_JOURNAL_FULL = 8,
    /* A cell (k, k) is odd. first and second: k. */
    REPLICA_REFUSED_ODD_DIAGONAL = 9,
    /* The sum of row k is not divisible by k. first: k. */
    REPLICA_REFUSED_ROW_NOT_DIVISIBLE = 10,
    /* A cell (k, l) is larger than any simple graph allows. first: k, second: l. */
    REPLICA_REFUSED_CELL_TOO_LARGE = 11,
    /* There are more than 200 vertices, the isolated ones included. */
    REPLICA_REFUSED_TOO_MANY_VERTICES = 12,
    /* A vertex number is not below the number of vertices. */
    REPLICA_REFUSED_NO_SUCH_VERTEX = 13,
    /* v and w are the same vertex. */
    REPLICA_REFUSED_SAME_VERTEX = 14,
    /* v and w are joined already. */
    REPLICA_REFUSED_EDGE_PRESENT = 15,
    /* The cell of the two vertices has all its edges, or one of them is isolated and takes none.
     * first, second: their degrees, lower first; the degree of an isolated vertex is 0. */
    REPLICA_REFUSED_CELL_NOT_SHORT = 16,
    /* v and w are not joined. */
    REPLICA_REFUSED_EDGE_ABSENT = 17,
    /* The output is too short. */
    REPLICA_REFUSED_OUTPUT_TOO_SHORT = 18,
    /* The total is over 200 (no place); or the edge list has an odd length (first: its number of
     * whole edges); or an edge has v >= w, a w not below the total, or is not above the edge before
     * it (first: index of the first such edge). */
    REPLICA_REFUSED_BAD_EDGE_LIST = 19,
    /* A vertex of the edge list has a degree over 40. first: the lowest such vertex. */
    REPLICA_REFUSED_DEGREE_TOO_HIGH = 20,
    /* The text is not a graph6 text: it is empty, has a byte outside 63 to 126 (as a header and a
     * line end do), another length than its number of vertices asks for, a bit behind the last pair
     * that is not 0, or a number of vertices in the longer form without need. */
    REPLICA_REFUSED_GRAPH6_TEXT = 21,
    /* The text begins as that of a graph with more than 200 vertices: with byte 126, and then
     * another 126 or three bytes that make a number above 200. What follows is not looked at. */
    REPLICA_REFUSED_GRAPH6_SIZE = 22,
    /* The swap is not allowed: a-b or c-d is not an edge, the four vertices are not distinct, a and
     * c have different degrees, or a-d or b-c is an edge already. */
    REPLICA_REFUSED_SWAP_NOT_ALLOWED = 23,
    /* The log holds 1,024 swaps; there is no room for another. */
    REPLICA_REFUSED_LOG_FULL = 24,
    /* The log holds no swap to take back. */
    REPLICA_REFUSED_LOG_EMPTY = 25
};

/*
 * Sets every byte of all three buffers to 0: no blocks, no edges, no swaps. The only function that
 * does not ask for a valid state, so it is the first to call on fresh memory.
 *
 * Refused: 1.
 */
struct ReplicaAnswer replica_clear(uint8_t *journal, size_t journal_length,
                                   uint8_t *adjacency, size_t adjacency_length,
                                   uint8_t *log, size_t log_length);

/*
 * Takes block `number`, before laying out. The next block has the number of blocks held so far.
 *
 *   first   0: the block is new and is in the journal now
 *           1: the same block (number, length and bytes) is held already; nothing changes. This is
 *              answered after laying out too.
 *   second  when new: the number the next block will have
 *
 * A block of 0 bytes is passed as length 0 and any pointer but NULL, to a byte of yours, say: it is
 * not read. It is new and held like any other; a block with bytes under its number is 7, and so is
 * a block of 0 bytes under the number of one with bytes.
 *
 * Refused: 1, 2, 4, 5, 6 (number above the count of blocks held), 7, 3 (new, but laid out already),
 * 8.
 */
struct ReplicaAnswer replica_take_block(uint8_t *journal, size_t journal_length,
                                        const uint8_t *adjacency, size_t adjacency_length,
                                        uint64_t number,
                                        const uint8_t *block, size_t block_length);

/*
 * Finds a block that is held. Its bytes lie in your journal, at journal + first.
 *
 *   first   offset of the block in the journal
 *   second  its length in bytes, 0 for a block of 0 bytes
 *
 * Refused: 1, 2, 6. So `number` tells a block of 0 bytes from none.
 */
struct ReplicaAnswer replica_held_block(const uint8_t *journal, size_t journal_length,
                                        const uint8_t *adjacency, size_t adjacency_length,
                                        uint64_t number);

/*
 * Tests that a simple graph has the sum of all blocks, and fixes the vertices. No new block is taken
 * afterwards.
 *
 *   first   the number of vertices, the isolated ones included; 0 if the blocks add up to nothing
 *
 * Refused: 1, 2, 3 (laid out already), 9, 10, 11 (no simple graph of any size has this matrix), 12
 * (there is one, but with the isolated vertices it has more than 200). After 9 to 12 further blocks
 * can be taken.
 */
struct ReplicaAnswer replica_lay_out(uint8_t *journal, size_t journal_length,
                                     const uint8_t *adjacency, size_t adjacency_length);

/*
 * Joins v and w. If one of them has as many edges as its degree already, it hands one of them to
 * another vertex of the same degree first; this is a switch. v is looked at before w, so naming the
 * pair the other way round may move other edges. No cell of the matrix changes by a switch. No edge
 * can be added at an isolated vertex: that is 16.
 *
 *   first       switches made, 0 to 2
 *   a1, b1, t1  the first switch made, REPLICA_UNUSED in all three if there was none
 *   a2, b2, t2  the second switch made, REPLICA_UNUSED in all three if there was none
 *
 * The graph is then that of before with a1-t1 removed and b1-t1 added, a2-t2 removed and b2-t2
 * added, and v-w added, in this order. The log is emptied.
 *
 * Refused: 1, 2, 3 (not laid out yet), 13, 14, 15, 16.
 */
struct ReplicaJoin replica_add_edge(const uint8_t *journal, size_t journal_length,
                                    uint8_t *adjacency, size_t adjacency_length,
                                    uint8_t *log, size_t log_length,
                                    uint64_t v, uint64_t w);

/*
 * Removes the edge between v and w. The log is emptied.
 *
 * Refused: 1, 2, 3 (not laid out yet), 13, 14, 17.
 */
struct ReplicaAnswer replica_remove_edge(const uint8_t *journal, size_t journal_length,
                                         uint8_t *adjacency, size_t adjacency_length,
                                         uint8_t *log, size_t log_length,
                                         uint64_t v, uint64_t w);

/*
 * Swaps two edges: a-b and c-d become a-d and b-c. Both must be there and the two new ones not, the
 * four vertices must be distinct, and a and c of the same degree, the one laid out for them. So no
 * cell changes. The state need not be complete. The swap is written into the log, behind those that
 * are in it; all fields of the answer are 0.
 *
 * Refused: 1, 2, 3 (not laid out yet), 13 (any of the four), 23 (two vertices that are the same,
 * too), 24.
 */
struct ReplicaAnswer replica_swap_edges(const uint8_t *journal, size_t journal_length,
                                        uint8_t *adjacency, size_t adjacency_length,
                                        uint8_t *log, size_t log_length,
                                        uint64_t a, uint64_t b, uint64_t c, uint64_t d);

/*
 * Takes the last swap of the log back: a-d and b-c become a-b and c-d again. Its record is taken
 * out of the log, so that matrix and log are, byte by byte, as they were before the swap. Which one
 * it is can be read in the log before the call; all fields of the answer are 0.
 *
 * Refused: 1, 2, 3 (not laid out yet), 25.
 */
struct ReplicaAnswer replica_undo_swap(const uint8_t *journal, size_t journal_length,
                                       uint8_t *adjacency, size_t adjacency_length,
                                       uint8_t *log, size_t log_length);

/*
 * Adds edges until every cell has its count. It never fails on the way: it adds exactly as many
 * edges as are missing, from any start. The same start always gives the same graph. Isolated
 * vertices get none; all others have their degree at the end.
 *
 * It writes one join record for each edge added, v < w, in the order added, from the start of the
 * output. Played in this order onto the graph of before, they give the graph of after. Output bytes
 * after the written part are untouched.
 *
 * The output needs REPLICA_JOIN_RECORD_BYTES bytes for each missing edge: edges wanted less edges
 * laid, as replica_figures reports them. On a complete state a length of 0 is enough; the pointer
 * must not be NULL then either.
 *
 * The log is emptied if an edge was added; on a complete state it is as it was.
 *
 *   first   edges added
 *   second  switches made for them
 *   third   bytes written, 8 for each edge added
 *
 * Refused: 1, 2, 3 (not laid out yet), 18 (before anything changes).
 */
struct ReplicaAnswer replica_complete(const uint8_t *journal, size_t journal_length,
                                      uint8_t *adjacency, size_t adjacency_length,
                                      uint8_t *log, size_t log_length,
                                      uint8_t *output, size_t output_length);

/*
 * Does the same, but x, any number of 32 bits, chooses which edge is added next: another x mostly
 * gives another graph of the same matrix. The same start and the same x always give the same graph
 * and the same records.
 *
 * While a cell is short, x becomes the low 32 bits of x * 1664525 + 1013904223, and then one edge
 * is added. Let m be the number of pairs v < w that are not joined and whose cell is short, over
 * all cells together, in the graph with the edges added so far. Of these pairs, ascending by v and
 * then w, counted from 0, the one at position (x / 65536) mod m, both of whole numbers, is joined:
 * v to w, exactly as replica_add_edge does it.
 *
 * It adds as many edges as replica_complete would, needs as much output, writes its join records in
 * the same way, and empties the log if it adds an edge. On a complete state it does nothing, and x
 * is returned as it came.
 *
 *   first   edges added
 *   second  switches made for them
 *   third   bytes written, 8 for each edge added
 *   fourth  the last x, which can be the x of the next replica
 *
 * Refused: 1, 2, 3 (not laid out yet), 18 (before anything changes).
 */
struct ReplicaAnswer replica_complete_shuffled(const uint8_t *journal, size_t journal_length,
                                               uint8_t *adjacency, size_t adjacency_length,
                                               uint8_t *log, size_t log_length,
                                               uint32_t x,
                                               uint8_t *output, size_t output_length);

/*
 * Writes the edges laid so far as an edge list. Output bytes after the written part are untouched.
 *
 *   first   bytes written, 2 for each edge
 *
 * Refused: 1, 2, 3 (not laid out yet), 18.
 */
struct ReplicaAnswer replica_edge_list(const uint8_t *journal, size_t journal_length,
                                       const uint8_t *adjacency, size_t adjacency_length,
                                       uint8_t *output, size_t output_length);

/*
 * Writes the joint degree matrix of an edge list, which may be of any graph on vertices 0 to
 * total - 1, total being 200 at most, and the number of its isolated vertices. All of it is written
 * as records: first 0, 0 and how many vertices below the total are in no edge, unless there are
 * none; then the non-zero cells with k <= l, ascending by k and then l. Output bytes after the
 * written part are untouched. It needs no journal and no adjacency matrix.
 *
 * The edge list of a completed state, with the state's number of vertices as the total, gives the
 * sum of the blocks that were taken.
 *
 *   first   bytes written, 4 for each record
 *
 * Refused: 19 (the total, then an odd length, then the edges), 20, 18.
 */
struct ReplicaAnswer replica_jdm_of_edges(const uint8_t *edges, size_t edges_length,
                                          uint64_t total,
                                          uint8_t *output, size_t output_length);

/*
 * Writes an edge list as graph6. It may be of any graph on vertices 0 to total - 1, total being 200
 * at most; degrees over 40 are written too. Only the text is written: no line end and no byte 0.
 * Output bytes after the written part are untouched. It needs no journal and no adjacency matrix.
 *
 * What is written is read by replica_graph6_read as the same edges and the same total. The edge
 * list of a state, with the state's number of vertices as the total, gives its graph.
 *
 *   first   bytes written: 1 up to 62 vertices and 4 above, and one for every six pairs of vertices
 *           or part of six
 *
 * Refused: 19 (the total, then an odd length, then the edges, as replica_jdm_of_edges has it), 18.
 */
struct ReplicaAnswer replica_graph6_write(const uint8_t *edges, size_t edges_length,
                                          uint64_t total,
                                          uint8_t *output, size_t output_length);

/*
 * Reads a graph6 text, which ends with its last byte: cut off a line end first. Writes its edges as
 * an edge list, ascending by v and then w. Output bytes after the written part are untouched. It
 * needs no journal and no adjacency matrix.
 *
 * Every text that is accepted is, byte by byte, what replica_graph6_write gives for the edges and
 * the total read from it; it refuses none of them.
 *
 *   first   bytes written, 2 for each edge
 *   second  the total: the number of vertices, the isolated ones included
 *
 * Refused: 22, 21, 18.
 */
struct ReplicaAnswer replica_graph6_read(const uint8_t *text, size_t text_length,
                                         uint8_t *output, size_t output_length);

/*
 * Reports on a state.
 *
 *   first   phase: 0 while blocks are taken, 1 when laid out
 *   second  blocks held
 *   third   number of vertices, the isolated ones included
 *   fourth  edges wanted: those of the complete graph
 *   fifth   edges laid so far
 *
 * The last three are 0 while blocks are taken.
 *
 * Refused: 1, 2.
 */
struct ReplicaAnswer replica_figures(const uint8_t *journal, size_t journal_length,
                                     const uint8_t *adjacency, size_t adjacency_length);

#ifdef __cplusplus
}
#endif

#endif
