/* Gigorchid: simulator, checker, converter, rate search and normal form of freeway metering plans, for C (C99 on) and C++ (C++11 on).
 *
 * Link with libhost.a, which tools/build.sh makes of the Gigorchid sources (cc host.c libhost.a), or with the library of the Debian
 * package, shared or static, which is the same code (cc host.c $(pkg-config --cflags --libs gigorchid)). Of the C library it needs memcpy and
 * memset. It is built for x86-64 Linux. This header says all that a caller must know; docs/MODEL.md of the sources says it at length.
 *
 * Slices. Every list is lent as an address and a count of its elements: words (uint32_t), bytes (uint8_t) or nodes (struct gigorchid_node).
 *   - The address is not null, even where the count is 0, and is aligned for its elements: to 4 bytes for words and nodes, to any for bytes.
 *     So words that stand inside a buffer of bytes are copied out first.
 *   - The count may be any number of elements that really stand there, 0 among them. As of any object in C, they take at most PTRDIFF_MAX
 *     bytes in all.
 *   - The elements stay valid through the call. A slice that is not const overlaps no other of the call: nothing is read or written in place.
 *     What it holds before the call does not matter.
 * Nothing else is asked: any words, any bytes and any counts may be given, and each call ends and answers.
 *
 * Answers. A call answers one number: 0 for accepted, else row x 65,536 + node x 256 + refusal number (below). A refusal leaves what was lent
 * as it was, but for one: a normal form refused by 12 has its work record filled.
 *
 * Threads. The calls keep nothing between them, allocate nothing and need less than 64 KiB of stack: the tests make each of them, at 64 links
 * and 1,440 steps, in a thread that has so much. Several threads may call at once, as long as no slice that one writes is used by another.
 *
 * ---- The corridor ----
 *
 * Links 1..N in the direction of travel, nodes 0..N. Link i ends at node i, where an off-ramp leaves; then the on-ramp of node i feeds link
 * i + 1. Node 0 has no link and no off-ramp: its on-ramp is the mainline's entry. Node N has no ramp of either kind. Step k, of 0..K-1, leads
 * from state k to state k + 1.
 *
 * ---- Words: unsigned 32-bit numbers in the machine's own order ----
 *
 *     letter  what                          unit                            range, but 0 where fixed at zero (below)
 *     N       links                                                         1..64
 *     K       steps                                                         1..1,440
 *     -       identifier of a node                                          not 0, and no two alike
 *     F       capacity of a link            1/64 vehicle per step           0..65,536
 *     V       full speed of a link          1/65,536 of its length a step   1..65,536
 *     W       wave speed of a link          1/65,536 of its length a step   1..65,536
 *     J       jam: vehicles when full       1/64 vehicle                    1..65,536
 *     C       capacity of an on-ramp        1/64 vehicle per step           0..65,536
 *     L       queue limit of an on-ramp     1/64 vehicle                    0..134,217,728
 *     n       vehicles on a link            1/64 vehicle                    in the corridor, as the start, 0..J
 *     l       queue of an on-ramp           1/64 vehicle                    in the corridor, as the start, 0..L
 *     Q       arrivals at an on-ramp        1/64 vehicle per step           0..65,536
 *     b       split to the off-ramp         parts of 65,536                 0..65,536
 *     P       flow that may leave link N    1/64 vehicle per step           0..65,536
 *     -       dropped capacity of a link    1/64 vehicle per step           0..F
 *     -       drop density of a link        1/64 vehicle                    0..J
 *     rate    metering rate of an on-ramp   1/64 vehicle per step           0..C
 *     limit   speed limit on a link         1/65,536 of its length a step   0..V
 *     f       flow that leaves a link       1/64 vehicle per step           in a record
 *     r       flow that leaves an on-ramp   1/64 vehicle per step           in a record
 *     exit    flow onto an off-ramp         1/64 vehicle per step           in a record of kind 7
 *     cost    sum of all n and l over states 1..K, in 1/64 vehicle times steps; its low 32 bits first, then its high ones
 *
 * ---- Lists: the order of their words ----
 *
 *     corridor  N, then for each node 0..N:                     identifier, F, V, W, J, C, L, n, l; of kind 10 then, of the same node:
 *                                                               dropped capacity, drop density
 *     demands   K, then for each step 0..K-1, each node 0..N:   Q, b; of kind 5 then, after all steps, for each step 0..K-1: P
 *     plan      for each step 0..K-1, each node 0..N:           rate, limit
 *     record    for each state 0..K, each node 0..N:            n, l, f, r; of kind 7 then, of the same node: exit; at the end of either
 *                                                               kind the cost, 2 words
 *
 * At node i F, V, W, J, n, f, limit, dropped capacity and drop density are those of link i; C, L, l, r, Q and rate those of its on-ramp; b
 * and exit those of its off-ramp.
 * Fixed at zero: F, V, W, J, n, f, b, exit, limit, dropped capacity and drop density of node 0; C, L, l, r, Q, b, exit and rate of node N;
 * every f, r and exit of state K.
 *
 * A corridor is of kind 1, or of kind 10, for links that discharge less once a queue stands on them. N is read first; the count of words then
 * tells the kind in a list (100 words are kind 10 for 8 links and kind 1 for 10), and the first word in a file: 10 is kind 10, and any other,
 * or a file of fewer than 4 bytes, is read as kind 1. Every call takes both. Kind 1 is kind 10 with dropped capacity F and drop density J at
 * every node: no link drops.
 *
 * Demands are of kind 2, or of kind 5, for a corridor past whose last link traffic may queue. P of step k is word 1 + 2 x K x (N + 1) + k of
 * the list, its words counted from 0. In a list the count of its words tells the kind, in a file its first word: 5 is kind 5, and any other, or
 * a file of fewer than 4 bytes, is read as kind 2. Every call takes both. Kind 2 is kind 5 with P = 65,536 in every step, the most that any
 * link can send: traffic past link N is free.
 *
 * A record is of kind 3, or of kind 7, which also lists the exits: exit is f x b / 65,536 rounded down, what rule 2 takes off f. That of node
 * i in state k is word (k x (N + 1) + i) x 5 + 4 of the list, its words counted from 0. In a list the count of its words tells the kind, once
 * N and K are read (42 words are kind 7 for one link and three steps, and kind 3 for one link and four), and so it does in a record that is
 * lent: the exits are written where it has the count of kind 7. In a file the first word tells: 7 is kind 7, and any other, or a file of fewer
 * than 4 bytes, is read as kind 3. Every call takes both. Kind 3 is kind 7 with the right exits: checker and converter answer the same, and
 * the plan is the same.
 *
 * ---- A step, at node i; every quotient is rounded down ----
 *
 *     1  sending       D = min(n x limit / 65,536, E)                       of link i; 0 at node 0; E = F where n is at or below the drop
 *                                                                           density, and the dropped capacity where n is above it
 *     2  through part  T(y) = y - y x b / 65,536, of a flow y               the rest leaves by the off-ramp; that of f is exit
 *     3  offer         d = min(l, C, rate)                                  of the on-ramp; 0 at node N
 *     4  receiving     S = min(F, W x (J - n) / 65,536)                     all of link i + 1; S = P at node N
 *     5  merge         R = T(D) + d; where R <= S, f = D and r = d; else f = D x S / R and r = d x S / R; so at node N f = min(D, P)
 *     6  next state    link i + 1 gains T(f) + r, link i loses its f, and l becomes l + Q - r; all nodes at once
 */
#ifndef GIGORCHID_H
#define GIGORCHID_H

#include <stddef.h>
#include <stdint.h>

/* The version of this header and of the library that comes with it; the library itself does not tell. Since 0.6.0 the library also comes
 * as a shared one, in a Debian package; new in 0.7.0 are two commands of that package. Every call answers and writes what it did in 0.5.0, and
 * code for it need not change, nor be compiled anew. */
#define GIGORCHID_VERSION_MAJOR 0
#define GIGORCHID_VERSION_MINOR 7
#define GIGORCHID_VERSION_PATCH 0
#define GIGORCHID_VERSION_TEXT "0.7.0"
/* The three as one number, to compare: 10,000 x major + 100 x minor + patch. */
#define GIGORCHID_VERSION (GIGORCHID_VERSION_MAJOR * 10000 + GIGORCHID_VERSION_MINOR * 100 + GIGORCHID_VERSION_PATCH)

/* For the macros below only. */
#ifdef __cplusplus
#define GIGORCHID_CAST(type, value) static_cast<type>(value)
extern "C" {
#else
#define GIGORCHID_CAST(type, value) ((type)(value))
#endif

/* How many words each list has for N links and K steps, and how many bytes a file of so many words has. Every count that is lent, an output's
 * too, is just this: any other is refused, by 1, and in a file that is read by 14. GIGORCHID_CORRIDOR_WORDS is for a corridor of kind 1,
 * GIGORCHID_CORRIDOR_10_WORDS for one of kind 10; GIGORCHID_DEMANDS_WORDS is for demands of kind 2, GIGORCHID_DEMANDS_5_WORDS for those of
 * kind 5, K words more; so where K is 1, a list of kind 2 with one word too many is one of kind 5; GIGORCHID_RECORD_WORDS is for a record of
 * kind 3, GIGORCHID_RECORD_7_WORDS for one of kind 7. The macros give a size_t, take each argument once, and are constants where their
 * arguments are, though not in #if. They test nothing and may wrap: see that N and K are in range first. The longest lists, for 64 links and
 * 1,440 steps:
 *
 *                          words     bytes of its file
 *     corridor of kind 1       586       2,560
 *     corridor of kind 10      716       3,072
 *     demands of kind 2    187,201     766,976
 *     demands of kind 5    188,641     773,120
 *     plan                 187,200     766,976
 *     record of kind 3     374,662   1,534,976
 *     record of kind 7     468,327   1,918,464
 *
 * A file is a row of blocks of GIGORCHID_BLOCK_BYTES bytes: 128 words, each with its low byte first. Word 0 is the file's kind (1 or 10
 * corridor, 2 or 5 demands, 3 or 7 record, 4 plan), word 1 the block's number from 0, words 2..126 the list's next 125 words, zeros after its
 * end, and word 127 the sum of (2 j + 1) x word j over j = 0..126, modulo 2^32. So N stands in bytes 8..11 of a corridor's file, and K in those
 * of the demands'. */
#define GIGORCHID_MOST_LINKS 64
#define GIGORCHID_MOST_STEPS 1440
#define GIGORCHID_CORRIDOR_WORDS(n) (1 + (GIGORCHID_CAST(size_t, n) + 1) * 9)
#define GIGORCHID_CORRIDOR_10_WORDS(n) (1 + (GIGORCHID_CAST(size_t, n) + 1) * 11)
#define GIGORCHID_DEMANDS_WORDS(n, k) (1 + GIGORCHID_CAST(size_t, k) * (GIGORCHID_CAST(size_t, n) + 1) * 2)
#define GIGORCHID_DEMANDS_5_WORDS(n, k) (1 + GIGORCHID_CAST(size_t, k) * (GIGORCHID_CAST(size_t, n) * 2 + 3))
#define GIGORCHID_PLAN_WORDS(n, k) (GIGORCHID_CAST(size_t, k) * (GIGORCHID_CAST(size_t, n) + 1) * 2)
#define GIGORCHID_RECORD_WORDS(n, k) ((GIGORCHID_CAST(size_t, k) + 1) * (GIGORCHID_CAST(size_t, n) + 1) * 4 + 2)
#define GIGORCHID_RECORD_7_WORDS(n, k) ((GIGORCHID_CAST(size_t, k) + 1) * (GIGORCHID_CAST(size_t, n) + 1) * 5 + 2)
#define GIGORCHID_SEARCH_WORDS 3
#define GIGORCHID_BLOCK_BYTES 512
#define GIGORCHID_FILE_BYTES(words) ((GIGORCHID_CAST(size_t, words) + 124) / 125 * GIGORCHID_BLOCK_BYTES)

/* Whether a file's first word is this number, which is below 256. */
static inline int gigorchid_file_is(uint8_t kind, const uint8_t *file, size_t bytes)
{
    return bytes >= 4 && file[0] == kind && file[1] == 0 && file[2] == 0 && file[3] == 0;
}

/* How many words the corridor in a file has, told N, and the demands or the record in a file, told N and K: those of the kind that its first
 * word tells. */
static inline size_t gigorchid_corridor_words(uint32_t n, const uint8_t *file, size_t bytes)
{
    return gigorchid_file_is(10, file, bytes) ? GIGORCHID_CORRIDOR_10_WORDS(n) : GIGORCHID_CORRIDOR_WORDS(n);
}

static inline size_t gigorchid_demands_words(uint32_t n, uint32_t k, const uint8_t *file, size_t bytes)
{
    return gigorchid_file_is(5, file, bytes) ? GIGORCHID_DEMANDS_5_WORDS(n, k) : GIGORCHID_DEMANDS_WORDS(n, k);
}

static inline size_t gigorchid_record_words(uint32_t n, uint32_t k, const uint8_t *file, size_t bytes)
{
    return gigorchid_file_is(7, file, bytes) ? GIGORCHID_RECORD_7_WORDS(n, k) : GIGORCHID_RECORD_WORDS(n, k);
}

/* The parts of an answer. The row is the step of 5, 6 and 8 to 12, the state of 7, the block of 15 to 18, and 0 elsewhere; the node is that
 * of 2 to 12, and 0 elsewhere. 8 to 10, and 11 of an exit, speak of state row, 11 of n or l and 12 of state row + 1; 9 of link node and link
 * node + 1, at node N of link N and what lies past it. 11 does not tell whether the exit or the next n or l is wrong. */
#define GIGORCHID_REFUSAL(answer) (GIGORCHID_CAST(uint32_t, answer) & 255)
#define GIGORCHID_NODE(answer) (GIGORCHID_CAST(uint32_t, answer) >> 8 & 255)
#define GIGORCHID_ROW(answer) (GIGORCHID_CAST(uint32_t, answer) >> 16)

/* The refusals: name, number, text. Where several are due, 1 to 7 are given in number order, each over its whole input at its first place by
 * row, then node; then 8 to 12 by step, node and number; 13 last. The readers, below, say the order of 14 to 18. */
#define GIGORCHID_REFUSALS(ENTRY)                                                                                                                                                     \
    ENTRY(GIGORCHID_ACCEPTED, 0, "accepted")                                                                                                                                          \
    ENTRY(GIGORCHID_BAD_LENGTH, 1, "N or K is out of range or not the list's own, a step is not below K or a node above N, or a count is not the one that N, K and the kind ask for") \
    ENTRY(GIGORCHID_BAD_LINK, 2, "the node's F, V, W, J, dropped capacity or drop density is out of range, or not zero at node 0")                                                    \
    ENTRY(GIGORCHID_BAD_RAMP, 3, "the node's identifier is zero or that of an earlier node, or its C or L is out of range, or not zero at node N")                                    \
    ENTRY(GIGORCHID_BAD_START, 4, "the node starts with n above J or with l above L")                                                                                                 \
    ENTRY(GIGORCHID_BAD_DEMAND, 5, "Q, b or, at node N, P is above 65,536, or not zero where it is fixed: b at node 0, Q and b at node N")                                            \
    ENTRY(GIGORCHID_BAD_PLAN, 6, "the plan's rate is above C, or its limit above V")                                                                                                  \
    ENTRY(GIGORCHID_BAD_FIXED_WORD, 7, "n or l of state 0 is not the corridor's start, or a word fixed at zero is not zero")                                                          \
    ENTRY(GIGORCHID_BAD_SENDING, 8, "f is more than the link can send at full speed: above n x V / 65,536, above F, or above its dropped capacity where n is above its drop density") \
    ENTRY(GIGORCHID_BAD_MERGE, 9, "T(f) + r is more than the next link can take in, at node N more than may leave: above S")                                                          \
    ENTRY(GIGORCHID_BAD_RAMP_FLOW, 10, "r is above l or above C")                                                                                                                     \
    ENTRY(GIGORCHID_BAD_NEXT_STATE, 11, "the exit is not f x b / 65,536 rounded down, or n or l of the next state is not what rule 6 gives")                                          \
    ENTRY(GIGORCHID_BAD_QUEUE, 12, "l of the next state is above L")                                                                                                                  \
    ENTRY(GIGORCHID_BAD_COST, 13, "the cost is not the sum of all n and l over states 1..K")                                                                                          \
    ENTRY(GIGORCHID_BAD_FILE_LENGTH, 14, "the file has not the bytes that N, K and its kind ask for")                                                                                 \
    ENTRY(GIGORCHID_BAD_CHECK_WORD, 15, "the block's check word is wrong")                                                                                                            \
    ENTRY(GIGORCHID_BAD_KIND, 16, "the block's kind is not that of its file, or the file is of another list")                                                                         \
    ENTRY(GIGORCHID_BAD_BLOCK_NUMBER, 17, "the block's number is not its place in the file")                                                                                          \
    ENTRY(GIGORCHID_BAD_PADDING, 18, "the block's padding is not zero")

#define GIGORCHID_ENUMERATOR(name, number, text) name = number,
enum gigorchid_refusal { GIGORCHID_REFUSALS(GIGORCHID_ENUMERATOR) };
#undef GIGORCHID_ENUMERATOR

/* The text of a refusal number, that is of GIGORCHID_REFUSAL(answer); never null. */
static inline const char *gigorchid_refusal_text(uint32_t number)
{
    switch (number) {
#define GIGORCHID_CASE(name, number, text) \
    case name:                             \
        return text;
        GIGORCHID_REFUSALS(GIGORCHID_CASE)
#undef GIGORCHID_CASE
    default:
        return "unknown refusal number (a whole answer is taken apart by GIGORCHID_REFUSAL first)";
    }
}

/* ---- word lists: N and K are the first words of corridor and demands ---- */

/* Fills `record` with the plan's record, of the kind that its count of words tells: with GIGORCHID_RECORD_7_WORDS(n, k) words the exits are
 * listed; refused by 1 to 6. */
uint32_t gigorchid_simulate_words(const uint32_t *corridor, size_t corridor_words,
                                  const uint32_t *demands, size_t demands_words,
                                  const uint32_t *plan, size_t plan_words,
                                  uint32_t *record, size_t record_words);

/* Checks a proposed record of either kind: accepted exactly where some plan within bounds has it, in every word, and keeps every queue within
 * its limit; refused by 1 to 5 and 7 to 13. */
uint32_t gigorchid_check_words(const uint32_t *corridor, size_t corridor_words,
                               const uint32_t *demands, size_t demands_words,
                               const uint32_t *record, size_t record_words);

/* The same, and fills `plan` with a plan that has the record: for each node at each step limit V and the smallest rate that gives f and r with
 * it, or, if no rate does, rate r and the smallest limit that sends f. Where the drop is all that cuts what a link sends, its limit is V. At node N the
 * rate is 0, and the limit V exactly where f = min(D, P) at full speed, also where it is P that cuts what link N sends; it is lower only where f is
 * less still. */
uint32_t gigorchid_convert_words(const uint32_t *corridor, size_t corridor_words,
                                 const uint32_t *demands, size_t demands_words,
                                 const uint32_t *record, size_t record_words,
                                 uint32_t *plan, size_t plan_words);

/* Checks a proposed record as gigorchid_check_words does, and searches for the rate of one node in one step of it, as the converter does for
 * each: for the smallest rate of 0..C that gives f and r with limit V. The search halves: of the rates left, at first 0..C, it tries the middle,
 * rounded down, and keeps those up to it where its f is not above the wanted one and its r not below, else those above; at last it tries the
 * one left, which counts, also where it was tried before. `out` has GIGORCHID_SEARCH_WORDS words: the tries, 1 if a rate was found else 0, and
 * the rate or 0. The tries are at most 1 + log2(C + 1), rounded up, so at most 18, and 1 where C is 0. Where a rate is found the converter's plan
 * has it, with limit V, and where none is a lower limit. A step not below K, a node above N and another count of `out` are refused by 1, with
 * the other faults of 1; otherwise it is refused as gigorchid_check_words refuses. */
uint32_t gigorchid_search_words(const uint32_t *corridor, size_t corridor_words,
                                const uint32_t *demands, size_t demands_words,
                                const uint32_t *record, size_t record_words,
                                uint32_t step, uint32_t node,
                                uint32_t *out, size_t out_words);

/* Simulates the plan into `work`, which has the words of a record of either kind, and fills `normal` with the converter's plan for that record,
 * the plan's normal form; refused by 1 to 6, and by 12, which leaves the plan's record in `work`. The kind of `work` changes neither the answer
 * nor the normal form. Two plans that keep every queue within its limit have the same normal form exactly when they have the same record, of
 * one kind, in every word. */
uint32_t gigorchid_normal_words(const uint32_t *corridor, size_t corridor_words,
                                const uint32_t *demands, size_t demands_words,
                                const uint32_t *plan, size_t plan_words,
                                uint32_t *work, size_t work_words,
                                uint32_t *normal, size_t normal_words);

/* ---- the corridor as a list of nodes: N is their count less one; a count other than 2 to 65 is refused by 1 ---- */

/* The words of a node in a corridor's list of kind 10, in their order. The last two are new in 0.3.0: a link that does not drop has its F and
 * its J there, and node 0, which has no link, zeros. Code for 0.2.0 is to be compiled anew and to fill both: nine values leave zeros, which are
 * in range, and let nothing out of a link. */
struct gigorchid_node {
    uint32_t identifier;
    uint32_t capacity;         /* F */
    uint32_t full_speed;       /* V */
    uint32_t wave_speed;       /* W */
    uint32_t jam;              /* J */
    uint32_t ramp_capacity;    /* C */
    uint32_t queue_limit;      /* L */
    uint32_t start_vehicles;   /* n */
    uint32_t start_queue;      /* l */
    uint32_t dropped_capacity; /* 0..F */
    uint32_t drop_density;     /* 0..J */
};

/* As the calls on words, with the same answers. */
uint32_t gigorchid_simulate_nodes(const struct gigorchid_node *corridor, size_t nodes,
                                  const uint32_t *demands, size_t demands_words,
                                  const uint32_t *plan, size_t plan_words,
                                  uint32_t *record, size_t record_words);
uint32_t gigorchid_check_nodes(const struct gigorchid_node *corridor, size_t nodes,
                               const uint32_t *demands, size_t demands_words,
                               const uint32_t *record, size_t record_words);
uint32_t gigorchid_convert_nodes(const struct gigorchid_node *corridor, size_t nodes,
                                 const uint32_t *demands, size_t demands_words,
                                 const uint32_t *record, size_t record_words,
                                 uint32_t *plan, size_t plan_words);
uint32_t gigorchid_normal_nodes(const struct gigorchid_node *corridor, size_t nodes,
                                const uint32_t *demands, size_t demands_words,
                                const uint32_t *plan, size_t plan_words,
                                uint32_t *work, size_t work_words,
                                uint32_t *normal, size_t normal_words);

/* ---- files to words and back, told N and K ----
 *
 * A reader answers 1 for a bad N or K or a wrong count of words, which is any but that of the file's kind; then 14, then 15, 16, 17 block by
 * block, then 18, then 1 if the file's own N or K, the first word of a corridor and of demands, is another. A writer answers 1 for a bad N or
 * K, a wrong count of bytes or words, or a list whose own N or K is another; it tests no other word. The count of words of a corridor, of
 * demands or of a record tells its kind, and with it the count of bytes. N and K are tested for 1..64 and 1..1,440 even where a list does not
 * depend on them. */
uint32_t gigorchid_read_corridor(uint32_t n, uint32_t k, const uint8_t *file, size_t bytes, uint32_t *words, size_t count);
uint32_t gigorchid_read_demands(uint32_t n, uint32_t k, const uint8_t *file, size_t bytes, uint32_t *words, size_t count);
uint32_t gigorchid_read_record(uint32_t n, uint32_t k, const uint8_t *file, size_t bytes, uint32_t *words, size_t count);
uint32_t gigorchid_read_plan(uint32_t n, uint32_t k, const uint8_t *file, size_t bytes, uint32_t *words, size_t count);
uint32_t gigorchid_write_corridor(uint32_t n, uint32_t k, const uint32_t *words, size_t count, uint8_t *file, size_t bytes);
uint32_t gigorchid_write_demands(uint32_t n, uint32_t k, const uint32_t *words, size_t count, uint8_t *file, size_t bytes);
uint32_t gigorchid_write_record(uint32_t n, uint32_t k, const uint32_t *words, size_t count, uint8_t *file, size_t bytes);
uint32_t gigorchid_write_plan(uint32_t n, uint32_t k, const uint32_t *words, size_t count, uint8_t *file, size_t bytes);

/* ---- checker and converter on block files, told N and K: the bytes stay where they are ----
 *
 * They answer 1 for a bad N or K or a wrong count of plan bytes, then what the readers of corridor, demands and record answer in turn, then
 * what the call on words answers. So 1 and 14 to 18 do not tell which file they speak of. To learn it:
 *   - See that N is 1..64, K is 1..1,440 and plan_bytes is as below; else that is the fault.
 *   - Call the three readers in this order, with gigorchid_corridor_words, gigorchid_demands_words and gigorchid_record_words of their files:
 *     the first that refuses has the file, and its answer is the same number (examples/host.c does so).
 *   - Of 1 and 14, N or K itself may be wrong: compare them with bytes 8..11 of the corridor's and of the demands' file. So may the first word
 *     of any of the three, which chooses its kind. */
uint32_t gigorchid_check_files(uint32_t n, uint32_t k,
                               const uint8_t *corridor, size_t corridor_bytes,
                               const uint8_t *demands, size_t demands_bytes,
                               const uint8_t *record, size_t record_bytes);

/* Writes the plan's file, of GIGORCHID_FILE_BYTES(GIGORCHID_PLAN_WORDS(n, k)) bytes. */
uint32_t gigorchid_convert_files(uint32_t n, uint32_t k,
                                 const uint8_t *corridor, size_t corridor_bytes,
                                 const uint8_t *demands, size_t demands_bytes,
                                 const uint8_t *record, size_t record_bytes,
                                 uint8_t *plan, size_t plan_bytes);

#ifdef __cplusplus
}
#endif

#endif
