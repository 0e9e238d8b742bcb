// The header in C++, under the warnings that C++ programmers turn on: every macro, the enum with its texts, and one call. It prints nothing
// and ends with status 0 where all is as the header says.
#include "gigorchid.h"

#include <cstddef>
#include <cstdio>
#include <cstring>

static_assert(GIGORCHID_CORRIDOR_WORDS(GIGORCHID_MOST_LINKS) == 586, "corridor");
static_assert(GIGORCHID_CORRIDOR_10_WORDS(GIGORCHID_MOST_LINKS) == 716, "corridor of kind 10");
static_assert(GIGORCHID_DEMANDS_WORDS(GIGORCHID_MOST_LINKS, GIGORCHID_MOST_STEPS) == 187201, "demands");
static_assert(GIGORCHID_DEMANDS_5_WORDS(GIGORCHID_MOST_LINKS, GIGORCHID_MOST_STEPS) == 188641, "demands of kind 5");
static_assert(GIGORCHID_PLAN_WORDS(GIGORCHID_MOST_LINKS, GIGORCHID_MOST_STEPS) == 187200, "plan");
static_assert(GIGORCHID_RECORD_WORDS(GIGORCHID_MOST_LINKS, GIGORCHID_MOST_STEPS) == 374662, "record");
static_assert(GIGORCHID_RECORD_7_WORDS(GIGORCHID_MOST_LINKS, GIGORCHID_MOST_STEPS) == 468327, "record of kind 7");
static_assert(GIGORCHID_RECORD_7_WORDS(1, 3) == GIGORCHID_RECORD_WORDS(1, 4), "a record's kind is told by N, K and its words");
static_assert(GIGORCHID_SEARCH_WORDS == 3, "what a search leaves");
static_assert(GIGORCHID_FILE_BYTES(586) == 2560, "file of a corridor");
static_assert(GIGORCHID_FILE_BYTES(716) == 3072, "file of a corridor of kind 10");
static_assert(GIGORCHID_FILE_BYTES(187201) == 766976, "file of demands");
static_assert(GIGORCHID_FILE_BYTES(188641) == 773120, "file of demands of kind 5");
static_assert(GIGORCHID_FILE_BYTES(187200) == 766976, "file of a plan");
static_assert(GIGORCHID_FILE_BYTES(374662) == 1534976, "file of a record");
static_assert(GIGORCHID_FILE_BYTES(468327) == 1918464, "file of a record of kind 7");
static_assert(GIGORCHID_FILE_BYTES(125) == GIGORCHID_BLOCK_BYTES && GIGORCHID_FILE_BYTES(126) == 2 * GIGORCHID_BLOCK_BYTES, "full block");
static_assert(GIGORCHID_VERSION == 10000 * GIGORCHID_VERSION_MAJOR + 100 * GIGORCHID_VERSION_MINOR + GIGORCHID_VERSION_PATCH, "version");
static_assert(sizeof(gigorchid_node) == 11 * sizeof(uint32_t), "a node has eleven words");
static_assert(offsetof(gigorchid_node, dropped_capacity) == 9 * sizeof(uint32_t), "the dropped capacity is the tenth");

// The version's text has its three numbers.
static bool version_agrees()
{
    char text[40];
    std::snprintf(text, sizeof text, "%d.%d.%d", GIGORCHID_VERSION_MAJOR, GIGORCHID_VERSION_MINOR, GIGORCHID_VERSION_PATCH);
    return std::strcmp(text, GIGORCHID_VERSION_TEXT) == 0;
}

// Numbers 0 to 18 have a text each, and 19 has that of an unknown one.
static bool texts_differ()
{
    for (uint32_t one = 0; one <= GIGORCHID_BAD_PADDING + 1; one++)
        for (uint32_t other = 0; other < one; other++)
            if (std::strcmp(gigorchid_refusal_text(one), gigorchid_refusal_text(other)) == 0)
                return false;
    return std::strncmp(gigorchid_refusal_text(GIGORCHID_BAD_PADDING + 1), "unknown refusal number", 22) == 0
        && std::strcmp(gigorchid_refusal_text(GIGORCHID_ACCEPTED), "accepted") == 0;
}

// One link for one step whose queue, of 5, ends above its limit of 4: 12 at step 0 and node 0, with the work record filled.
static bool answer_taken_apart()
{
    const gigorchid_node corridor[] = {{7, 0, 0, 0, 0, 9, 4, 0, 4, 0, 0}, {8, 100, 65536, 65536, 100, 0, 0, 0, 0, 100, 100}};
    const uint32_t demands[GIGORCHID_DEMANDS_WORDS(1, 1)] = {1, 1, 0, 0, 0};
    const uint32_t plan[GIGORCHID_PLAN_WORDS(1, 1)] = {0, 0, 0, 65536};
    uint32_t work[GIGORCHID_RECORD_WORDS(1, 1)] = {}, normal[GIGORCHID_PLAN_WORDS(1, 1)] = {9, 9, 9, 9};
    uint32_t answer = gigorchid_normal_nodes(corridor, 2, demands, GIGORCHID_DEMANDS_WORDS(1, 1), plan, GIGORCHID_PLAN_WORDS(1, 1), work,
                                             GIGORCHID_RECORD_WORDS(1, 1), normal, GIGORCHID_PLAN_WORDS(1, 1));
    uint32_t high = 3 * 65536 + 2 * 256 + GIGORCHID_BAD_MERGE;
    return GIGORCHID_REFUSAL(answer) == GIGORCHID_BAD_QUEUE && GIGORCHID_NODE(answer) == 0 && GIGORCHID_ROW(answer) == 0 && work[9] == 5
        && normal[0] == 9 && GIGORCHID_REFUSAL(high) == GIGORCHID_BAD_MERGE && GIGORCHID_NODE(high) == 2 && GIGORCHID_ROW(high) == 3;
}

// A file tells by its first word, all four bytes of it, whether it is of a kind.
static bool kind_told(uint8_t kind)
{
    const uint8_t file[] = {kind, 0, 0, 0};
    const uint8_t others[][4] = {{kind, 1, 0, 0}, {kind, 0, 1, 0}, {kind, 0, 0, 1}, {0, kind, 0, 0}, {0, 0, 0, 0}};
    for (const uint8_t(&other)[4] : others)
        if (gigorchid_file_is(kind, other, 4))
            return false;
    return gigorchid_file_is(kind, file, 4) && !gigorchid_file_is(kind, file, 3);
}

// And so how many words its corridor, its demands or its record have: 10, 5 and 7 are the later kinds.
static bool words_told()
{
    const uint8_t files[][4] = {{1, 0, 0, 0}, {2, 0, 0, 0}, {5, 0, 0, 0}, {10, 0, 0, 0}, {3, 0, 0, 0}, {7, 0, 0, 0}};
    return gigorchid_corridor_words(2, files[0], 4) == GIGORCHID_CORRIDOR_WORDS(2)
        && gigorchid_corridor_words(2, files[2], 4) == GIGORCHID_CORRIDOR_WORDS(2)
        && gigorchid_corridor_words(2, files[3], 4) == GIGORCHID_CORRIDOR_10_WORDS(2)
        && gigorchid_demands_words(2, 3, files[1], 4) == GIGORCHID_DEMANDS_WORDS(2, 3)
        && gigorchid_demands_words(2, 3, files[2], 4) == GIGORCHID_DEMANDS_5_WORDS(2, 3)
        && gigorchid_demands_words(2, 3, files[3], 4) == GIGORCHID_DEMANDS_WORDS(2, 3)
        && gigorchid_record_words(2, 3, files[4], 4) == GIGORCHID_RECORD_WORDS(2, 3)
        && gigorchid_record_words(2, 3, files[5], 4) == GIGORCHID_RECORD_7_WORDS(2, 3)
        && gigorchid_record_words(2, 3, files[3], 4) == GIGORCHID_RECORD_WORDS(2, 3);
}

int main()
{
    return version_agrees() && texts_differ() && answer_taken_apart() && kind_told(5) && kind_told(7) && kind_told(10) && words_told() ? 0 : 1;
}
