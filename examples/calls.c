/* Every call of the header at least once, on B, the corridor that docs/MODEL.md works through: case 1 simulated, checked, searched for its rates, converted and brought to normal form, by words,
 * by nodes and by files; then with demands of kind 5, which let 70 units out of link 2; then with a corridor of kind 10, whose link 2 discharges 80 above 190; then with
 * records of kind 7, which list the 20 units that leave by off-ramp 1. It prints nothing and ends with status 0 where all is as worked there. */
#include "gigorchid.h"

#include <stdio.h>
#include <string.h>

enum { N = 2, K = 1, CORRIDOR = 28, DROP = 34, DEMANDS = 7, DOWNSTREAM = 8, PLAN = 6, RECORD = 26, EXITS = 32, BLOCK = 512 };

static const uint32_t corridor[CORRIDOR] = {2, 10, 0, 0, 0, 0, 100, 1000, 0, 0, 20, 100, 32768, 32768, 400, 60, 200, 200, 50, 30, 100, 32768, 32768, 400, 0, 0, 200, 0};
/* No link drops. */
static const struct gigorchid_node nodes[N + 1] = {
    {10, 0, 0, 0, 0, 100, 1000, 0, 0, 0, 0},
    {20, 100, 32768, 32768, 400, 60, 200, 200, 50, 100, 400},
    {30, 100, 32768, 32768, 400, 0, 0, 200, 0, 100, 400},
};
static const uint32_t demands[DEMANDS] = {1, 30, 0, 10, 16384, 0, 0};
static const uint32_t plan[PLAN] = {100, 0, 60, 32768, 0, 32768};
static const uint32_t record[RECORD] = {0, 0, 0, 0, 200, 50, 80, 40, 200, 0, 100, 0, 0, 30, 0, 0, 120, 20, 0, 0, 200, 0, 0, 0, 370, 0};
static const uint32_t downstream[DOWNSTREAM] = {1, 30, 0, 10, 16384, 0, 0, 70};
static const uint32_t behind[RECORD] = {0, 0, 0, 0, 200, 50, 80, 40, 200, 0, 70, 0, 0, 30, 0, 0, 120, 20, 0, 0, 230, 0, 0, 0, 400, 0};
static const uint32_t dropped[RECORD] = {0, 0, 0, 0, 200, 50, 80, 40, 200, 0, 80, 0, 0, 30, 0, 0, 120, 20, 0, 0, 220, 0, 0, 0, 390, 0};
/* The record with its exits: a fifth word for each node. That of node 1 in step 0 is a quarter of 80. */
static const uint32_t exits[EXITS] = {0, 0, 0, 0, 0, 200, 50, 80, 40, 20, 200, 0, 100, 0, 0, 0, 30, 0, 0, 0, 120, 20, 0, 0, 0, 200, 0, 0, 0, 0, 370, 0};
enum { EXIT_1 = 9, EXIT_2 = 14, LAST_EXIT_1 = 24 };
static const uint32_t normal[PLAN] = {0, 0, 50, 32768, 0, 32768};

static uint32_t work[RECORD], found[PLAN];
static uint8_t corridor_file[BLOCK], demands_file[BLOCK], record_file[BLOCK], plan_file[BLOCK];

static int wrong(const char *what)
{
    printf("calls: %s\n", what);
    return 1;
}

static int same(const uint32_t *words, const uint32_t *wanted, size_t count)
{
    return memcmp(words, wanted, count * sizeof *words) == 0;
}

static void clear(void)
{
    memset(work, 255, sizeof work);
    memset(found, 255, sizeof found);
}

static int by_words(void)
{
    clear();
    if (gigorchid_simulate_words(corridor, CORRIDOR, demands, DEMANDS, plan, PLAN, work, RECORD) != 0 || !same(work, record, RECORD))
        return wrong("simulate_words");
    if (gigorchid_check_words(corridor, CORRIDOR, demands, DEMANDS, record, RECORD) != 0)
        return wrong("check_words");
    if (gigorchid_convert_words(corridor, CORRIDOR, demands, DEMANDS, record, RECORD, found, PLAN) != 0 || !same(found, normal, PLAN))
        return wrong("convert_words");
    clear();
    if (gigorchid_normal_words(corridor, CORRIDOR, demands, DEMANDS, plan, PLAN, work, RECORD, found, PLAN) != 0
        || !same(work, record, RECORD) || !same(found, normal, PLAN))
        return wrong("normal_words");
    return 0;
}

/* Node 1 has the rates 0 to 60: 30, 45, 53, 49, 51 and 50 are tried, and 50 again as the one left. Node 2 has rate 0 alone, which is found with
 * f = 100 and not with f = 60. */
static int by_search(void)
{
    static const uint32_t first[GIGORCHID_SEARCH_WORDS] = {7, 1, 50}, second[GIGORCHID_SEARCH_WORDS] = {1, 0, 0};
    uint32_t out[GIGORCHID_SEARCH_WORDS] = {9, 9, 9}, other[RECORD];
    if (gigorchid_search_words(corridor, CORRIDOR, demands, DEMANDS, record, RECORD, K, 1, out, GIGORCHID_SEARCH_WORDS) != GIGORCHID_BAD_LENGTH
        || gigorchid_search_words(corridor, CORRIDOR, demands, DEMANDS, record, RECORD, 0, N + 1, out, GIGORCHID_SEARCH_WORDS) != GIGORCHID_BAD_LENGTH
        || gigorchid_search_words(corridor, CORRIDOR, demands, DEMANDS, record, RECORD, 0, 1, out, GIGORCHID_SEARCH_WORDS - 1) != GIGORCHID_BAD_LENGTH
        || out[0] != 9 || out[1] != 9 || out[2] != 9)
        return wrong("a search at no step, at no node or into two words");
    if (gigorchid_search_words(corridor, CORRIDOR, demands, DEMANDS, record, RECORD, 0, 1, out, GIGORCHID_SEARCH_WORDS) != 0
        || !same(out, first, GIGORCHID_SEARCH_WORDS))
        return wrong("search_words");
    memcpy(other, record, sizeof record);
    other[10] = 60;
    if (gigorchid_search_words(corridor, CORRIDOR, demands, DEMANDS, other, RECORD, 0, 2, out, GIGORCHID_SEARCH_WORDS)
        != 2 * 256 + GIGORCHID_BAD_NEXT_STATE)
        return wrong("a search in a record that is refused");
    other[20] = 240;
    other[24] = 410;
    if (gigorchid_search_words(corridor, CORRIDOR, demands, DEMANDS, other, RECORD, 0, 2, out, GIGORCHID_SEARCH_WORDS) != 0
        || !same(out, second, GIGORCHID_SEARCH_WORDS))
        return wrong("search_words that finds none");
    return 0;
}

static int by_nodes(void)
{
    clear();
    if (gigorchid_simulate_nodes(nodes, N + 1, demands, DEMANDS, plan, PLAN, work, RECORD) != 0 || !same(work, record, RECORD))
        return wrong("simulate_nodes");
    if (gigorchid_check_nodes(nodes, N + 1, demands, DEMANDS, record, RECORD) != 0)
        return wrong("check_nodes");
    if (gigorchid_convert_nodes(nodes, N + 1, demands, DEMANDS, record, RECORD, found, PLAN) != 0 || !same(found, normal, PLAN))
        return wrong("convert_nodes");
    clear();
    if (gigorchid_normal_nodes(nodes, N + 1, demands, DEMANDS, plan, PLAN, work, RECORD, found, PLAN) != 0 || !same(work, record, RECORD)
        || !same(found, normal, PLAN))
        return wrong("normal_nodes");
    if (gigorchid_check_nodes(nodes, 1, demands, DEMANDS, record, RECORD) != 1)
        return wrong("a corridor of one node");
    return 0;
}

static int by_files(void)
{
    clear();
    if (gigorchid_write_corridor(N, K, corridor, CORRIDOR, corridor_file, BLOCK) != 0
        || gigorchid_write_demands(N, K, demands, DEMANDS, demands_file, BLOCK) != 0
        || gigorchid_write_record(N, K, record, RECORD, record_file, BLOCK) != 0)
        return wrong("a writer");
    if (gigorchid_check_files(N, K, corridor_file, BLOCK, demands_file, BLOCK, record_file, BLOCK) != 0)
        return wrong("check_files");
    if (gigorchid_convert_files(N, K, corridor_file, BLOCK, demands_file, BLOCK, record_file, BLOCK, plan_file, BLOCK) != 0
        || gigorchid_read_plan(N, K, plan_file, BLOCK, found, PLAN) != 0 || !same(found, normal, PLAN))
        return wrong("convert_files");
    return 0;
}

static int read_back(void)
{
    uint32_t first[CORRIDOR], second[DEMANDS], third[RECORD];
    uint8_t again[BLOCK];
    if (gigorchid_read_corridor(N, K, corridor_file, BLOCK, first, CORRIDOR) != 0 || !same(first, corridor, CORRIDOR))
        return wrong("read_corridor");
    if (gigorchid_read_demands(N, K, demands_file, BLOCK, second, DEMANDS) != 0 || !same(second, demands, DEMANDS))
        return wrong("read_demands");
    if (gigorchid_read_record(N, K, record_file, BLOCK, third, RECORD) != 0 || !same(third, record, RECORD))
        return wrong("read_record");
    if (gigorchid_write_plan(N, K, normal, PLAN, again, BLOCK) != 0 || memcmp(again, plan_file, BLOCK) != 0)
        return wrong("write_plan");
    record_file[9] ^= 1;
    if (gigorchid_check_files(N, K, corridor_file, BLOCK, demands_file, BLOCK, record_file, BLOCK) != 15)
        return wrong("a changed byte");
    return 0;
}

/* Link 2 sends 100, and 70 may leave it. */
static int with_downstream(void)
{
    uint32_t words[DOWNSTREAM];
    clear();
    if (gigorchid_simulate_words(corridor, CORRIDOR, downstream, DOWNSTREAM, plan, PLAN, work, RECORD) != 0 || !same(work, behind, RECORD))
        return wrong("simulate_words with demands of kind 5");
    if (gigorchid_write_demands(N, K, downstream, DOWNSTREAM, demands_file, BLOCK) != 0 || demands_file[0] != 5
        || gigorchid_demands_words(N, K, demands_file, BLOCK) != DOWNSTREAM)
        return wrong("write_demands of kind 5");
    if (gigorchid_read_demands(N, K, demands_file, BLOCK, words, DOWNSTREAM) != 0 || !same(words, downstream, DOWNSTREAM))
        return wrong("read_demands of kind 5");
    if (gigorchid_read_demands(N, K, demands_file, BLOCK, words, DEMANDS) != 1)
        return wrong("demands of kind 5 read into a list of kind 2's length");
    if (gigorchid_write_record(N, K, behind, RECORD, record_file, BLOCK) != 0
        || gigorchid_convert_files(N, K, corridor_file, BLOCK, demands_file, BLOCK, record_file, BLOCK, plan_file, BLOCK) != 0
        || gigorchid_read_plan(N, K, plan_file, BLOCK, found, PLAN) != 0 || !same(found, normal, PLAN))
        return wrong("convert_files with demands of kind 5");
    work[10] = 71;
    if (gigorchid_check_words(corridor, CORRIDOR, downstream, DOWNSTREAM, work, RECORD) != 2 * 256 + GIGORCHID_BAD_MERGE)
        return wrong("71 out of link 2");
    return 0;
}

/* Link 2, with n = 200, discharges 80 above 190: by nodes, and by words and files of kind 10. */
static int with_drop(void)
{
    struct gigorchid_node changed[N + 1];
    uint32_t drop[DROP], words[DROP];
    memcpy(changed, nodes, sizeof nodes);
    changed[2].dropped_capacity = 80;
    changed[2].drop_density = 190;
    drop[0] = N;
    memcpy(drop + 1, changed, sizeof changed);
    clear();
    if (gigorchid_simulate_nodes(changed, N + 1, demands, DEMANDS, plan, PLAN, work, RECORD) != 0 || !same(work, dropped, RECORD))
        return wrong("simulate_nodes with a drop");
    if (gigorchid_convert_words(drop, DROP, demands, DEMANDS, dropped, RECORD, found, PLAN) != 0 || !same(found, normal, PLAN))
        return wrong("convert_words with a drop");
    if (gigorchid_write_corridor(N, K, drop, DROP, corridor_file, BLOCK) != 0 || corridor_file[0] != 10
        || gigorchid_corridor_words(N, corridor_file, BLOCK) != DROP)
        return wrong("write_corridor of kind 10");
    if (gigorchid_read_corridor(N, K, corridor_file, BLOCK, words, DROP) != 0 || !same(words, drop, DROP))
        return wrong("read_corridor of kind 10");
    if (gigorchid_read_corridor(N, K, corridor_file, BLOCK, words, CORRIDOR) != 1)
        return wrong("a corridor of kind 10 read into a list of kind 1's length");
    if (gigorchid_write_demands(N, K, demands, DEMANDS, demands_file, BLOCK) != 0
        || gigorchid_write_record(N, K, dropped, RECORD, record_file, BLOCK) != 0
        || gigorchid_check_files(N, K, corridor_file, BLOCK, demands_file, BLOCK, record_file, BLOCK) != 0)
        return wrong("check_files with a drop");
    work[10] = 81;
    if (gigorchid_check_nodes(changed, N + 1, demands, DEMANDS, work, RECORD) != 2 * 256 + GIGORCHID_BAD_SENDING)
        return wrong("81 out of link 2");
    changed[2].dropped_capacity = 101;
    if (gigorchid_check_nodes(changed, N + 1, demands, DEMANDS, dropped, RECORD) != 2 * 256 + GIGORCHID_BAD_LINK)
        return wrong("a dropped capacity above F");
    return 0;
}

/* The length of a lent record chooses its kind, and the normal form is the same with a work record of either. */
static int lent_of_kind_7(void)
{
    uint32_t lent[EXITS];
    memset(lent, 255, sizeof lent);
    if (gigorchid_simulate_words(corridor, CORRIDOR, demands, DEMANDS, plan, PLAN, lent, EXITS) != 0 || !same(lent, exits, EXITS))
        return wrong("simulate_words into a record of kind 7");
    memset(lent, 255, sizeof lent);
    if (gigorchid_simulate_nodes(nodes, N + 1, demands, DEMANDS, plan, PLAN, lent, EXITS) != 0 || !same(lent, exits, EXITS))
        return wrong("simulate_nodes into a record of kind 7");
    if (gigorchid_simulate_words(corridor, CORRIDOR, demands, DEMANDS, plan, PLAN, lent, EXITS - 1) != GIGORCHID_BAD_LENGTH || !same(lent, exits, EXITS))
        return wrong("a lent record of neither length");
    memset(lent, 255, sizeof lent);
    clear();
    if (gigorchid_normal_words(corridor, CORRIDOR, demands, DEMANDS, plan, PLAN, lent, EXITS, found, PLAN) != 0 || !same(lent, exits, EXITS) || !same(found, normal, PLAN))
        return wrong("normal_words with a work record of kind 7");
    clear();
    if (gigorchid_normal_words(corridor, CORRIDOR, demands, DEMANDS, plan, PLAN, work, RECORD, found, PLAN) != 0 || !same(work, record, RECORD) || !same(found, normal, PLAN))
        return wrong("normal_words with a work record of kind 3");
    return 0;
}

/* A proposed record of kind 7: the plan is that of kind 3, and a wrong exit is refused, by 7 where zero is fixed. */
static int proposed_of_kind_7(void)
{
    uint32_t proposed[EXITS];
    memcpy(proposed, exits, sizeof exits);
    clear();
    if (gigorchid_check_words(corridor, CORRIDOR, demands, DEMANDS, proposed, EXITS) != 0
        || gigorchid_convert_words(corridor, CORRIDOR, demands, DEMANDS, proposed, EXITS, found, PLAN) != 0 || !same(found, normal, PLAN))
        return wrong("convert_words of a record of kind 7");
    proposed[EXIT_1] = 21;
    if (gigorchid_check_words(corridor, CORRIDOR, demands, DEMANDS, proposed, EXITS) != 1 * 256 + GIGORCHID_BAD_NEXT_STATE)
        return wrong("21 by off-ramp 1");
    proposed[EXIT_2] = 1;
    if (gigorchid_check_words(corridor, CORRIDOR, demands, DEMANDS, proposed, EXITS) != 2 * 256 + GIGORCHID_BAD_FIXED_WORD)
        return wrong("an exit at node N");
    memcpy(proposed, exits, sizeof exits);
    proposed[LAST_EXIT_1] = 1;
    if (gigorchid_check_nodes(nodes, N + 1, demands, DEMANDS, proposed, EXITS) != 1 * 65536 + 1 * 256 + GIGORCHID_BAD_FIXED_WORD)
        return wrong("an exit in state K");
    return 0;
}

static int files_of_kind_7(void)
{
    uint32_t words[EXITS];
    if (gigorchid_write_corridor(N, K, corridor, CORRIDOR, corridor_file, BLOCK) != 0
        || gigorchid_write_demands(N, K, demands, DEMANDS, demands_file, BLOCK) != 0)
        return wrong("a writer");
    if (gigorchid_write_record(N, K, exits, EXITS, record_file, BLOCK) != 0 || record_file[0] != 7
        || gigorchid_record_words(N, K, record_file, BLOCK) != EXITS)
        return wrong("write_record of kind 7");
    if (gigorchid_read_record(N, K, record_file, BLOCK, words, EXITS) != 0 || !same(words, exits, EXITS))
        return wrong("read_record of kind 7");
    if (gigorchid_read_record(N, K, record_file, BLOCK, words, RECORD) != GIGORCHID_BAD_LENGTH)
        return wrong("a record of kind 7 read into a list of kind 3's length");
    clear();
    if (gigorchid_check_files(N, K, corridor_file, BLOCK, demands_file, BLOCK, record_file, BLOCK) != 0
        || gigorchid_convert_files(N, K, corridor_file, BLOCK, demands_file, BLOCK, record_file, BLOCK, plan_file, BLOCK) != 0
        || gigorchid_read_plan(N, K, plan_file, BLOCK, found, PLAN) != 0 || !same(found, normal, PLAN))
        return wrong("convert_files with a record of kind 7");
    return 0;
}

int main(void)
{
    return by_words() || by_search() || by_nodes() || by_files() || read_back() || with_downstream() || with_drop() || lent_of_kind_7() || proposed_of_kind_7()
        || files_of_kind_7();
}
