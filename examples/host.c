/* A small host: it loads a corridor's, the demands' and a record's file, converts the record, and prints the plan, or the refusal in words.
 * Each of the three may be of either kind, which its first word tells.
 *
 *     host N K CORRIDOR DEMANDS RECORD [PLAN]
 *
 * With PLAN the plan file is written there. The exit status is 0 for a plan, 1 for a refusal, 2 for anything else. */
#include "gigorchid.h"

#include <stdio.h>
#include <stdlib.h>

struct bytes {
    uint8_t *at;
    size_t count;
};

static void stop(const char *what, const char *name)
{
    fprintf(stderr, "host: %s %s\n", what, name);
    exit(2);
}

/* Never null, so that an empty file has an address too. */
static void *space(size_t bytes)
{
    void *at = malloc(bytes > 0 ? bytes : 1);
    if (at == NULL)
        stop("no memory for", "a list");
    return at;
}

static struct bytes load(const char *name)
{
    FILE *file = fopen(name, "rb");
    if (file == NULL || fseek(file, 0, SEEK_END) != 0)
        stop("cannot read", name);
    long length = ftell(file);
    if (length < 0)
        stop("cannot read", name);
    rewind(file);
    struct bytes bytes = {space((size_t)length), (size_t)length};
    if (fread(bytes.at, 1, bytes.count, file) != bytes.count)
        stop("cannot read", name);
    fclose(file);
    return bytes;
}

static void store(const char *name, struct bytes bytes)
{
    FILE *file = fopen(name, "wb");
    if (file == NULL || fwrite(bytes.at, 1, bytes.count, file) != bytes.count || fclose(file) != 0)
        stop("cannot write", name);
}

static uint32_t number(const char *text)
{
    char *end;
    unsigned long value = strtoul(text, &end, 10);
    if (*text == '\0' || *end != '\0' || value > UINT32_MAX)
        stop("no number:", text);
    return (uint32_t)value;
}

/* What 1 and 14 to 18 speak of: N or K, else the first of the three files that its reader refuses, else nothing here. */
static const char *spoken_of(uint32_t n, uint32_t k, const struct bytes files[3])
{
    typedef uint32_t reader(uint32_t, uint32_t, const uint8_t *, size_t, uint32_t *, size_t);
    static reader *const readers[3] = {gigorchid_read_corridor, gigorchid_read_demands, gigorchid_read_record};
    static const char *const names[3] = {" (corridor)", " (demands)", " (record)"};
    if (n < 1 || n > GIGORCHID_MOST_LINKS || k < 1 || k > GIGORCHID_MOST_STEPS)
        return " (N or K)";
    const size_t counts[3] = {gigorchid_corridor_words(n, files[0].at, files[0].count),
                              gigorchid_demands_words(n, k, files[1].at, files[1].count),
                              gigorchid_record_words(n, k, files[2].at, files[2].count)};
    for (int i = 0; i < 3; i++) {
        uint32_t *words = space(counts[i] * sizeof *words);
        uint32_t answer = readers[i](n, k, files[i].at, files[i].count, words, counts[i]);
        free(words);
        if (answer != 0)
            return names[i];
    }
    return "";
}

static int refused(const char *call, const char *of, uint32_t answer)
{
    uint32_t refusal = GIGORCHID_REFUSAL(answer);
    printf("%s: refused by %u at row %u, node %u: %s%s\n", call, refusal, GIGORCHID_ROW(answer), GIGORCHID_NODE(answer),
           gigorchid_refusal_text(refusal), of);
    return 1;
}

/* Prints the plan's words, read back out of its file. */
static int print_plan(uint32_t n, uint32_t k, struct bytes plan)
{
    size_t count = GIGORCHID_PLAN_WORDS(n, k);
    uint32_t *words = space(count * sizeof *words);
    uint32_t answer = gigorchid_read_plan(n, k, plan.at, plan.count, words, count);
    if (answer != 0) {
        free(words);
        return refused("plan", "", answer);
    }
    for (uint32_t step = 0; step < k; step++)
        for (uint32_t node = 0; node <= n; node++) {
            const uint32_t *setting = words + ((size_t)step * (n + 1) + node) * 2;
            printf("step %u, node %u: rate %u, limit %u\n", step, node, setting[0], setting[1]);
        }
    free(words);
    return 0;
}

int main(int count, char **argument)
{
    if (count < 6 || count > 7)
        stop("N K CORRIDOR DEMANDS RECORD [PLAN] are wanted, not", count > 1 ? argument[1] : "nothing");
    uint32_t n = number(argument[1]);
    uint32_t k = number(argument[2]);
    struct bytes files[3] = {load(argument[3]), load(argument[4]), load(argument[5])};
    struct bytes corridor = files[0], demands = files[1], record = files[2];

    int status;
    uint32_t answer = gigorchid_check_files(n, k, corridor.at, corridor.count, demands.at, demands.count, record.at, record.count);
    if (answer != 0) {
        status = refused("check", spoken_of(n, k, files), answer);
    } else {
        size_t room = GIGORCHID_FILE_BYTES(GIGORCHID_PLAN_WORDS(n, k));
        struct bytes plan = {space(room), room};
        answer = gigorchid_convert_files(n, k, corridor.at, corridor.count, demands.at, demands.count, record.at, record.count, plan.at,
                                         plan.count);
        status = answer != 0 ? refused("convert", "", answer) : print_plan(n, k, plan);
        if (status == 0 && count == 7)
            store(argument[6], plan);
        free(plan.at);
    }
    for (int i = 0; i < 3; i++)
        free(files[i].at);
    return status;
}
