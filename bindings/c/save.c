/* How to save an engine and go on from the copy: all that it knows stands in the slices that are lent to it.
 *
 * `save FILE` saves an engine between two calls, restores it into other slices, and lets both go on: they have to give
 * the same answers and to leave the same slices. A copy with one byte changed is not restored. */
#include <stdio.h>
#include <string.h>

#include "pchelodar.h"

/* All that an engine knows: 115,600 bytes, without padding. */
struct engine {
    uint64_t state[PCHELODAR_STATE_NUMBERS];
    pchelodar_queries queries;
    uint32_t starts[PCHELODAR_TABLE_PLACES];
    int64_t sums[PCHELODAR_TABLE_PLACES];
    uint32_t max_starts[PCHELODAR_TABLE_PLACES];
    int32_t max_values[PCHELODAR_TABLE_PLACES];
    uint32_t min_starts[PCHELODAR_TABLE_PLACES];
    int32_t min_values[PCHELODAR_TABLE_PLACES];
};
_Static_assert(sizeof(struct engine) == 115600, "there is no padding");

/* The slices as a call takes them: pchelodar_start(SLICES(e)). */
#define PLACES(array) array, sizeof(array) / sizeof(array)[0]
#define SLICES(e)                                                                                                 \
    PLACES((e)->state), (uint32_t *)&(e)->queries, PCHELODAR_LIST_NUMBERS, PLACES((e)->starts), PLACES((e)->sums), \
        PLACES((e)->max_starts), PLACES((e)->max_values), PLACES((e)->min_starts), PLACES((e)->min_values)

/* FNV-1a; use the checksum that your storage asks for. */
static uint64_t checksum(const struct engine *e)
{
    const unsigned char *bytes = (const unsigned char *)e;
    uint64_t h = 14695981039346656037u;
    for (size_t i = 0; i < sizeof *e; i++)
        h = (h ^ bytes[i]) * 1099511628211u;
    return h;
}

/* Between two calls: the slices as they stand, and a checksum. */
static int save(const struct engine *e, FILE *file)
{
    uint64_t sum = checksum(e);
    return fwrite(e, sizeof *e, 1, file) == 1 && fwrite(&sum, sizeof sum, 1, file) == 1 && fflush(file) == 0;
}

/* In place of a start. Where it returns 0, e is of no use until a start or another restore. */
static int restore(struct engine *e, FILE *file)
{
    uint64_t sum;
    return fread(e, sizeof *e, 1, file) == 1 && fread(&sum, sizeof sum, 1, file) == 1 && sum == checksum(e);
}

/* ---- what is saved here, and how it goes on */

static struct engine engine, restored;

/* One reading that both engines take: the same number of answers, the same answers. */
static int same_reading(int32_t value)
{
    int64_t a[PCHELODAR_QUERY_LIMIT * PCHELODAR_ANSWER_PLACES] = {0};
    int64_t b[PCHELODAR_QUERY_LIMIT * PCHELODAR_ANSWER_PLACES] = {0};
    size_t given_a = 0, given_b = 0;
    uint32_t code_a = pchelodar_reading(SLICES(&engine), PLACES(a), &given_a, value);
    uint32_t code_b = pchelodar_reading(SLICES(&restored), PLACES(b), &given_b, value);
    return code_a == 0 && code_b == 0 && given_a == given_b && memcmp(a, b, sizeof a) == 0;
}

/* Five queries and 6,000 readings, so that the rings have turned. */
static int begin(void)
{
    if (pchelodar_start(SLICES(&engine)) != 0)
        return 0;
    for (uint32_t kind = PCHELODAR_SUM; kind <= PCHELODAR_MINIMUM; kind++)
        if (pchelodar_register(SLICES(&engine), kind, kind, 100 * kind, kind) != 0)
            return 0;
    if (pchelodar_register(SLICES(&engine), 9, PCHELODAR_MAXIMUM, 4096, 1) != 0)
        return 0;
    for (int32_t i = 0; i < 6000; i++) {
        int64_t answers[PCHELODAR_QUERY_LIMIT * PCHELODAR_ANSWER_PLACES];
        size_t given;
        if (pchelodar_reading(SLICES(&engine), PLACES(answers), &given, i * 7919 % 1009 - 500) != 0)
            return 0;
    }
    return 1;
}

/* The engine in the file, restored, and both go on for 5,000 readings. */
static int go_on(FILE *file)
{
    rewind(file);
    if (!restore(&restored, file))
        return 0;
    for (int32_t i = 0; i < 5000; i++)
        if (!same_reading(i * 4051 % 1013 - 500))
            return 0;
    return memcmp(&engine, &restored, sizeof engine) == 0;
}

/* The same file with one byte changed, which it has again afterwards. */
static int damage_is_seen(FILE *file, long at)
{
    int byte, seen;
    if (fseek(file, at, SEEK_SET) != 0 || (byte = fgetc(file)) == EOF || fseek(file, at, SEEK_SET) != 0
        || fputc(byte ^ 1, file) == EOF || fflush(file) != 0)
        return 0;
    rewind(file);
    seen = !restore(&restored, file);
    return fseek(file, at, SEEK_SET) == 0 && fputc(byte, file) != EOF && fflush(file) == 0 && seen;
}

int main(int argc, char **argv)
{
    FILE *file = argc == 2 ? fopen(argv[1], "w+b") : NULL;
    if (file == NULL || !begin() || !save(&engine, file))
        return 1;
    if (!damage_is_seen(file, 0) || !damage_is_seen(file, 60000) || !go_on(file))
        return 1;
    return fclose(file) == 0 ? 0 : 1;
}
