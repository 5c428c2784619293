/* The sample session of document 01 ("One session whole") through the five calls, on fixed arrays. It prints what the
 * session program prints: a line for each answer (A, n, query number, kind, count, value), for each refusal (E, line of
 * the session, number), and at the end the totals (T, n, P, M, N), fields parted by tabs. */
#include <inttypes.h>
#include <stdio.h>

#include "pchelodar.h"

/* Everything that the engine knows: the same slices go to every call. */
static uint64_t state[PCHELODAR_STATE_NUMBERS];
static pchelodar_queries queries;
static uint32_t starts[PCHELODAR_TABLE_PLACES];
static int64_t sums[PCHELODAR_TABLE_PLACES];
static uint32_t max_starts[PCHELODAR_TABLE_PLACES];
static int32_t max_values[PCHELODAR_TABLE_PLACES];
static uint32_t min_starts[PCHELODAR_TABLE_PLACES];
static int32_t min_values[PCHELODAR_TABLE_PLACES];

/* Places for the answers of 32 queries, which are always enough. */
static int64_t answers[PCHELODAR_QUERY_LIMIT * PCHELODAR_ANSWER_PLACES];

/* An array as a call takes it: a pointer and a number of places. */
#define PLACES(array) array, sizeof(array) / sizeof(array)[0]
#define SLICES                                                                                                    \
    PLACES(state), (uint32_t *)&queries, PCHELODAR_LIST_NUMBERS, PLACES(starts), PLACES(sums), PLACES(max_starts), \
        PLACES(max_values), PLACES(min_starts), PLACES(min_values)

/* A line of the session: R registers, D withdraws, V is a reading. */
struct line {
    char what;
    int32_t value;
    uint32_t number, kind, range, slide;
};

static const struct line session[] = {
    {.what = 'R', .number = 2, .kind = PCHELODAR_SUM, .range = 5, .slide = 3},
    {.what = 'V', .value = 5},
    {.what = 'V', .value = 3},
    {.what = 'V', .value = 3},
    {.what = 'R', .number = 7, .kind = PCHELODAR_MAXIMUM, .range = 2, .slide = 2},
    {.what = 'V', .value = 8},
    {.what = 'V', .value = -2},
    {.what = 'D', .number = 2},
    {.what = 'D', .number = 2}, /* it is not registered any more: refused with 9 */
    {.what = 'V', .value = 6},
};

/* One reading: the answers of the queries that are due. n counts the readings that were accepted. */
static uint32_t take_reading(int32_t value, uint64_t *n)
{
    size_t answered = 0;
    uint32_t refusal = pchelodar_reading(SLICES, PLACES(answers), &answered, value);
    if (refusal != 0)
        return refusal;
    *n += 1;
    for (size_t i = 0; i < answered; i++) {
        const int64_t *a = answers + i * PCHELODAR_ANSWER_PLACES;
        printf("A\t%" PRIu64 "\t%" PRId64 "\t%" PRId64 "\t%" PRId64 "\t%" PRId64 "\n", *n, a[0], a[1], a[2], a[3]);
    }
    return 0;
}

/* One line of the session: 0, or the number of the refusal. */
static uint32_t play(const struct line *line, uint64_t *n)
{
    switch (line->what) {
    case 'R':
        return pchelodar_register(SLICES, line->number, line->kind, line->range, line->slide);
    case 'D':
        return pchelodar_withdraw(SLICES, line->number);
    default:
        return take_reading(line->value, n);
    }
}

int main(void)
{
    uint64_t n = 0;
    uint64_t totals[4];

    /* A start comes first. It takes the slices with any content. */
    if (pchelodar_start(SLICES) != 0)
        return 1;
    for (size_t i = 0; i < sizeof session / sizeof session[0]; i++) {
        uint32_t refusal = play(&session[i], &n);
        if (refusal != 0)
            printf("E\t%zu\t%" PRIu32 "\n", i + 1, refusal);
    }
    if (pchelodar_totals(SLICES, totals) != 0)
        return 1;
    printf("T\t%" PRIu64 "\t%" PRIu64 "\t%" PRIu64 "\t%" PRIu64 "\n", totals[0], totals[1], totals[2], totals[3]);
    return 0;
}
