/* The engine of Pchelodar for C: sliding windows over one feed of readings, shared by up to 32 queries.
 *
 * Link libpchelodar_c.a, which `tools/build library` proves and writes (x86-64 Linux). The library allocates
 * nothing, keeps nothing between two calls and calls nothing but memcpy and memset: everything that it knows stands in
 * slices that the caller lends to each call, a pointer and a number of places. The same slices go to every call, as the
 * call before left them.
 *
 *   slice        places         what stands there
 *   state        18 or more     the counts, the open partial and the rings: the library's own layout
 *   queries      192 or more    the query list (pchelodar_queries): 32 records of five numbers, the registered queries
 *                               first, in order of registration, and their places by ascending number; what is unused
 *                               is 0
 *   starts       4,096 or more  starts of closed partials; as each table, a ring over its first 4,096 places
 *   sums         4,096 or more  sums by laps: at place p the sum of the partials at the places before p, of the same
 *                               lap of the ring; it is not the sum of the partial at p
 *   max_starts   4,096 or more  starts of the partials that stand for maxima
 *   max_values   4,096 or more  their values
 *   min_starts   4,096 or more  starts of the partials that stand for minima
 *   min_values   4,096 or more  their values
 *
 * Only the first 18, 192 and 4,096 places are ever written. A start may be made on any content; no other call may come
 * first.
 *
 * Every function returns 0 where the call is accepted, and else the number of the refusal (PCHELODAR_..). A refused
 * call changes nothing: no number of the state or of the query list, no place of a table, no answer place, no number of
 * answers and no total. The checks go in the order of the numbers; the first that applies decides.
 *
 * What the caller must see to, since nothing can check it: a pointer is not null (also where its number of places is
 * 0), is aligned for its type and has as many places as the call says; the slices of one call do not overlap; no two
 * calls use the same slices at one time.
 *
 * Of the content of the slices nothing is asked. Where it did not come from a start by these calls, nothing undefined
 * happens, and nothing is written but the places above, the answers' own, `answered` and `totals`. Every call but start
 * is refused with 2 where more than 32 queries are counted, a registered query has a field that register refuses (3 to
 * 6) or an origin above the count of readings, two have one number, `order` does not have the places of the registered
 * queries by ascending number, or a number of the state is outside the width of what it stands for. It is so too,
 * though that is not promised, where numbers of the state are outside their bounds. Other damage may pass: calls are
 * accepted then, and answers may be wrong. So a copy of the slices that is kept, to go on from it later, wants a
 * checksum of the caller's own. */
#ifndef PCHELODAR_H
#define PCHELODAR_H

#include <stddef.h>
#include <stdint.h>

#ifdef __cplusplus
extern "C" {
#endif

/* Places that the slices need. */
#define PCHELODAR_STATE_NUMBERS 18
#define PCHELODAR_QUERY_LIMIT 32
#define PCHELODAR_LIST_NUMBERS 192
#define PCHELODAR_TABLE_PLACES 4096
#define PCHELODAR_ANSWER_PLACES 4

/* What a query asks for: its kind. */
#define PCHELODAR_SUM 1
#define PCHELODAR_COUNT 2
#define PCHELODAR_MAXIMUM 3
#define PCHELODAR_MINIMUM 4

/* Refusals. */
#define PCHELODAR_TABLE_TOO_SHORT 1   /* the state or one of the seven tables has too few places */
#define PCHELODAR_DAMAGED 2           /* state and tables could not have come from a start by these calls */
#define PCHELODAR_NUMBER_OUTSIDE 3    /* the query's number is not 1 to 65,535 */
#define PCHELODAR_KIND_OUTSIDE 4      /* its kind is not 1 to 4 */
#define PCHELODAR_RANGE_OUTSIDE 5     /* its range is not 1 to 4,096 */
#define PCHELODAR_SLIDE_OUTSIDE 6     /* its slide is not 1 to 4,096 */
#define PCHELODAR_NUMBER_TAKEN 7      /* a query with that number is registered */
#define PCHELODAR_LIST_FULL 8         /* 32 queries are registered */
#define PCHELODAR_NOT_REGISTERED 9    /* no query with that number is registered */
#define PCHELODAR_COUNT_EXHAUSTED 10  /* 4,294,967,295 readings were taken */
#define PCHELODAR_ANSWERS_TOO_SHORT 11 /* fewer than 4 places for each query that is due */

/* One query of the list. */
typedef struct {
    uint32_t number;
    uint32_t kind;
    uint32_t range;
    uint32_t slide;
    uint32_t origin; /* the count of readings at which it was registered */
} pchelodar_query;

/* The query list, lent as it stands: ((uint32_t *)&queries, PCHELODAR_LIST_NUMBERS). The registered queries come first,
 * in order of registration; a record without a query is all 0, and no query has the number 0. `order` has the places of
 * the registered queries by ascending number, and then 0. It is kept by the calls and not to be changed by the caller:
 * where it does not have those places, every call but start is refused with 2. */
typedef struct {
    pchelodar_query query[PCHELODAR_QUERY_LIMIT];
    uint32_t order[PCHELODAR_QUERY_LIMIT];
} pchelodar_queries;
#if defined(__cplusplus) && __cplusplus >= 201103L
static_assert(sizeof(pchelodar_queries) == 4 * PCHELODAR_LIST_NUMBERS, "the query list is 192 numbers");
#elif defined(__STDC_VERSION__) && __STDC_VERSION__ >= 201112L
_Static_assert(sizeof(pchelodar_queries) == 4 * PCHELODAR_LIST_NUMBERS, "the query list is 192 numbers");
#endif

/* Start: no reading, no query, totals 0. It writes the state, and 0 to the 192 numbers of the query list and to the
 * first 4,096 places of each table.
 * Refused with 1. */
uint32_t pchelodar_start(
    uint64_t *state, size_t state_places,
    uint32_t *queries, size_t queries_places,
    uint32_t *starts, size_t starts_places,
    int64_t *sums, size_t sums_places,
    uint32_t *max_starts, size_t max_starts_places,
    int32_t *max_values, size_t max_values_places,
    uint32_t *min_starts, size_t min_starts_places,
    int32_t *min_values, size_t min_values_places);

/* Register: the query joins the end of the list. Its windows hold readings taken from now on: it is due whenever
 * `slide` more were taken, and its window holds the last `range` of them.
 * Refused with 1, 2, and 3 to 8. */
uint32_t pchelodar_register(
    uint64_t *state, size_t state_places,
    uint32_t *queries, size_t queries_places,
    uint32_t *starts, size_t starts_places,
    int64_t *sums, size_t sums_places,
    uint32_t *max_starts, size_t max_starts_places,
    int32_t *max_values, size_t max_values_places,
    uint32_t *min_starts, size_t min_starts_places,
    int32_t *min_values, size_t min_values_places,
    uint32_t number, uint32_t kind, uint32_t range, uint32_t slide);

/* Withdraw: the query leaves, the others keep their order. The tables are only read.
 * Refused with 1, 2 and 9. */
uint32_t pchelodar_withdraw(
    uint64_t *state, size_t state_places,
    uint32_t *queries, size_t queries_places,
    const uint32_t *starts, size_t starts_places,
    const int64_t *sums, size_t sums_places,
    const uint32_t *max_starts, size_t max_starts_places,
    const int32_t *max_values, size_t max_values_places,
    const uint32_t *min_starts, size_t min_starts_places,
    const int32_t *min_values, size_t min_values_places,
    uint32_t number);

/* Reading: it is counted, and the queries that are due are answered in order of registration, four places each from the
 * first place of `answers` on: the query's number, its kind, the count of readings in its window (fewer than its range
 * while it fills), the value. No other place of `answers` is written. The number of answers, 0 to 32, is written to
 * `answered`. 128 answer places are always enough. The query list is only read.
 * Refused with 1, 2, 10 and 11. */
uint32_t pchelodar_reading(
    uint64_t *state, size_t state_places,
    const uint32_t *queries, size_t queries_places,
    uint32_t *starts, size_t starts_places,
    int64_t *sums, size_t sums_places,
    uint32_t *max_starts, size_t max_starts_places,
    int32_t *max_values, size_t max_values_places,
    uint32_t *min_starts, size_t min_starts_places,
    int32_t *min_values, size_t min_values_places,
    int64_t *answers, size_t answers_places,
    size_t *answered,
    int32_t value);

/* Totals: the readings taken, the partials closed, and the comparisons of partials for maxima and for minima are
 * written to `totals`, in this order. Everything else is only read.
 * Refused with 1 and 2. */
uint32_t pchelodar_totals(
    const uint64_t *state, size_t state_places,
    const uint32_t *queries, size_t queries_places,
    const uint32_t *starts, size_t starts_places,
    const int64_t *sums, size_t sums_places,
    const uint32_t *max_starts, size_t max_starts_places,
    const int32_t *max_values, size_t max_values_places,
    const uint32_t *min_starts, size_t min_starts_places,
    const int32_t *min_values, size_t min_values_places,
    uint64_t totals[4]);

#ifdef __cplusplus
}
#endif

#endif
