/* Every refusal, 1 to 11, from every call that can give it: the number that comes back is compared with document 01's
 * and with the name that the header gives it, and a refused call must have changed nothing. What the header says of the
 * query list, of counts and of what the functions take is asserted when this is compiled. Prints one line, or what
 * failed, with status 1. */
#include <inttypes.h>
#include <stdio.h>
#include <stdlib.h>
#include <string.h>

#include "pchelodar.h"

/* The query list as the library has it: 32 records of the numbers that document 01's record holds ("The board"), in its
 * order, and then the places by ascending number. */
#define PLACE(i) ((i) * sizeof(uint32_t))
_Static_assert(offsetof(pchelodar_query, number) == PLACE(0), "a record's first is the number");
_Static_assert(offsetof(pchelodar_query, kind) == PLACE(1), "its second is the kind");
_Static_assert(offsetof(pchelodar_query, range) == PLACE(2), "its third is the range");
_Static_assert(offsetof(pchelodar_query, slide) == PLACE(3), "its fourth is the slide");
_Static_assert(offsetof(pchelodar_query, origin) == PLACE(4), "its fifth is the registration point");
_Static_assert(sizeof(pchelodar_query) == PLACE(5), "there is nothing else in a record");
_Static_assert(offsetof(pchelodar_queries, query) == PLACE(0), "the records come first");
_Static_assert(offsetof(pchelodar_queries, order) == PLACE(160), "the places by ascending number come next");
_Static_assert(sizeof(pchelodar_queries) == PLACE(192), "there is nothing else in the list");

/* Document 01's counts and kinds, and the library's 18 numbers of the state. */
_Static_assert(PCHELODAR_STATE_NUMBERS == 18, "numbers of the state");
_Static_assert(PCHELODAR_QUERY_LIMIT == 32, "queries that are registered together");
_Static_assert(PCHELODAR_LIST_NUMBERS == 192, "numbers of the query list");
_Static_assert(PCHELODAR_TABLE_PLACES == 4096, "places of a table");
_Static_assert(PCHELODAR_ANSWER_PLACES == 4, "places of an answer");
_Static_assert(PCHELODAR_SUM == 1 && PCHELODAR_COUNT == 2, "kinds 1 and 2");
_Static_assert(PCHELODAR_MAXIMUM == 3 && PCHELODAR_MINIMUM == 4, "kinds 3 and 4");

/* What the functions take: the state and the query list, the tables, and what is each call's own. */
#define NUMBERS(s, q) s uint64_t *, size_t, q uint32_t *, size_t
#define TABLES(t) \
    t uint32_t *, size_t, t int64_t *, size_t, t uint32_t *, size_t, t int32_t *, size_t, t uint32_t *, size_t, \
        t int32_t *, size_t
#define TAKES(function, ...) _Generic(&(function), uint32_t (*)(__VA_ARGS__): 1, default: 0)
_Static_assert(TAKES(pchelodar_start, NUMBERS(, ), TABLES()), "what start takes");
_Static_assert(TAKES(pchelodar_register, NUMBERS(, ), TABLES(), uint32_t, uint32_t, uint32_t, uint32_t), "register");
_Static_assert(TAKES(pchelodar_withdraw, NUMBERS(, ), TABLES(const), uint32_t), "what withdraw takes");
_Static_assert(TAKES(pchelodar_reading, NUMBERS(, const), TABLES(), int64_t *, size_t, size_t *, int32_t), "reading");
_Static_assert(TAKES(pchelodar_totals, NUMBERS(const, const), TABLES(const), uint64_t *), "what totals takes");

/* The header's names, each at document 01's number. */
#define REFUSAL(number, name) [number] = {#name, name}
static const struct {
    const char *name;
    uint32_t value;
} named[] = {
    REFUSAL(1, PCHELODAR_TABLE_TOO_SHORT),    REFUSAL(2, PCHELODAR_DAMAGED),
    REFUSAL(3, PCHELODAR_NUMBER_OUTSIDE),     REFUSAL(4, PCHELODAR_KIND_OUTSIDE),
    REFUSAL(5, PCHELODAR_RANGE_OUTSIDE),      REFUSAL(6, PCHELODAR_SLIDE_OUTSIDE),
    REFUSAL(7, PCHELODAR_NUMBER_TAKEN),       REFUSAL(8, PCHELODAR_LIST_FULL),
    REFUSAL(9, PCHELODAR_NOT_REGISTERED),     REFUSAL(10, PCHELODAR_COUNT_EXHAUSTED),
    REFUSAL(11, PCHELODAR_ANSWERS_TOO_SHORT),
};
enum { REFUSALS = 11 };

/* The calls, and document 01's refusals of each ("The calls and where each refuses"). */
enum call { START, REGISTER, WITHDRAW, READING, TOTALS, CALLS };
static const char *const call_names[CALLS] = {"start", "register", "withdraw", "reading", "totals"};
static const int own[CALLS][REFUSALS + 1] = {
    [START] = {[1] = 1},
    [REGISTER] = {[1] = 1, [2] = 1, [3] = 1, [4] = 1, [5] = 1, [6] = 1, [7] = 1, [8] = 1},
    [WITHDRAW] = {[1] = 1, [2] = 1, [9] = 1},
    [READING] = {[1] = 1, [2] = 1, [10] = 1, [11] = 1},
    [TOTALS] = {[1] = 1, [2] = 1},
};

/* Everything that a call is lent, so that it can be compared as a whole. */
struct board {
    uint64_t state[PCHELODAR_STATE_NUMBERS];
    pchelodar_queries queries;
    uint32_t starts[PCHELODAR_TABLE_PLACES];
    int64_t sums[PCHELODAR_TABLE_PLACES];
    uint32_t max_starts[PCHELODAR_TABLE_PLACES];
    int32_t max_values[PCHELODAR_TABLE_PLACES];
    uint32_t min_starts[PCHELODAR_TABLE_PLACES];
    int32_t min_values[PCHELODAR_TABLE_PLACES];
    int64_t answers[PCHELODAR_QUERY_LIMIT * PCHELODAR_ANSWER_PLACES];
    size_t answered;
    uint64_t totals[4];
};
static struct board board, before;

/* Where n and the count of registered queries stand in the state, as the library has it. */
enum { N = 0, REGISTERED = 17 };

/* How many places of each slice are lent: the state, the query list and the six tables; and the answer places. */
enum { SLICES = 8 };
static const size_t enough[SLICES] = {18, 192, 4096, 4096, 4096, 4096, 4096, 4096};
static size_t places[SLICES], answer_places;

/* What a call asks: a query's fields, of which a withdrawal takes the number, or a reading. */
struct asked {
    uint32_t number, kind, range, slide;
    int32_t value;
};
static const struct asked query_9 = {.number = 9, .kind = 1, .range = 1, .slide = 1};

#define LENT                                                                                                  \
    board.state, places[0], (uint32_t *)&board.queries, places[1], board.starts, places[2], board.sums,       \
        places[3], board.max_starts, places[4], board.max_values, places[5], board.min_starts, places[6],     \
        board.min_values, places[7]

static uint32_t make(enum call call, struct asked asked)
{
    switch (call) {
    case START:
        return pchelodar_start(LENT);
    case REGISTER:
        return pchelodar_register(LENT, asked.number, asked.kind, asked.range, asked.slide);
    case WITHDRAW:
        return pchelodar_withdraw(LENT, asked.number);
    case READING:
        return pchelodar_reading(LENT, board.answers, answer_places, &board.answered, asked.value);
    default:
        return pchelodar_totals(LENT, board.totals);
    }
}

static int calls_made, given[CALLS][REFUSALS + 1];

static void fail(enum call call, const char *what, uint32_t code)
{
    printf("refusals: %s: %s, %" PRIu32 " came back\n", call_names[call], what, code);
    exit(1);
}

/* The call is refused, with document 01's number, which is that of the header's name, and changes nothing. */
static void refused(enum call call, struct asked asked, uint32_t number)
{
    char what[100];
    memcpy(&before, &board, sizeof board);
    uint32_t code = make(call, asked);
    calls_made++;
    snprintf(what, sizeof what, "refusal %" PRIu32 " is due", number);
    if (code != number)
        fail(call, what, code);
    snprintf(what, sizeof what, "%s is %" PRIu32, named[number].name, named[number].value);
    if (code != named[number].value)
        fail(call, what, code);
    if (memcmp(&before, &board, sizeof board) != 0)
        fail(call, "a refused call changed something", code);
    given[call][number]++;
}

static void accepted(enum call call, struct asked asked)
{
    uint32_t code = make(call, asked);
    calls_made++;
    if (code != 0)
        fail(call, "it is to be accepted", code);
}

/* A fresh engine, on slices of just the places that are needed. */
static void fresh(void)
{
    memcpy(places, enough, sizeof enough);
    answer_places = sizeof board.answers / sizeof board.answers[0];
    accepted(START, query_9);
}

/* Queries 1 and 2, and three readings. */
static void begun(void)
{
    fresh();
    accepted(REGISTER, (struct asked){.number = 1, .kind = PCHELODAR_SUM, .range = 5, .slide = 2});
    accepted(REGISTER, (struct asked){.number = 2, .kind = PCHELODAR_MINIMUM, .range = 4096, .slide = 4096});
    for (int32_t i = 0; i < 3; i++)
        accepted(READING, (struct asked){.value = 7 * i - 4});
}

/* 1: each slice one place too short, and with none, to every call. */
static void too_short(void)
{
    for (enum call call = START; call < CALLS; call++)
        for (int slice = 0; slice < SLICES; slice++)
            for (int none = 0; none < 2; none++) {
                begun();
                places[slice] = none ? 0 : enough[slice] - 1;
                refused(call, query_9, 1);
            }
}

/* What document 01 lists under 2, one case at a time, and places by number that are none: one out of range, one twice,
 * two exchanged. */
enum { DAMAGES = 14 };
static void damage(int which)
{
    pchelodar_query *query = board.queries.query;
    uint32_t *order = board.queries.order;
    switch (which) {
    case 0: board.state[REGISTERED] = 33; break;
    case 1: query[1].number = 0; break;
    case 2: query[1].number = 65536; break;
    case 3: query[1].kind = 0; break;
    case 4: query[1].kind = 5; break;
    case 5: query[1].range = 0; break;
    case 6: query[1].range = 4097; break;
    case 7: query[1].slide = 0; break;
    case 8: query[1].slide = 4097; break;
    case 9: query[1].origin = 4; break;
    case 10: query[1].number = query[0].number; break;
    case 11: order[1] = 2; break;
    case 12: order[1] = order[0]; break;
    default: order[0] = 1, order[1] = 0; break;
    }
}

/* 2: each of them, to every call but start. */
static void damaged(void)
{
    for (enum call call = REGISTER; call < CALLS; call++)
        for (int which = 0; which < DAMAGES; which++) {
            begun();
            damage(which);
            refused(call, query_9, 2);
        }
}

/* 3 to 6: each field of a registration just outside its limits; the limits themselves are accepted. */
static void outside(void)
{
    static const struct {
        uint32_t refusal;
        struct asked asked;
    } cases[] = {
        {3, {.number = 0, .kind = 1, .range = 1, .slide = 1}},
        {3, {.number = 65536, .kind = 1, .range = 1, .slide = 1}},
        {4, {.number = 9, .kind = 0, .range = 1, .slide = 1}},
        {4, {.number = 9, .kind = 5, .range = 1, .slide = 1}},
        {5, {.number = 9, .kind = 1, .range = 0, .slide = 1}},
        {5, {.number = 9, .kind = 1, .range = 4097, .slide = 1}},
        {6, {.number = 9, .kind = 1, .range = 1, .slide = 0}},
        {6, {.number = 9, .kind = 1, .range = 1, .slide = 4097}},
        {3, {.number = 0, .kind = 9, .range = 0, .slide = 0}}, /* the first that applies decides */
    };
    begun();
    for (size_t i = 0; i < sizeof cases / sizeof cases[0]; i++)
        refused(REGISTER, cases[i].asked, cases[i].refusal);
    accepted(REGISTER, (struct asked){.number = 65535, .kind = 4, .range = 4096, .slide = 4096});
}

/* 7, 8 and 9: a number that is taken, a 33rd query, and a number that is not registered. */
static void listed(void)
{
    struct asked next = query_9;
    begun();
    next.number = 2;
    refused(REGISTER, next, 7);
    for (next.number = 3; next.number <= 32; next.number++)
        accepted(REGISTER, next);
    refused(REGISTER, next, 8);
    refused(WITHDRAW, next, 9);
    next.number = 17;
    refused(REGISTER, next, 7); /* 7 is judged before 8 */
    accepted(WITHDRAW, next);
    refused(WITHDRAW, next, 9);
    accepted(REGISTER, next);
}

/* What stands in the list: the queries in order of registration, and their places by ascending number. */
static void held(uint32_t i, struct asked asked, uint32_t origin, uint32_t place)
{
    pchelodar_query query = board.queries.query[i];
    if (query.number != asked.number || query.kind != asked.kind || query.range != asked.range
        || query.slide != asked.slide || query.origin != origin || board.queries.order[i] != place)
        fail(REGISTER, "the list holds another query, or another place", query.number);
}

static void read_again(void)
{
    static const struct asked first = {.number = 30, .kind = 3, .range = 5, .slide = 2};
    static const struct asked second = {.number = 20, .kind = 4, .range = 6, .slide = 1};
    static const struct asked none = {.number = 0};
    fresh();
    accepted(REGISTER, first);
    accepted(READING, query_9);
    accepted(REGISTER, second);
    accepted(REGISTER, query_9);
    held(0, first, 0, 2);
    held(1, second, 1, 1);
    held(2, query_9, 1, 0);
    held(3, none, 0, 0);
    accepted(WITHDRAW, first);
    held(0, second, 1, 1);
    held(1, query_9, 1, 0);
    held(2, none, 0, 0);
}

/* 10: n is written into the state, since so many readings take long; with no query, and before 11 with one. */
static void exhausted(void)
{
    fresh();
    board.state[N] = 4294967295;
    refused(READING, query_9, 10);
    accepted(REGISTER, query_9);
    answer_places = 0;
    refused(READING, query_9, 10);
    accepted(WITHDRAW, query_9);
    board.state[N] = 4294967294;
    accepted(READING, query_9); /* the last that can be counted */
    refused(READING, query_9, 10);
}

/* 11: one place too few for the queries that are due, and no place at all. */
static void answers_short(void)
{
    begun();
    accepted(REGISTER, query_9); /* due at every reading; query 1 is due at the next one too */
    for (answer_places = 0; answer_places < 8; answer_places++)
        refused(READING, query_9, 11);
    accepted(READING, query_9);
    if (board.answered != 2)
        fail(READING, "two answers are due", (uint32_t)board.answered);
}

int main(void)
{
    too_short();
    damaged();
    outside();
    listed();
    read_again();
    exhausted();
    answers_short();
    int pairs = 0;
    for (enum call call = START; call < CALLS; call++)
        for (uint32_t number = 1; number <= REFUSALS; number++) {
            if (own[call][number] != (given[call][number] > 0))
                fail(call, "another set of refusals than document 01's", number);
            pairs += own[call][number];
        }
    printf("%d refusals from %d pairs of a call and a refusal, %d calls\n", REFUSALS, pairs, calls_made);
    return 0;
}
