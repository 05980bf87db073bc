/*
 * Holds what the header states to what the archive answers: kinds, the ends of ranges, the stated L, the room of a sheet,
 * what a row of verdicts is, and that each refusal number has words. It is compiled as C and as C++, and prints nothing
 * unless something is wrong.
 * VERSION is the wrapper's version as one number. With WITH_NULL there is a call that a compiler must warn of.
 */
#include <stdio.h>
#include <string.h>

#include "cushiedoo.h"
#include "cushiedoo_words.h"

/* Compiles where the condition holds only; C99 has no _Static_assert. */
#define HOLDS(name, condition) typedef char name[(condition) ? 1 : -1]
#define STANDS_AT(field, place) HOLDS(field##_stands_there, offsetof(cushiedoo_verdict, field) == 8 * (place))

/* A verdict in a row is seven numbers of 64 bits, in this order and with nothing between them. */
HOLDS(verdict_has_56_bytes, sizeof(cushiedoo_verdict) == 56);
STANDS_AT(number, 0);
STANDS_AT(place, 1);
STANDS_AT(record, 2);
STANDS_AT(outcome, 3);
STANDS_AT(start, 4);
STANDS_AT(fall, 5);
STANDS_AT(grade, 6);
HOLDS(batch_has_32_bytes, sizeof(cushiedoo_batch) == 32);

static int faults = 0;
static int64_t values[5000];
static uint8_t room[20000];

static void expect(int holds, const char *what)
{
    if (!holds) {
        printf("wrong: %s\n", what);
        faults++;
    }
}

/* Writes a record of values that are 0 but for one, and gives the answer. */
static cushiedoo_writing written(uint64_t kind, uint64_t n, uint64_t m, size_t count, size_t place, int64_t value)
{
    memset(values, 0, sizeof values);
    if (kind == CUSHIEDOO_KIND_EXCLUSION) values[0] = 1;
    if (kind == CUSHIEDOO_KIND_LASSO) values[2 + n] = values[3 + n] = 1; /* k and k2, where ms is 0 */
    if (place < count) values[place] = value;
    return cushiedoo_write_record(kind, n, m, values, count, room, sizeof room);
}

/* The value is taken at `most` and refused one past it. */
static void ends_at(uint64_t kind, size_t count, size_t place, int64_t most, const char *what)
{
    expect(written(kind, 1, 1, count, place, most).number == CUSHIEDOO_DONE, what);
    expect(written(kind, 1, 1, count, place, most + 1).number == CUSHIEDOO_VALUE, what);
}

static void ranges(void)
{
    uint64_t n = CUSHIEDOO_MOST_VARIABLES, m = CUSHIEDOO_MOST_ROWS;
    expect(written(CUSHIEDOO_KIND_LOOP, n, 0, 0, 0, 0).number == CUSHIEDOO_DONE, "most variables");
    expect(written(CUSHIEDOO_KIND_LOOP, n + 1, 0, 0, 0, 0).number == CUSHIEDOO_COUNT, "one variable more");
    expect(written(CUSHIEDOO_KIND_LOOP, 1, m, 3 * m, 0, 0).number == CUSHIEDOO_DONE, "most rows");
    expect(written(CUSHIEDOO_KIND_LOOP, 1, m + 1, 3 * m + 3, 0, 0).number == CUSHIEDOO_COUNT, "one row more");
    ends_at(CUSHIEDOO_KIND_LOOP, 3, 0, CUSHIEDOO_MOST_ENTRY, "entry");
    ends_at(CUSHIEDOO_KIND_LOOP, 3, 2, CUSHIEDOO_MOST_RIGHT_SIDE, "right side");
    ends_at(CUSHIEDOO_KIND_RANKING, 2, 0, CUSHIEDOO_MOST_MULTIPLIER, "multiplier");
    ends_at(CUSHIEDOO_KIND_EXCLUSION, 4, 0, CUSHIEDOO_MOST_SCALE, "scale");
    ends_at(CUSHIEDOO_KIND_EXCLUSION, 4, 1, CUSHIEDOO_MOST_DIRECTION, "direction");
}

static void stated_lengths(void)
{
    uint64_t n, m;
    for (n = 1; n <= CUSHIEDOO_MOST_VARIABLES; n++)
        for (m = 0; m <= CUSHIEDOO_MOST_ROWS; m++) {
            uint64_t lasso = 18 + 2 * n + 6 * m;
            expect(written(1, n, m, m * (2 * n + 1), 0, 0).written == 4 + 6 + m * (4 * n + 4), "L of a loop");
            expect(written(2, n, m, 2 * m, 0, 0).written == 4 + 2 + 4 * m, "L of a ranking");
            expect(written(3, n, m, 1 + 3 * n, 0, 1).written == 4 + 4 + 12 * n, "L of an exclusion");
            expect(written(4, n, m, 7 + n + 3 * m, 0, 0).written == 4 + lasso, "L of a lasso without stem rows");
        }
}

/* A loop of the greatest counts of paths and rows, or of one more of either, as the judge reads it. */
static uint64_t loop_of_paths(size_t paths, size_t rows)
{
    static uint8_t loop[6000];
    int64_t rank[1] = {0};
    size_t path, length = 6 + 2 * paths + 8 * paths * rows;
    memset(loop, 0, sizeof loop);
    loop[0] = (uint8_t)length;
    loop[1] = (uint8_t)(length / 256);
    loop[4] = CUSHIEDOO_KIND_PATHS;
    loop[6] = 1;
    loop[8] = (uint8_t)paths;
    for (path = 0; path < paths; path++) loop[10 + 2 * path] = (uint8_t)rows;
    cushiedoo_verdict verdict = cushiedoo_judge(loop, 4 + length, room, 0, rank, 1);
    return verdict.record == CUSHIEDOO_LOOP ? verdict.number : 0;
}

static void paths(void)
{
    size_t p = CUSHIEDOO_MOST_PATHS, m = CUSHIEDOO_MOST_ROWS;
    expect(loop_of_paths(p, m) == CUSHIEDOO_DONE, "most paths, most rows of each");
    expect(loop_of_paths(p + 1, 0) == CUSHIEDOO_COUNT, "one path more");
    expect(loop_of_paths(1, m + 1) == CUSHIEDOO_COUNT, "one row more in a path");
}

/* An argument of one path without rows, with so many components, each of this fall: the number that judging tells. */
static uint64_t argument_of(size_t components, uint32_t fall)
{
    static const uint8_t loop[] = {8, 0, 0, 0, CUSHIEDOO_KIND_PATHS, 0, 1, 0, 1, 0, 0, 0};
    static uint8_t argument[200];
    int64_t rank[1] = {0};
    size_t component, byte, length = 6 + 12 * components;
    memset(argument, 0, sizeof argument);
    argument[0] = (uint8_t)length;
    argument[4] = CUSHIEDOO_KIND_LEXICOGRAPHIC;
    argument[6] = (uint8_t)components;
    for (component = 0; component < components; component++)
        for (byte = 0; byte < 4; byte++) argument[18 + 12 * component + byte] = (uint8_t)(fall >> (8 * byte));
    return cushiedoo_judge(loop, sizeof loop, argument, 4 + length, rank, 1).number;
}

static void components(void)
{
    expect(argument_of(CUSHIEDOO_MOST_COMPONENTS, CUSHIEDOO_MOST_COMPONENT_FALL) == 52, "most components and fall");
    expect(argument_of(CUSHIEDOO_MOST_COMPONENTS + 1, 1) == CUSHIEDOO_COUNT, "one component more");
    expect(argument_of(1, CUSHIEDOO_MOST_COMPONENT_FALL + 1) == CUSHIEDOO_VALUE, "one more than a component falls");
}

/* A short ranking of so many triples, all of them zeros. */
static uint64_t triples_of(size_t count)
{
    static uint8_t ranking[500];
    size_t length = 4 + 6 * count;
    ranking[0] = (uint8_t)length;
    ranking[1] = (uint8_t)(length / 256);
    ranking[4] = CUSHIEDOO_KIND_SHORT_RANKING;
    ranking[6] = (uint8_t)count;
    return cushiedoo_lengthen(ranking, 4 + length, 1, CUSHIEDOO_MOST_ROWS, room, sizeof room).number;
}

static void triples(void)
{
    expect(triples_of(CUSHIEDOO_MOST_TRIPLES) == CUSHIEDOO_ZEROS, "most triples");
    expect(triples_of(CUSHIEDOO_MOST_TRIPLES + 1) == CUSHIEDOO_COUNT, "one triple more");
}

/* The row 0 <= -1, which no step meets, has a ranking: the bound is told at every state in range. */
static void states(void)
{
    static const uint8_t loop[] = {14, 0, 0, 0, 1, 0, 1, 0, 1, 0, 0, 0, 0, 0, 255, 255, 255, 255};
    static const uint8_t ranking[] = {6, 0, 0, 0, 2, 0, 0, 0, 1, 0};
    int64_t state[1] = {-CUSHIEDOO_MOST_STATE};
    expect(cushiedoo_bound(loop, sizeof loop, ranking, sizeof ranking, state, 1).bound == 1, "the least state");
    state[0] = CUSHIEDOO_MOST_STATE + 1;
    expect(cushiedoo_bound(loop, sizeof loop, ranking, sizeof ranking, state, 1).number == CUSHIEDOO_STATE, "one more");
}

/* 0 <= 5 and 0 <= -1 over one variable, and the rankings with Y = (1, 0), Z = (0, 1) and with Y = Z = 0. */
static const uint8_t level[] = {22, 0, 0, 0, 1, 0, 1, 0, 2, 0, 0, 0, 0, 0, 5, 0, 0, 0, 0, 0, 0, 0, 255, 255, 255, 255};
static const uint8_t held[] = {10, 0, 0, 0, 2, 0, 1, 0, 0, 0, 0, 0, 1, 0};
static const uint8_t zeros[] = {10, 0, 0, 0, 2, 0, 0, 0, 0, 0, 0, 0, 0, 0};

/* Judges so many records, each no longer than its kind, with such a room, and gives the answer. */
static cushiedoo_batch batch_of(size_t count, size_t verdicts_len, size_t ranks_len)
{
    static cushiedoo_verdict verdicts[CUSHIEDOO_MOST_RECORDS + 1];
    static int64_t ranks[CUSHIEDOO_MOST_RECORDS + 1];
    static uint8_t records[6 * (CUSHIEDOO_MOST_RECORDS + 8)];
    size_t i;
    for (i = 0; i < count; i++) {
        records[6 * i] = 2;
        records[6 * i + 4] = CUSHIEDOO_KIND_RANKING;
    }
    return cushiedoo_judge_all(level, sizeof level, records, 6 * count, verdicts, verdicts_len, ranks, ranks_len);
}

static int told(cushiedoo_batch batch, uint64_t number, uint64_t place, uint64_t record, uint64_t count)
{
    return batch.number == number && batch.place == place && batch.record == record && batch.count == count;
}

static void batches(void)
{
    size_t most = CUSHIEDOO_MOST_RECORDS;
    expect(told(batch_of(0, 0, 0), CUSHIEDOO_DONE, 0, CUSHIEDOO_NEITHER, 0), "no bytes are no records");
    expect(told(batch_of(most, most, most), CUSHIEDOO_DONE, 0, CUSHIEDOO_NEITHER, most), "most records");
    expect(told(batch_of(most + 1, 0, 0), CUSHIEDOO_RECORDS, most + 1, CUSHIEDOO_NEITHER, 0), "one record more");
    expect(told(batch_of(most + 8, 33, 33), CUSHIEDOO_RECORDS, most + 8, CUSHIEDOO_NEITHER, 0), "all are counted");
    expect(told(batch_of(5, 4, 0), CUSHIEDOO_ROOM, 5, CUSHIEDOO_NEITHER, 0), "verdicts are asked for first");
    expect(told(batch_of(5, 5, 4), CUSHIEDOO_ROOM, 5, CUSHIEDOO_NEITHER, 0), "and then rank numbers");
}

/* A row of verdicts is filled as an array of structs, each as a single call would have it, and the rest stays. */
static void rows_of_verdicts(void)
{
    uint8_t records[sizeof held + sizeof zeros];
    cushiedoo_verdict row[3], one;
    int64_t ranks[3] = {7, 7, 7}, rank[1];
    memcpy(records, held, sizeof held);
    memcpy(records + sizeof held, zeros, sizeof zeros);
    memset(row, 0x55, sizeof row);
    cushiedoo_batch batch = cushiedoo_judge_all(level, sizeof level, records, sizeof records, row, 3, ranks, 3);
    expect(told(batch, CUSHIEDOO_DONE, 0, CUSHIEDOO_NEITHER, 2), "two records");
    expect(row[0].start == -5 && row[0].fall == 1 && row[0].outcome == CUSHIEDOO_RANKING, "a start below 0 in a row");
    expect(row[1].number == 24 && row[1].record == CUSHIEDOO_CERTIFICATE, "a refused record in a row");
    expect(row[2].number == 0x5555555555555555, "the row past the count");
    expect(ranks[0] == 0 && ranks[1] == 7 && ranks[2] == 7, "a refused record's rank numbers");
    one = cushiedoo_judge(level, sizeof level, held, sizeof held, rank, 1);
    expect(memcmp(&one, &row[0], sizeof one) == 0 && rank[0] == ranks[0], "as a single call");
    batch = cushiedoo_judge_all(held, sizeof held, records, sizeof records, row, 3, ranks, 3);
    expect(told(batch, CUSHIEDOO_KIND, 4, CUSHIEDOO_LOOP, 0), "a loop that is none");
    expect(row[0].fall == 1 && row[1].number == 24, "a refusal changes no verdict");
}

static void rooms(void)
{
    static uint8_t input[CUSHIEDOO_MOST_SHEET + 2], text[CUSHIEDOO_SHEET_ROOM(2)];
    size_t lengths[] = {0, 1, 46, 82, 65535, CUSHIEDOO_MOST_SHEET, CUSHIEDOO_MOST_SHEET + 1};
    size_t i;
    for (i = 0; i < sizeof lengths / sizeof *lengths; i++) {
        cushiedoo_writing writing = cushiedoo_sheet(input, lengths[i], text, 0);
        expect(writing.number == CUSHIEDOO_ROOM, "a sheet without room");
        expect(writing.place == CUSHIEDOO_SHEET_ROOM(lengths[i]), "the room of a sheet");
    }
    expect(cushiedoo_sheet(input, 2, text, sizeof text).number == CUSHIEDOO_DONE, "a sheet with its room");
    expect(text[16] == '\n' && memcmp(text, "loop refused 1 2", 16) == 0, "the text of two bytes");
}

/* The numbers that FORMAT.md lists have words, and so have their places; no other number has. */
static void words(void)
{
    static const int last[][2] = {{0, 16}, {21, 24}, {31, 32}, {41, 46}, {51, 53}, {61, 63}};
    const char *unknown = cushiedoo_words(1000);
    int number, i;
    for (number = 0; number < 100; number++) {
        int given = 0;
        for (i = 0; i < 6; i++) given |= last[i][0] <= number && number <= last[i][1];
        expect(given == (strcmp(cushiedoo_words((uint64_t)number), unknown) != 0), "words of a number");
        expect(given == (strcmp(cushiedoo_place_words((uint64_t)number), "unknown") != 0), "words of a place");
    }
    expect(strcmp(cushiedoo_words(CUSHIEDOO_RECORDS), "more than 32 records") == 0, "13");
    expect(strcmp(cushiedoo_words(CUSHIEDOO_ZEROS), "Y and Z of a short ranking's row are both zero") == 0, "16");
    expect(strcmp(cushiedoo_place_words(31), "row, from 0") == 0, "the place of 31");
    expect(strcmp(cushiedoo_record_words(CUSHIEDOO_CERTIFICATE), "the certificate") == 0, "a record");
    expect(strcmp(cushiedoo_kind_words(CUSHIEDOO_KIND_SETTLING), "settling") == 0, "a kind");
    expect(strcmp(cushiedoo_kind_words(CUSHIEDOO_LASSO), "lasso") == 0, "an outcome");
}

int main(void)
{
    ranges();
    stated_lengths();
    paths();
    components();
    triples();
    states();
    batches();
    rows_of_verdicts();
    rooms();
    words();
    expect(CUSHIEDOO_VERSION == VERSION, "the version");
#ifdef WITH_NULL
    cushiedoo_sheet(NULL, 0, room, sizeof room);
#endif
    return faults != 0;
}
