/*
 * What x86/count counts: 32 rankings of one loop, all accepted, judged one by one or as a batch, so many times over.
 *
 *     rankings N M WAY TIMES        WAY is 1 for one by one, 2 for a batch
 *
 * In the loop x1 is at least 0 and falls by 1 at least; the other rows come in pairs, one the opposite of the other but for
 * its right side, and the last of an odd number is all zeros. Every row has weight under Y or Z.
 */
#include "cushiedoo.h"

enum { BATCH = 32, VARIABLES = 16, ROWS = 64, LOOP = 10 + ROWS * (4 * VARIABLES + 4), RECORD = 6 + 4 * ROWS };

static uint8_t loop[LOOP], records[BATCH * RECORD];
static cushiedoo_verdict verdicts[BATCH];
static int64_t ranks[BATCH * VARIABLES];

static void put16(uint8_t *at, uint32_t x)
{
    at[0] = (uint8_t)x;
    at[1] = (uint8_t)(x >> 8);
}

static void put32(uint8_t *at, uint32_t x)
{
    put16(at, x);
    put16(at + 2, x >> 16);
}

/* Entry k of row i, from the third row on: below 1,000 either way. */
static int32_t entry(size_t m, size_t i, size_t k)
{
    if (i + 1 == m && m % 2 == 1) return 0;
    int32_t x = (int32_t)((i / 2 * 7919 + k * 104729) % 1999) - 999;
    return i % 2 == 0 ? x : -x;
}

static size_t make_loop(size_t n, size_t m)
{
    size_t row = 4 * n + 4, length = 10 + m * row;
    put32(loop, (uint32_t)length - 4);
    put16(loop + 4, 1);
    put16(loop + 6, (uint32_t)n);
    put16(loop + 8, (uint32_t)m);
    for (size_t i = 2; i < m; i++) {
        for (size_t k = 0; k < 2 * n; k++) put16(loop + 10 + i * row + 2 * k, (uint32_t)entry(m, i, k));
        put32(loop + 10 + i * row + 4 * n, (uint32_t)(i % 2 == 0 ? 3 : -5));
    }
    put16(loop + 10, (uint32_t)-1);
    put16(loop + 10 + row, (uint32_t)-1);
    put16(loop + 10 + row + 2 * n, 1);
    put32(loop + 10 + row + 4 * n, (uint32_t)-1);
    if (m % 2 == 1) put32(loop + length - 4, 0);
    return length;
}

/* Ranking i: weight on the first row under Y, on the second under Z, and on the others under both. */
static size_t make_ranking(size_t m, size_t i)
{
    size_t length = 6 + 4 * m;
    uint8_t *record = records + i * length;
    put32(record, (uint32_t)length - 4);
    put16(record + 4, 2);
    for (size_t k = 2; k < m; k++) {
        put16(record + 6 + 2 * k, 5 + (uint32_t)(k / 2 % 9));
        put16(record + 6 + 2 * m + 2 * k, 5 + (uint32_t)(k / 2 % 9));
    }
    put16(record + 6, 3 + (uint32_t)i);
    put16(record + 6 + 2 * m + 2, 3 + (uint32_t)i);
    return length;
}

static size_t number(const char *text)
{
    size_t x = 0;
    while (*text) x = 10 * x + (size_t)(*text++ - '0');
    return x;
}

int main(int words, char **word)
{
    if (words != 5) return 2;
    size_t n = number(word[1]), m = number(word[2]), times = number(word[4]);
    if (n < 1 || n > VARIABLES || m < 2 || m > ROWS) return 2;
    size_t length = make_loop(n, m), each = 0;
    for (size_t i = 0; i < BATCH; i++) each = make_ranking(m, i);
    while (times-- > 0) {
        if (*word[3] == '2') {
            cushiedoo_judge_all(loop, length, records, BATCH * each, verdicts, BATCH, ranks, BATCH * n);
        } else {
            for (size_t i = 0; i < BATCH; i++)
                verdicts[i] = cushiedoo_judge(loop, length, records + i * each, each, ranks + i * n, n);
        }
    }
    for (size_t i = 0; i < BATCH; i++)
        if (verdicts[i].number != 0 || verdicts[i].outcome != CUSHIEDOO_KIND_RANKING) return 1;
    return 0;
}
