/*
 * Judges certificates of loop P, one by one and four at once, and prints the verdicts in words.
 *
 * Loop P over (p, q) has the rows -p + q <= -2; -p + p' <= -1; q - q' <= 0. The first certificate is the ranking with
 * Y = (1, 0, 0) and Z = (0, 1, 1); in the second Z leaves out the last row. The four are these two, the first with all
 * multipliers doubled, and an exclusion for a loop over one variable, which P is not. The records are written by the
 * library, so no byte is spelt out here. From the repository's root, once `tools/build rip` has made the archive:
 *
 *     cc -std=c99 -Wall -Wextra -Werror -Iinclude examples/c/judge.c target/staticlib/librip.a -o judge
 *     ./judge
 *
 * It prints what stands in judge.expected; the words of a refusal are those of cushiedoo_words.h. The archive links on
 * x86-64; README says what to link on other machines.
 */
#include <inttypes.h>
#include <stdio.h>
#include <stdlib.h>

#include "cushiedoo.h"
#include "cushiedoo_words.h"

#define COUNT(list) (sizeof(list) / sizeof((list)[0]))

static void print_list(const int64_t *list, size_t count)
{
    printf("(");
    for (size_t i = 0; i < count; i++) printf("%s%" PRId64, i == 0 ? "" : ", ", list[i]);
    printf(")");
}

/* Prints a verdict for people; rank is the lent list, of which the first n numbers count. */
static void print_verdict(const cushiedoo_verdict *verdict, const int64_t *rank, size_t n)
{
    switch (verdict->outcome) {
    case CUSHIEDOO_RANKING:
    case CUSHIEDOO_LASSO:
        printf("accepted: a %s with rank ", cushiedoo_kind_words(verdict->outcome));
        print_list(rank, n);
        printf(", at least %" PRId64 " before each step, falling by at least %" PRId64 " in it\n", verdict->start,
               verdict->fall);
        break;
    case CUSHIEDOO_SETTLING:
        printf("accepted: a settling; once g.x has reached t, the rank ");
        print_list(rank, n);
        printf(" is at least %" PRId64 " before each step, falling by at least %" PRId64 " in it\n", verdict->start,
               verdict->fall);
        break;
    case CUSHIEDOO_EXCLUSION:
        printf("accepted: an exclusion; no linear ranking function exists over fractions%s\n",
               verdict->grade == CUSHIEDOO_WHOLE ? " or over whole numbers" : "");
        break;
    case CUSHIEDOO_LEXICOGRAPHIC:
        printf("accepted: a lexicographic argument; no run through the loop's paths goes on for ever\n");
        break;
    default:
        printf("refused %" PRIu64 ", place %" PRIu64 " (%s), in %s: %s\n", verdict->number, verdict->place,
               cushiedoo_place_words(verdict->number), cushiedoo_record_words(verdict->record),
               cushiedoo_words(verdict->number));
    }
}

/* Writes a record into a room and gives its bytes, or ends the program. */
static size_t written(uint64_t kind, uint64_t n, uint64_t m, const int64_t *values, size_t count, uint8_t *room,
                      size_t room_len)
{
    cushiedoo_writing writing = cushiedoo_write_record(kind, n, m, values, count, room, room_len);
    if (writing.number != CUSHIEDOO_DONE) {
        printf("not written: %s\n", cushiedoo_words(writing.number));
        exit(1);
    }
    return (size_t)writing.written;
}

int main(void)
{
    enum { N = 2, M = 3, RECORDS = 4, ROOM = 128 };
    const int64_t rows[M * (2 * N + 1)] = {-1, 1, 0, 0, -2, -1, 0, 1, 0, -1, 0, 1, 0, -1, 0};
    const int64_t multipliers[2 * M] = {1, 0, 0, 0, 1, 1};
    const int64_t without_last[2 * M] = {1, 0, 0, 0, 1, 0};
    const int64_t doubled[2 * M] = {2, 0, 0, 0, 2, 2};
    const int64_t exclusion[4] = {1, -2, 1, 4}; /* q, U, V, W */
    const int64_t state[N] = {5, 1};
    uint8_t loop[64], certificate[64], records[ROOM];
    int64_t rank[N] = {0}, ranks[RECORDS * N] = {0};
    cushiedoo_verdict verdicts[RECORDS];

    size_t loop_len = written(CUSHIEDOO_KIND_LOOP, N, M, rows, COUNT(rows), loop, COUNT(loop));
    size_t certificate_len =
        written(CUSHIEDOO_KIND_RANKING, N, M, multipliers, COUNT(multipliers), certificate, COUNT(certificate));

    cushiedoo_verdict verdict = cushiedoo_judge(loop, loop_len, certificate, certificate_len, rank, N);
    print_verdict(&verdict, rank, N);

    cushiedoo_bounded bounded = cushiedoo_bound(loop, loop_len, certificate, certificate_len, state, N);
    if (bounded.number == CUSHIEDOO_DONE) printf("from (5, 1) a run takes at most %" PRIu64 " steps\n", bounded.bound);

    certificate_len =
        written(CUSHIEDOO_KIND_RANKING, N, M, without_last, COUNT(without_last), certificate, COUNT(certificate));
    verdict = cushiedoo_judge(loop, loop_len, certificate, certificate_len, rank, N);
    print_verdict(&verdict, rank, N);

    /* End to end. Each record has its verdict in the row, and the next N rank numbers as its rank list. */
    size_t len = 0;
    len += written(CUSHIEDOO_KIND_RANKING, N, M, multipliers, COUNT(multipliers), records + len, ROOM - len);
    len += written(CUSHIEDOO_KIND_RANKING, N, M, without_last, COUNT(without_last), records + len, ROOM - len);
    len += written(CUSHIEDOO_KIND_RANKING, N, M, doubled, COUNT(doubled), records + len, ROOM - len);
    len += written(CUSHIEDOO_KIND_EXCLUSION, 1, M, exclusion, COUNT(exclusion), records + len, ROOM - len);
    cushiedoo_batch batch =
        cushiedoo_judge_all(loop, loop_len, records, len, verdicts, COUNT(verdicts), ranks, COUNT(ranks));
    if (batch.number != CUSHIEDOO_DONE) {
        printf("not judged: %s\n", cushiedoo_words(batch.number));
        return 1;
    }
    for (size_t i = 0; i < batch.count; i++) {
        printf("%zu of %" PRIu64 " ", i + 1, batch.count);
        print_verdict(&verdicts[i], ranks + i * N, N);
    }
    return 0;
}
