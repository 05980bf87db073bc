/*
 * Cushiedoo: a proved checker of certificates that loops end.
 *
 * The calls of the archive librip.a. Each of them answers every input; the caller need not have checked anything. What
 * is proved of them is listed in docs/PROMISES.md; docs/FORMAT.md has the bytes of every record, with examples, what a
 * certificate must meet and what follows. cushiedoo_words.h beside this file has the refusals in words.
 *
 * Pointers. A list is a pointer and its number of entries (not bytes). A pointer is never null, not even at length 0:
 * pass the address of any object of that type there (an empty std::vector's data() may be null). Compilers that know
 * the attribute warn where they see a null pointer. A list that a call writes to must not overlap any other list of the
 * same call. Bytes may stand at any address; lists of int64_t and rows of verdicts are aligned as their type is.
 *
 * Lent lists. A call that is done fills the first places of the list or room it was lent, and the rest stays. A refused
 * call changes nothing. No call keeps a pointer or touches anything but its lists, so calls may run at once.
 *
 * Ranges. Variables n: 1 to 16. Loop rows m (of each path) and stem rows ms: 0 to 64 each. Paths of a loop: 1 to 8, and
 * components of an argument for them too. Triples of a short ranking: 0 to 64. Records of a batch: 0 to 32. Entries of
 * A, A', B, B', s and g: 30,000 either way. Right sides b, d and s0, the start of a component and the threshold t:
 * 2,000,000,000 either way. All multipliers: 0 to 60,000. The scales k and k2, and q: 1 to 60,000. U, V, W and the r of
 * a component: 60,000 either way; its fall: 1 to 1,000,000. Entries of a state: 1,000,000 either way. CUSHIEDOO_MOST_..
 * below are these numbers. No start or fall is beyond 7,800,000,000,000,000 either way.
 *
 * Records. A record is L (4 bytes, the number of bytes after it), its kind (2 bytes) and its body; numbers have their
 * lowest byte first. What L must be, "the stated L", goes by the kind and the counts:
 *
 *   kind                             the stated L
 *   CUSHIEDOO_KIND_LOOP           1  6 + m(4n + 4)
 *   CUSHIEDOO_KIND_RANKING        2  2 + 4m
 *   CUSHIEDOO_KIND_EXCLUSION      3  4 + 12n
 *   CUSHIEDOO_KIND_LASSO          4  18 + 2n + ms(4n + 6) + 6m
 *   CUSHIEDOO_KIND_PATHS          5  6 + 2p + (m_1 + .. + m_p)(4n + 4), of p paths with m_1 to m_p rows
 *   CUSHIEDOO_KIND_LEXICOGRAPHIC  6  4 + 2p + 4C(n + 2) + the sum of 2 m_j (2 + c_j), of C components, c_j that of path j
 *   CUSHIEDOO_KIND_SHORT_RANKING  7  4 + 6c, of c triples
 *   CUSHIEDOO_KIND_SETTLING       8  12 + 2n + 6m
 *
 * Refusals. Every answer starts with a number and a place:
 *
 *   number                  meaning                                                place
 *   CUSHIEDOO_DONE       0  done                                                   0
 *   CUSHIEDOO_ENDS       1  bytes end early                                        number of bytes
 *   CUSHIEDOO_AFTER      2  bytes after the record                                 4 + L
 *   CUSHIEDOO_LENGTH     3  L is below 2, too small for the counts, or not the     0
 *                           stated L
 *   CUSHIEDOO_KIND       4  kind not wanted here                                   4
 *   CUSHIEDOO_COUNT      5  count out of range                                     its first byte; 0 if n or m came as
 *                                                                                  an argument for kinds 2 to 4
 *                                                                                  and 7
 *   CUSHIEDOO_VALUE      6  value out of range, the first in layout order          its first byte
 *   CUSHIEDOO_ROOM       7  room too small                                         what is needed: values where a
 *                                                                                  record is read, bytes where one or
 *                                                                                  a text is written, n in judging; in
 *                                                                                  a batch verdicts, then rank numbers
 *   CUSHIEDOO_FAILS      8  no longer given: 21 to 63 say which condition fails
 *   CUSHIEDOO_STATE      9  state entry out of range, the first                    its index, from 0
 *   CUSHIEDOO_ENTRIES   10  state doesn't have n entries                           number of entries
 *   CUSHIEDOO_OUTSIDE   11  lasso state outside the invariant s.x + s0 >= 0        0
 *   CUSHIEDOO_LIST      12  value list of the wrong length                         length needed (1 if ms is absent)
 *   CUSHIEDOO_RECORDS   13  more than 32 records in a batch                        number of all its records
 *   CUSHIEDOO_COMPONENT 14  component number that doesn't exist, the first         its first byte
 *   CUSHIEDOO_ROW       15  row of a short ranking not below m, or not above the   the triple's first byte
 *                           row before it
 *   CUSHIEDOO_ZEROS     16  Y and Z of a short ranking's row are both zero         the triple's first byte
 *
 * Conditions. A certificate that fails one is refused with the condition's number. Columns, rows and paths count from
 * 0; a column stands for a variable. All places of one condition come before the next condition, but 51 to 53 are told
 * path by path. The loop's rows are A, A', b, those of a lasso's stem B, B', d. A component has r, a start and a fall.
 *
 *   of         number  meaning                                                     place
 *   ranking        21  YA' is not 0                                                the first such column
 *                  22  (Y - Z)A is not 0                                           the first such column
 *                  23  Z(A + A') is not 0                                          the first such column
 *                  24  Zb is not below 0                                           0
 *   exclusion      31  A.V + A'.U is above 0: the direction leaves a row           the first such row
 *                  32  A.(W - V) + A'.W is above q b: the step does not meet a row the first such row
 *   lasso          41  TB is not 0                                                 the first such column
 *                  42  TB' is not -k s                                             the first such column
 *                  43  Td is above k s0: the invariant is not started              0
 *                  44  HA - h0 s is not 0                                          the first such column
 *                  45  HA' is not -k2 s                                            the first such column
 *                  46  Hb + h0 s0 is above k2 s0: the invariant is not kept        0
 *                      and then 21 to 24, over the loop with the row -s.x <= s0 added at the end
 *   lexicographic  51  bounded: the weighted rows of a path do not sum to -r.x of  the first such path
 *                      its component, or their right sides to more than -start
 *                  52  ranking: they do not sum to -r.x + r.x' of its component,   the first such path
 *                      or their right sides to more than -fall
 *                  53  unaffecting: they do not sum to -r.x + r.x' of an earlier   the first such path
 *                      component, or their right sides to more than 0
 *   settling       61  EA is not k g                                               the first such column
 *                  62  EA' is not -k g                                             the first such column
 *                  63  Eb is above -k: g.x does not rise                           0
 *                      and then 21 to 24, over the loop with the row -g.x <= -t added at the end
 *
 * Places count bytes from the record's first byte unless the table says otherwise. On a refusal all other fields of the
 * answer are 0, but for the record that a verdict speaks of.
 */
#ifndef CUSHIEDOO_H
#define CUSHIEDOO_H

#include <stddef.h>
#include <stdint.h>

/* The version of this header, as a number that grows and in its parts. It belongs to the archive of the same clone. */
#define CUSHIEDOO_VERSION_MAJOR 0
#define CUSHIEDOO_VERSION_MINOR 1
#define CUSHIEDOO_VERSION_PATCH 0
#define CUSHIEDOO_VERSION (10000 * CUSHIEDOO_VERSION_MAJOR + 100 * CUSHIEDOO_VERSION_MINOR + CUSHIEDOO_VERSION_PATCH)

/* The upper ends of the ranges. What goes "either way" starts at minus this. */
#define CUSHIEDOO_MOST_VARIABLES 16
#define CUSHIEDOO_MOST_ROWS 64
#define CUSHIEDOO_MOST_PATHS 8
#define CUSHIEDOO_MOST_COMPONENTS 8
#define CUSHIEDOO_MOST_TRIPLES 64
#define CUSHIEDOO_MOST_RECORDS 32 /* of a batch */
#define CUSHIEDOO_MOST_ENTRY 30000
#define CUSHIEDOO_MOST_RIGHT_SIDE 2000000000
#define CUSHIEDOO_MOST_MULTIPLIER 60000
#define CUSHIEDOO_MOST_SCALE 60000            /* k, k2 and q */
#define CUSHIEDOO_MOST_DIRECTION 60000        /* U, V, W and the r of a component */
#define CUSHIEDOO_MOST_COMPONENT_FALL 1000000 /* of kind 6 */
#define CUSHIEDOO_MOST_STATE 1000000
#define CUSHIEDOO_MOST_SHEET 65536 /* bytes; of a longer input the text is "input too long" */

/* The bytes of room that cushiedoo_sheet asks for, enough for the text of every input of this length. */
#define CUSHIEDOO_SHEET_ROOM(input_len)                                                                                \
    (47 * ((size_t)(input_len) < CUSHIEDOO_MOST_SHEET ? (size_t)(input_len) : (size_t)CUSHIEDOO_MOST_SHEET) + 306)

/* No pointer that a call is given may be null. */
#if defined(__GNUC__) || defined(__clang__)
#define CUSHIEDOO_NONNULL __attribute__((nonnull))
#else
#define CUSHIEDOO_NONNULL
#endif

#ifdef __cplusplus
extern "C" {
#endif

/* The kinds of records: what cushiedoo_write_record takes and a reading tells. */
enum {
    CUSHIEDOO_KIND_LOOP = 1,
    CUSHIEDOO_KIND_RANKING = 2,
    CUSHIEDOO_KIND_EXCLUSION = 3,
    CUSHIEDOO_KIND_LASSO = 4,
    CUSHIEDOO_KIND_PATHS = 5,         /* loop of several paths */
    CUSHIEDOO_KIND_LEXICOGRAPHIC = 6, /* argument for one */
    CUSHIEDOO_KIND_SHORT_RANKING = 7,
    CUSHIEDOO_KIND_SETTLING = 8
};

/* The refusal numbers of the first table above; conditions go by their numbers. */
enum {
    CUSHIEDOO_DONE = 0,
    CUSHIEDOO_ENDS = 1,
    CUSHIEDOO_AFTER = 2,
    CUSHIEDOO_LENGTH = 3,
    CUSHIEDOO_KIND = 4,
    CUSHIEDOO_COUNT = 5,
    CUSHIEDOO_VALUE = 6,
    CUSHIEDOO_ROOM = 7,
    CUSHIEDOO_FAILS = 8, /* no longer given */
    CUSHIEDOO_STATE = 9,
    CUSHIEDOO_ENTRIES = 10,
    CUSHIEDOO_OUTSIDE = 11,
    CUSHIEDOO_LIST = 12,
    CUSHIEDOO_RECORDS = 13,
    CUSHIEDOO_COMPONENT = 14,
    CUSHIEDOO_ROW = 15,
    CUSHIEDOO_ZEROS = 16
};

/* Which of its two records a verdict speaks of. These are no kinds: those are CUSHIEDOO_KIND_.. */
enum {
    CUSHIEDOO_NEITHER = 0,    /* done, 7, 9, 10 and 13 */
    CUSHIEDOO_LOOP = 1,       /* 1 to 6 in the loop record */
    CUSHIEDOO_CERTIFICATE = 2 /* 1 to 6 and 14 to 16 in the certificate; 11; a condition's number */
};

/* The outcome of a verdict: the kind of the certificate that gave it; of a short ranking (kind 7) that of a ranking. */
enum {
    CUSHIEDOO_NOTHING = 0,       /* refused */
    CUSHIEDOO_RANKING = 2,       /* with start and fall */
    CUSHIEDOO_EXCLUSION = 3,     /* with a grade; it does not say that the loop runs for ever */
    CUSHIEDOO_LASSO = 4,         /* with start and fall */
    CUSHIEDOO_LEXICOGRAPHIC = 6, /* no run through the paths goes on for ever; no start, fall or grade */
    CUSHIEDOO_SETTLING = 8       /* with start and fall; no run goes on for ever, and g.x rises to t first */
};

/*
 * The grade of an exclusion: over which numbers no linear ranking function exists. It is whole exactly when q divides
 * every entry of V and W, and fractions otherwise.
 */
enum {
    CUSHIEDOO_NO_GRADE = 0,
    CUSHIEDOO_WHOLE = 1,    /* neither over fractions nor over whole numbers */
    CUSHIEDOO_FRACTIONS = 2 /* none over fractions */
};

/* The answer of a reading. */
typedef struct {
    uint64_t number; /* refusal number */
    uint64_t place;
    uint64_t kind;  /* 1 to 4 */
    uint64_t n;     /* the loop's variables; 0 for kinds 2 to 4 */
    uint64_t m;     /* the loop's rows; 0 for kinds 2 to 4 */
    uint64_t count; /* values filled */
} cushiedoo_reading;

/* The answer of a writing. */
typedef struct {
    uint64_t number; /* refusal number */
    uint64_t place;
    uint64_t written; /* bytes filled */
} cushiedoo_writing;

/* The answer of judging. */
typedef struct {
    uint64_t number; /* refusal number */
    uint64_t place;
    uint64_t record;  /* the record it speaks of */
    uint64_t outcome; /* what was accepted */
    /* Of a ranking, for every step; of a lasso, for every step from a state that meets its invariant; of a settling,
       for every step from a state where g.x is at least t; else 0: */
    int64_t start;  /* r.x is at least this before the step */
    int64_t fall;   /* r.x falls by at least this in the step */
    uint64_t grade; /* of an exclusion */
} cushiedoo_verdict;

/* The answer of a bound: judging's, and the bound beside it. */
typedef struct {
    uint64_t number;
    uint64_t place;
    uint64_t record;
    uint64_t outcome;
    int64_t start;
    int64_t fall;
    uint64_t grade;
    /* No run from the state takes more steps than this; a lasso's state outside its invariant gives 11. Of a settling: no
       run from the state takes more steps than this from states where g.x is below t. */
    uint64_t bound;
} cushiedoo_bounded;

/* The answer of a batch. What is wrong with one of its records is told by that record's verdict, not here. */
typedef struct {
    uint64_t number; /* refusal number */
    uint64_t place;
    uint64_t record; /* CUSHIEDOO_LOOP for a refusal of the loop record, CUSHIEDOO_NEITHER for done, 7 and 13 */
    uint64_t count;  /* records judged: all of them, or 0 on a refusal */
} cushiedoo_batch;

/*
 * Reads a loop record (kind 1). The values are its rows, one after another, each of n entries of A, n of A' and b:
 * m(2n + 1) of them. Refusals: 1 to 7, in the order 1, 3 (L below 2), 1, 2, 4, 3 (no room for the counts), 5 (n, then
 * m), 3, 6, 7.
 */
cushiedoo_reading cushiedoo_read_loop(const uint8_t *bytes, size_t bytes_len, int64_t *values, size_t values_len)
    CUSHIEDOO_NONNULL;

/*
 * Reads a certificate record (kinds 2 to 4) of a loop with n variables and m rows. The values are the body in layout
 * order: of a ranking Y, Z; of an exclusion q, U, V, W; of a lasso ms, the stem rows, s, s0, k, T, k2, H, h0, Y, Z.
 * Refusals: 1 to 7, in the order of cushiedoo_read_loop, with 5 for n and m as arguments right after 4.
 */
cushiedoo_reading cushiedoo_read_certificate(const uint8_t *bytes, size_t bytes_len, uint64_t n, uint64_t m,
                                             int64_t *values, size_t values_len) CUSHIEDOO_NONNULL;

/*
 * Writes a record of kinds 1 to 4 from its values, which are those that a reading gives. Refusals: 4, 5 (n, m), 12 (ms
 * is absent), 5 (ms), 12, 6, 7, in this order. Places of 4, 5 and 6 are those in the record that would be written.
 */
cushiedoo_writing cushiedoo_write_record(uint64_t kind, uint64_t n, uint64_t m, const int64_t *values,
                                         size_t values_len, uint8_t *room, size_t room_len) CUSHIEDOO_NONNULL;

/*
 * Writes a ranking (kind 2) of a loop with n variables and m rows as a short one (kind 7): a count c, then for each row
 * whose Y and Z are not both zero the row, from 0, its Y and its Z; 8 + 6c bytes. It need not be one that is accepted.
 * Refusals: those of cushiedoo_read_certificate with kind 2 alone wanted, and 7 last, with the bytes needed.
 */
cushiedoo_writing cushiedoo_shorten(const uint8_t *ranking, size_t ranking_len, uint64_t n, uint64_t m, uint8_t *room,
                                    size_t room_len) CUSHIEDOO_NONNULL;

/*
 * Writes a short ranking (kind 7) as the ranking (kind 2) that it stands for: rows that it does not name have zeros. That
 * takes 6 + 4m bytes. Going there and back, from either kind, gives the first bytes again. Refusals, in this order: 1, 3
 * (L below 2), 1, 2, 4 (kind 7 alone is wanted), 5 (n and m as arguments), 3 (L below 4), 5 (c over 64), 3, then triple
 * by triple 15 and 16, then 6 over all triples, 7.
 */
cushiedoo_writing cushiedoo_lengthen(const uint8_t *ranking, size_t ranking_len, uint64_t n, uint64_t m, uint8_t *room,
                                     size_t room_len) CUSHIEDOO_NONNULL;

/*
 * Writes the text that the program "sheet" prints for an input: one loop record, then certificate records to the end.
 * The only refusal is 7. The room that its place tells is CUSHIEDOO_SHEET_ROOM(input_len), that is 47 * min(input_len,
 * 65,536) + 306 bytes: it depends on the length of the input alone and is enough for every input of that length.
 */
cushiedoo_writing cushiedoo_sheet(const uint8_t *input, size_t input_len, uint8_t *text, size_t text_len)
    CUSHIEDOO_NONNULL;

/*
 * Judges a certificate for a loop. On acceptance of a ranking, a lasso or a settling the first n numbers of the rank
 * list are r; an exclusion needs and touches none. Refusals: those of the loop record, those of the certificate, 7
 * (kinds 2, 4, 7 and 8 only), those of the conditions, in this order. A settling (kind 8) is taken by this call, by
 * cushiedoo_judge_all and by cushiedoo_bound alone. A short ranking (kind 7) is taken wherever a ranking is judged, on
 * a sheet too, but not by the reader and the writer. Its record is tested in the order of cushiedoo_lengthen; if it is
 * sound, the verdict is that of the ranking that it stands for.
 *
 * A loop of several paths (kind 5) and a lexicographic argument (kind 6) are judged only together: with another record
 * either gives 4 of the certificate. They need and touch no rank list. Their counts stand in two places, and 3 is told
 * where L can't hold the next of them: of the loop 3, 5 (n, paths), 3, 5 (each m), 3, 6; of the argument 3, 5
 * (components), 3, 14 (each path's component number), 3, 6.
 */
cushiedoo_verdict cushiedoo_judge(const uint8_t *loop, size_t loop_len, const uint8_t *certificate,
                                  size_t certificate_len, int64_t *rank, size_t rank_len) CUSHIEDOO_NONNULL;

/*
 * Judges a job's certificates for one loop at once: up to 32 records laid end to end, of any kinds that cushiedoo_judge
 * takes. The loop record is checked once, not once a record. No bytes are no records: the call is done and its count 0.
 *
 * Parting. The records are parted as on a sheet: each takes 4 + L bytes, and the next starts right after them. Where
 * fewer than 4 bytes are left, or L is below 2, or L asks for more bytes than are left, the record takes all that is left
 * and is the last. So a record with a wrong L takes bytes of those after it, or leaves them some of its own.
 *
 * Verdicts. verdicts is an array of cushiedoo_verdict, verdicts_len its number of verdicts; each has 56 bytes, which the
 * archive sees as seven numbers of 64 bits. Verdict i is the one that cushiedoo_judge gives for record i, its places
 * from that record's own first byte. A record that is refused does not stop the others.
 *
 * Ranks. Record i has the n numbers from ranks + i * n as its rank list, n being the loop's variables: as many for every
 * kind of record, those that fill none too. A ranking, a lasso or a settling that is accepted puts its r there. An
 * exclusion, a lexicographic argument and a refused record leave theirs as they were.
 *
 * Verdicts past the count and rank numbers past n times the count stay. Refusals, in this order, all before any record
 * is judged: those of the loop record (of record CUSHIEDOO_LOOP); 13 with the count of all records, if that is over 32;
 * 7 with the count, if there are fewer verdicts; 7 with n times the count, if there are fewer rank numbers. A refused
 * call changes nothing lent, not one verdict.
 */
cushiedoo_batch cushiedoo_judge_all(const uint8_t *loop, size_t loop_len, const uint8_t *records, size_t records_len,
                                    cushiedoo_verdict *verdicts, size_t verdicts_len, int64_t *ranks, size_t ranks_len)
    CUSHIEDOO_NONNULL;

/*
 * Judges a ranking, long or short, or a lasso and tells how many steps a run from the state can take at most. For a
 * lasso that is promised for runs whose first state follows a step of the stem. Of a settling it tells how many steps at
 * most a run takes before g.x has reached t: t - g.x, or 0 if that is negative. How many follow is not told. Refusals:
 * those of the loop record (kind 5 gives 4), those of the certificate (kinds 3 and 6 give 4), 10, 9, those of the
 * conditions, 11 (of a lasso), in this order.
 */
cushiedoo_bounded cushiedoo_bound(const uint8_t *loop, size_t loop_len, const uint8_t *certificate,
                                  size_t certificate_len, const int64_t *state, size_t state_len) CUSHIEDOO_NONNULL;

#ifdef __cplusplus
}
#endif

#endif
