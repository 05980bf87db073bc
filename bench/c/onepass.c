/*
 * The one-pass C implementation that the archive is measured against: scalar code, nothing unpacked. Each row of the
 * loop is visited once; the visit tests its entries and adds them to the column totals straight from the bytes. Of several
 * certificates at once the loop is tested first and then only added up. It answers as the archive does, on every input.
 */
#include <stdbool.h>
#include <string.h>

#include "cushiedoo.h"

/* Each pass is compiled twice: for a loop whose rows are fresh, that is not tested yet, and for one that has been. */
#define PASS static inline __attribute__((always_inline))

enum { MOST_VARIABLES = 16, MOST_ROWS = 64, MOST_PATHS = 8, MOST_COMPONENTS = 8 };

/* The largest b, d, s0 and t, and the largest entry of a state, either way. */
static const int64_t MOST_RIGHT = 2000000000, MOST_STATE = 1000000;

static inline uint32_t u16_at(const uint8_t *p) { return (uint32_t)p[0] | (uint32_t)p[1] << 8; }

static inline uint32_t u32_at(const uint8_t *p) { return u16_at(p) | u16_at(p + 2) << 16; }

static inline int64_t i16_at(const uint8_t *p) { return (int16_t)u16_at(p); }

static inline int64_t i32_at(const uint8_t *p) { return (int32_t)u32_at(p); }

static inline int entry_bad(int64_t entry) { return (uint64_t)(entry + 30000) > 60000; }

static inline int right_bad(int64_t right) { return (uint64_t)(right + MOST_RIGHT) > (uint64_t)(2 * MOST_RIGHT); }

static inline int direction_bad(int64_t value) { return (uint64_t)(value + 60000) > 120000; }

static inline int multiplier_bad(int64_t value) { return value > 60000; }

static inline int fall_bad(int64_t value) { return value < 1 || value > 1000000; }

static inline int scale_bad(int64_t value) { return value < 1 || value > 60000; }

/* A refusal's number and place; number 0 is none. */
typedef struct {
    uint64_t number, place;
} fault;

static const fault none = {0, 0};

static fault fault_of(uint64_t number, uint64_t place)
{
    fault told = {number, place};
    return told;
}

/* What one pass over both records finds out. */
typedef struct {
    fault loop, certificate, condition;
    uint64_t kind, n;
    int64_t r[MOST_VARIABLES], start, fall;
    uint64_t grade;
    const uint8_t *s; /* where a lasso's s and s0 stand, or a settling's g and t */
} found;

/* The tests of a record's bytes against the L that it states. */
static fault frame(const uint8_t *bytes, size_t len)
{
    if (len < 4) return fault_of(1, len);
    uint64_t length = u32_at(bytes);
    if (length < 2) return fault_of(3, 0);
    if (len < 4 + length) return fault_of(1, len);
    if (len > 4 + length) return fault_of(2, 4 + length);
    return none;
}

static fault loop_frame(const uint8_t *bytes, size_t len, uint64_t *n, uint64_t *m)
{
    fault framed = frame(bytes, len);
    if (framed.number) return framed;
    if (u16_at(bytes + 4) != 1) return fault_of(4, 4);
    if (len < 10) return fault_of(3, 0);
    *n = u16_at(bytes + 6);
    *m = u16_at(bytes + 8);
    if (*n < 1 || *n > MOST_VARIABLES) return fault_of(5, 6);
    if (*m > MOST_ROWS) return fault_of(5, 8);
    if (len != 10 + *m * (4 * *n + 4)) return fault_of(3, 0);
    return none;
}

static fault certificate_frame(const uint8_t *bytes, size_t len, bool exclusions, uint64_t n, uint64_t m,
                               uint64_t *kind, uint64_t *ms)
{
    fault framed = frame(bytes, len);
    if (framed.number) return framed;
    *kind = u16_at(bytes + 4);
    *ms = 0;
    switch (*kind) {
    case 2: return len == 6 + 4 * m ? none : fault_of(3, 0);
    case 7:
        if (len < 8) return fault_of(3, 0);
        if (u16_at(bytes + 6) > MOST_ROWS) return fault_of(5, 6);
        return len == 8 + 6 * u16_at(bytes + 6) ? none : fault_of(3, 0);
    case 3:
        if (!exclusions) return fault_of(4, 4);
        return len == 8 + 12 * n ? none : fault_of(3, 0);
    case 4:
        if (len < 8) return fault_of(3, 0);
        *ms = u16_at(bytes + 6);
        if (*ms > MOST_ROWS) return fault_of(5, 6);
        return len == 22 + 2 * n + *ms * (4 * n + 6) + 6 * m ? none : fault_of(3, 0);
    case 8: return len == 16 + 2 * n + 6 * m ? none : fault_of(3, 0);
    default: return fault_of(4, 4);
    }
}

/* The first value of a row that is out of range; called when there is one. */
static fault row_fault(const uint8_t *row, uint64_t n, uint64_t place)
{
    for (uint64_t j = 0; j < 2 * n; j++)
        if (entry_bad(i16_at(row + 2 * j))) return fault_of(6, place + 2 * j);
    return fault_of(6, place + 4 * n);
}

/* The first of some multipliers that is out of range. */
static fault multiplier_fault(const uint8_t *bytes, uint64_t place, uint64_t count)
{
    for (uint64_t i = 0; i < count; i++)
        if (multiplier_bad(u16_at(bytes + place + 2 * i))) return fault_of(6, place + 2 * i);
    return none;
}

/* The first row with a value out of range. */
static fault rows_fault(const uint8_t *bytes, uint64_t place, uint64_t n, uint64_t count)
{
    for (uint64_t i = 0; i < count; i++, place += 4 * n + 4) {
        int bad = right_bad(i32_at(bytes + place + 4 * n));
        for (uint64_t j = 0; j < 2 * n; j++) bad |= entry_bad(i16_at(bytes + place + 2 * j));
        if (bad) return row_fault(bytes + place, n, place);
    }
    return none;
}

/* The column totals of a ranking. */
typedef struct {
    int64_t ya_next[MOST_VARIABLES], difference[MOST_VARIABLES], both[MOST_VARIABLES], za_next[MOST_VARIABLES];
    int64_t yb, zb;
} ranking_totals;

/* Adds one row with its weights; tells whether a value of it is out of range, if it has not been tested before. */
static inline int add_row(ranking_totals *totals, const uint8_t *row, uint64_t n, int64_t y, int64_t z, bool fresh)
{
    int bad = 0;
    for (uint64_t j = 0; j < n; j++) {
        int64_t now = i16_at(row + 2 * j), next = i16_at(row + 2 * n + 2 * j);
        if (fresh) bad |= entry_bad(now) | entry_bad(next);
        totals->ya_next[j] += y * next;
        totals->difference[j] += (y - z) * now;
        totals->both[j] += z * (now + next);
        totals->za_next[j] += z * next;
    }
    int64_t right = i32_at(row + 4 * n);
    totals->yb += y * right;
    totals->zb += z * right;
    return fresh && (bad | right_bad(right));
}

static void clear_totals(ranking_totals *totals, uint64_t n)
{
    for (uint64_t j = 0; j < n; j++)
        totals->ya_next[j] = totals->difference[j] = totals->both[j] = totals->za_next[j] = 0;
    totals->yb = totals->zb = 0;
}

/* The first column whose total is not 0. */
static fault column_fault(uint64_t number, const int64_t *totals, uint64_t n)
{
    for (uint64_t j = 0; j < n; j++)
        if (totals[j]) return fault_of(number, j);
    return none;
}

/* The first of a ranking's conditions that fails. */
static fault ranking_fault(const ranking_totals *totals, uint64_t n)
{
    int64_t any = 0;
    for (uint64_t j = 0; j < n; j++) any |= totals->ya_next[j] | totals->difference[j] | totals->both[j];
    if (any) {
        fault told = column_fault(21, totals->ya_next, n);
        if (!told.number) told = column_fault(22, totals->difference, n);
        return told.number ? told : column_fault(23, totals->both, n);
    }
    return totals->zb < 0 ? none : fault_of(24, 0);
}

static void conclude(found *told, const ranking_totals *totals)
{
    told->condition = ranking_fault(totals, told->n);
    for (uint64_t j = 0; j < told->n; j++) told->r[j] = totals->za_next[j];
    told->start = -totals->yb;
    told->fall = -totals->zb;
}

PASS void pass_ranking(found *told, const uint8_t *loop, uint64_t m, const uint8_t *certificate, bool fresh)
{
    uint64_t n = told->n, width = 4 * n + 4;
    int weights_bad = 0;
    ranking_totals totals;
    clear_totals(&totals, n);
    for (uint64_t i = 0; i < m; i++) {
        const uint8_t *row = loop + 10 + i * width;
        int64_t y = u16_at(certificate + 6 + 2 * i), z = u16_at(certificate + 6 + 2 * m + 2 * i);
        weights_bad |= multiplier_bad(y) | multiplier_bad(z);
        if (add_row(&totals, row, n, y, z, fresh)) {
            told->loop = row_fault(row, n, 10 + i * width);
            return;
        }
    }
    if (weights_bad) told->certificate = multiplier_fault(certificate, 6, 2 * m);
    conclude(told, &totals);
}

/* The first triple of a short ranking that is not in order or has no weight, then the first multiplier out of range. */
static fault triples_fault(const uint8_t *bytes, uint64_t m)
{
    uint64_t count = u16_at(bytes + 6), least = 0;
    for (uint64_t i = 0, place = 8; i < count; i++, place += 6) {
        uint64_t row = u16_at(bytes + place);
        if (row < least || row >= m) return fault_of(15, place);
        if (!u32_at(bytes + place + 2)) return fault_of(16, place);
        least = row + 1;
    }
    for (uint64_t i = 0, place = 10; i < count; i++, place += 6) {
        if (multiplier_bad(u16_at(bytes + place))) return fault_of(6, place);
        if (multiplier_bad(u16_at(bytes + place + 2))) return fault_of(6, place + 2);
    }
    return none;
}

/* Only rows that have weight are added. */
PASS void pass_short(found *told, const uint8_t *loop, uint64_t m, const uint8_t *certificate, bool fresh)
{
    uint64_t n = told->n, width = 4 * n + 4, count = u16_at(certificate + 6);
    ranking_totals totals;
    if (fresh) told->loop = rows_fault(loop, 10, n, m);
    if (told->loop.number) return;
    told->certificate = triples_fault(certificate, m);
    if (told->certificate.number) return;
    clear_totals(&totals, n);
    for (uint64_t i = 0; i < count; i++) {
        const uint8_t *triple = certificate + 8 + 6 * i;
        add_row(&totals, loop + 10 + u16_at(triple) * width, n, u16_at(triple + 2), u16_at(triple + 4), false);
    }
    conclude(told, &totals);
}

static fault exclusion_fault(const uint8_t *certificate, uint64_t n)
{
    if (scale_bad(u16_at(certificate + 6))) return fault_of(6, 6);
    for (uint64_t j = 0; j < 3 * n; j++)
        if (direction_bad(i32_at(certificate + 8 + 4 * j))) return fault_of(6, 8 + 4 * j);
    return none;
}

/* Whole exactly when q divides every entry of V and W, which stand one after the other; q = 1 needs no division. */
static uint64_t grade_of(int64_t q, const uint8_t *v, uint64_t n)
{
    if (q == 1) return CUSHIEDOO_WHOLE;
    for (uint64_t j = 0; j < 2 * n; j++)
        if (i32_at(v + 4 * j) % q != 0) return CUSHIEDOO_FRACTIONS;
    return CUSHIEDOO_WHOLE;
}

PASS void pass_exclusion(found *told, const uint8_t *loop, uint64_t m, const uint8_t *certificate, bool fresh)
{
    uint64_t n = told->n, width = 4 * n + 4;
    int64_t q = u16_at(certificate + 6);
    const uint8_t *u = certificate + 8, *v = u + 4 * n, *w = v + 4 * n;
    uint64_t left = m, missed = m; /* the first row that the direction leaves, and that the step does not meet */
    told->certificate = exclusion_fault(certificate, n);
    if (told->certificate.number) {
        if (fresh) told->loop = rows_fault(loop, 10, n, m);
        return;
    }
    for (uint64_t i = 0; i < m; i++) {
        const uint8_t *row = loop + 10 + i * width;
        int64_t direction = 0, step = 0, right = i32_at(row + 4 * n);
        int bad = fresh && right_bad(right);
        for (uint64_t j = 0; j < n; j++) {
            int64_t now = i16_at(row + 2 * j), next = i16_at(row + 2 * n + 2 * j);
            int64_t along = i32_at(v + 4 * j), to = i32_at(w + 4 * j);
            if (fresh) bad |= entry_bad(now) | entry_bad(next);
            direction += now * along + next * i32_at(u + 4 * j);
            step += now * (to - along) + next * to;
        }
        if (bad) {
            told->loop = row_fault(row, n, 10 + i * width);
            return;
        }
        if (direction > 0 && left == m) left = i;
        if (step > q * right && missed == m) missed = i;
    }
    if (left < m)
        told->condition = fault_of(31, left);
    else if (missed < m)
        told->condition = fault_of(32, missed);
    else
        told->grade = grade_of(q, v, n);
}

/* Where the parts of a lasso stand. */
typedef struct {
    uint64_t ms, s, s0, k, t, k2, h, h0, y, z;
} lasso_places;

static lasso_places places_of(uint64_t n, uint64_t m, uint64_t ms)
{
    lasso_places at;
    at.ms = ms;
    at.s = 8 + ms * (4 * n + 4);
    at.s0 = at.s + 2 * n;
    at.k = at.s0 + 4;
    at.t = at.k + 2;
    at.k2 = at.t + 2 * ms;
    at.h = at.k2 + 2;
    at.h0 = at.h + 2 * m;
    at.y = at.h0 + 2;
    at.z = at.y + 2 * (m + 1);
    return at;
}

/* The first value after the stem rows that is out of range. */
static fault lasso_fault(const uint8_t *bytes, const lasso_places *at, uint64_t n, uint64_t m)
{
    fault told;
    for (uint64_t j = 0; j < n; j++)
        if (entry_bad(i16_at(bytes + at->s + 2 * j))) return fault_of(6, at->s + 2 * j);
    if (right_bad(i32_at(bytes + at->s0))) return fault_of(6, at->s0);
    if (scale_bad(u16_at(bytes + at->k))) return fault_of(6, at->k);
    told = multiplier_fault(bytes, at->t, at->ms);
    if (told.number) return told;
    if (scale_bad(u16_at(bytes + at->k2))) return fault_of(6, at->k2);
    return multiplier_fault(bytes, at->h, m + 1 + 2 * (m + 1));
}

/* The column totals of one weighted list of rows. */
typedef struct {
    int64_t now[MOST_VARIABLES], next[MOST_VARIABLES], right;
} part_totals;

static void clear_part(part_totals *part, uint64_t n)
{
    for (uint64_t j = 0; j < n; j++) part->now[j] = part->next[j] = 0;
    part->right = 0;
}

/* Where the totals are not (h s, -k s) and at most the limit: three conditions, numbered from the first. */
static fault part_fault(uint64_t first, part_totals *part, const uint8_t *s, uint64_t n, int64_t k, int64_t h,
                        int64_t limit)
{
    int64_t any = 0;
    for (uint64_t j = 0; j < n; j++) {
        int64_t entry = i16_at(s + 2 * j);
        part->now[j] -= h * entry;
        part->next[j] += k * entry;
        any |= part->now[j] | part->next[j];
    }
    if (any) {
        fault told = column_fault(first, part->now, n);
        return told.number ? told : column_fault(first + 1, part->next, n);
    }
    return part->right <= limit ? none : fault_of(first + 2, 0);
}

/* The pass over the stem: TB, TB', Td. */
static fault pass_stem(part_totals *part, const uint8_t *certificate, const lasso_places *at, uint64_t n)
{
    uint64_t width = 4 * n + 4;
    clear_part(part, n);
    for (uint64_t i = 0; i < at->ms; i++) {
        const uint8_t *row = certificate + 8 + i * width;
        int64_t t = u16_at(certificate + at->t + 2 * i), right = i32_at(row + 4 * n);
        int bad = right_bad(right);
        for (uint64_t j = 0; j < n; j++) {
            int64_t now = i16_at(row + 2 * j), next = i16_at(row + 2 * n + 2 * j);
            bad |= entry_bad(now) | entry_bad(next);
            part->now[j] += t * now;
            part->next[j] += t * next;
        }
        part->right += t * right;
        if (bad) return row_fault(row, n, 8 + i * width);
    }
    return none;
}

/* Adds one loop row to the ranking's totals and to those of "kept", or of the rise. */
static inline int add_kept_row(ranking_totals *totals, part_totals *kept, const uint8_t *row, uint64_t n, int64_t h,
                                int64_t y, int64_t z, bool fresh)
{
    int bad = 0;
    for (uint64_t j = 0; j < n; j++) {
        int64_t now = i16_at(row + 2 * j), next = i16_at(row + 2 * n + 2 * j);
        if (fresh) bad |= entry_bad(now) | entry_bad(next);
        kept->now[j] += h * now;
        kept->next[j] += h * next;
        totals->ya_next[j] += y * next;
        totals->difference[j] += (y - z) * now;
        totals->both[j] += z * (now + next);
        totals->za_next[j] += z * next;
    }
    int64_t right = i32_at(row + 4 * n);
    kept->right += h * right;
    totals->yb += y * right;
    totals->zb += z * right;
    return fresh && (bad | right_bad(right));
}

/* Adds the row -s.x <= s0 with its weights. */
static void add_last_row(ranking_totals *totals, const uint8_t *s, int64_t s0, uint64_t n, int64_t y, int64_t z)
{
    for (uint64_t j = 0; j < n; j++) {
        int64_t entry = i16_at(s + 2 * j);
        totals->difference[j] -= (y - z) * entry;
        totals->both[j] -= z * entry;
    }
    totals->yb += y * s0;
    totals->zb += z * s0;
}

PASS void pass_lasso(found *told, const uint8_t *loop, uint64_t m, const uint8_t *certificate, uint64_t ms,
                     bool fresh)
{
    uint64_t n = told->n, width = 4 * n + 4;
    lasso_places at = places_of(n, m, ms);
    const uint8_t *s = certificate + at.s;
    part_totals kept, stem;
    ranking_totals totals;
    clear_part(&kept, n);
    clear_totals(&totals, n);
    for (uint64_t i = 0; i < m; i++) {
        const uint8_t *row = loop + 10 + i * width;
        int64_t h = u16_at(certificate + at.h + 2 * i), y = u16_at(certificate + at.y + 2 * i);
        if (add_kept_row(&totals, &kept, row, n, h, y, u16_at(certificate + at.z + 2 * i), fresh)) {
            told->loop = row_fault(row, n, 10 + i * width);
            return;
        }
    }
    told->certificate = pass_stem(&stem, certificate, &at, n);
    if (told->certificate.number) return;
    told->certificate = lasso_fault(certificate, &at, n, m);
    if (told->certificate.number) return;
    int64_t s0 = i32_at(certificate + at.s0), k = u16_at(certificate + at.k);
    int64_t k2 = u16_at(certificate + at.k2), h0 = u16_at(certificate + at.h0);
    add_last_row(&totals, s, s0, n, u16_at(certificate + at.y + 2 * m), u16_at(certificate + at.z + 2 * m));
    told->s = s;
    told->condition = part_fault(41, &stem, s, n, k, 0, k * s0);
    if (told->condition.number) return;
    told->condition = part_fault(44, &kept, s, n, k2, h0, (k2 - h0) * s0);
    if (told->condition.number) return;
    conclude(told, &totals);
}

/* The first value of a settling that is out of range. */
static fault settling_fault(const uint8_t *bytes, uint64_t n, uint64_t m)
{
    uint64_t t = 6 + 2 * n, k = t + 4;
    for (uint64_t j = 0; j < n; j++)
        if (entry_bad(i16_at(bytes + 6 + 2 * j))) return fault_of(6, 6 + 2 * j);
    if (right_bad(i32_at(bytes + t))) return fault_of(6, t);
    if (scale_bad(u16_at(bytes + k))) return fault_of(6, k);
    return multiplier_fault(bytes, k + 2, m + 2 * (m + 1));
}

PASS void pass_settling(found *told, const uint8_t *loop, uint64_t m, const uint8_t *certificate, bool fresh)
{
    uint64_t n = told->n, width = 4 * n + 4;
    const uint8_t *g = certificate + 6, *e = g + 2 * n + 6, *y = e + 2 * m, *z = y + 2 * (m + 1);
    part_totals rise;
    ranking_totals totals;
    clear_part(&rise, n);
    clear_totals(&totals, n);
    for (uint64_t i = 0; i < m; i++) {
        const uint8_t *row = loop + 10 + i * width;
        if (add_kept_row(&totals, &rise, row, n, u16_at(e + 2 * i), u16_at(y + 2 * i), u16_at(z + 2 * i), fresh)) {
            told->loop = row_fault(row, n, 10 + i * width);
            return;
        }
    }
    told->certificate = settling_fault(certificate, n, m);
    if (told->certificate.number) return;
    int64_t t = i32_at(g + 2 * n), k = u16_at(g + 2 * n + 4);
    add_last_row(&totals, g, -t, n, u16_at(y + 2 * m), u16_at(z + 2 * m));
    told->s = g;
    told->condition = part_fault(61, &rise, g, n, k, k, -k);
    if (told->condition.number) return;
    conclude(told, &totals);
}

/* m of a path, and the number of its component, straight from the counts. */
static inline uint64_t rows_of(const uint8_t *loop, uint64_t path) { return u16_at(loop + 10 + 2 * path); }

static inline uint64_t component_of(const uint8_t *certificate, uint64_t path)
{
    return u16_at(certificate + 8 + 2 * path);
}

/* The tests of a loop of several paths up to its rows; tells n, the paths and all rows. */
static fault paths_frame(const uint8_t *bytes, size_t len, uint64_t *n, uint64_t *paths, uint64_t *rows)
{
    fault framed = frame(bytes, len);
    if (framed.number) return framed;
    if (len < 10) return fault_of(3, 0);
    *n = u16_at(bytes + 6);
    *paths = u16_at(bytes + 8);
    if (*n < 1 || *n > MOST_VARIABLES) return fault_of(5, 6);
    if (*paths < 1 || *paths > MOST_PATHS) return fault_of(5, 8);
    if (len < 10 + 2 * *paths) return fault_of(3, 0);
    *rows = 0;
    for (uint64_t path = 0; path < *paths; path++) {
        if (rows_of(bytes, path) > MOST_ROWS) return fault_of(5, 10 + 2 * path);
        *rows += rows_of(bytes, path);
    }
    return len == 10 + 2 * *paths + *rows * (4 * *n + 4) ? none : fault_of(3, 0);
}

/* The tests of a lexicographic argument up to its components. */
static fault argument_frame(const uint8_t *bytes, size_t len, const uint8_t *loop, uint64_t n, uint64_t paths)
{
    fault framed = frame(bytes, len);
    if (framed.number) return framed;
    if (u16_at(bytes + 4) != CUSHIEDOO_LEXICOGRAPHIC) return fault_of(4, 4);
    if (len < 8) return fault_of(3, 0);
    uint64_t components = u16_at(bytes + 6), multipliers = 0;
    if (components < 1 || components > MOST_COMPONENTS) return fault_of(5, 6);
    if (len < 8 + 2 * paths) return fault_of(3, 0);
    for (uint64_t path = 0; path < paths; path++) {
        if (component_of(bytes, path) >= components) return fault_of(14, 8 + 2 * path);
        multipliers += rows_of(loop, path) * (2 + component_of(bytes, path));
    }
    return len == 8 + 2 * paths + 4 * components * (n + 2) + 2 * multipliers ? none : fault_of(3, 0);
}

/* The first number of the components, or the first multiplier behind them, that is out of range. */
static fault argument_fault(const uint8_t *bytes, size_t len, uint64_t n, uint64_t paths)
{
    uint64_t place = 8 + 2 * paths;
    for (uint64_t i = 0; i < u16_at(bytes + 6); i++, place += 8) {
        for (uint64_t j = 0; j < n; j++, place += 4)
            if (direction_bad(i32_at(bytes + place))) return fault_of(6, place);
        if (right_bad(i32_at(bytes + place))) return fault_of(6, place);
        if (fall_bad(i32_at(bytes + place + 4))) return fault_of(6, place + 4);
    }
    return multiplier_fault(bytes, place, (len - place) / 2);
}

/* Adds one row, with its weight in each of a path's lists of m weights, to the totals of that list. */
static inline int add_path_row(part_totals *totals, const uint8_t *row, uint64_t n, const uint8_t *weights, uint64_t m,
                               uint64_t lists, bool fresh)
{
    int64_t right = i32_at(row + 4 * n);
    int bad = fresh && right_bad(right);
    if (fresh)
        for (uint64_t j = 0; j < 2 * n; j++) bad |= entry_bad(i16_at(row + 2 * j));
    for (uint64_t k = 0; k < lists; k++, totals++, weights += 2 * m) {
        int64_t weight = u16_at(weights);
        for (uint64_t j = 0; j < n; j++) {
            totals->now[j] += weight * i16_at(row + 2 * j);
            totals->next[j] += weight * i16_at(row + 2 * n + 2 * j);
        }
        totals->right += weight * right;
    }
    return bad;
}

/* Whether the totals are -r and next times r, and at most the limit. */
static bool weighs(const part_totals *totals, const uint8_t *r, uint64_t n, int64_t next, int64_t limit)
{
    int64_t any = 0;
    for (uint64_t j = 0; j < n; j++) {
        int64_t entry = i32_at(r + 4 * j);
        any |= (totals->now[j] + entry) | (totals->next[j] - next * entry);
    }
    return !any && totals->right <= limit;
}

/* The first of a path's conditions that fails: bounded, ranking, and unaffecting for each earlier component. */
static fault path_fault(const part_totals *totals, const uint8_t *components, uint64_t n, uint64_t own, uint64_t path)
{
    uint64_t width = 4 * n + 8;
    const uint8_t *r = components + own * width;
    if (!weighs(totals, r, n, 0, -i32_at(r + 4 * n))) return fault_of(51, path);
    if (!weighs(totals + 1, r, n, 1, -i32_at(r + 4 * n + 4))) return fault_of(52, path);
    for (uint64_t i = 0; i < own; i++)
        if (!weighs(totals + 2 + i, components + i * width, n, 1, 0)) return fault_of(53, path);
    return none;
}

/* The pass over an argument and the rows of all paths, of a loop whose counts are sound. */
PASS void pass_argument(found *told, const uint8_t *loop, uint64_t paths, uint64_t rows, const uint8_t *certificate,
                        size_t certificate_len, bool fresh)
{
    uint64_t n = told->n, width = 4 * n + 4, place = 10 + 2 * paths;
    told->kind = CUSHIEDOO_LEXICOGRAPHIC;
    told->certificate = argument_frame(certificate, certificate_len, loop, n, paths);
    if (told->certificate.number) {
        if (fresh) told->loop = rows_fault(loop, place, n, rows);
        return;
    }
    const uint8_t *components = certificate + 8 + 2 * paths;
    const uint8_t *weights = components + u16_at(certificate + 6) * (4 * n + 8);
    part_totals totals[2 + MOST_COMPONENTS - 1];
    for (uint64_t path = 0; path < paths; path++) {
        uint64_t m = rows_of(loop, path), own = component_of(certificate, path), lists = 2 + own;
        if (told->condition.number) lists = 0;
        for (uint64_t k = 0; k < lists; k++) clear_part(totals + k, n);
        for (uint64_t i = 0; i < m; i++, place += width)
            if (add_path_row(totals, loop + place, n, weights + 2 * i, m, lists, fresh)) {
                told->loop = row_fault(loop + place, n, place);
                return;
            }
        if (lists) told->condition = path_fault(totals, components, n, own, path);
        weights += 2 * m * (2 + own);
    }
    told->certificate = argument_fault(certificate, certificate_len, n, paths);
}

/* The pass over a certificate and the rows of a loop whose counts are sound. */
PASS void pass_certificate(found *told, const uint8_t *loop, uint64_t m, const uint8_t *certificate,
                           size_t certificate_len, bool judging, bool fresh)
{
    uint64_t ms = 0;
    told->certificate = certificate_frame(certificate, certificate_len, judging, told->n, m, &told->kind, &ms);
    if (told->certificate.number) {
        if (fresh) told->loop = rows_fault(loop, 10, told->n, m);
        return;
    }
    switch (told->kind) {
    case 2: pass_ranking(told, loop, m, certificate, fresh); break;
    case 3: pass_exclusion(told, loop, m, certificate, fresh); break;
    case 7: pass_short(told, loop, m, certificate, fresh); break;
    case 8: pass_settling(told, loop, m, certificate, fresh); break;
    default: pass_lasso(told, loop, m, certificate, ms, fresh);
    }
}

static inline bool has_paths(const uint8_t *loop, size_t loop_len) { return loop_len >= 6 && u16_at(loop + 4) == 5; }

static void pass(found *told, const uint8_t *loop, size_t loop_len, const uint8_t *certificate, size_t certificate_len,
                 bool judging)
{
    uint64_t m = 0, paths = 0, rows = 0;
    told->certificate = told->condition = none;
    if (judging && has_paths(loop, loop_len)) {
        told->loop = paths_frame(loop, loop_len, &told->n, &paths, &rows);
        if (!told->loop.number) pass_argument(told, loop, paths, rows, certificate, certificate_len, true);
        return;
    }
    told->loop = loop_frame(loop, loop_len, &told->n, &m);
    if (!told->loop.number) pass_certificate(told, loop, m, certificate, certificate_len, judging, true);
}

static cushiedoo_verdict refused(uint64_t number, uint64_t place, uint64_t record)
{
    cushiedoo_verdict verdict = {0, 0, 0, 0, 0, 0, 0};
    verdict.number = number;
    verdict.place = place;
    verdict.record = record;
    return verdict;
}

static cushiedoo_verdict accepted(const found *told)
{
    cushiedoo_verdict verdict = {0, 0, 0, 0, 0, 0, 0};
    verdict.outcome = told->kind == CUSHIEDOO_KIND_SHORT_RANKING ? CUSHIEDOO_RANKING : told->kind;
    if (told->kind == CUSHIEDOO_EXCLUSION) {
        verdict.grade = told->grade;
    } else if (told->kind != CUSHIEDOO_LEXICOGRAPHIC) {
        verdict.start = told->start;
        verdict.fall = told->fall;
    }
    return verdict;
}

/* What judging tells of what was found. */
static inline cushiedoo_verdict verdict_on(const found *told, int64_t *rank, size_t rank_len)
{
    if (told->loop.number) return refused(told->loop.number, told->loop.place, 1);
    if (told->certificate.number) return refused(told->certificate.number, told->certificate.place, 2);
    bool ranked = told->kind != CUSHIEDOO_EXCLUSION && told->kind != CUSHIEDOO_LEXICOGRAPHIC;
    if (ranked && rank_len < told->n) return refused(7, told->n, 0);
    if (told->condition.number) return refused(told->condition.number, told->condition.place, 2);
    if (ranked) memcpy(rank, told->r, told->n * sizeof *rank);
    return accepted(told);
}

cushiedoo_verdict onepass_judge(const uint8_t *loop, size_t loop_len, const uint8_t *certificate,
                                size_t certificate_len, int64_t *rank, size_t rank_len)
{
    found told;
    pass(&told, loop, loop_len, certificate, certificate_len, true);
    return verdict_on(&told, rank, rank_len);
}

/* How many bytes the first record takes: 4 + L, or all if it can't be cut off so. */
static size_t taken(const uint8_t *bytes, size_t len)
{
    if (len < 4) return len;
    size_t length = u32_at(bytes);
    return length < 2 || len < 4 + length ? len : 4 + length;
}

static cushiedoo_batch batch_of(uint64_t number, uint64_t place, uint64_t record, uint64_t count)
{
    cushiedoo_batch batch = {number, place, record, count};
    return batch;
}

cushiedoo_batch onepass_judge_all(const uint8_t *loop, size_t loop_len, const uint8_t *records, size_t records_len,
                                  cushiedoo_verdict *verdicts, size_t verdicts_len, int64_t *ranks, size_t ranks_len)
{
    uint64_t n = 0, m = 0, paths = 0, rows = 0, count = 0;
    bool of_paths = has_paths(loop, loop_len);
    fault told = of_paths ? paths_frame(loop, loop_len, &n, &paths, &rows) : loop_frame(loop, loop_len, &n, &m);
    if (!told.number) told = of_paths ? rows_fault(loop, 10 + 2 * paths, n, rows) : rows_fault(loop, 10, n, m);
    if (told.number) return batch_of(told.number, told.place, 1, 0);
    for (size_t from = 0; from < records_len; count++) from += taken(records + from, records_len - from);
    if (count > CUSHIEDOO_MOST_RECORDS) return batch_of(13, count, 0, 0);
    if (verdicts_len < count) return batch_of(7, count, 0, 0);
    if (ranks_len < n * count) return batch_of(7, n * count, 0, 0);
    for (uint64_t i = 0; i < count; i++) {
        size_t length = taken(records, records_len);
        found one;
        one.n = n;
        one.loop = one.certificate = one.condition = none;
        if (of_paths)
            pass_argument(&one, loop, paths, rows, records, length, false);
        else
            pass_certificate(&one, loop, m, records, length, true, false);
        verdicts[i] = verdict_on(&one, ranks + n * i, n);
        records += length;
        records_len -= length;
    }
    return batch_of(0, 0, 0, count);
}

/* The tests of a ranking's record of the kind that is wanted, with n and m as arguments, up to its multipliers. */
static fault ranking_frame(const uint8_t *bytes, size_t len, uint64_t wanted, uint64_t n, uint64_t m)
{
    uint64_t kind = 0, ms = 0;
    fault framed = frame(bytes, len);
    if (framed.number) return framed;
    if (u16_at(bytes + 4) != wanted) return fault_of(4, 4);
    if (n < 1 || n > MOST_VARIABLES || m > MOST_ROWS) return fault_of(5, 0);
    return certificate_frame(bytes, len, false, n, m, &kind, &ms);
}

static inline void put_u16(uint8_t *p, uint64_t value)
{
    p[0] = (uint8_t)value;
    p[1] = (uint8_t)(value >> 8);
}

static inline void put_head(uint8_t *p, uint64_t bytes, uint64_t kind)
{
    put_u16(p, (bytes - 4) & 0xffff);
    put_u16(p + 2, (bytes - 4) >> 16);
    put_u16(p + 4, kind);
}

static cushiedoo_writing written(uint64_t number, uint64_t place, uint64_t bytes)
{
    cushiedoo_writing writing = {number, place, bytes};
    return writing;
}

cushiedoo_writing onepass_shorten(const uint8_t *ranking, size_t ranking_len, uint64_t n, uint64_t m, uint8_t *room,
                                  size_t room_len)
{
    uint64_t count = 0;
    const uint8_t *y = ranking + 6, *z = y + 2 * m;
    fault told = ranking_frame(ranking, ranking_len, 2, n, m);
    if (!told.number) told = multiplier_fault(ranking, 6, 2 * m);
    if (told.number) return written(told.number, told.place, 0);
    for (uint64_t i = 0; i < m; i++) count += (u16_at(y + 2 * i) | u16_at(z + 2 * i)) != 0;
    uint64_t bytes = 8 + 6 * count;
    if (room_len < bytes) return written(7, bytes, 0);
    put_head(room, bytes, 7);
    put_u16(room + 6, count);
    uint8_t *triple = room + 8;
    for (uint64_t i = 0; i < m; i++) {
        if (!(u16_at(y + 2 * i) | u16_at(z + 2 * i))) continue;
        put_u16(triple, i);
        memcpy(triple + 2, y + 2 * i, 2);
        memcpy(triple + 4, z + 2 * i, 2);
        triple += 6;
    }
    return written(0, 0, bytes);
}

cushiedoo_writing onepass_lengthen(const uint8_t *ranking, size_t ranking_len, uint64_t n, uint64_t m, uint8_t *room,
                                   size_t room_len)
{
    uint64_t bytes = 6 + 4 * m;
    fault told = ranking_frame(ranking, ranking_len, 7, n, m);
    if (!told.number) told = triples_fault(ranking, m);
    if (told.number) return written(told.number, told.place, 0);
    if (room_len < bytes) return written(7, bytes, 0);
    put_head(room, bytes, 2);
    memset(room + 6, 0, 4 * m);
    for (uint64_t i = 0; i < u16_at(ranking + 6); i++) {
        const uint8_t *triple = ranking + 8 + 6 * i;
        memcpy(room + 6 + 2 * u16_at(triple), triple + 2, 2);
        memcpy(room + 6 + 2 * m + 2 * u16_at(triple), triple + 4, 2);
    }
    return written(0, 0, bytes);
}

static cushiedoo_bounded unbounded(cushiedoo_verdict verdict)
{
    cushiedoo_bounded bounded;
    memcpy(&bounded, &verdict, sizeof verdict);
    bounded.bound = 0;
    return bounded;
}

/* s.x of a lasso, g.x of a settling. */
static int64_t value_at(const uint8_t *s, const int64_t *state, uint64_t n)
{
    int64_t sum = 0;
    for (uint64_t j = 0; j < n; j++) sum += i16_at(s + 2 * j) * state[j];
    return sum;
}

/* Whether s.x + s0 >= 0. */
static bool invariant_holds(const uint8_t *s, const int64_t *state, uint64_t n)
{
    return value_at(s, state, n) + i32_at(s + 2 * n) >= 0;
}

/* t - g.x, or 0 if that is negative. */
static uint64_t steps_to_threshold(const uint8_t *g, const int64_t *state, uint64_t n)
{
    int64_t missing = i32_at(g + 2 * n) - value_at(g, state, n);
    return missing < 0 ? 0 : (uint64_t)missing;
}

static uint64_t bound_at(const found *told, const int64_t *state)
{
    int64_t over = -told->start;
    for (uint64_t j = 0; j < told->n; j++) over += told->r[j] * state[j];
    return over < 0 ? 0 : (uint64_t)(over / told->fall) + 1;
}

cushiedoo_bounded onepass_bound(const uint8_t *loop, size_t loop_len, const uint8_t *certificate,
                                size_t certificate_len, const int64_t *state, size_t state_len)
{
    found told;
    cushiedoo_bounded bounded;
    pass(&told, loop, loop_len, certificate, certificate_len, false);
    if (told.loop.number) return unbounded(refused(told.loop.number, told.loop.place, 1));
    if (told.certificate.number) return unbounded(refused(told.certificate.number, told.certificate.place, 2));
    if (state_len != told.n) return unbounded(refused(10, state_len, 0));
    for (uint64_t j = 0; j < told.n; j++)
        if (state[j] < -MOST_STATE || state[j] > MOST_STATE) return unbounded(refused(9, j, 0));
    if (told.condition.number) return unbounded(refused(told.condition.number, told.condition.place, 2));
    if (told.kind == CUSHIEDOO_LASSO && !invariant_holds(told.s, state, told.n)) return unbounded(refused(11, 0, 2));
    bounded = unbounded(accepted(&told));
    bounded.bound = told.kind == CUSHIEDOO_SETTLING ? steps_to_threshold(told.s, state, told.n) : bound_at(&told, state);
    return bounded;
}
