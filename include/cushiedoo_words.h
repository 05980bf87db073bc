/*
 * The numbers of Cushiedoo's answers in words, for C callers who print them for people.
 *
 * No call of the archive needs this file, and it decides nothing. Every function gives a text that lasts and is never
 * null. A line can be put together like this:
 *
 *     printf("refused %d, place %d (%s), in %s: %s\n", (int)verdict.number, (int)verdict.place,
 *            cushiedoo_place_words(verdict.number), cushiedoo_record_words(verdict.record),
 *            cushiedoo_words(verdict.number));
 *
 * which prints: refused 22, place 1 (column, from 0), in the certificate: (Y - Z)A is not 0
 *
 * The letters are those of docs/FORMAT.md.
 */
#ifndef CUSHIEDOO_WORDS_H
#define CUSHIEDOO_WORDS_H

#include "cushiedoo.h"

/* What the number of a refusal means. */
static inline const char *cushiedoo_words(uint64_t number)
{
    switch (number) {
    case 0: return "done";
    case 1: return "bytes end early";
    case 2: return "bytes after the record";
    case 3: return "L is below 2, too small for the counts, or not that of the counts";
    case 4: return "kind not wanted here";
    case 5: return "count out of range";
    case 6: return "value out of range, the first in layout order";
    case 7: return "room too small";
    case 8: return "a condition fails (no longer given)";
    case 9: return "state entry out of range, the first";
    case 10: return "state doesn't have n entries";
    case 11: return "lasso state outside the invariant";
    case 12: return "value list of the wrong length";
    case 13: return "more than 32 records";
    case 14: return "component number that doesn't exist, the first";
    case 15: return "row of a short ranking not below m, or not above the row before it";
    case 16: return "Y and Z of a short ranking's row are both zero";
    case 21: return "YA' is not 0";
    case 22: return "(Y - Z)A is not 0";
    case 23: return "Z(A + A') is not 0";
    case 24: return "Zb is not below 0";
    case 31: return "A.V + A'.U is above 0: the direction leaves a row";
    case 32: return "A.(W - V) + A'.W is above q b: the step does not meet a row";
    case 41: return "TB is not 0";
    case 42: return "TB' is not -k s";
    case 43: return "Td is above k s0: the invariant is not started";
    case 44: return "HA - h0 s is not 0";
    case 45: return "HA' is not -k2 s";
    case 46: return "Hb + h0 s0 is above k2 s0: the invariant is not kept";
    case 51: return "bounded: the weighted rows do not sum to -r.x, or their right sides to more than -start";
    case 52: return "ranking: the weighted rows do not sum to -r.x + r.x', or their right sides to more than -fall";
    case 53: return "unaffecting: the weighted rows do not sum to -r.x + r.x' of an earlier component, or their right "
                    "sides to more than 0";
    case 61: return "EA is not k g";
    case 62: return "EA' is not -k g";
    case 63: return "Eb is above -k: g.x does not rise";
    default: return "a number that this version doesn't know";
    }
}

/* What the place of a refusal tells, by the refusal's number. */
static inline const char *cushiedoo_place_words(uint64_t number)
{
    switch (number) {
    case 1: return "number of bytes";
    case 2: return "bytes of the record";
    case 4: return "the kind's first byte";
    case 5: return "its first byte, or 0 for an argument";
    case 6:
    case 14: return "its first byte";
    case 7: return "what is needed";
    case 9: return "its index, from 0";
    case 10: return "number of entries";
    case 12: return "length needed";
    case 13: return "number of records";
    case 15:
    case 16: return "the triple's first byte";
    case 21:
    case 22:
    case 23:
    case 41:
    case 42:
    case 44:
    case 45:
    case 61:
    case 62: return "column, from 0";
    case 31:
    case 32: return "row, from 0";
    case 51:
    case 52:
    case 53: return "path, from 0";
    case 0:
    case 3:
    case 8:
    case 11:
    case 24:
    case 43:
    case 46:
    case 63: return "always 0";
    default: return "unknown";
    }
}

/* Which record a verdict speaks of. */
static inline const char *cushiedoo_record_words(uint64_t record)
{
    switch (record) {
    case CUSHIEDOO_LOOP: return "the loop";
    case CUSHIEDOO_CERTIFICATE: return "the certificate";
    default: return "the call";
    }
}

/* The name of a kind of record, and of an outcome, whose number is that of a kind. */
static inline const char *cushiedoo_kind_words(uint64_t kind)
{
    switch (kind) {
    case CUSHIEDOO_KIND_LOOP: return "loop";
    case CUSHIEDOO_KIND_RANKING: return "ranking";
    case CUSHIEDOO_KIND_EXCLUSION: return "exclusion";
    case CUSHIEDOO_KIND_LASSO: return "lasso";
    case CUSHIEDOO_KIND_PATHS: return "loop of several paths";
    case CUSHIEDOO_KIND_LEXICOGRAPHIC: return "lexicographic argument";
    case CUSHIEDOO_KIND_SHORT_RANKING: return "short ranking";
    case CUSHIEDOO_KIND_SETTLING: return "settling";
    default: return "nothing";
    }
}

#endif
