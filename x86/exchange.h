/*
 * What the two sides of the bridge share: one memory, in which the caller's side lays down a call and its lists, and the
 * server's side, in the same place, the answer. A new export is a name here, its answer if it has one of its own, and
 * its call in bridge.c and in server.c.
 */
#ifndef CUSHIEDOO_EXCHANGE_H
#define CUSHIEDOO_EXCHANGE_H

#include "cushiedoo.h"

/* The calls. */
enum { READ_LOOP, READ_CERTIFICATE, WRITE_RECORD, SHORTEN, LENGTHEN, SHEET, JUDGE, JUDGE_ALL, BOUND };

typedef union {
    cushiedoo_reading reading;
    cushiedoo_writing writing;
    cushiedoo_verdict verdict;
    cushiedoo_batch batch;
    cushiedoo_bounded bounded;
} answer;

/* An argument: a number, or a list. */
typedef struct {
    uint64_t number; /* a list's number of entries */
    uint64_t place;  /* where a list starts in the memory */
} argument;

enum { MOST_ARGUMENTS = 8 };

/* It stands at the start of the memory, and the lists behind it. */
typedef struct {
    uint64_t call;
    argument arguments[MOST_ARGUMENTS];
    answer answer;
} exchange;

/* The memory's bytes. They cost nothing until they are used. */
#define MEMORY ((size_t)1 << 28)

#endif
