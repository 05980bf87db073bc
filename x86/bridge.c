/*
 * The calls of the archive for a machine that is not x86-64, so that what is built there can be tested on the proved
 * code. Each call is laid into a memory that is shared with a server (server.c), which holds the archive and runs under
 * an emulator; what it answers and what then stands in the lent lists is handed back. Nothing is decided here.
 *
 * A process has one server, which starts with its first call and ends with it; calls of several threads wait for each
 * other. Lists keep their alignment. When the server fails, the process ends with a message.
 *
 * RUN and SERVER, the program that starts programs for x86-64 and the server, are named when this is compiled.
 */
#define _GNU_SOURCE
#include <errno.h>
#include <pthread.h>
#include <stdio.h>
#include <stdlib.h>
#include <string.h>
#include <sys/mman.h>
#include <sys/socket.h>
#include <unistd.h>

#include "exchange.h"

enum { ALIGNMENT = 64 };

/* An argument as the caller has it: a number, a list that is only read, or one that is lent to be filled. */
typedef struct {
    enum { NONE, IS_NUMBER, IS_READ, IS_LENT } form;
    uint64_t number;
    void *list;
    size_t bytes;
} given;

#define NUMBER(number) {IS_NUMBER, number, NULL, 0}
#define READ(list) {IS_READ, list##_len, (void *)list, list##_len * sizeof *list}
#define LENT(list) {IS_LENT, list##_len, list, list##_len * sizeof *list}
#define CALL(which, ...) call(which, (const given[MOST_ARGUMENTS]){__VA_ARGS__})

static pthread_mutex_t one_at_a_time = PTHREAD_MUTEX_INITIALIZER;
static uint8_t *memory; /* NULL until the server is started */
static int server;

static _Noreturn void fail(const char *what)
{
    fprintf(stderr, "bridge to the archive in %s: %s\n", SERVER, what);
    exit(1);
}

static void start(void)
{
    int ends[2];
    int file = memfd_create("calls", MFD_CLOEXEC);
    if (file < 0 || ftruncate(file, MEMORY) != 0) fail("no memory to share with the server");
    memory = mmap(NULL, MEMORY, PROT_READ | PROT_WRITE, MAP_SHARED, file, 0);
    if (memory == MAP_FAILED) fail("no memory to share with the server");
    if (socketpair(AF_UNIX, SOCK_STREAM | SOCK_CLOEXEC, 0, ends) != 0) fail("no socket to the server");
    switch (fork()) {
    case -1: fail("cannot start the server");
    case 0:
        if (dup2(ends[1], 0) == 0 && dup2(file, 1) == 1) execl(RUN, RUN, SERVER, (char *)NULL);
        _exit(1);
    }
    close(ends[1]);
    close(file);
    server = ends[0];
}

/* Wakes the server and waits until it has answered. */
static void wait_for_answer(void)
{
    char byte = 0;
    ssize_t count;
    do count = send(server, &byte, 1, MSG_NOSIGNAL);
    while (count < 0 && errno == EINTR);
    if (count != 1) fail("cannot reach the server");
    do count = recv(server, &byte, 1, 0);
    while (count < 0 && errno == EINTR);
    if (count != 1) fail("the server ended without an answer");
}

static answer call(uint64_t which, const given *arguments)
{
    pthread_mutex_lock(&one_at_a_time);
    if (memory == NULL) start();

    exchange *e = (exchange *)(void *)memory;
    e->call = which;
    memset(&e->answer, 0xa5, sizeof e->answer);
    size_t end = sizeof *e;
    for (int i = 0; i < MOST_ARGUMENTS; i++) {
        const given *one = &arguments[i];
        e->arguments[i].number = one->number;
        if (one->form < IS_READ) continue;
        end += ((uintptr_t)one->list - end) % ALIGNMENT;
        if (end > MEMORY || one->bytes > MEMORY - end) fail("a list is too long for the memory shared with the server");
        memcpy(memory + end, one->list, one->bytes);
        e->arguments[i].place = end;
        end += one->bytes;
    }

    wait_for_answer();

    answer told = e->answer;
    for (int i = 0; i < MOST_ARGUMENTS; i++) {
        const given *one = &arguments[i];
        if (one->form == IS_LENT) memcpy(one->list, memory + e->arguments[i].place, one->bytes);
    }
    pthread_mutex_unlock(&one_at_a_time);
    return told;
}

cushiedoo_reading cushiedoo_read_loop(const uint8_t *bytes, size_t bytes_len, int64_t *values, size_t values_len)
{
    return CALL(READ_LOOP, READ(bytes), LENT(values)).reading;
}

cushiedoo_reading cushiedoo_read_certificate(const uint8_t *bytes, size_t bytes_len, uint64_t n, uint64_t m,
                                             int64_t *values, size_t values_len)
{
    return CALL(READ_CERTIFICATE, READ(bytes), NUMBER(n), NUMBER(m), LENT(values)).reading;
}

cushiedoo_writing cushiedoo_write_record(uint64_t kind, uint64_t n, uint64_t m, const int64_t *values,
                                         size_t values_len, uint8_t *room, size_t room_len)
{
    return CALL(WRITE_RECORD, NUMBER(kind), NUMBER(n), NUMBER(m), READ(values), LENT(room)).writing;
}

cushiedoo_writing cushiedoo_shorten(const uint8_t *ranking, size_t ranking_len, uint64_t n, uint64_t m, uint8_t *room,
                                    size_t room_len)
{
    return CALL(SHORTEN, READ(ranking), NUMBER(n), NUMBER(m), LENT(room)).writing;
}

cushiedoo_writing cushiedoo_lengthen(const uint8_t *ranking, size_t ranking_len, uint64_t n, uint64_t m, uint8_t *room,
                                     size_t room_len)
{
    return CALL(LENGTHEN, READ(ranking), NUMBER(n), NUMBER(m), LENT(room)).writing;
}

cushiedoo_writing cushiedoo_sheet(const uint8_t *input, size_t input_len, uint8_t *text, size_t text_len)
{
    return CALL(SHEET, READ(input), LENT(text)).writing;
}

cushiedoo_verdict cushiedoo_judge(const uint8_t *loop, size_t loop_len, const uint8_t *certificate,
                                  size_t certificate_len, int64_t *rank, size_t rank_len)
{
    return CALL(JUDGE, READ(loop), READ(certificate), LENT(rank)).verdict;
}

cushiedoo_batch cushiedoo_judge_all(const uint8_t *loop, size_t loop_len, const uint8_t *records, size_t records_len,
                                    cushiedoo_verdict *verdicts, size_t verdicts_len, int64_t *ranks, size_t ranks_len)
{
    return CALL(JUDGE_ALL, READ(loop), READ(records), LENT(verdicts), LENT(ranks)).batch;
}

cushiedoo_bounded cushiedoo_bound(const uint8_t *loop, size_t loop_len, const uint8_t *certificate,
                                  size_t certificate_len, const int64_t *state, size_t state_len)
{
    return CALL(BOUND, READ(loop), READ(certificate), READ(state)).bounded;
}
