/*
 * The x86-64 side of the bridge: a program that holds the archive and makes the calls that the other side (bridge.c)
 * asks for. Each byte from standard input is a call that lies in the memory (exchange.h); a byte goes back when its
 * answer lies there too. The lists are lent to the archive where they lie. It ends when standard input does.
 *
 * Standard input is a socket, for both ways, and standard output the memory, a file.
 */
#include "exchange.h"

/* Of the C library, whose headers the toolchain does not have. */
long read(int file, void *bytes, size_t count);
long write(int file, const void *bytes, size_t count);
void *mmap(void *at, size_t size, int allowed, int how, int file, long start);
enum { READ_AND_WRITE = 3, SHARED = 1 };

#define NUMBER(i) e->arguments[i].number
#define BYTES(i) memory + e->arguments[i].place, NUMBER(i)
#define NUMBERS(i) (int64_t *)(void *)(memory + e->arguments[i].place), NUMBER(i)
#define VERDICTS(i) (cushiedoo_verdict *)(void *)(memory + e->arguments[i].place), NUMBER(i)

/* Makes the call; 0 if there is no such call. */
static int made(uint8_t *memory)
{
    exchange *e = (exchange *)(void *)memory;
    answer *a = &e->answer;
    switch (e->call) {
    case READ_LOOP: a->reading = cushiedoo_read_loop(BYTES(0), NUMBERS(1)); break;
    case READ_CERTIFICATE: a->reading = cushiedoo_read_certificate(BYTES(0), NUMBER(1), NUMBER(2), NUMBERS(3)); break;
    case WRITE_RECORD: a->writing = cushiedoo_write_record(NUMBER(0), NUMBER(1), NUMBER(2), NUMBERS(3), BYTES(4)); break;
    case SHORTEN: a->writing = cushiedoo_shorten(BYTES(0), NUMBER(1), NUMBER(2), BYTES(3)); break;
    case LENGTHEN: a->writing = cushiedoo_lengthen(BYTES(0), NUMBER(1), NUMBER(2), BYTES(3)); break;
    case SHEET: a->writing = cushiedoo_sheet(BYTES(0), BYTES(1)); break;
    case JUDGE: a->verdict = cushiedoo_judge(BYTES(0), BYTES(1), NUMBERS(2)); break;
    case JUDGE_ALL: a->batch = cushiedoo_judge_all(BYTES(0), BYTES(1), VERDICTS(2), NUMBERS(3)); break;
    case BOUND: a->bounded = cushiedoo_bound(BYTES(0), BYTES(1), NUMBERS(2)); break;
    default: return 0;
    }
    return 1;
}

int main(void)
{
    uint8_t *memory = mmap(NULL, MEMORY, READ_AND_WRITE, SHARED, 1, 0);
    char byte;
    if (memory == (void *)-1) return 1;
    while (read(0, &byte, 1) == 1) {
        if (!made(memory) || write(0, &byte, 1) != 1) return 1;
    }
    return 0;
}
