/*
 * Tests of the calls of da.h that the examples don't make: what a buffer holds, what goes with a status, each request
 * for memory failing in turn, and calls of two threads with little stack. The words are files: a header, a sample, an
 * answer, a request for it, a square, the square's header, a square without one. Its last line is 'N passed, M failed'.
 *
 * It is linked with --wrap for malloc, realloc and free.
 */
#include "da.h"

#include <pthread.h>
#include <stdio.h>
#include <stdlib.h>
#include <string.h>

enum { HEADER, MESSAGE, ANSWER, REQUEST, SQUARE, SQUARE_HEADER, FALLING, FILES };
enum { ROOM = DA_HEADER_MAX + 100, FILL = 0xa5, STACK = 128 * 1024 };

void *__real_malloc(size_t size);
void *__real_realloc(void *at, size_t size);
void __real_free(void *at);

/* The request that fails, counted from 1, none where 0; how many there were; how many blocks are held. */
static __thread long failing, requests, held;

void *__wrap_malloc(size_t size)
{
    void *at = ++requests == failing ? NULL : __real_malloc(size);
    held += at != NULL;
    return at;
}

void *__wrap_realloc(void *at, size_t size)
{
    void *moved = ++requests == failing ? NULL : __real_realloc(at, size);
    held += !at && moved;
    return moved;
}

void __wrap_free(void *at)
{
    held -= at != NULL;
    __real_free(at);
}

struct bytes {
    uint8_t at[1 << 16];
    size_t size;
};

static struct bytes file[FILES];
static long passed, failed;

static void holds(const char *name, int is)
{
    if (is) {
        passed++;
    } else {
        failed++;
        printf("FAILED calls: %s\n", name);
    }
}

#define OF(i) file[i].at, file[i].size

/* Each call, with all that it is given. */
static uint32_t call(int which, uint8_t *buffer, size_t room, struct da_detail *detail)
{
    switch (which) {
    case 0:
        return da_check(OF(HEADER), OF(MESSAGE), detail);
    case 1:
        return da_holds(OF(SQUARE_HEADER), OF(ANSWER), detail);
    case 2:
        return da_verify(OF(SQUARE_HEADER), OF(ANSWER), OF(REQUEST), detail);
    case 3:
        return da_data_root(OF(SQUARE_HEADER), buffer, room, detail);
    default:
        return da_header(OF(SQUARE), buffer, room, detail);
    }
}

enum { CALLS = 5, FIRST_WRITER = 3 };

static const char *const NAMES[CALLS] = {"da_check", "da_holds", "da_verify", "da_data_root", "da_header"};

/* Whether these bytes of a buffer are as they were filled. */
static int is_left(const uint8_t *buffer, size_t from, size_t to)
{
    while (from < to && buffer[from] == FILL)
        from++;
    return from == to;
}

static int is_detail(const struct da_detail *detail, uint64_t argument, uint64_t at, uint64_t refusal, uint64_t size)
{
    return detail->argument == argument && detail->at == at && detail->refusal == refusal && detail->size == size;
}

/* Makes a call over a buffer and a detail that are filled before. */
static uint32_t made(int which, uint8_t *buffer, size_t room, struct da_detail *detail)
{
    memset(buffer, FILL, ROOM);
    memset(detail, FILL, sizeof *detail);
    return call(which, buffer, room, detail);
}

/* Where each request for memory fails in turn, and where none does. */
static void memory(int which, uint8_t *buffer)
{
    struct da_detail detail;
    uint64_t size = which < FIRST_WRITER ? 0 : which == FIRST_WRITER ? DA_ROOT_SIZE : file[SQUARE_HEADER].size;
    uint32_t status;
    held = 0;
    for (long n = 1;; n++) {
        requests = 0;
        failing = n;
        status = made(which, buffer, ROOM, &detail);
        failing = 0;
        if (requests < n)
            break;
        holds(NAMES[which], status == DA_NO_MEMORY && is_detail(&detail, 0, 0, 0, 0) && is_left(buffer, 0, ROOM));
        holds(NAMES[which], held == 0);
    }
    holds(NAMES[which], status == DA_DONE && is_detail(&detail, 0, 0, 0, size) && is_left(buffer, size, ROOM));
    holds(NAMES[which], held == 0);
    holds(NAMES[which], which != CALLS - 1 || !memcmp(buffer, file[SQUARE_HEADER].at, size));
}

/* Buffers of each length about that of the output. */
static void rooms(int which, uint8_t *buffer)
{
    struct da_detail detail;
    uint64_t size = which == FIRST_WRITER ? DA_ROOT_SIZE : file[SQUARE_HEADER].size;
    uint8_t output[ROOM];
    made(which, output, ROOM, &detail);
    for (uint64_t room = 0; room <= size + 1; room += room == 1 ? size - 2 : 1) {
        uint32_t status = made(which, buffer, room, &detail);
        uint64_t written = room < size ? 0 : size;
        holds(NAMES[which], status == (room < size ? DA_SHORT : DA_DONE) && is_detail(&detail, 0, 0, 0, size));
        holds(NAMES[which], is_left(buffer, written, ROOM) && !memcmp(buffer, output, written));
    }
}

/* Arguments that aren't in their form, and what else is refused. */
static void refusals(uint8_t *buffer)
{
    struct da_detail detail;
    struct bytes *message = &file[MESSAGE];
    holds("no bytes", da_check(OF(HEADER), message->at, 0, &detail) == DA_BAD_INPUT && is_detail(&detail, 1, 0, 0, 0));
    holds("a byte too many", da_check(file[HEADER].at, file[HEADER].size + 1, OF(MESSAGE), &detail) == DA_BAD_INPUT);
    holds("from there on", is_detail(&detail, 0, file[HEADER].size, 0, 0));
    holds("the first of two", da_check(OF(MESSAGE), OF(HEADER), &detail) == DA_BAD_INPUT && !detail.argument);
    holds("one argument twice", da_check(OF(HEADER), OF(HEADER), &detail) == DA_BAD_INPUT && detail.argument == 1);
    holds("the third", da_verify(OF(HEADER), OF(MESSAGE), OF(MESSAGE), &detail) == DA_BAD_INPUT && detail.argument == 2);
    message->at[message->size - 1] ^= 1;
    holds("another root", da_check(OF(HEADER), OF(MESSAGE), &detail) == DA_REFUSED && is_detail(&detail, 0, 0, 4, 0));
    message->at[message->size - 1] ^= 1;
    memset(buffer, FILL, ROOM);
    holds("no header", da_header(OF(FALLING), buffer, ROOM, &detail) == DA_NO_HEADER && is_detail(&detail, 0, 0, 0, 0));
    holds("no output", is_left(buffer, 0, ROOM));
    holds("no square", da_header(OF(HEADER), buffer, ROOM, &detail) == DA_BAD_INPUT && is_left(buffer, 0, ROOM));
}

/* What a thread writes to, and whether each of its calls was done. */
struct work {
    uint8_t buffer[ROOM];
    int is;
};

/* All calls, many times over. */
static void *often(void *given)
{
    struct work *work = given;
    struct da_detail detail;
    work->is = 1;
    for (int i = 0; i < 100; i++)
        for (int which = 0; which < CALLS; which++)
            work->is &= made(which, work->buffer, ROOM, &detail) == DA_DONE;
    return NULL;
}

/* Two threads at once, with little stack. */
static void threads(void)
{
    pthread_t one, two;
    pthread_attr_t little;
    static struct work work[2];
    holds("a little stack", !pthread_attr_init(&little) && !pthread_attr_setstacksize(&little, STACK));
    holds("threads", !pthread_create(&one, &little, often, &work[0]) && !pthread_create(&two, &little, often, &work[1]));
    holds("their ends", !pthread_join(one, NULL) && !pthread_join(two, NULL));
    holds("what they found", work[0].is && work[1].is);
}

int main(int count, char **words)
{
    static uint8_t buffer[ROOM];
    for (int i = 0; i < FILES; i++) {
        FILE *in = i + 1 < count ? fopen(words[i + 1], "rb") : NULL;
        if (!in)
            return 2;
        file[i].size = fread(file[i].at, 1, sizeof file[i].at - 1, in);
        fclose(in);
    }
    for (int which = 0; which < CALLS; which++)
        memory(which, buffer);
    for (int which = FIRST_WRITER; which < CALLS; which++)
        rooms(which, buffer);
    refusals(buffer);
    threads();
    printf("%ld passed, %ld failed\n", passed, failed);
    return failed != 0;
}
