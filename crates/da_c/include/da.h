/*
 * da for C: frames in, a status out. docs/C.md says how to build the library and call it, docs/FORMATS.md what the
 * bytes of a frame are, docs/COMMANDS.md what is checked.
 *
 * Each frame is a pointer and a length, and its bytes are all of the argument. A call answers a status, and fills in
 * a struct da_detail. It keeps no pointer and no memory, and neither ends the process nor waits for anything.
 *
 * By reading, calls of several threads may run at once, each with a buffer and a detail of its own.
 *
 * What follows is proved of each call that the caller makes as it has to. Nothing checks that it does:
 *
 *  - No pointer is null, where its length is 0 too. A length is at most PTRDIFF_MAX.
 *  - At a pointer to const there are as many bytes as its length says, and nobody writes to them during the call.
 *  - At `buffer` there are as many bytes that may be written, whatever they hold, and at `detail` there is a struct
 *    da_detail, aligned as the compiler does. Nobody else reads or writes them during the call.
 *  - `buffer` and `detail` overlap neither each other nor another argument. Pointers to const may overlap.
 *  - malloc, realloc and free are of one allocator, and align a block to each power of two up to 16 that divides its
 *    size.
 *  - A call is not made from a signal handler, or in the forked child of a process with threads. There is enough
 *    stack: the tests have 128 KiB.
 */
#ifndef DA_H
#define DA_H

#include <stddef.h>
#include <stdint.h>

/*
 * The version of the program whose calls these are. The shared library is named by its first number, libda_c.so.0: what
 * was linked with one of another first number isn't run with this one.
 */
#define DA_VERSION "0.2.0"
#define DA_VERSION_MAJOR 0
#define DA_VERSION_MINOR 2
#define DA_VERSION_PATCH 0

#ifdef __cplusplus
extern "C" {
#endif

/*
 * Statuses: the numbers of the program da where they mean the same. DA_NO_MEMORY may come in place of each other, but
 * not where the first frame isn't in its form.
 */
enum {
    DA_DONE = 0,       /* accepted; of a call with a buffer: written, `size` bytes */
    DA_NO_MEMORY = 5,  /* out of memory */
    DA_BAD_INPUT = 6,  /* frame `argument`, counted from 0, isn't in its form from offset `at` on: the first that isn't */
    DA_NO_HEADER = 9,  /* the square has no header */
    DA_REFUSED = 13,   /* the check with the number `refusal` fails, and none before it */
    DA_SHORT = 15      /* the buffer has fewer than the `size` bytes that are to be written */
};

/* What goes with a status: the fields that it names, and 0 in each other. */
struct da_detail {
    uint64_t argument;
    uint64_t at;
    uint64_t refusal;
    uint64_t size;
};

/* The bytes of a data root, and the most of the frame of a header: that of width k has 7 + 360 * k. */
enum { DA_ROOT_SIZE = 32, DA_HEADER_MAX = 184327 };

/*
 * Whether a sample (kind M) is proved under a header (kind H): DA_DONE exactly where it is, unless memory runs out.
 * Otherwise DA_REFUSED, with the number that `da check` gives.
 */
uint32_t da_check(const uint8_t *header, size_t header_size, const uint8_t *message, size_t message_size,
                  struct da_detail *detail);

/*
 * Whether an answer (kind M, N, B, C or R) holds under a header, whatever was asked: DA_DONE or DA_REFUSED, with the
 * number of `da verify HEADER ANSWER`.
 */
uint32_t da_holds(const uint8_t *header, size_t header_size, const uint8_t *answer, size_t answer_size,
                  struct da_detail *detail);

/*
 * Whether an answer is to a request (kind Q or P), and holds under a header: DA_DONE or DA_REFUSED, with the number of
 * `da verify HEADER ANSWER REQUEST`, which is 0 where it is the answer to another request.
 */
uint32_t da_verify(const uint8_t *header, size_t header_size, const uint8_t *answer, size_t answer_size,
                   const uint8_t *request, size_t request_size, struct da_detail *detail);

/*
 * Writes the data root of a header, DA_ROOT_SIZE bytes, to the front of the buffer. What is behind stays, and with a
 * status other than DA_DONE all of it.
 */
uint32_t da_data_root(const uint8_t *header, size_t header_size, uint8_t *buffer, size_t buffer_size,
                      struct da_detail *detail);

/*
 * Writes the frame of the header of a square (kind S) to the front of the buffer, or answers DA_NO_HEADER. What is
 * behind stays, and with a status other than DA_DONE all of it.
 */
uint32_t da_header(const uint8_t *square, size_t square_size, uint8_t *buffer, size_t buffer_size,
                   struct da_detail *detail);

#ifdef __cplusplus
}
#endif

#endif
