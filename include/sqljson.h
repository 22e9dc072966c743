/* libsqljson: the statements of a file, in the caller's own process.
 *
 * No call keeps anything: all memory that a call takes it gives back before it returns, and any thread may call at any time
 * with buffers of its own.
 *
 * What the caller keeps, since nothing here can test it:
 * - a pointer is to as many elements as the number behind it says, or more. With 0 behind it, it may be anything but NULL;
 * - `ended` is to one struct sqljson_ended, and `file` may be read and `out` and `ended` written while the call runs;
 * - what is written does not overlap anything else that the call is given;
 * - malloc, realloc and free are of one allocator, and no call is made from a signal handler.
 *
 * A statement file is UTF-8, of 1,048,576 bytes at most. All sizes are in bytes if nothing else is said.
 */
#ifndef SQLJSON_H
#define SQLJSON_H

#include <stddef.h>
#include <stdint.h>

#ifdef __cplusplus
extern "C" {
#endif

/* The number of this interface. It rises with each change that a caller may notice. */
#define SQLJSON_INTERFACE 1u

/* How a call ended. The numbers up to 8 are exit statuses of the command. */
enum sqljson_status {
    SQLJSON_DONE = 0,
    SQLJSON_REFUSED = 2,       /* a statement of the file is refused */
    SQLJSON_MEMORY = 6,        /* out of memory, which says nothing of the file */
    SQLJSON_FILE_TOO_LONG = 8, /* the file is longer than a statement file may be */
    SQLJSON_NO_ROOM = 10       /* what was to be written does not fit into `out`, of which nothing changed */
};

struct sqljson_ended {
    uint32_t status;    /* one of enum sqljson_status */
    uint32_t statement; /* at SQLJSON_REFUSED the first that is refused, counted from 1; otherwise 0 */
    uint64_t count;     /* at SQLJSON_DONE what the call counted or wrote; otherwise 0 */
};

/* The number of the interface of the library that was linked. */
uint32_t sqljson_interface(void);

/* Counts the statements of a file, if all are accepted. */
void sqljson_check(const uint8_t *file, size_t file_len, struct sqljson_ended *ended);

/* Writes the canonical text of the statements of a file, each with a line feed behind it; `count` is its length. */
void sqljson_show(const uint8_t *file, size_t file_len, uint8_t *out, size_t out_len, struct sqljson_ended *ended);

/* Writes how many fields the rows of each statement have; `count` is how many statements there are. `out_len` is a number of
 * elements. */
void sqljson_widths(const uint8_t *file, size_t file_len, uint32_t *out, size_t out_len, struct sqljson_ended *ended);

/* Writes what the command tells of a file that it does not accept, with a line feed at the end, or the front of it that fits,
 * and gives how many bytes it wrote: 0 of a file that is accepted. */
size_t sqljson_message(const uint8_t *file, size_t file_len, uint8_t *out, size_t out_len);

#ifdef __cplusplus
}
#endif

#endif
