/*
 * Files read whole, and what is said where one cannot be read or written.
 */
#ifndef FILES_H
#define FILES_H

#include <stdint.h>

/* `bytes` is never null, for the library's sake: an empty file has one byte
 * of room. */
struct bytes {
    uint8_t *bytes;
    uint64_t length;
};

/* The file's bytes. Where it cannot be read, or has over 2^32 bytes, one line
 * on standard error says so, and the answer is 0. */
int read_file(struct bytes *into, const char *name);

/* `rigpollen: NAME: WHAT` on standard error, and the answer is 0. */
int file_error(const char *name, const char *what);

/* Memory of so many bytes, all zero, and of one byte for none; where there is
 * none, one line on standard error says so, and the answer is null. */
uint8_t *take_memory(uint64_t length);

#endif
