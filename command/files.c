#include "files.h"

#include <errno.h>
#include <stdio.h>
#include <stdlib.h>
#include <string.h>

#include "words.h"

/* No flash is longer, and no block. */
#define BYTES_MAX UINT64_C(0x100000000)

#define FIRST_BYTES 65536u
#define TOO_LONG    "too long for this machine's memory"

int file_error(const char *name, const char *what)
{
    fputs("rigpollen: ", stderr);
    put_text(stderr, name);
    fprintf(stderr, ": %s\n", what);
    return 0;
}

uint8_t *take_memory(uint64_t length)
{
    uint8_t *taken = length <= SIZE_MAX
                         ? calloc(length != 0 ? (size_t)length : 1, 1)
                         : NULL;

    if (taken == NULL)
        fprintf(stderr, "rigpollen: no memory for %llu bytes\n",
                (unsigned long long)length);
    return taken;
}

/* Room for more bytes: twice as much, and for one byte over the most. */
static int grow(struct bytes *into, uint64_t *room)
{
    const uint64_t more = *room <= BYTES_MAX / 2 ? 2 * *room : BYTES_MAX + 1;
    uint8_t *larger = more <= SIZE_MAX ? realloc(into->bytes, (size_t)more) : NULL;

    if (larger == NULL)
        return 0;
    into->bytes = larger;
    *room = more;
    return 1;
}

/* What is wrong with the file after all that could be read; null if nothing. */
static const char *read_all(struct bytes *into, FILE *file, uint64_t room)
{
    size_t count;

    do {
        if (into->length > BYTES_MAX)
            return "over 4,294,967,296 bytes";
        if (into->length == room && !grow(into, &room))
            return TOO_LONG;
        count = fread(into->bytes + into->length, 1,
                      (size_t)(room - into->length), file);
        into->length += count;
    } while (count != 0);
    return ferror(file) ? strerror(errno) : NULL;
}

int read_file(struct bytes *into, const char *name)
{
    FILE *file = fopen(name, "rb");
    const char *wrong;

    into->length = 0;
    into->bytes = NULL;
    if (file == NULL)
        return file_error(name, strerror(errno));
    into->bytes = malloc(FIRST_BYTES);
    wrong = into->bytes == NULL ? TOO_LONG : read_all(into, file, FIRST_BYTES);
    fclose(file);
    return wrong == NULL || file_error(name, wrong);
}
