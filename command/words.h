/*
 * Words for numbers, and texts of the caller's.
 */
#ifndef WORDS_H
#define WORDS_H

#include <stdint.h>
#include <stdio.h>

/* After a declaration whose parameter number `text` is a format, with values
 * from parameter `values` on: the compiler holds its calls against that. */
#ifdef __GNUC__
#define LIKE_PRINTF(text, values) __attribute__((format(printf, text, values)))
#else
#define LIKE_PRINTF(text, values)
#endif

/* What a word ends with after a count. */
const char *plural(uint64_t count);

/* Rights as r, w, x and u, with - for each that is missing. */
#define RIGHTS_TEXT_BYTES 5
void rights_text(char text[RIGHTS_TEXT_BYTES], uint32_t rights);

/* A text of the caller's, as a part of one line: '' if it is empty, and with ?
 * for each control character. */
void put_text(FILE *out, const char *text);

#endif
