/*
 * The three functions that the library needs of its linker, plain and short: by
 * words where both sides are aligned alike. Build with -fno-builtin and
 * -fno-tree-loop-distribute-patterns: else a loop becomes a call of the
 * function that it stands in.
 */
#include "machine.h"

void *memset(void *to, int byte, size_t n)
{
    uint8_t *d = to;
    const uint32_t word = (uint8_t)byte * 0x01010101u;

    for (; n != 0 && (uintptr_t)d % 4 != 0; n--)
        *d++ = (uint8_t)byte;
    for (; n >= 32; n -= 32, d += 32)
        for (int i = 0; i < 8; i++) /* unrolled */
            ((uint32_t *)d)[i] = word;
    for (; n >= 4; n -= 4, d += 4)
        *(uint32_t *)d = word;
    for (; n != 0; n--)
        *d++ = (uint8_t)byte;
    return to;
}

void *memcpy(void *to, const void *from, size_t n)
{
    uint8_t *d = to;
    const uint8_t *s = from;

    if (((uintptr_t)d - (uintptr_t)s) % 4 == 0) {
        for (; n != 0 && (uintptr_t)d % 4 != 0; n--)
            *d++ = *s++;
        for (; n >= 32; n -= 32, d += 32, s += 32)
            for (int i = 0; i < 8; i++) /* unrolled */
                ((uint32_t *)d)[i] = ((const uint32_t *)s)[i];
        for (; n >= 4; n -= 4, d += 4, s += 4)
            *(uint32_t *)d = *(const uint32_t *)s;
    }
    for (; n != 0; n--)
        *d++ = *s++;
    return to;
}

void *memmove(void *to, const void *from, size_t n)
{
    uint8_t *d = to;
    const uint8_t *s = from;

    if ((uintptr_t)d - (uintptr_t)s >= n)
        return memcpy(to, from, n);
    while (n-- != 0)
        d[n] = s[n];
    return to;
}
