#include "machine.h"

#include <stdarg.h>

#define UART ((volatile uint8_t *)0x10000000)

/* ------------------------------------------------------------- printing */

static void put_number(uint32_t n, uint32_t base)
{
    char digits[10];
    int count = 0;

    do {
        digits[count++] = "0123456789abcdef"[n % base];
        n /= base;
    } while (n != 0);
    while (count > 0)
        *UART = (uint8_t)digits[--count];
}

static void put_text(const char *text)
{
    for (; *text != 0; text++)
        *UART = (uint8_t)*text;
}

void print(const char *format, ...)
{
    va_list list;

    va_start(list, format);
    for (; *format != 0; format++) {
        if (*format != '%') {
            *UART = (uint8_t)*format;
            continue;
        }
        switch (*++format) {
        case 'u':
            put_number(va_arg(list, uint32_t), 10);
            break;
        case 'x':
            put_number(va_arg(list, uint32_t), 16);
            break;
        case 's':
            put_text(va_arg(list, const char *));
            break;
        }
    }
    va_end(list);
}

__attribute__((weak)) void on_trap(uint32_t cause, uint32_t at, uint32_t value)
{
    print("trap %x at %x, %x\n", cause, at, value);
}

/* ------------------------------------------------------------ the stack */

uint32_t painted(const uint8_t *at)
{
    const uint32_t word = STACK_PAINT * 0x01010101u;
    uint32_t n = 0;

    while (n < STACK_WATCHED && *(const uint32_t *)(at + n) == word)
        n += 4;
    return n;
}
