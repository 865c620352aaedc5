/* Printing, for the ROM, the kernel and the processes. */
#include <stdarg.h>
#include <stdint.h>

#include "print.h"

static void put_text(const char *text)
{
    while (*text != 0)
        put(*text++);
}

static void put_decimal(uint32_t n)
{
    if (n >= 10)
        put_decimal(n / 10);
    put((char)('0' + n % 10));
}

static void put_hexadecimal(uint32_t n)
{
    put_text("0x");
    for (int shift = 28; shift >= 0; shift -= 4)
        put("0123456789abcdef"[n >> shift & 15]);
}

void print(const char *format, ...)
{
    va_list list;

    va_start(list, format);
    for (; *format != 0; format++) {
        if (*format != '%')
            put(*format);
        else if (*++format == 's')
            put_text(va_arg(list, const char *));
        else if (*format == 'u')
            put_decimal(va_arg(list, uint32_t));
        else
            put_hexadecimal(va_arg(list, uint32_t));
    }
    va_end(list);
}
