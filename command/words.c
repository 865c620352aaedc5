#include "words.h"

#include "rigpollen.h"

const char *plural(uint64_t count)
{
    return count == 1 ? "" : "s";
}

void rights_text(char text[RIGHTS_TEXT_BYTES], uint32_t rights)
{
    text[0] = rights & RIGPOLLEN_READ ? 'r' : '-';
    text[1] = rights & RIGPOLLEN_WRITE ? 'w' : '-';
    text[2] = rights & RIGPOLLEN_EXECUTE ? 'x' : '-';
    text[3] = rights & RIGPOLLEN_USER ? 'u' : '-';
    text[4] = '\0';
}

void put_text(FILE *out, const char *text)
{
    if (text[0] == '\0')
        fputs("''", out);
    for (; *text != '\0'; text++)
        fputc((unsigned char)*text < ' ' || *text == 127 ? '?' : *text, out);
}
