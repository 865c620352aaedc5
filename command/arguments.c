#include "arguments.h"

#include <stdio.h>
#include <stdlib.h>
#include <string.h>

#include "words.h"

#define FLASH_START_DEFAULT 0x20000000u /* as in 01's cases */

/* A line on what is wrong with the arguments. */
static int usage_error(const struct command *command, const char *before, const char *text,
                       const char *after)
{
    fprintf(stderr, "rigpollen %s: %s", command->name, before);
    put_text(stderr, text);
    fprintf(stderr, "%s; usage: rigpollen %s\n", after, command->usage);
    return 0;
}

/* ------------------------------------------------------------- numbers */

static int digit(char c)
{
    if (c >= '0' && c <= '9')
        return c - '0';
    if (c >= 'a' && c <= 'f')
        return c - 'a' + 10;
    return c >= 'A' && c <= 'F' ? c - 'A' + 10 : 16;
}

/* The number of the characters up to `end`; 0 as an answer if it is none. */
static int parse(uint32_t *number, const char *text, const char *end)
{
    const int hexadecimal = end - text > 1 && text[0] == '0'
                            && (text[1] == 'x' || text[1] == 'X');
    const int base = hexadecimal ? 16 : 10;
    uint64_t value = 0;

    text += hexadecimal ? 2 : 0;
    if (text == end)
        return 0;
    for (; text != end; text++) {
        if (digit(*text) >= base)
            return 0;
        value = value * (unsigned)base + (unsigned)digit(*text);
        if (value > UINT32_MAX)
            return 0;
    }
    *number = (uint32_t)value;
    return 1;
}

static int not_number(const struct arguments *arguments, const char *what,
                      const char *text)
{
    fprintf(stderr, "rigpollen %s: %s: not a number below 2^32, decimal or "
                    "hexadecimal after 0x: ",
            arguments->command->name, what);
    put_text(stderr, text);
    fputc('\n', stderr);
    return 0;
}

int read_number(uint32_t *number, const struct arguments *arguments,
                const char *what, const char *text)
{
    return parse(number, text, text + strlen(text))
           || not_number(arguments, what, text);
}

/* START:PAGES */
static int read_ram(struct board *board, const struct arguments *arguments)
{
    const char *text = arguments->options.ram;
    const char *colon = strchr(text, ':');
    uint32_t pages;

    if (colon == NULL)
        return usage_error(arguments->command, "--ram is START:PAGES, not ", text, "");
    if (!parse(&board->ram_start, text, colon))
        return not_number(arguments, "--ram START", text);
    if (!parse(&pages, colon + 1, text + strlen(text)))
        return not_number(arguments, "--ram PAGES", text);
    board->ram_pages = pages;
    return 1;
}

int read_board(struct board *board, const struct arguments *arguments)
{
    const struct options *options = &arguments->options;

    memset(board, 0, sizeof *board);
    board->flash_start = FLASH_START_DEFAULT;
    return read_ram(board, arguments)
           && (options->flash_start == NULL
               || read_number(&board->flash_start, arguments, "--flash-start",
                              options->flash_start))
           && read_file(&board->block, arguments->operands[0])
           && read_file(&board->flash, arguments->operands[1]);
}

void free_board(struct board *board)
{
    free(board->block.bytes);
    free(board->flash.bytes);
    free(board->ram);
}

/* ------------------------------------------------------------- options */

/* Where an option's value goes; null if the command has no such option. */
static const char **value_of(struct arguments *into, const char *name,
                             size_t length)
{
    static const struct {
        const char *name;
        unsigned takes;
    } options[] = {
        { "--ram", TAKES_BOARD }, { "--flash-start", TAKES_BOARD },
        { "--svg", TAKES_MAP },
    };
    const char **const values[] = {
        &into->options.ram, &into->options.flash_start, &into->options.svg
    };

    for (size_t i = 0; i < sizeof options / sizeof options[0]; i++)
        if (strlen(options[i].name) == length
            && strncmp(options[i].name, name, length) == 0)
            return into->command->takes & options[i].takes ? values[i] : NULL;
    return NULL;
}

/* An option that stands alone; 0 if the command has no such option. */
static int set_flag(struct arguments *into, const char *word)
{
    if (strcmp(word, "--help") == 0 || strcmp(word, "-h") == 0)
        return into->options.help = 1;
    if (strcmp(word, "--all") == 0 && into->command->takes & TAKES_MAP)
        return into->options.all = 1;
    return 0;
}

/* An option, with its value after it or after a `=`: how many words it takes,
 * or 0 where it is wrong. */
static int read_option(struct arguments *into, int left, char **words)
{
    const char *equals = strchr(words[0], '=');
    const size_t length = equals != NULL ? (size_t)(equals - words[0])
                                         : strlen(words[0]);
    const char **value;

    if (equals == NULL && set_flag(into, words[0]))
        return 1;
    value = value_of(into, words[0], length);
    if (value == NULL)
        return usage_error(into->command, "no such option: ", words[0], "");
    if (*value != NULL)
        return usage_error(into->command, "", words[0], ": given twice");
    if (equals == NULL && (left < 2 || strncmp(words[1], "--", 2) == 0))
        return usage_error(into->command, "", words[0], ": its value is missing");
    *value = equals != NULL ? equals + 1 : words[1];
    return equals != NULL ? 1 : 2;
}

static int complete(const struct arguments *into, int operands)
{
    const struct command *command = into->command;
    const char *svg = into->options.svg;

    if (into->options.help)
        return 1;
    if (operands < OPERANDS_MAX && command->operands[operands] != NULL)
        return usage_error(command, "", command->operands[operands], " is missing");
    if (command->takes & TAKES_BOARD && into->options.ram == NULL)
        return usage_error(command, "", "--ram", " is missing");
    if (svg != NULL && (strcmp(svg, into->operands[0]) == 0 || strcmp(svg, into->operands[1]) == 0))
        return usage_error(command, "--svg: ", svg, " is a file that is read");
    return 1;
}

int read_arguments(struct arguments *into, const struct command *command,
                   int count, char **words)
{
    int operands = 0, only_operands = 0;

    memset(into, 0, sizeof *into);
    into->command = command;
    for (int i = 0; i < count;) {
        if (!only_operands && strcmp(words[i], "--") == 0) {
            only_operands = 1;
            i++;
        } else if (!only_operands && words[i][0] == '-' && words[i][1] != '\0') {
            const int taken = read_option(into, count - i, words + i);

            if (taken == 0)
                return 0;
            i += taken;
        } else {
            if (operands == OPERANDS_MAX || command->operands[operands] == NULL)
                return usage_error(command, "too many arguments: ", words[i], "");
            into->operands[operands++] = words[i++];
        }
    }
    return complete(into, operands);
}
