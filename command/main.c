/*
 * rigpollen: what a boot block does on a board, for people.
 */
#include <errno.h>
#include <stdio.h>
#include <string.h>

#include "commands.h"
#include "words.h"

#define BOARD_USAGE "BLOCK FLASH --ram START:PAGES [--flash-start ADDRESS]"

#define BOARD_HELP \
    "  BLOCK                  the boot block's file\n" \
    "  FLASH                  the flash image's file\n" \
    "  --ram START:PAGES      RAM's physical address and its pages of 4,096 bytes\n" \
    "  --flash-start ADDRESS  flash's physical address; 0x20000000 if not given\n"

#define NUMBERS_HELP "Numbers are decimal, or hexadecimal after 0x.\n"

#define STATUS_HELP \
    "The exit status is 0 if it boots, 1 if it is refused,\n" \
    "2 for wrong arguments and for files that cannot be read or written.\n"

static const struct command commands[] = {
    { "check", "check " BOARD_USAGE, "whether a boot block boots on a board, or why it is refused",
      BOARD_HELP "\n" NUMBERS_HELP
      "If it boots: the counts of pages, each process's pages, root table and stack,\n"
      "and the smallest RAM on which it boots. If it is refused: the refusal's number,\n"
      "place and byte in the block, and its cause.\n\n" STATUS_HELP,
      { "BLOCK", "FLASH" }, TAKES_BOARD, run_check },
    { "map", "map " BOARD_USAGE " [--all] [--svg FILE]",
      "what every page of RAM is used for after the boot, from the top down",
      BOARD_HELP
      "  --all                  a line for each page; without it, runs are joined\n"
      "  --svg FILE             draw it as a picture into FILE, - for standard output\n"
      "\n" NUMBERS_HELP
      "A line of several pages has the addresses at which the first and the last start.\n"
      "Pages are taken from the top down, so there the first virtual page is in the\n"
      "highest RAM page. Rights: r read, w write, x execute, u user.\n",
      { "BLOCK", "FLASH" }, TAKES_BOARD | TAKES_MAP, run_map },
    { "walk", "walk " BOARD_USAGE " PROCESS ADDRESS",
      "what a process sees at a virtual address after the boot",
      BOARD_HELP
      "  PROCESS                the process's number, from 1 on; 1 is the kernel\n"
      "  ADDRESS                the virtual address\n"
      "\n" NUMBERS_HELP,
      { "BLOCK", "FLASH", "PROCESS", "ADDRESS" }, TAKES_BOARD, run_walk },
    { "dump", "dump BLOCK", "the block's records as text that write_block reads, with comments",
      "  BLOCK                  the boot block's file\n",
      { "BLOCK" }, 0, run_dump },
};

#define COMMANDS (sizeof commands / sizeof commands[0])

static void print_usages(void)
{
    for (size_t i = 0; i < COMMANDS; i++)
        printf("%s rigpollen %s\n", i == 0 ? "usage:" : "      ", commands[i].usage);
}

static void print_summaries(void)
{
    for (size_t i = 0; i < COMMANDS; i++)
        printf("  %-6s %s\n", commands[i].name, commands[i].summary);
}

static void print_help(void)
{
    print_usages();
    puts("       rigpollen [COMMAND] --help\n"
         "       rigpollen --version\n");
    print_summaries();
    puts("\nThe exit status is 0 if the block boots, or what was asked for is done;\n"
         "1 if the block is refused; 2 for wrong arguments and for files that cannot\n"
         "be read or written.");
}

static int run_command(const struct command *command, int count, char **words)
{
    struct arguments arguments;

    if (!read_arguments(&arguments, command, count, words))
        return STATUS_ERROR;
    if (arguments.options.help) {
        printf("usage: rigpollen %s\n\n%s: %s.\n\n%s", command->usage, command->name,
               command->summary, command->help);
        return STATUS_BOOTS;
    }
    return command->run(&arguments);
}

static int usage_error(const char *what, const char *text)
{
    fprintf(stderr, "rigpollen: %s", what);
    if (text != NULL)
        put_text(stderr, text);
    fputs("; rigpollen --help lists the commands\n", stderr);
    return STATUS_ERROR;
}

/* --help and --version, before any command. */
static int run_option(int count, char **words)
{
    if (count > 2)
        return usage_error("too many arguments: ", words[2]);
    if (strcmp(words[1], "--version") == 0)
        puts("rigpollen " RIGPOLLEN_VERSION);
    else
        print_help();
    return STATUS_BOOTS;
}

static int run(int count, char **words)
{
    if (count < 2)
        return usage_error("a command is missing", NULL);
    if (strcmp(words[1], "--help") == 0 || strcmp(words[1], "-h") == 0
        || strcmp(words[1], "--version") == 0)
        return run_option(count, words);
    for (size_t i = 0; i < COMMANDS; i++)
        if (strcmp(words[1], commands[i].name) == 0)
            return run_command(&commands[i], count - 2, words + 2);
    return usage_error("no such command: ", words[1]);
}

int main(int count, char **words)
{
    const int status = run(count, words);

    if (fflush(stdout) != 0 || ferror(stdout)) {
        file_error("standard output", strerror(errno));
        return STATUS_ERROR;
    }
    return status;
}
