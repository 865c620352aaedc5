#include "commands.h"

#include <inttypes.h>
#include <stdio.h>

#include "explain.h"
#include "words.h"

void print_refusal(const struct board *board, const char *before)
{
    char cause[CAUSE_BYTES];

    printf("%srefused %" PRIu32 " at %" PRIu32 ", byte %" PRIu32 "\n", before,
           board->answer[RIGPOLLEN_ANSWER_NUMBER],
           board->answer[RIGPOLLEN_ANSWER_PLACE],
           board->answer[RIGPOLLEN_ANSWER_OFFSET]);
    if (explain(cause, board))
        printf("%s%s\n", before, cause);
}

int boot_board(struct board *board, const struct arguments *arguments)
{
    if (!read_board(board, arguments))
        return STATUS_ERROR;
    if (check_board(board) != RIGPOLLEN_LOADED) {
        print_refusal(board, "");
        return STATUS_REFUSED;
    }
    return load_board(board) ? STATUS_BOOTS : STATUS_ERROR;
}

static void print_process(const struct board *board, uint32_t process)
{
    const uint32_t pages = pages_of(board, process);
    const uint32_t stack = reserved_pages(board, process);

    printf("process %" PRIu32 "%s: %" PRIu32 " page%s, root table 0x%08" PRIX32 ", ",
           process, process == 1 ? " (the kernel)" : "", pages, plural(pages),
           board->roots[process] * RIGPOLLEN_PAGE_BYTES);
    if (stack == 0)
        puts("no stack");
    else
        printf("stack of %" PRIu32 " page%s from 0x%08" PRIX32 "\n", stack,
               plural(stack),
               RIGPOLLEN_STACK_POINTER - stack * RIGPOLLEN_PAGE_BYTES);
}

static void print_boot(const struct board *board)
{
    printf("boots: RAM of %" PRIu64 " pages, %" PRIu32 " taken, %" PRIu32 " free; page tracker %"
           PRIu32 " page%s\n",
           board->ram_pages, board->answer[RIGPOLLEN_ANSWER_TAKEN],
           board->answer[RIGPOLLEN_ANSWER_FREE],
           board->answer[RIGPOLLEN_ANSWER_TRACKER],
           plural(board->answer[RIGPOLLEN_ANSWER_TRACKER]));
    for (uint32_t process = 1; process <= process_count(&board->block); process++)
        print_process(board, process);
    printf("smallest RAM on which it boots: %" PRIu32 " pages\n",
           smallest_ram(board));
}

int run_check(const struct arguments *arguments)
{
    struct board board;
    const int status = boot_board(&board, arguments);

    if (status == STATUS_BOOTS)
        print_boot(&board);
    free_board(&board);
    return status;
}
