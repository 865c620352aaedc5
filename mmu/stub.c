/*
 * The program that runs on the bare machine: for each process and each mode
 * it sets satp and probes every virtual page. It writes no word of the loaded
 * board's RAM itself, but where a probe stores back what it has just loaded.
 */
#include "layout.h"

#define PAGE      4096u
#define PAGES     0x100000u /* virtual pages of a 32-bit address */

#define SPP       0x00000100u
#define MPP_S     0x00000800u
#define MPRV      0x00020000u
#define SUM       0x00040000u

/* Answers in the place of an address after the last record. */
#define FULL      ((unsigned int *)0)
#define BROKEN    ((unsigned int *)1)

typedef unsigned int *probe_fn(unsigned int address, unsigned int pages,
                               unsigned int mstatus, unsigned int spp,
                               unsigned int *out, unsigned int *end);

extern probe_fn probe;
extern char second_page[]; /* room for a copy of the probe's page */

static const struct orders *const orders = (const struct orders *)ORDERS;
static struct head *const head = (struct head *)RECORDS;
static unsigned int *const records_end = (unsigned int *)RECORDS_END;

static int failed(const unsigned int *out)
{
    return out == FULL || out == BROKEN;
}

static void copy_words(unsigned int *to, const unsigned int *from,
                       unsigned int words)
{
    for (unsigned int i = 0; i < words; i++)
        to[i] = from[i];
}

static void set_satp(unsigned int value)
{
    __asm__ volatile("csrw satp, %0; sfence.vma" : : "r"(value) : "memory");
}

/* Every virtual page: all but the probe's own, and that one by the copy. */
static unsigned int *probe_all(unsigned int mode, unsigned int *out)
{
    const unsigned int own = (unsigned int)probe;
    const unsigned int mstatus = MPRV | (mode == MODE_U ? 0 : MPP_S)
                                 | (mode == MODE_S_SUM ? SUM : 0);
    const unsigned int spp = mode == MODE_U ? 0 : SPP;
    const struct {
        probe_fn *by;
        unsigned int address, pages;
    } parts[] = {
        { probe, 0, own / PAGE },
        { (probe_fn *)second_page, own, 1 },
        { probe, own + PAGE, PAGES - own / PAGE - 1 },
    };

    for (int i = 0; i < 3 && !failed(out); i++)
        out = parts[i].by(parts[i].address, parts[i].pages, mstatus, spp,
                          out, records_end);
    return out;
}

static unsigned int *pass(unsigned int process, unsigned int mode,
                          unsigned int *out)
{
    if (records_end - out < 3)
        return FULL;
    *out++ = RECORD_PASS;
    *out++ = process;
    *out++ = mode;
    set_satp(orders->satp[process - 1]);
    out = probe_all(mode, out);
    set_satp(0);
    return out;
}

void run_passes(void)
{
    unsigned int *out = (unsigned int *)(head + 1);

    copy_words((unsigned int *)second_page, (const unsigned int *)probe,
               PAGE / 4);
    __asm__ volatile("fence.i" : : : "memory");
    for (unsigned int process = 1; process <= orders->processes; process++)
        for (unsigned int mode = 0; mode < MODES; mode++) {
            out = pass(process, mode, out);
            if (failed(out)) {
                head->state = out == FULL ? STATE_FULL : STATE_BROKEN;
                return;
            }
        }
    head->end = (unsigned int)out;
    head->state = STATE_DONE;
}
