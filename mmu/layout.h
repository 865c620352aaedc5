/*
 * What the stub (riscv32) and the host programs agree on: where things lie in
 * the machine's RAM, and what the stub records.
 */
#ifndef LAYOUT_H
#define LAYOUT_H

/* Physical addresses. The machine's RAM is a file; offset 0 is RAM_BASE. */
#define RAM_BASE       0x80000000
#define RAM_BYTES      0x10000000 /* 256 MiB, mostly holes in the file */
#define ORDERS         0x80400000 /* struct orders, from the host */
#define IMAGE          0x80800000 /* the loaded board's RAM */
#define FLASH          0x82000000 /* a board's flash starts here or above it, */
#define FLASH_END      0x83000000 /* and ends at the latest here */
#define RECORDS        0x84000000 /* struct head, then records */
#define RECORDS_END    0x8F000000

#define MAX_PROCESSES  16
#define MAX_PAGES      4096

#ifndef __ASSEMBLER__
struct orders {
    unsigned int processes;
    unsigned int satp[MAX_PROCESSES];
};

struct head {
    unsigned int state; /* STATE_ */
    unsigned int end;   /* address after the last record */
};
#endif

/* How the stub ended. BROKEN: a page's first word could be loaded, another of
 * its words could not. TRAP: a trap outside a probe. */
#define STATE_DONE     0x454E4F44
#define STATE_FULL     0x4C4C5546 /* no room for records */
#define STATE_BROKEN   0x4B4F5242
#define STATE_TRAP     0x50415254

/*
 * Records are words, the first says which.
 *
 *   PASS  process (from 1), mode: the records of one pass follow
 *   PAGE  virtual address, outcome, and 1,024 words of the page as they were
 *         loaded in this mode, if loads are allowed. The outcome holds for
 *         each page from this one to the next PAGE record.
 */
#define RECORD_PASS    1
#define RECORD_PAGE    2

/* The modes of a pass: S with SUM clear, S with SUM set, U. */
#define MODE_S         0
#define MODE_S_SUM     1
#define MODE_U         2
#define MODES          3

/*
 * An outcome has four bytes, from the highest: trap cause of the jump, of the
 * same jump tried again, of the load and of the store. Loads and stores that
 * are allowed have cause 0. A jump always traps: the PMP lets neither S nor U
 * execute, so one that the page table allows ends in an access fault and one
 * that it forbids in a page fault, and no byte of a page is ever executed.
 */
#define OUTCOME(jump, load, store) \
    ((uint32_t)((jump) << 24 | (jump) << 16 | (load) << 8 | (store)))
#define CAUSE_NONE               0
#define CAUSE_JUMP_ACCESS_FAULT  1
#define CAUSE_JUMP_PAGE_FAULT    12
#define CAUSE_LOAD_PAGE_FAULT    13
#define CAUSE_STORE_PAGE_FAULT   15

#endif
