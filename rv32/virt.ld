ENTRY(_start)
SECTIONS
{
    . = 0x80000000;
    .text : { *(.start) *(.text*) }
    .rodata : { *(.rodata*) *(.srodata*) }
    . = ALIGN(4096);
    .data : { *(.data*) *(.sdata*) }
    .bss (NOLOAD) : {
        bss_start = .;
        *(.bss*) *(.sbss*) *(COMMON)
        . = ALIGN(4096);
        bss_end = .;
        stack_low = .;
        . += 0x10000;
        stack_top = .;
    }
    ASSERT(. <= 0x80400000, "the program must end below AREA of machine.h")
    /DISCARD/ : { *(.note*) *(.comment) *(.eh_frame) *(.riscv.attributes) }
}
