ENTRY(_start)
SECTIONS
{
    . = 0x80000000;
    .start : { *(.start) }
    .text : { *(.text*) *(.rodata*) *(.srodata*) *(.data*) *(.sdata*) }
    .probe : { *(.probe) }
    .bss (NOLOAD) : ALIGN(4096) {
        second_page = .;
        . += 4096;
        *(.bss*) *(.sbss*)
        . += 4096;
        stack_top = ALIGN(16);
    }
    ASSERT(SIZEOF(.probe) <= 4096, "the probe must fit on one page")
    /DISCARD/ : { *(.comment) *(.note*) *(.riscv.attributes) *(.eh_frame) }
}
