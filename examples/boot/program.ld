/* For the ROM, the kernel and the processes: each says in its assembly where its code and its variables lie. */
ENTRY(start)
SECTIONS
{
    . = code;
    .code : { *(.start) *(.text*) *(.rodata*) *(.srodata*) }
    .initialised : { *(.data*) *(.sdata*) }
    ASSERT(SIZEOF(.initialised) == 0, "variables can only start as zero")
    . = variables;
    .variables (NOLOAD) : { *(.bss*) *(.sbss*) *(COMMON) }
    ASSERT(SIZEOF(.variables) <= variables_bytes, "there is no room for so many variables")
    /DISCARD/ : { *(.comment) *(.note*) *(.riscv.attributes) *(.eh_frame) }
}
