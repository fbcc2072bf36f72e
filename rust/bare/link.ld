/* A program that the boot loader puts at 2 MiB, with its header first. */
ENTRY(start)
SECTIONS {
    . = 2M;
    .text : { KEEP(*(.multiboot)) *(.text .text.*) }
    .rodata : { *(.rodata .rodata.*) }
    .data : { *(.data .data.* .got .got.*) }
    .bss : { *(.bss .bss.* COMMON) }
    /DISCARD/ : { *(.eh_frame*) *(.note*) *(.gcc_except_table*) *(.comment) }
}
