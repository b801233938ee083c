ENTRY(start)
SECTIONS {
    . = 1M;
    .text : { *(.multiboot) *(.text .text.*) }
    .program : ALIGN(4096) { *(.program) }
    .rodata : ALIGN(4096) { *(.rodata .rodata.*) }
    .data : ALIGN(4096) { *(.data .data.*) }
    .bss : ALIGN(4096) { *(.bss .bss.* COMMON) }
    /DISCARD/ : { *(.eh_frame .comment .note .note.*) }
}
