/* The program in ring 3: a page that each space has, outside of what the database maps. The address to access is in
 * rdi. It ends by int 0x80, with what it found in rax, or by a page fault. */
    .section .program, "ax"
    .balign 4096
    .global program, program_read, program_write, program_execute
program:
program_read:
    movzbl (%rdi), %eax
    int $0x80
program_write:
    movb $0xee, (%rdi)              /* MARK in kernel.h */
    int $0x80
program_execute:
    call *%rdi                      /* each frame has code that returns its number */
    int $0x80
    .balign 4096

/* The traces that the kernel replays, and their answers. */
    .macro text_file name, path
    .global \name
\name:
    .incbin "\path"
    .byte 0
    .endm
    .section .rodata
    text_file six_records, "../first-six-records.csv"
    text_file six_answers, "../first-six-records.txt"
    text_file chain_records, "../chain-and-its-revocation.csv"
    text_file chain_answers, "../chain-and-its-revocation.txt"

    .section .note.GNU-stack, "", @progbits
