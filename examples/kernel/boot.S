/* From the multiboot header to C in 64 bits, and to ring 3 and back. */

    .set KERNEL_CODE, 0x08          /* segments, as the table below has them */
    .set KERNEL_DATA, 0x10
    .set USER_CODE, 0x18 + 3
    .set USER_DATA, 0x20 + 3
    .set TASK, 0x28

    .section .multiboot, "a"
    .long 0x1badb002, 0, -0x1badb002

/* The processor begins in 32 bits, without pages. */
    .text
    .code32
    .global start
start:
    mov $tss, %eax                  /* the segment TASK has this address in pieces; it is below 16 MiB */
    mov %ax, segments + TASK + 2
    shr $16, %eax
    mov %al, segments + TASK + 4
    lgdt segments_pointer
    mov $0x620, %eax                /* CR4: PAE, and SSE, which the archive uses */
    mov %eax, %cr4
    mov $boot_top, %eax
    mov %eax, %cr3
    mov $0xc0000080, %ecx           /* EFER: 64 bits, and pages that are not to execute */
    rdmsr
    or $0x900, %eax
    wrmsr
    mov $0x80010003, %eax           /* CR0: pages, and read-only is so in ring 0 too */
    mov %eax, %cr0
    ljmp $KERNEL_CODE, $start_in_64_bits

    .code64
start_in_64_bits:
    mov $KERNEL_DATA, %eax
    mov %eax, %ss
    mov $TASK, %eax
    ltr %ax
    mov $stack_end, %rsp
    call kernel_main

/* int64_t enter_ring_3(uint64_t code, uint64_t stack, uint64_t address) */
    .global enter_ring_3, page_fault, system_call, other_exception, timer
enter_ring_3:
    push %rbx; push %rbp; push %r12; push %r13; push %r14; push %r15
    mov %rsp, tss + 4               /* the stack of all traps out of ring 3 */
    push $USER_DATA; push %rsi
    push $0x202                     /* flags: interrupts are on */
    push $USER_CODE; push %rdi
    mov %rdx, %rdi
    iretq

page_fault:
    testb $3, 16(%rsp)              /* which ring was it? */
    jz other_exception
    pop %rax
    not %rax                        /* -1 - error code */
    jmp back
system_call:
    mov %eax, %eax                  /* its upper half is 0 then */
back:
    mov tss + 4, %rsp
    pop %r15; pop %r14; pop %r13; pop %r12; pop %rbp; pop %rbx
    sti
    ret

other_exception:
    and $-16, %rsp
    call fail_by_exception

/* The timer interrupts whatever runs, in ring 0 on the stack that it uses: calls of the archive, too. */
timer:
    push %rax
    incl ticks
    mov $0x20, %al                  /* to the interrupt controller: it may interrupt again */
    out %al, $0x20
    pop %rax
    iretq

    .data
    .balign 8
segments:
    .quad 0, 0x00af9a000000ffff, 0x00cf92000000ffff, 0x00affa000000ffff, 0x00cff2000000ffff
    .quad 0x0000890000000067, 0
segments_pointer:
    .short . - segments - 1
    .long segments
    .balign 8
tss:
    .fill 102, 1, 0
    .short 104

/* The first GiB at its own addresses, for ring 0 alone; all spaces have it, from kernel_third on. */
    .balign 4096
    .global boot_top, kernel_third
boot_top:
    .quad kernel_third + 3
    .fill 511, 8, 0
kernel_third:
    .quad kernel_second + 3
    .fill 511, 8, 0
kernel_second:
    .set large, 0x83                /* a page of 2 MiB */
    .rept 512
    .quad large
    .set large, large + 0x200000
    .endr

    .bss
    .balign 16
    .fill 65536
stack_end:
    .global ticks
ticks:
    .fill 4

    .section .note.GNU-stack, "", @progbits
