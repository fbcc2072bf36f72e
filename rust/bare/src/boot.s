# From the boot loader's state (Multiboot 2: 32 bits, no pages) to `run`: 64 bits, the first GiB at its own addresses, and
# the registers of AVX-512.

.section .multiboot, "a"
.align 8
header:
    .long 0xe85250d6
    .long 0
    .long header_end - header
    .long -(0xe85250d6 + (header_end - header))
    .short 0, 0
    .long 8
header_end:

.section .text
.code32
.global start
start:
    cli
    movl $stack_end, %esp

    # pages of 2 MiB: one entry of the first two tables, and all of the third
    movl $third, %eax
    orl $3, %eax
    movl %eax, first
    movl $pages, %eax
    orl $3, %eax
    movl %eax, third
    xorl %ecx, %ecx
page:
    movl %ecx, %eax
    shll $21, %eax
    orl $0x83, %eax
    movl %eax, pages(, %ecx, 8)
    incl %ecx
    cmpl $512, %ecx
    jne page
    movl $first, %eax
    movl %eax, %cr3

    # CR4: PAE, OSFXSR, OSXMMEXCPT, OSXSAVE
    movl %cr4, %eax
    orl $0x40620, %eax
    movl %eax, %cr4
    # EFER: long mode
    movl $0xc0000080, %ecx
    rdmsr
    orl $0x100, %eax
    wrmsr
    # CR0: paging, no emulated coprocessor
    movl %cr0, %eax
    andl $0xfffffffb, %eax
    orl $0x80000003, %eax
    movl %eax, %cr0
    lgdt segments_place
    ljmp $8, $long_mode

.code64
long_mode:
    movw $16, %ax
    movw %ax, %ss
    movw %ax, %ds
    movw %ax, %es
    # XCR0: the registers of SSE, AVX and AVX-512
    xorl %ecx, %ecx
    xorl %edx, %edx
    movl $0xe7, %eax
    xsetbv
    movabsq $stack_end, %rsp
    call run
    ud2

.section .data
.align 8
segments:
    .quad 0, 0x00af9a000000ffff, 0x00cf92000000ffff
segments_place:
    .short 23
    .quad segments

.section .bss
.align 4096
first:
    .skip 4096
third:
    .skip 4096
pages:
    .skip 4096
.align 64
    .skip 262144
stack_end:
