# What a loader jumps to: it takes a stack of the image's own and calls kernel_main.
        .globl  kernel_start
        .text
kernel_start:
        lea     stack_end(%rip), %rsp
        xor     %ebp, %ebp
        call    kernel_main
        mov     $60, %eax               # here the kernel is a program, so it can end: exit(
        xor     %edi, %edi              #   0)
        syscall

        .bss
        .balign 4096
stack:  .skip   16384
stack_end:
