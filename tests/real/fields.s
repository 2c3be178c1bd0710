# Fields of several kinds, by hand.
        .globl  _start, number
        .text
_start: mov     $60, %eax
        mov     number(%rip), %edi
        add     absolute, %edi
        mov     $low, %esi
        syscall
        .quad   _start, number - ., low
        .long   number - ., absolute
        .data
        .balign 8
number: .long   5
absolute: .long 6
        .quad   number + 4
        .bss
        .balign 64
low:    .skip   100
