# Writes a line on standard output and exits, by system calls of Linux alone.
# It has one section of code and needs no relocation: the text stands behind the code.

        .globl  _start
        .text
_start:
        mov     $1, %eax                # write(
        mov     $1, %edi                #   standard output,
        lea     text(%rip), %rsi        #   text,
        mov     $text_end - text, %edx  #   its length)
        syscall
        mov     $60, %eax               # exit(
        xor     %edi, %edi              #   0)
        syscall

text:   .ascii  "Hello from an image that omosd linked.\n"
text_end:
