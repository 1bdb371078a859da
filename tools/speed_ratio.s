# What tools/speed_ratio puts between the benchmark and two builds of the library: a function by its own name, which goes on to the same function
# of the build that was taken last. 'forward NAME' makes one.
    .data
    .balign 8
taken:
    .quad 0

    .text
    .globl speed_ratio_take
    .type speed_ratio_take, @function
speed_ratio_take:                       # 0: before, 1: after
    mov %edi, %eax
    mov %rax, taken(%rip)
    ret

    .globl speed_ratio_strict
    .type speed_ratio_strict, @function
speed_ratio_strict:                     # whether that build's calls have the strict list: 'before_strict' and 'after_strict' are set to 0 or 1
    mov %edi, %eax
    lea strict(%rip), %r11
    movzbl (%r11, %rax), %eax
    ret

    .section .rodata
strict:
    .byte before_strict, after_strict
    .text

    .macro forward name
    .section .data.rel.ro, "aw"
    .balign 16
\name\()_both:
    .quad before_\name, after_\name
    .text
    .globl \name
    .type \name, @function
    .balign 16
\name:                                  # rax and r11 hold no argument
    mov taken(%rip), %rax
    lea \name\()_both(%rip), %r11
    jmp *(%r11, %rax, 8)
    .endm

    .section .note.GNU-stack, "", @progbits
