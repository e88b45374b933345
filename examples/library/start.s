# What runs before main in a C program that uses picolibc: gp, as in ../start.s, and tp, to which errno is relative.
# sp (x2) begins at the end of memory. What main returns is in a0 (x10) when EBREAK ends the program.
        .section .text.start, "ax"
        .globl _start
        .type _start, @function
_start: .option push
        .option norelax
        la gp, __global_pointer$
        .option pop
        la tp, __tls_base
        call main
        ebreak
        .size _start, . - _start
