# What runs before main in a C program for tomex. Link it first, so that _start is where the image begins.
#
# GNU ld lets code reach small data relative to gp, so gp has to be loaded before any C code runs; the
# load itself must not be made relative to gp. lld leaves gp alone. The stack pointer is given: sp (x2)
# begins at the end of memory. What main returns is in a0 (x10) when EBREAK ends the program.
    .globl _start
    .weak  __global_pointer$
_start:
    .option push
    .option norelax
    lla  gp, __global_pointer$
    .option pop
    call main
    ebreak
