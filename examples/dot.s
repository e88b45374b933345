# The inner product of two vectors of 32 words, which are zero: only the cycles count.
    addi x8, x0, 64
    addi x9, x0, 192
    addi x11, x0, 192
again:
    lw   x5, 0(x8)
    lw   x6, 0(x9)
    mul  x7, x5, x6
    add  x10, x10, x7
    addi x8, x8, 4
    addi x9, x9, 4
    bne  x8, x11, again
    ebreak
