# Multiplies the two words behind the EBREAK by 7, from the last one on. docs/MACHINE.md follows it by
# hand: both turns of the loop use the same registers.
    addi x6, x0, 7
    addi x8, x0, 8
again:
    lw   x1, 28(x8)
    mul  x2, x1, x6
    sw   x2, 28(x8)
    addi x8, x8, -4
    bne  x8, x0, again
    ebreak
    .word 3, 5
