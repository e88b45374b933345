# Counts x1 from 499 down to 0: 1,000 instructions with the EBREAK.
    addi x1, x0, 499
again:
    addi x1, x1, -1
    bne  x1, x0, again
    ebreak
