# The product of 5 and 7, in x3.
    addi x1, x0, 5
    addi x2, x0, 7
    mul  x3, x1, x2
    ebreak
