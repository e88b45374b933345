# The program that docs/MACHINE.md follows by hand.
    addi x8, x0, 256
    addi x1, x0, 768
    mul  x3, x1, x1
    sw   x1, 0(x8)
    lb   x2, 1(x8)
    add  x4, x3, x2
    ebreak
