# memset, memcpy, memmove and memcmp for a program without a C library: compilers make calls of them, for
# loops that clear or copy an array and for copies of structs, also if the program names none. Link this file
# where the linker misses one. It goes byte by byte, and is right for all addresses and lengths, 0 too. It is
# assembly so that no compiler can turn a loop in it into a call of itself.
    .globl memset
    .globl memcpy
    .globl memmove
    .globl memcmp

# void *memset(void *to, int byte, size_t count)
memset:
    mv   t0, a0
    add  t1, a0, a2             # the end
1:  beq  t0, t1, 2f
    sb   a1, 0(t0)
    addi t0, t0, 1
    j    1b
2:  ret

# void *memmove(void *to, const void *from, size_t count): if `to` is inside what is copied, from the end down
memmove:
    sub  t0, a0, a1
    bltu t0, a2, 3f

# void *memcpy(void *to, const void *from, size_t count)
memcpy:
    mv   t0, a0
    add  t1, a0, a2             # the end
1:  beq  t0, t1, 2f
    lbu  t2, 0(a1)
    sb   t2, 0(t0)
    addi a1, a1, 1
    addi t0, t0, 1
    j    1b
2:  ret

3:  add  t0, a0, a2
    add  a1, a1, a2
4:  beq  t0, a0, 2b
    addi a1, a1, -1
    addi t0, t0, -1
    lbu  t2, 0(a1)
    sb   t2, 0(t0)
    j    4b

# int memcmp(const void *a, const void *b, size_t count): by the first bytes that differ, without signs
memcmp:
    add  t0, a0, a2             # the end
1:  beq  a0, t0, 2f
    lbu  t1, 0(a0)
    lbu  t2, 0(a1)
    addi a0, a0, 1
    addi a1, a1, 1
    beq  t1, t2, 1b
    sub  a0, t1, t2
    ret
2:  li   a0, 0
    ret
