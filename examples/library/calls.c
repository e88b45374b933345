/* What picolibc asks of a system: memory, an end, and a place for what is printed. */
#include <stdio.h>
#include <stdlib.h>
#include <string.h>

/* Blocks are cut from one array. Each begins with its size, 16 bytes before what malloc returns. Only the last one can
   be given back. */
static char heap[32768] __attribute__((aligned(16)));
static size_t used;

void *malloc(size_t size)
{
    size_t *block = (size_t *)(heap + used);
    if (size > sizeof heap)
        return 0;
    size = (size + 15) & ~(size_t)15;
    if (size + 16 > sizeof heap - used)
        return 0;
    used += size + 16;
    *block = size;
    return block + 4;
}

static size_t size_of(void *p) { return ((size_t *)p)[-4]; }

void free(void *p)
{
    if (p && (char *)p + size_of(p) == heap + used)
        used = (char *)p - 16 - heap;
}

void *calloc(size_t count, size_t size)
{
    void *p = malloc(count * size);
    return p ? memset(p, 0, count * size) : 0;
}

void *realloc(void *p, size_t size)
{
    if (p && size <= size_of(p))
        return p;
    void *larger = malloc(size);
    if (larger && p) {
        memcpy(larger, p, size_of(p));
        free(p);
    }
    return larger;
}

/* The program ends with its status in a0 (x10). */
void _exit(int status)
{
    register int a0 __asm__("a0") = status;
    for (;;)
        __asm__ volatile("ebreak" ::"r"(a0));
}

void exit(int status) { _exit(status); }

/* What is printed goes to an array: `watch` in a study shows it. */
char printed[4096];
static unsigned end;

static int put(char letter, FILE *file)
{
    printed[end++ % sizeof printed] = letter;
    return letter;
}

static FILE out = FDEV_SETUP_STREAM(put, 0, 0, _FDEV_SETUP_WRITE);
FILE *const stdin = &out, *const stdout = &out, *const stderr = &out;
