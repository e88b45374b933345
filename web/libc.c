// What tomex asks of a C library, for WebAssembly: memory, the words of the command line, files, a clock, and threads
// that run where they are started. The functions named host_* are the host's (web/host.mjs); the heap is Doug Lea's
// (dlmalloc.c of Debian's package emscripten). Nothing proves this file, as nothing proves the C library in whose
// place it stands.

typedef unsigned char u8;
typedef unsigned int u32;
typedef int i32;
typedef unsigned long u64;
typedef long i64;

#define HOST(name) __attribute__((import_module("host"), import_name(#name)))

HOST(word_count) extern u64 host_word_count(void);
// Puts the word's first bytes at `to`, as many as there is room for; the length of the word.
HOST(word) extern u64 host_word(u64 number, u8 *to, u64 room);
// Each of these three: less than 0 is minus an errno.
HOST(open) extern i64 host_open(const u8 *path, u64 length);
HOST(read) extern i64 host_read(i32 file, u8 *to, u64 room);
HOST(write) extern i64 host_write(i32 file, const u8 *from, u64 length);
HOST(close) extern void host_close(i32 file);
HOST(is_terminal) extern i32 host_is_terminal(i32 file);
// Milliseconds.
HOST(clock) extern double host_clock(void);
// Doesn't return.
HOST(exit) extern void host_exit(i32 status);

// ---- memory ----

#define PAGE 65536UL

extern u8 __heap_base;

// The end of what the heap has, and of the memory that the engine has granted.
static u8 *heap_end, *granted_end;

// Has the engine grant memory up to `until`, and if it can more, since a growth is slow. True if it did.
static int grant(u8 *until) {
    u64 least = ((u64)(until - granted_end) + PAGE - 1) / PAGE;
    u64 more = (u64)granted_end / (8 * PAGE) + 16;
    u64 pages = least > more ? least : more;
    // A memory of 32 bits that is seen as one of 64 answers a refusal by 2^32 - 1.
    if (__builtin_wasm_memory_grow(0, pages) >= 0xffffffffUL) {
        pages = least;
        if (__builtin_wasm_memory_grow(0, pages) >= 0xffffffffUL) return 0;
    }
    granted_end += pages * PAGE;
    return 1;
}

// More of the memory for the heap, as the system call sbrk gives it: where it begins, or -1.
void *more_core(i64 bytes) {
    if (!heap_end) {
        heap_end = (u8 *)(((u64)&__heap_base + 15) & ~15UL);
        granted_end = (u8 *)(__builtin_wasm_memory_size(0) * PAGE);
    }
    u8 *begin = heap_end;
    // No memory of 32 bits has so many.
    if (bytes < 0 || bytes > 1L << 32) return (void *)-1L;
    if (begin + bytes > granted_end && !grant(begin + bytes)) return (void *)-1L;
    heap_end = begin + bytes;
    return begin;
}

void *dlmalloc(u64 bytes);
void *dlrealloc(void *block, u64 bytes);
void dlfree(void *block);

typedef struct {
    u64 ok;
    u8 *block;
} Tried;

static u8 nothing;

static Tried tried(u8 *block) {
    Tried found = {block != 0, block ? block : &nothing};
    return found;
}

// Blocks are aligned to 16 bytes, more than any alignment that is asked for.
Tried rattle_alloc(u64 bytes, u64 alignment) {
    return tried(dlmalloc(bytes ? bytes : alignment));
}

void rattle_dealloc(u8 *block) {
    dlfree(block);
}

Tried rattle_realloc(u8 *block, u64 kept, u64 bytes, u64 alignment) {
    return tried(dlrealloc(block, bytes ? bytes : alignment));
}

void *malloc(u64 bytes) {
    return dlmalloc(bytes);
}

void free(void *block) {
    dlfree(block);
}

// ---- words, errors, files, time ----

static i32 error;

i32 rattle_errno(void) {
    return error;
}

void rattle_set_errno(i32 number) {
    error = number;
}

i32 *__errno_location(void) {
    return &error;
}

u64 rattle_arg_count(void) {
    return host_word_count();
}

// The word's length; -1 if there is no such word, -2 if there is no room for it.
i64 rattle_arg(u64 number, u8 *to, u64 room) {
    if (number >= host_word_count()) return -1;
    u64 length = host_word(number, to, room);
    return length <= room ? (i64)length : -2;
}

static i64 or_error(i64 result) {
    if (result >= 0) return result;
    error = (i32)-result;
    return -1;
}

i32 open(const u8 *path, i32 flags, ...) {
    u64 length = 0;
    while (path[length]) length++;
    return (i32)or_error(host_open(path, length));
}

i64 read(i32 file, u8 *to, u64 room) {
    return or_error(host_read(file, to, room));
}

i64 write(i32 file, const u8 *from, u64 length) {
    return or_error(host_write(file, from, length));
}

i64 __write(i32 file, const u8 *from, u64 length) {
    return write(file, from, length);
}

i32 close(i32 file) {
    host_close(file);
    return 0;
}

i32 isatty(i32 file) {
    return host_is_terminal(file);
}

typedef struct {
    i64 seconds, nanoseconds;
} Time;

i32 clock_gettime(i32 clock, Time *to) {
    double now = host_clock();
    to->seconds = (i64)(now / 1000);
    to->nanoseconds = (i64)((now - (double)to->seconds * 1000) * 1e6);
    return 0;
}

// ---- threads: each runs to its end where it is started ----
//
// So there is one thread, and what waits for another already has what it waits for. A program whose threads wait for
// one that is started later would have no end; those of tomex don't, and `syscall` traps in place of such a wait.

static u64 threads;

i32 pthread_create(u64 *thread, const void *how, void *(*start)(void *), void *given) {
    *thread = ++threads;
    start(given);
    return 0;
}

i32 pthread_join(u64 thread, void **result) {
    return 0;
}

i32 pthread_detach(u64 thread) {
    return 0;
}

u64 pthread_self(void) {
    return 0;
}

i32 pthread_attr_init(void *how) {
    return 0;
}

i32 pthread_attr_destroy(void *how) {
    return 0;
}

i32 pthread_attr_setguardsize(void *how, u64 size) {
    return 0;
}

i32 pthread_attr_setstacksize(void *how, u64 size) {
    return 0;
}

i32 sched_yield(void) {
    return 0;
}

enum { EAGAIN = 11, FUTEX_WAKE = 1, FUTEX_COMMAND = 127 };

// Linux's futex: a thread waits until another one changes a word. No other thread runs, so such a wait has no end.
i64 syscall(i64 number, u32 *word, i64 what, i64 expected, const void *until, ...) {
    if ((what & FUTEX_COMMAND) == FUTEX_WAKE) return 0;
    if (*word != (u32)expected) return or_error(-EAGAIN);
    __builtin_trap();
}

// One processor.
i32 sched_getaffinity(i32 process, u64 room, u8 *to) {
    for (u64 i = 0; i < room; i++) to[i] = i == 0;
    return 0;
}

i64 sysconf(i32 name) {
    return 1;
}

// ---- what is left: no signals, no variables of an environment, and the end ----

i64 __sysv_signal(i32 signal, i64 action) {
    return 0;
}

i64 rattle_env(const u8 *name, u8 *to, u64 room) {
    return -1;
}

i64 rattle_env_at(u64 number, u8 *to, u64 room) {
    return -1;
}

i32 __xpg_strerror_r(i32 number, u8 *to, u64 room) {
    static const u8 text[] = "the host refused it";
    for (u64 i = 0; i < room && i < sizeof text; i++) to[i] = text[i];
    return 0;
}

void abort(void) {
    __builtin_trap();
}

void _exit(i32 status) {
    host_exit(status);
    __builtin_trap();
}
