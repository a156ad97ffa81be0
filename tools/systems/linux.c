// What the program asks of an operating system, by Linux's system calls alone: no C library is linked. Arguments, files
// that are read, standard streams, and memory.
#include "heap.h"

// The program asks at its start whether the processor has what it was compiled for on x86-64: twice the registers of a leaf
// of cpuid, of which the second are what may be used.
struct leaf {
    unsigned has[4], may[4];
};

#if defined(__x86_64__)
enum { READ = 0, WRITE = 1, CLOSE = 3, MMAP = 9, MUNMAP = 11, SIGACTION = 13, MREMAP = 25, EXIT = 231, OPENAT = 257 };

__asm__(".globl _start\n_start: xor %ebp, %ebp\n mov %rsp, %rdi\n and $-16, %rsp\n call begin\n");

static long system_call(long call, long a, long b, long c, long d, long e, long f) {
    register long r10 __asm__("r10") = d, r8 __asm__("r8") = e, r9 __asm__("r9") = f;
    __asm__ volatile("syscall" : "+a"(call) : "D"(a), "S"(b), "d"(c), "r"(r10), "r"(r8), "r"(r9) : "rcx", "r11", "memory");
    return call;
}

const struct leaf *__x86_get_cpuid_feature_leaf(unsigned leaf) {
    static struct leaf read;
    unsigned a = leaf == 2 ? 0x80000001 : 1, b, c = 0, d;
    __asm__("cpuid" : "+a"(a), "=b"(b), "+c"(c), "=d"(d));
    read = (struct leaf){{a, b, c, d}, {a, b, c, d}};
    return &read;
}
#elif defined(__aarch64__)
enum { OPENAT = 56, CLOSE = 57, READ = 63, WRITE = 64, EXIT = 94, SIGACTION = 134, MUNMAP = 215, MREMAP = 216, MMAP = 222 };

__asm__(".globl _start\n_start: mov x29, #0\n mov x30, #0\n mov x0, sp\n bl begin\n");

static long system_call(long call, long a, long b, long c, long d, long e, long f) {
    register long x8 __asm__("x8") = call, x0 __asm__("x0") = a, x1 __asm__("x1") = b, x2 __asm__("x2") = c;
    register long x3 __asm__("x3") = d, x4 __asm__("x4") = e, x5 __asm__("x5") = f;
    __asm__ volatile("svc 0" : "+r"(x0) : "r"(x8), "r"(x1), "r"(x2), "r"(x3), "r"(x4), "r"(x5) : "memory");
    return x0;
}

// Compiled for another processor it needs none of that.
const struct leaf *__x86_get_cpuid_feature_leaf(unsigned leaf) {
    static const struct leaf all = {{-1u, -1u, -1u, -1u}, {-1u, -1u, -1u, -1u}};
    (void)leaf;
    return &all;
}
#endif

static int error;

// A call's answer: a number below zero tells the error.
static long answer(long given) {
    if (given >= 0 || given < -4095) return given;
    error = (int)-given;
    return -1;
}

int rattle_errno(void) { return error; }
void rattle_set_errno(int to) { error = to; }

long read(int file, void *to, size n) { return answer(system_call(READ, file, (long)to, (long)n, 0, 0, 0)); }
long write(int file, const void *from, size n) { return answer(system_call(WRITE, file, (long)from, (long)n, 0, 0, 0)); }
long __write(int file, const void *from, size n) { return write(file, from, n); }
int close(int file) { return (int)answer(system_call(CLOSE, file, 0, 0, 0, 0, 0)); }

// Files are only read, so that none is made and no mode is needed. -100: names begin in the working directory.
int open(const char *name, int flags, ...) { return (int)answer(system_call(OPENAT, -100, (long)name, flags, 0, 0, 0)); }

// What a signal does from now on, which is no function of ours; what it did isn't told.
void *__sysv_signal(int signal, void *does) {
    struct {
        void *does;
        unsigned long flags;
        void *restorer;
        unsigned long mask;
    } action = {does, 0, 0, 0};
    answer(system_call(SIGACTION, signal, (long)&action, 0, sizeof action.mask, 0, 0));
    return 0;
}

// The program's words.
static size count;
static char **words;

number rattle_arg_count(void) { return count; }

// Puts a word into room, and answers its length: -1 where there is none, -2 where the room is too small.
long rattle_arg(number which, char *room, number most) {
    if (which >= count) return -1;
    size n = 0;
    for (; words[which][n]; n++) {
        if (n == most) return -2;
        room[n] = words[which][n];
    }
    return (long)n;
}

int main(int, char **);

__attribute__((noreturn, used)) void begin(long *stack) {
    count = (size)stack[0];
    words = (char **)(stack + 1);
    long status = main((int)count, words);
    for (;;) system_call(EXIT, status, 0, 0, 0, 0, 0);
}

// Memory. A block's capacity is a power of two, and stands in the 16 bytes before it. Free ones are kept by capacity;
// one of more than LARGEST is a mapping of its own, of whole pages, and goes when it is freed.
enum { HEAD = 16, LARGEST = 1 << 16, MAPPED = 1 << 20, PAGE = 1 << 12 };

struct block {
    size capacity;
    struct block *next;
};

static struct block *kept[24];
static char *fresh, *end_of_fresh;

// Whole pages of zeros that are ours alone, to be read and written; null where there are none.
static char *mapped(size n) {
    long at = system_call(MMAP, 0, (long)n, 3, 0x22, -1, 0);
    return at < 0 && at >= -4095 ? 0 : (char *)at;
}

static struct block *block_of(void *given) { return (struct block *)((char *)given - HEAD); }
static size whole_pages(size n) { return (n + HEAD + PAGE - 1) & -(size)PAGE; }

static void *large(size n) {
    struct block *made = (struct block *)mapped(whole_pages(n));
    if (!made) return 0;
    made->capacity = whole_pages(n) - HEAD;
    return (char *)made + HEAD;
}

void *malloc(size n) {
    if (n > LARGEST) return large(n);
    int class = n <= 16 ? 4 : 64 - __builtin_clzll(n - 1);
    struct block *found = kept[class];
    if (found) {
        kept[class] = found->next;
        return (char *)found + HEAD;
    }
    size needed = HEAD + ((size)1 << class);
    if ((size)(end_of_fresh - fresh) < needed) {
        char *more = mapped(MAPPED);
        if (!more) return 0;
        fresh = more;
        end_of_fresh = more + MAPPED;
    }
    found = (struct block *)fresh;
    fresh += needed;
    found->capacity = (size)1 << class;
    return (char *)found + HEAD;
}

void free(void *given) {
    if (!given) return;
    struct block *it = block_of(given);
    if (it->capacity > LARGEST) {
        system_call(MUNMAP, (long)it, (long)(it->capacity + HEAD), 0, 0, 0, 0);
    } else {
        int class = 63 - __builtin_clzll(it->capacity);
        it->next = kept[class];
        kept[class] = it;
    }
}

void *memcpy(void *to, const void *from, size n);

void *realloc(void *given, size n) {
    struct block *it = block_of(given);
    if (n <= it->capacity) return given;
    if (it->capacity > LARGEST) {
        long moved = system_call(MREMAP, (long)it, (long)(it->capacity + HEAD), (long)whole_pages(n), 1, 0, 0);
        if (moved < 0 && moved >= -4095) return 0;
        ((struct block *)moved)->capacity = whole_pages(n) - HEAD;
        return (char *)moved + HEAD;
    }
    void *made = malloc(n);
    if (!made) return 0;
    memcpy(made, given, it->capacity);
    free(given);
    return made;
}
