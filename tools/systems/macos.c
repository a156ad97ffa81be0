// What the program asks of macOS, by its libSystem: its words, and what has other numbers there than under Linux. All else
// is that library's own: read, write, close, and memory.
#include "heap.h"

enum { HERE = -2, AGAIN = 11, TOO_LONG = 36, TOO_MANY_LINKS = 40 };

int *__error(void);
int *_NSGetArgc(void);
char ***_NSGetArgv(void);
long write(int file, const void *from, size n);
int openat(int folder, const char *name, int flags, ...);
void *signal(int signal, void *does);

int rattle_errno(void) {
    switch (*__error()) {
    case 35: return AGAIN;
    case 62: return TOO_MANY_LINKS;
    case 63: return TOO_LONG;
    default: return *__error();
    }
}

void rattle_set_errno(int to) { *__error() = to; }

// Files are only read, so that no flag is needed, nor a mode.
int open(const char *name, int flags, ...) {
    (void)flags;
    return openat(HERE, name, 0);
}

long __write(int file, const void *from, size n) { return write(file, from, n); }
void *__sysv_signal(int which, void *does) { return signal(which, does); }

number rattle_arg_count(void) { return (number)*_NSGetArgc(); }

// Puts a word into room, and answers its length: -1 where there is none, -2 where the room is too small.
long rattle_arg(number which, char *room, number most) {
    if (which >= rattle_arg_count()) return -1;
    const char *word = (*_NSGetArgv())[which];
    size n = 0;
    for (; word[n]; n++) {
        if (n == most) return -2;
        room[n] = word[n];
    }
    return (long)n;
}

// The program asks at its start whether the processor has what it was compiled for on x86-64: each of these machines has.
struct leaf {
    unsigned has[4], may[4];
};

const struct leaf *__x86_get_cpuid_feature_leaf(unsigned leaf) {
    static const struct leaf all = {{-1u, -1u, -1u, -1u}, {-1u, -1u, -1u, -1u}};
    (void)leaf;
    return &all;
}
