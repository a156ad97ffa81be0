// Bytes copied and filled, for where there is no C library. Each load of a piece comes before the stores that may
// overlap it.
typedef __SIZE_TYPE__ size;
typedef char lanes __attribute__((vector_size(16), aligned(1), may_alias));
typedef unsigned long long eight __attribute__((aligned(1), may_alias));
typedef unsigned four __attribute__((aligned(1), may_alias));
typedef unsigned short two __attribute__((aligned(1), may_alias));

// Both ends of a block of one to two of a kind of number, which may overlap each other.
#define ENDS(kind)                                                                       \
    {                                                                                    \
        kind first = *(const kind *)from, last = *(const kind *)(from + n - sizeof(kind)); \
        *(kind *)to = first, *(kind *)(to + n - sizeof(kind)) = last;                      \
    }

static void move_few(char *to, const char *from, size n) {
    if (n >= 8) ENDS(eight)
    else if (n >= 4) ENDS(four)
    else if (n >= 2) ENDS(two)
    else if (n) *to = *from;
}

static void move(char *to, const char *from, size n) {
    if (n < 16) {
        move_few(to, from, n);
        return;
    }
    lanes first = *(const lanes *)from, last = *(const lanes *)(from + n - 16);
    if ((size)to - (size)from >= n) {
        for (size at = 16; at + 16 < n; at += 16) *(lanes *)(to + at) = *(const lanes *)(from + at);
    } else {
        for (size at = n - 16; at > 16; at -= 16) *(lanes *)(to + at - 16) = *(const lanes *)(from + at - 16);
    }
    *(lanes *)to = first, *(lanes *)(to + n - 16) = last;
}

void *memmove(void *to, const void *from, size n) {
    move(to, from, n);
    return to;
}

void *memcpy(void *to, const void *from, size n) {
    move(to, from, n);
    return to;
}

void *memset(void *to, int byte, size n) {
    char *at = to, *end = at + n;
    for (; n >= 16 && at + 16 <= end; at += 16) *(lanes *)at = (lanes){} + (char)byte;
    if (n >= 16) *(lanes *)(end - 16) = (lanes){} + (char)byte;
    else for (; at < end; at++) *at = (char)byte;
    return to;
}
