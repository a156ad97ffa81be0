// The heap as compiled Rattle asks for it, with 64-bit numbers for sizes and addresses everywhere. An allocation of no
// bytes takes as many as its alignment; the address of one that failed is never read, but is none that is null.
typedef __SIZE_TYPE__ size;
typedef unsigned long long number;

void *malloc(size n);
void *realloc(void *block, size n);
void free(void *block);

struct tried {
    number made, address;
};

// Compiled Rattle has both numbers in registers; C for Windows would not, so the two calls are made there as elsewhere.
#ifdef _WIN32
#define CALLED __attribute__((sysv_abi))
#else
#define CALLED
#endif

static struct tried tried(void *block) {
    static char nothing[16] __attribute__((aligned(16)));
    return (struct tried){block != 0, (number)(size)(block ? block : nothing)};
}

// More than half of what can be addressed is never there.
static int is_too_much(number n) { return n > (size)-1 >> 1; }

CALLED struct tried rattle_alloc(number n, number alignment) {
    return tried(is_too_much(n) ? 0 : malloc((size)(n ? n : alignment)));
}

CALLED struct tried rattle_realloc(void *block, number kept, number n, number alignment) {
    (void)kept;
    return tried(is_too_much(n) ? 0 : realloc(block, (size)(n ? n : alignment)));
}

void rattle_dealloc(void *block) { free(block); }
