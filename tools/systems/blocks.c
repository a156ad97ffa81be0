// What the library asks of its host as a WebAssembly module: memory alone; nothing is imported. Blocks lie in the module's
// own memory, which grows at its end. The free ones stand in a list by their places: neighbours are joined, and the first
// that is large enough is cut.
#include "heap.h"

enum { HEAD = 16, PAGE = 1 << 16 };

// A block, with its head; what it hands out begins behind that.
struct block {
    size bytes;
    struct block *next;
};

extern char __heap_base[];
static struct block *first;
static size end;
static unsigned count;

// How often memory was taken.
unsigned vp_taken(void) { return count; }

static size whole(size n, size of) { return (n + of - 1) & -of; }
static char *behind(struct block *it) { return (char *)it + it->bytes; }

// Joins a block with the next one in the list, where that begins behind it.
static void join(struct block *it) {
    struct block *next = it->next;
    if (!next || behind(it) != (char *)next) return;
    it->bytes += next->bytes;
    it->next = next->next;
}

// Puts a block into the list.
static void keep(struct block *it) {
    struct block *before = 0, *next = first;
    while (next && next < it) before = next, next = next->next;
    it->next = next;
    join(it);
    if (before) {
        before->next = it;
        join(before);
    } else {
        first = it;
    }
}

// Lets the memory grow by so many bytes at least, which are free then; answers 0 where it doesn't.
static int grow(size n) {
    if (!end) end = whole((size)__heap_base, HEAD);
    size has = __builtin_wasm_memory_size(0) * PAGE, left = has - end;
    if (left < n) {
        size more = whole(n - left, PAGE);
        if (more < n - left || __builtin_wasm_memory_grow(0, more / PAGE) == (size)-1) return 0;
        left += more;
    }
    struct block *it = (struct block *)end;
    it->bytes = left;
    end += left;
    keep(it);
    return 1;
}

void *malloc(size n) {
    count++;
    size needs = whole(n, HEAD) + HEAD;
    if (needs < n) return 0;
    struct block **at = &first;
    while (*at && (*at)->bytes < needs) at = &(*at)->next;
    if (!*at) return grow(needs) ? (count--, malloc(n)) : 0;
    struct block *it = *at;
    if (it->bytes - needs > HEAD) {
        struct block *rest = (struct block *)((char *)it + needs);
        rest->bytes = it->bytes - needs;
        rest->next = it->next;
        it->bytes = needs;
        *at = rest;
    } else {
        *at = it->next;
    }
    return (char *)it + HEAD;
}

void free(void *given) {
    if (given) keep((struct block *)((char *)given - HEAD));
}

void *memcpy(void *to, const void *from, size n);

void *realloc(void *given, size n) {
    if (!given) return malloc(n);
    size has = ((struct block *)((char *)given - HEAD))->bytes - HEAD;
    if (n <= has) return given;
    void *made = malloc(n);
    if (!made) return 0;
    memcpy(made, given, has);
    free(given);
    return made;
}
