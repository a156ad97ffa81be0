/* A room in place of a WebAssembly module's memory, for tools/systems/blocks.c, whose calls have names of their own here:
 * checks/heap.c calls them. */
#include <stddef.h>

enum { PAGES = 512, A_PAGE = 1 << 16 };

static _Alignas(A_PAGE) char room[PAGES * (size_t)A_PAGE];
static size_t pages = 1;

static size_t grown(size_t more) {
    if (more > PAGES - pages) return (size_t)-1;
    pages += more;
    return pages - more;
}

#define __heap_base room
#define __builtin_wasm_memory_size(memory) ((size_t)room / A_PAGE + pages)
#define __builtin_wasm_memory_grow(memory, more) grown(more)
#define malloc block_malloc
#define realloc block_realloc
#define free block_free
#include "../tools/systems/blocks.c"
