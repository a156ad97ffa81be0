/* A program over tools/systems/linux.c alone: blocks of all sizes are taken, grown and given back at random, and each keeps
 * its bytes meanwhile. Status 0; 1 where a block changed or isn't aligned, 2 where there was no memory. */
typedef __SIZE_TYPE__ size;

void *malloc(size n);
void *realloc(void *block, size n);
void free(void *block);

enum { BLOCKS = 64, ROUNDS = 200000 };

static unsigned char *blocks[BLOCKS];
static size lengths[BLOCKS];
static unsigned seed = 1;

static unsigned number(unsigned most) {
    seed = seed * 1103515245 + 12345;
    return (seed >> 8) % most;
}

/* Mostly small, at times a block of its own pages. */
static size some_length(void) { return 1 + number(number(8) ? 300 : number(8) ? 70000 : 2000000); }

/* A block's first, last and some other bytes tell which one it is. */
static void mark(int n) {
    for (size at = 0; at < lengths[n]; at += 1 + at / 8) blocks[n][at] = (unsigned char)(n + at);
    blocks[n][lengths[n] - 1] = (unsigned char)n;
}

static int is_marked(int n, size length) {
    for (size at = 0; at < length && at < lengths[n] - 1; at += 1 + at / 8)
        if (blocks[n][at] != (unsigned char)(n + at)) return 0;
    return length < lengths[n] || blocks[n][lengths[n] - 1] == (unsigned char)n;
}

int main(int count, char **words) {
    (void)count, (void)words;
    for (int round = 0; round < ROUNDS; round++) {
        int n = (int)number(BLOCKS);
        size length = some_length(), had = lengths[n];
        if (blocks[n] && !is_marked(n, had)) return 1;
        if (blocks[n] && number(2)) {
            free(blocks[n]);
            blocks[n] = 0;
            continue;
        }
        unsigned char *made = blocks[n] ? realloc(blocks[n], length) : malloc(length);
        if (!made) return 2;
        if ((size)made % 16) return 1;
        int is_kept = !blocks[n];
        blocks[n] = made;
        if (!is_kept && !is_marked(n, length < had ? length : had)) return 1;
        lengths[n] = length;
        mark(n);
    }
    return 0;
}
