/* Whether our own copying, filling and arithmetic of 128 bits (tools/systems) do what the compiler's do: on blocks of up to
 * 200 bytes at any distance, and on random numbers. Status 1 where they don't. */
#include <stdint.h>
#include <stdio.h>
#include <string.h>

#define memcpy own_memcpy
#define memmove own_memmove
#define memset own_memset
#define __ashlti3 own_left
#define __lshrti3 own_right
#define __multi3 own_product
#include "../tools/systems/bytes.c"
#include "../tools/systems/wide.c"
#undef memcpy
#undef memmove
#undef memset

static uint64_t seed = 1;

static uint64_t number(void) {
    seed ^= seed << 13, seed ^= seed >> 7, seed ^= seed << 17;
    return seed;
}

static int blocks_differ(void) {
    static unsigned char ours[512], theirs[512];
    for (int n = 0; n < 512; n++) ours[n] = theirs[n] = (unsigned char)number();
    size_t length = number() % 201, from = number() % 256, to = number() % 256;
    switch (number() % 3) {
    case 0:
        own_memmove(ours + to, ours + from, length), memmove(theirs + to, theirs + from, length);
        break;
    case 1:
        own_memset(ours + to, (int)from, length), memset(theirs + to, (int)from, length);
        break;
    default:
        own_memcpy(ours + 256, ours + from % 50, length), memcpy(theirs + 256, theirs + from % 50, length);
    }
    return memcmp(ours, theirs, sizeof ours);
}

static int numbers_differ(void) {
    unsigned __int128 a = (unsigned __int128)number() << 64 | number(), b = (unsigned __int128)number() << 64 | number();
    if (number() % 2) a >>= 100;
    int by = (int)(number() % 128);
    return own_left(a, by) != a << by || own_right(a, by) != a >> by || own_product(a, b) != a * b;
}

int main(void) {
    for (int n = 0; n < 300000; n++)
        if (blocks_differ() || numbers_differ()) return 1;
    puts("blocks and numbers of 128 bits: ok");
    return 0;
}
