/* Prints a receipt without a heap: room STREAM >images.pbm
 *
 * All memory is one array of the program's. Blocks are handed out from its front, and all of them are given back at
 * once: so a program prints that has no malloc, as on a device. On its system it defines the three functions that the
 * library calls; here they take the place of the C library's.
 *
 *   cc room.c libvp.a -o room */
#include <fcntl.h>
#include <string.h>
#include <unistd.h>
#include <vp.h>

enum { ALIGNED = 16 };

/* What a receipt needs without sheets: what vp_memory tells of it, and one block. */
static _Alignas(ALIGNED) unsigned char room[279552 + VP_BLOCK];
static size_t taken;

void *malloc(size_t length) {
    size_t whole = (length + ALIGNED - 1) / ALIGNED * ALIGNED;
    if (length > sizeof room || whole > sizeof room - taken) return NULL;
    taken += whole;
    return room + taken - whole;
}

void free(void *block) { (void)block; }

/* A block becomes longer by another one: what stands behind its end is room too. */
void *realloc(void *block, size_t length) {
    unsigned char *made = malloc(length);
    if (made == NULL || block == NULL) return made;
    size_t behind = (size_t)(made - (unsigned char *)block);
    return memcpy(made, block, length < behind ? length : behind);
}

int main(int count, char **words) {
    int file = count == 2 ? open(words[1], O_RDONLY) : -1;
    vp printer = {0};
    if (file < 0 || vp_new(VP_RECEIPT, NULL, 0, NULL, 0, &printer) != VP_OK) return 3;
    size_t made_with = taken;

    static uint8_t input[512], paper[512];
    vp_progress done = {0};
    size_t length = 0, at = 0;
    do {
        if (done.state == VP_MORE) {
            ssize_t got = read(file, input, sizeof input);
            if (got <= 0) break;
            length = (size_t)got;
            at = 0;
        }
        vp_step(&printer, input + at, length - at, paper, sizeof paper, &done);
        at += done.taken;
        if (write(STDOUT_FILENO, paper, done.put) != (ssize_t)done.put) return 3;
    } while (done.state != VP_STOPPED);

    if (done.state == VP_MORE) vp_finish(&printer, &done.fault);
    vp_free(&printer);
    if (taken != made_with) return 4;
    taken = 0;
    return done.fault.number == 0 ? 0 : 1;
}
