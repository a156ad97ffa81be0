/* Prints a receipt or a label with the library: print receipt|label STREAM [FONT_A [FONT_B]] >images.pbm
 *
 *   cc print.c -lvp -o print        (or print.c libvp.a) */
#include <stdio.h>
#include <stdlib.h>
#include <string.h>
#include <vp.h>

typedef struct bytes {
    uint8_t *at;
    size_t length;
} bytes;

static bytes read_file(const char *name) {
    bytes it = {NULL, 0};
    FILE *file = fopen(name, "rb");
    if (file == NULL || fseek(file, 0, SEEK_END) != 0 || (it.at = malloc((size_t)ftell(file) + 1)) == NULL) {
        perror(name);
        exit(3);
    }
    it.length = (size_t)ftell(file);
    rewind(file);
    it.length = fread(it.at, 1, it.length, file);
    fclose(file);
    return it;
}

int main(int count, char **words) {
    if (count < 3 || count > 5) {
        fputs("usage: print receipt|label STREAM [FONT_A [FONT_B]]\n", stderr);
        return 2;
    }
    bytes none = {NULL, 0}, stream = read_file(words[2]);
    bytes a = count > 3 ? read_file(words[3]) : none, b = count > 4 ? read_file(words[4]) : none;

    vp printer = {0};
    uint32_t language = strcmp(words[1], "label") == 0 ? VP_LABEL : VP_RECEIPT;
    uint32_t answer = vp_new(language, a.at, a.length, b.at, b.length, &printer);
    char line[VP_LINE];
    if (answer != VP_OK) {
        vp_answer_text(answer, line, sizeof line);
        fprintf(stderr, "print: %s\n", line);
        return 3;
    }

    uint8_t paper[4096];
    vp_progress done;
    size_t at = 0;
    do {
        vp_step(&printer, stream.at + at, stream.length - at, paper, sizeof paper, &done);
        at += done.taken;
        fwrite(paper, 1, done.put, stdout);
    } while (done.state == VP_ROOM);

    if (done.state == VP_MORE) vp_finish(&printer, &done.fault);
    vp_free(&printer);
    free(stream.at);
    free(a.at);
    free(b.at);
    if (done.fault.number == 0) return 0;
    vp_fault_line(&done.fault, at, line, sizeof line);
    fprintf(stderr, "%s\n", line);
    return 1;
}
