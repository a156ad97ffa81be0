/* Calls the library as its header says, for checks/in-process.sh:
 *
 *   in-process print LANGUAGE FONT_A FONT_B STREAM SEED   prints a file, its input and output cut at random, and says its
 *                                                         fault as the program does; - is no sheet
 *   in-process bad                                        what no program should do, and what is answered
 *   in-process threads FONT_A FONT_B STREAM COUNT         8 threads, each of which prints the file so often
 *   in-process time FONT_A FONT_B STREAM COUNT            the microseconds of a print, and of its vp_new
 *
 * Where it is linked with wrapped malloc (COUNTED), it ends with 9 if memory is taken between vp_new and vp_free, isn't
 * given back, or is more or less than vp_memory tells. */
#define _POSIX_C_SOURCE 200809L
#include "../include/vp.h"
#include <pthread.h>
#include <stdio.h>
#include <stdlib.h>
#include <string.h>
#include <time.h>
#ifdef _WIN32
#include <fcntl.h>
#include <io.h>
#endif

#define FILLED 0xA5
#define MOST_ROOM 5000
enum { THREADS = 8 };

#ifdef COUNTED
/* Blocks that were taken and given back, and the bytes of those in use. Each block has its length in front. */
enum { COUNTS = 1, HEAD = 16 };
static long taken, given;
static size_t in_use;
void *__real_realloc(void *at, size_t size);
void __real_free(void *at);
void *__wrap_realloc(void *at, size_t size) {
    size_t *old = at == NULL ? NULL : (size_t *)((char *)at - HEAD), had = old == NULL ? 0 : *old;
    size_t *made = __real_realloc(old, HEAD + size);
    if (made == NULL) return NULL;
    taken += at == NULL;
    in_use += size - had;
    *made = size;
    return (char *)made + HEAD;
}
void *__wrap_malloc(size_t size) { return __wrap_realloc(NULL, size); }
void __wrap_free(void *at) {
    if (at == NULL) return;
    size_t *old = (size_t *)((char *)at - HEAD);
    given++;
    in_use -= *old;
    __real_free(old);
}
#else
enum { COUNTS = 0 };
static long taken = 0, given = 0;
static size_t in_use = 0;
#endif

typedef struct bytes {
    uint8_t *at;
    size_t length;
} bytes;

static void stop(int status, const char *why) {
    fprintf(stderr, "in-process: %s\n", why);
    exit(status);
}

static bytes read_file(const char *name) {
    bytes it = {NULL, 0};
    if (strcmp(name, "-") == 0) return it;
    FILE *file = fopen(name, "rb");
    if (file == NULL || fseek(file, 0, SEEK_END) != 0) stop(8, name);
    it.length = (size_t)ftell(file);
    rewind(file);
    it.at = malloc(it.length + 1);
    if (it.at == NULL || fread(it.at, 1, it.length, file) != it.length) stop(8, name);
    fclose(file);
    return it;
}

static void free_all(bytes a, bytes b, bytes stream) {
    free(a.at);
    free(b.at);
    free(stream.at);
}

static uint32_t made(const char *language, bytes a, bytes b, vp *printer) {
    if (strcmp(language, "receipt") == 0) return vp_new(VP_RECEIPT, a.at, a.length, b.at, b.length, printer);
    if (strcmp(language, "receipt58") == 0) return vp_new(VP_RECEIPT_58, a.at, a.length, b.at, b.length, printer);
    if (strcmp(language, "whole") == 0) return vp_new(VP_WHOLE_RECEIPT, a.at, a.length, b.at, b.length, printer);
    if (strcmp(language, "whole58") == 0) return vp_new(VP_WHOLE_RECEIPT_58, a.at, a.length, b.at, b.length, printer);
    if (strcmp(language, "label") == 0) return vp_new(VP_LABEL, a.at, a.length, b.at, b.length, printer);
    if (strcmp(language, "wholelabel") == 0) return vp_new(VP_WHOLE_LABEL, a.at, a.length, b.at, b.length, printer);
    int whole = strstr(language, "whole") != NULL;
    uint32_t receipts = whole ? VP_WHOLE_RECEIPT : VP_RECEIPT, labels = whole ? VP_WHOLE_LABEL : VP_LABEL;
    uint32_t kind = strstr(language, "label") ? labels : receipts;
    return vp_new_listing(kind, strncmp(language, "offsets", 7) == 0, printer);
}

static uint64_t state;
static size_t any(size_t below) {
    state = state * 6364136223846793005u + 1442695040888963407u;
    return (size_t)(state >> 33) % below;
}

/* How many bytes a printer holds. */
static size_t memory_of(vp *printer) {
    size_t bytes = 1;
    if (vp_memory(printer, &bytes) != VP_OK) stop(7, "vp_memory");
    return bytes;
}

/* One step, whose output is held to what the header says of it. */
static vp_progress stepped(vp *printer, const uint8_t *input, size_t length, uint8_t *output, size_t room) {
    vp_progress done;
    size_t memory = memory_of(printer);
    memset(output, FILLED, MOST_ROOM);
    if (vp_step(printer, input, length, output, room, &done) != VP_OK) stop(7, "vp_step");
    if (done.taken > length || done.put > room) stop(7, "more is taken or put than there is");
    for (size_t at = done.put; at < MOST_ROOM; at++)
        if (output[at] != FILLED) stop(7, "the output is written behind what was put");
    if ((done.state == VP_STOPPED) != (done.fault.number != 0)) stop(7, "a stop without a fault, or a fault without");
    if ((done.state == VP_ROOM) != (vp_pending(printer) == VP_PENDING)) stop(7, "vp_pending");
    vp_held_now held;
    if (vp_held(printer, &held) != VP_OK || held.line_rows > 192 || held.page_rows > 1664 || held.band_rows > 32 ||
        held.fields > 1024 || held.stored > 262144)
        stop(7, "vp_held");
    if (memory_of(printer) != memory) stop(7, "vp_memory behind a step");
    return done;
}

/* A front of a stream, which ends anywhere, and then the printer begins anew. */
static void print_and_forget(vp *printer, bytes stream, uint8_t *output) {
    size_t at = 0, front = any(stream.length + 1);
    while (at < front && any(50) != 0) {
        vp_progress done = stepped(printer, stream.at + at, front - at, output, any(MOST_ROOM));
        at += done.taken;
        if (done.state == VP_STOPPED) break;
    }
    size_t memory = memory_of(printer);
    if (vp_reset(printer) != VP_OK || memory_of(printer) != memory) stop(7, "vp_reset");
    if (vp_pending(printer) != VP_OK) stop(7, "something is pending behind vp_reset");
}

static int print(char **words) {
    bytes a = read_file(words[1]), b = read_file(words[2]), stream = read_file(words[3]);
    state = strtoull(words[4], NULL, 10);
    static uint8_t output[MOST_ROOM];
    long before = taken - given;
    size_t used = in_use;
    vp printer = {0};
    uint32_t answer = made(words[0], a, b, &printer);
    long ours = taken;
    if (answer != VP_OK) {
        char text[VP_LINE];
        vp_answer_text(answer, text, sizeof text);
        fprintf(stderr, "vp: %s: %s\n", answer < VP_SHEET_B_S1 ? words[1] : words[2], text);
        if (printer.printer != NULL || taken - given != before) stop(9, "something is left of a printer that isn't made");
        free_all(a, b, stream);
        return 3;
    }
    size_t block = in_use - used - memory_of(&printer);
    if (COUNTS && (block == 0 || block > VP_BLOCK)) stop(9, "vp_memory tells another number than was taken");
    vp_fault fault = {0, 0, 0, 0};
    size_t at = 0;
    if (any(2) == 0) print_and_forget(&printer, stream, output);
    for (;;) {
        size_t length = any(4) == 0 ? any(4) : any(2000), room = any(4) == 0 ? any(3) : any(MOST_ROOM);
        if (length > stream.length - at) length = stream.length - at;
        vp_progress done = stepped(&printer, stream.at + at, length, output, room);
        at += done.taken;
        fwrite(output, 1, done.put, stdout);
        fault = done.fault;
        if (done.state == VP_STOPPED) break;
        if (at == stream.length && done.state == VP_MORE) {
            if (vp_finish(&printer, &fault) != VP_OK) stop(7, "vp_finish");
            break;
        }
    }
    if (taken != ours) stop(9, "memory is taken behind vp_new");
    vp_free(&printer);
    vp_free(&printer);
    if (taken - given != before) stop(9, "memory isn't given back");
    free_all(a, b, stream);
    if (fault.number == 0) return 0;
    char line[VP_LINE];
    vp_fault_line(&fault, at, line, sizeof line);
    fprintf(stderr, "%s\n", line);
    return 1;
}

static void expect(int holds, const char *what) {
    if (!holds) stop(7, what);
}

/* What a stream asks, in pieces of so many bytes, as "NAME START END ARGUMENTS;". */
static void asked(uint32_t language, const char *stream, size_t length, size_t size, const char *wanted) {
    vp_requests requests = {0};
    vp_request request;
    char found[256] = "";
    long before = taken - given;
    if (vp_new_requests(language, &requests) != VP_OK) stop(7, "vp_new_requests");
    for (size_t at = 0, took = 0; at < length; at += took) {
        size_t rest = length - at < size ? length - at : size;
        if (vp_next_request(&requests, (const uint8_t *)stream + at, rest, &took, &request) != VP_OK || took > rest)
            stop(7, "vp_next_request");
        if (request.name[0] == 0 && took != rest) stop(7, "input is left where nothing is asked");
        if (request.name[0] != 0)
            sprintf(found + strlen(found), "%s %d %d %.*s;", request.name, (int)request.start, (int)request.end,
                    (int)request.count, (const char *)request.arguments);
    }
    if (vp_last_request(&requests, &request) != VP_OK) stop(7, "vp_last_request");
    if (request.name[0] != 0) sprintf(found + strlen(found), "%s at the end;", request.name);
    vp_free_requests(&requests);
    vp_free_requests(&requests);
    if (COUNTS && taken - given != before) stop(9, "memory of requests isn't given back");
    if (strcmp(found, wanted) != 0) stop(7, found);
}

static void requests_are_told(void) {
    vp_requests none = {0};
    vp_request request = {"x", 9, 9, 9, {9}};
    size_t took = 9;
    expect(vp_next_request(&none, NULL, 0, &took, &request) == VP_NO_PRINTER && took == 0 && request.name[0] == 0,
           "a request of none");
    expect(vp_last_request(&none, &request) == VP_NO_PRINTER && request.end == 0, "the last request of none");
    vp_free_requests(&none);
    expect(vp_new_requests(6, &none) == VP_NO_LANGUAGE && none.requests == NULL, "requests of no language");
    for (size_t size = 1; size < 9; size++) {
        asked(VP_RECEIPT, "a\x1d(H\4\0" "00ab\x1brx\x1dI" "C", 16, size, "GS ( H 1 10 00ab;GS I 13 16 C;");
        asked(VP_RECEIPT, "A\20\4\1\35v0\0\1\0\4\0\20\4\2\0\35r\1", 19, size,
              "DLE EOT 1 4 \1;DLE EOT 12 15 \2;GS r 16 19 \1;");
        asked(VP_LABEL, "^XA~HS^HV1,9^XZ~HQ", 18, size, "~HS 3 6 ;^HV 6 12 1,9;~HQ at the end;");
    }
}

static int bad(void) {
    requests_are_told();
    vp none = {0}, printer = {0};
    vp_progress done;
    vp_fault fault = {9, 9, 9, 9};
    vp_held_now held = {9, 9, 9, 9, 9};
    size_t bytes = 9;
    uint8_t output[64];
    expect(vp_step(&none, NULL, 0, output, 0, &done) == VP_NO_PRINTER && done.taken == 0 && done.put == 0, "a step of none");
    expect(vp_finish(&none, &fault) == VP_NO_PRINTER && fault.number == 0 && fault.byte == 0, "finish of none");
    expect(vp_pending(&none) == VP_NO_PRINTER, "pending of none");
    expect(vp_held(&none, &held) == VP_NO_PRINTER && held.stored == 0 && held.band_rows == 0, "held of none");
    expect(vp_memory(&none, &bytes) == VP_NO_PRINTER && bytes == 0, "memory of none");
    expect(vp_reset(&none) == VP_NO_PRINTER && none.printer == NULL, "a reset of none");
    vp_free(&none);
    expect(vp_new(6, NULL, 0, NULL, 0, &printer) == VP_NO_LANGUAGE && printer.printer == NULL, "no such language");
    expect(vp_new_listing(9, 0, &printer) == VP_NO_LANGUAGE && printer.printer == NULL, "a listing of none");
    const uint8_t p4[] = "P4\n192 384\n", p5[] = "P5\n";
    expect(vp_new(VP_RECEIPT, p5, 3, NULL, 0, &printer) == VP_SHEET_A_S1, "S1 of font A");
    expect(vp_new(VP_RECEIPT, NULL, 0, p4, 3, &printer) == VP_SHEET_B_S2, "S2 of font B");
    expect(vp_new(VP_LABEL, NULL, 0, p4, sizeof p4 - 1, &printer) == VP_SHEET_B_S3, "S3 of font B");
    expect(vp_new(VP_LABEL, p4, sizeof p4 - 1, NULL, 0, &printer) == VP_SHEET_A_S4, "S4 of font A");
    expect(vp_new(VP_RECEIPT, NULL, 0, NULL, 0, &printer) == VP_OK, "no sheets");
    expect(vp_step(&printer, (const uint8_t *)"a\n", 2, NULL, 0, &done) == VP_OK && done.state == VP_ROOM, "no room");
    expect(vp_finish(&printer, &fault) == VP_PENDING && fault.number == 0, "finish while paper is pending");
    while (vp_step(&printer, NULL, 0, output, sizeof output, &done), done.state == VP_ROOM) {}
    expect(vp_step(&printer, (const uint8_t *)"\033\177b", 3, output, 64, &done) == VP_OK && done.taken == 2, "a fault");
    expect(done.state == VP_STOPPED && done.fault.number == 1 && done.fault.lead == 27 && done.fault.byte == 127, "its bytes");
    expect(vp_step(&printer, (const uint8_t *)"b", 1, output, 64, &done) == VP_OK && done.taken == 0 && done.put == 0 &&
               done.state == VP_STOPPED && done.fault.byte == 127, "a step after a stop");
    char line[VP_LINE], cut[8] = "1234567";
    const char *whole = "vp: F1 after 4 bytes: unknown command 1B 7F";
    expect(vp_fault_line(&done.fault, 4, line, sizeof line) == strlen(whole) && strcmp(line, whole) == 0, "its line");
    expect(vp_fault_line(&done.fault, 4, cut, 5) == 4 && strcmp(cut, "vp: ") == 0 && cut[5] == '6', "a line without room");
    expect(vp_fault_line(&done.fault, 4, cut, 0) == 0, "a line into no room");
    fault.number = 77;
    expect(vp_fault_line(&fault, 4, line, sizeof line) == 0 && line[0] == 0, "the line of no fault");
    expect(vp_reset(&printer) == VP_OK && vp_pending(&printer) == VP_OK, "a reset behind a fault");
    expect(vp_finish(&printer, &fault) == VP_OK && fault.number == 0, "a printer that was begun anew has no fault");
    expect(vp_step(&printer, (const uint8_t *)"b", 1, output, 64, &done) == VP_OK && done.taken == 1 && done.state == VP_MORE,
           "a step behind a reset");
    unsigned number = vp_version_number();
    snprintf(line, sizeof line, "%u.%u.%u", number / 10000, number / 100 % 100, number % 100);
    char text[VP_LINE];
    expect(vp_version(text, sizeof text) == strlen(line) && strcmp(text, line) == 0, "the version as a text and as a number");
    expect(number == VP_VERSION, "the version of the header");
    vp_free(&printer);
    vp_free(&printer);
    expect(printer.printer == NULL && vp_pending(&printer) == VP_NO_PRINTER, "a printer that was freed");
    return 0;
}

typedef struct work {
    bytes a, b, stream;
    long count;
    uint64_t sum;
} work;

/* Prints a stream in one piece, into little room, and returns a sum of its paper. */
static uint64_t printed(const work *it) {
    vp printer = {0};
    if (vp_new(VP_RECEIPT, it->a.at, it->a.length, it->b.at, it->b.length, &printer) != VP_OK) stop(7, "vp_new");
    uint8_t output[4096];
    vp_progress done;
    uint64_t sum = 0;
    size_t at = 0;
    do {
        vp_step(&printer, it->stream.at + at, it->stream.length - at, output, sizeof output, &done);
        at += done.taken;
        for (size_t nth = 0; nth < done.put; nth += 64) sum = sum * 31 + output[nth];
    } while (done.state == VP_ROOM);
    vp_free(&printer);
    return sum;
}

static void *in_thread(void *given_work) {
    work *it = given_work;
    it->sum = printed(it);
    for (long nth = 1; nth < it->count; nth++)
        if (printed(it) != it->sum) stop(7, "a thread prints something else");
    return NULL;
}

static int threads(char **words) {
    work first = {read_file(words[0]), read_file(words[1]), read_file(words[2]), strtol(words[3], NULL, 10), 0};
    work all[THREADS];
    pthread_t ids[THREADS];
    for (int nth = 0; nth < THREADS; nth++) {
        all[nth] = first;
        if (pthread_create(&ids[nth], NULL, in_thread, &all[nth]) != 0) stop(8, "pthread_create");
    }
    first.sum = printed(&first);
    for (int nth = 0; nth < THREADS; nth++) {
        pthread_join(ids[nth], NULL);
        if (all[nth].sum != first.sum) stop(7, "threads print other paper");
    }
    free_all(first.a, first.b, first.stream);
    return 0;
}

static double now(void) {
    struct timespec it;
    clock_gettime(CLOCK_MONOTONIC, &it);
    return (double)it.tv_sec * 1e6 + (double)it.tv_nsec / 1e3;
}

static int timed(char **words) {
    work it = {read_file(words[0]), read_file(words[1]), read_file(words[2]), strtol(words[3], NULL, 10), 0};
    double best = 1e9, best_new = 1e9;
    for (long nth = 0; nth < it.count; nth++) {
        double start = now();
        it.sum += printed(&it);
        double end = now();
        vp printer = {0};
        vp_new(VP_RECEIPT, it.a.at, it.a.length, it.b.at, it.b.length, &printer);
        vp_free(&printer);
        double last = now();
        if (end - start < best) best = end - start;
        if (last - end < best_new) best_new = last - end;
    }
    printf("%.0f %.0f\n", best, best_new);
    free_all(it.a, it.b, it.stream);
    return it.sum == 0;
}

int main(int count, char **words) {
#ifdef _WIN32
    _setmode(1, _O_BINARY);
    _setmode(2, _O_BINARY);
#endif
    const char *mode = count > 1 ? words[1] : "";
    if (strcmp(mode, "print") == 0 && count == 7) return print(words + 2);
    if (strcmp(mode, "bad") == 0) return bad();
    if (strcmp(mode, "threads") == 0 && count == 6) return threads(words + 2);
    if (strcmp(mode, "time") == 0 && count == 6) return timed(words + 2);
    fputs("usage: in-process print|bad|threads|time ..\n", stderr);
    return 2;
}
