/* vp.h: a printer of receipts (ESC/POS) or labels (ZPL II) inside your program.
 *
 * Bytes go in and images (raw PBM, one after the other) come out, both cut at any place: what comes out is
 * the paper that the program vp prints of the same bytes. All memory is taken by vp_new; no call waits,
 * opens a file, prints a message or ends the program.
 *
 *     vp printer = {0};
 *     if (vp_new(VP_RECEIPT, font_a, font_a_length, NULL, 0, &printer) != VP_OK) ..
 *
 *     uint8_t paper[4096];
 *     vp_progress done;
 *     size_t at = 0;
 *     do {                                          // all of a stream in memory
 *         vp_step(&printer, stream + at, length - at, paper, sizeof paper, &done);
 *         at += done.taken;
 *         fwrite(paper, 1, done.put, images);
 *     } while (done.state == VP_ROOM);
 *
 *     if (done.state == VP_MORE)                    // does the stream end too early?
 *         vp_finish(&printer, &done.fault);
 *     if (done.fault.number != 0) {
 *         char line[VP_LINE];
 *         vp_fault_line(&done.fault, at, line, sizeof line);
 *         puts(line);                               // vp: F1 after 4 bytes: unknown command 1B 7F
 *     }
 *     vp_free(&printer);
 *
 * What you keep, and no call can check:
 *   - a vp is {0}, or what a call of this library left in it. It isn't copied: pass its address.
 *   - one thread at a time uses a printer. Printers know nothing of each other: a thread may have its own.
 *   - bytes lie where a pointer and a length say, and what a call writes lies apart from all else that it is
 *     given. Where a length is 0 its pointer isn't followed, and may be NULL; no other pointer may. Bytes may
 *     begin anywhere; structs and numbers are aligned as your compiler aligns them.
 *   - no call comes from a signal handler, or from a forked child of a process with threads.
 *   - malloc, realloc and free are one allocator's, which aligns as C wants it.
 *
 * Link with -lvp, or with libvp.a; under Windows with vp.lib, for vp.dll. */
#ifndef VP_H
#define VP_H

#include <stddef.h>
#include <stdint.h>

#ifdef __cplusplus
extern "C" {
#endif

/* The version of this header, as vp_version_number tells that of the library: 10000 for each of its first
 * number, 100 for each of its second, and its third. */
#define VP_VERSION 10100

/* A printer's handle. {0} has no printer: calls that need one answer VP_NO_PRINTER. */
typedef struct vp {
    void *printer;
} vp;

/* What a stream is written in, and on which paper it is printed. */
enum vp_language {
    VP_RECEIPT = 0,          /* the profile of ESC/POS, paper of 576 dots */
    VP_RECEIPT_58 = 1,       /* the profile of ESC/POS, paper of 384 dots */
    VP_LABEL = 2,            /* the profile of ZPL II, labels as wide and as long as they say */
    VP_WHOLE_RECEIPT = 3,    /* the whole language of ESC/POS, paper of 576 dots */
    VP_WHOLE_RECEIPT_58 = 4, /* the whole language of ESC/POS, paper of 384 dots */
    VP_WHOLE_LABEL = 5       /* the whole language of ZPL II, labels as wide and as long as they say */
};

/* Answers. Of a sheet that is none, which one it is and its first offence. */
enum vp_answer {
    VP_OK = 0,
    VP_NO_MEMORY = 1,
    VP_NO_LANGUAGE = 2,
    VP_NO_PRINTER = 3,
    VP_PENDING = 4,     /* paper is still to be put out */
    VP_SHEET_A_S1 = 11, /* S1: not P4 */
    VP_SHEET_A_S2 = 12, /* S2: bad header */
    VP_SHEET_A_S3 = 13, /* S3: wrong size */
    VP_SHEET_A_S4 = 14, /* S4: too short */
    VP_SHEET_B_S1 = 21,
    VP_SHEET_B_S2 = 22,
    VP_SHEET_B_S3 = 23,
    VP_SHEET_B_S4 = 24
};

/* Why a stream is wrong: F1 to F9, as the program numbers them. */
typedef struct vp_fault {
    uint8_t number; /* 1 to 9; 0 where there is no fault, and then all is 0 */
    uint8_t why;    /* of F2: 1 empty, 2 character, 3 length, 4 set, 5 unsupported; else 0 */
    uint8_t lead;   /* of F1: the two bytes that begin no command; else 0 */
    uint8_t byte;
} vp_fault;

/* What a step has come to. */
enum vp_state {
    VP_MORE = 0,   /* all input is taken, and all its paper is put out */
    VP_ROOM = 1,   /* the output is full, and there is more paper: call again, with the rest of the input */
    VP_STOPPED = 2 /* the last byte taken makes the fault, the paper before it is put out; no more comes */
};

typedef struct vp_progress {
    size_t taken; /* bytes taken from the front of the input */
    size_t put;   /* bytes put to the front of the output */
    uint32_t state; /* of vp_state */
    vp_fault fault; /* where the state is VP_STOPPED: F1 to F7, which a byte makes */
} vp_progress;

/* What a printer holds of what isn't printed yet. None of it ever is more than is said here. */
typedef struct vp_held_now {
    uint32_t stored;    /* bytes of a label's format: 262,144 */
    uint16_t fields;    /* fields of a label's format: 1,024 */
    uint16_t line_rows; /* rows of a receipt's line: 192 */
    uint16_t page_rows; /* rows of a receipt's page: 1,664 */
    uint16_t band_rows; /* rows of a label's band: 32 */
} vp_held_now;

/* Makes a printer of a vp_language, with the bytes of a sheet of font A (12 by 24 dots) and one of font B
 * (9 by 17), which are copied. No sheet is a length of 0: its characters are white. Refused is the first of
 * these that is wrong, in this order. Where the answer isn't VP_OK, *made is {0}. What *made held before isn't
 * freed. */
uint32_t vp_new(uint32_t language, const uint8_t *font_a, size_t font_a_length, const uint8_t *font_b,
                size_t font_b_length, vp *made);

/* Makes one that prints a line of text for each command of a stream, as vp list does; where with_offsets
 * isn't 0, behind its place in the stream. */
uint32_t vp_new_listing(uint32_t language, uint32_t with_offsets, vp *made);

/* Takes input and puts out paper, until the input ends, the output is full or a fault comes. A step without
 * input puts out what is pending; after a stop each step does nothing and tells the fault again. VP_OK, or
 * VP_NO_PRINTER, with nothing taken or put. What lies in the output behind the bytes put isn't touched. */
uint32_t vp_step(vp *printer, const uint8_t *input, size_t length, uint8_t *output, size_t room,
                 vp_progress *done);

/* Tells the fault that stopped the printer, else that of a stream that ends here: F8 inside a command, F9
 * before all is printed. F8 and F9 aren't the printer's end: more bytes may follow. VP_PENDING where a step
 * still has paper to put out, VP_NO_PRINTER; in both *fault is none. */
uint32_t vp_finish(vp *printer, vp_fault *fault);

/* VP_PENDING where paper is still to be put out, else VP_OK; or VP_NO_PRINTER. */
uint32_t vp_pending(vp *printer);

/* Tells what the printer holds. VP_OK, or VP_NO_PRINTER, with zeros. */
uint32_t vp_held(vp *printer, vp_held_now *held);

/* Tells how many bytes of memory the printer holds, which vp_new took and no call changes: its lines, pages,
 * bands, stores and sheets; of a listing 0. Beside them stands one block of at most VP_BLOCK. VP_OK, or
 * VP_NO_PRINTER, with 0. */
#define VP_BLOCK 4096
uint32_t vp_memory(vp *printer, size_t *bytes);

/* Begins the printer anew, whatever it took and put out, and behind a fault: it stands as vp_new made it, with its
 * sheets, and prints the next stream as a new one does. It takes no memory and gives none back, cuts no sheet, and
 * makes of a page white what was laid on: so it costs by what was used. VP_OK, or VP_NO_PRINTER. */
uint32_t vp_reset(vp *printer);

/* Frees the printer, where there is one, and leaves {0}: a second call does nothing. */
void vp_free(vp *printer);

/* What finds the requests of a stream: what it asks of its printer, its state, its name, its settings. It prints
 * nothing and takes no fault: beside a printer it is fed the same bytes. Its handle is kept as a vp is. */
typedef struct vp_requests {
    void *requests;
} vp_requests;

typedef struct vp_request {
    char name[8];            /* as its manual writes it: "DLE EOT", "GS ( H", "~HQ"; "" where there is none */
    uint64_t start;          /* how many bytes of the stream come before its first */
    uint64_t end;            /* and before the one behind its last */
    uint32_t count;          /* bytes of arguments, behind the name; a receipt's are at most 16 */
    uint8_t arguments[1024]; /* and zeros behind them */
} vp_request;

/* Makes one of a vp_language; the paper says nothing here, nor does the profile: all commands are read. It takes
 * one block of at most VP_BLOCK, and nothing later. Where the answer isn't VP_OK, *made is {0}. */
uint32_t vp_new_requests(uint32_t language, vp_requests *made);

/* Takes input up to the byte that makes the next request known, and tells that; call it again with the rest.
 * Where there is none all input is taken. VP_OK, or VP_NO_PRINTER, with nothing taken. */
uint32_t vp_next_request(vp_requests *requests, const uint8_t *input, size_t length, size_t *taken,
                         vp_request *request);

/* Tells what the stream asks if it ends here: a label's last request, whose arguments could go on; else none.
 * More bytes may follow. VP_OK, or VP_NO_PRINTER, with none. */
uint32_t vp_last_request(vp_requests *requests, vp_request *request);

/* Frees it, where there is one, and leaves {0}. */
void vp_free_requests(vp_requests *requests);

/* Room for any text of the calls below. */
#define VP_LINE 96

/* Writes the line that the program prints of a fault, after so many bytes of the stream: those that all
 * steps took. No line end, a 0 behind it, both as far as there is room; answers the bytes before the 0. */
size_t vp_fault_line(const vp_fault *fault, uint64_t after, char *line, size_t room);

/* Writes what an answer of vp_new means, in the same way: "out of memory", "S1 not P4". */
size_t vp_answer_text(uint32_t answer, char *text, size_t room);

/* Writes the version of the library, in the same way; or tells it as a number, as VP_VERSION is one. */
size_t vp_version(char *text, size_t room);
uint32_t vp_version_number(void);

#ifdef __cplusplus
}
#endif

#endif
