// What the program asks of Windows: its words, files that are read, and standard streams. Words and names are UTF-8 here and
// UTF-16 there; errors have the numbers that they have under Linux.
#include "windows.h"

enum { NO_FILE = 2, FAILED = 5, NO_MEMORY = 12, NO_READER = 32 };
enum { READ = 0x80000000, SHARED = 7, EXISTING = 3, FOLDERS_TOO = 0x02000000 };
enum { UTF8 = 65001, UNITS = 32768, LONG = 240, PREFIX = 8, MOST = 1 << 30 };

// The program asks at its start whether the processor has what it was compiled for: twice the registers of a leaf of cpuid.
struct leaf {
    unsigned has[4], may[4];
};

const struct leaf *__x86_get_cpuid_feature_leaf(unsigned leaf) {
    static struct leaf read;
    unsigned a = leaf == 2 ? 0x80000001 : 1, b, c = 0, d;
    __asm__("cpuid" : "+a"(a), "=b"(b), "+c"(c), "=d"(d));
    read = (struct leaf){{a, b, c, d}, {a, b, c, d}};
    return &read;
}

static int error;

int rattle_errno(void) { return error; }
void rattle_set_errno(int to) { error = to; }

static int failed(void) {
    switch (GetLastError()) {
    case 2: case 3: error = NO_FILE; break;
    case 8: case 14: error = NO_MEMORY; break;
    case 109: case 232: case 233: error = NO_READER; break;
    default: error = FAILED;
    }
    return -1;
}

// 0 to 2 are the standard streams; a file's number is its handle, which has 32 bits and is a multiple of 4.
static handle of(int file) { return file < 3 ? GetStdHandle(-10u - (unsigned)file) : (handle)(long long)file; }
static unsigned some(size n) { return n < MOST ? (unsigned)n : MOST; }

// A pipe whose writers are gone has ended.
long long read(int file, void *to, size n) {
    unsigned did = 0;
    if (ReadFile(of(file), to, some(n), &did, 0)) return did;
    unsigned why = GetLastError();
    return why == 109 || why == 38 ? 0 : failed();
}

long long write(int file, const void *from, size n) {
    unsigned did = 0;
    return WriteFile(of(file), from, some(n), &did, 0) ? (long long)did : failed();
}

long long __write(int file, const void *from, size n) { return write(file, from, n); }
int close(int file) { return CloseHandle(of(file)) ? 0 : failed(); }

// Answers a name in the system's units, with room for its whole path: where that is long it is taken, with what says that it
// may be.
static const unit *wide(const char *name, unit *room) {
    static unit given[UNITS];
    unit *path = room + PREFIX;
    if (!MultiByteToWideChar(UTF8, 0, name, -1, given, UNITS)) given[0] = 0;
    unsigned length = GetFullPathNameW(given, UNITS, path, 0);
    int is_remote = path[0] == '\\' && path[1] == '\\';
    if (length < LONG || length >= UNITS || (is_remote && (path[2] == '?' || path[2] == '.'))) return given;
    const char *prefix = is_remote ? "\\\\?\\UNC" : "\\\\?\\";
    unsigned least = is_remote ? 7 : 4;
    unit *at = path + is_remote - least;
    for (unsigned nth = 0; nth < least; nth++) at[nth] = (unit)prefix[nth];
    return at;
}

// Files are only read, so that none is made. A folder is opened too, and can't be read, as elsewhere.
int open(const char *name, int flags, ...) {
    static unit room[PREFIX + UNITS];
    (void)flags;
    handle file = CreateFileW(wide(name, room), READ, SHARED, 0, EXISTING, FOLDERS_TOO, 0);
    return file == (handle)-1 ? failed() : (int)(long long)file;
}

// There are no signals.
void *__sysv_signal(int signal, void *does) {
    (void)signal, (void)does;
    return 0;
}

// The program's words.
static int count;
static unit **words;

number rattle_arg_count(void) { return (number)count; }

// Puts the bytes of a character into room for four, and answers how many these are; what is half of one stays what it is.
static int bytes_of(unsigned it, char *to) {
    if (it < 0x80) return to[0] = (char)it, 1;
    int n = it < 0x800 ? 2 : it < 0x10000 ? 3 : 4;
    for (int nth = n - 1; nth > 0; nth--, it >>= 6) to[nth] = (char)(0x80 | (it & 0x3f));
    to[0] = (char)(0xf00 >> n | it);
    return n;
}

// Puts a word into room, and answers its length: -1 where there is none, -2 where the room is too small.
long long rattle_arg(number which, char *room, number most) {
    if (which >= (number)count) return -1;
    number n = 0;
    for (const unit *at = words[which]; *at; at++) {
        unsigned it = *at;
        if (it >> 10 == 0x36 && at[1] >> 10 == 0x37) it = 0x10000 + ((it & 0x3ff) << 10 | (*++at & 0x3ff));
        char made[4];
        int length = bytes_of(it, made);
        if (n + (number)length > most) return -2;
        for (int nth = 0; nth < length; nth++) room[n++] = made[nth];
    }
    return (long long)n;
}

// Ctrl-C ends it with the status that a shell tells of it elsewhere.
static int ended(unsigned event) {
    (void)event;
    ExitProcess(130);
}

// Compiled code calls this at the program's start, for a language that has work to do there.
void __main(void) {}

int main(int, char **);

__attribute__((noreturn)) void begin(void) {
    SetConsoleCtrlHandler(ended, 1);
    words = CommandLineToArgvW(GetCommandLineW(), &count);
    if (!words) count = 0;
    ExitProcess((unsigned)main(count, 0));
}
