// The calls of Windows that are made, by kernel32 and shell32.
typedef __SIZE_TYPE__ size;
typedef unsigned long long number;
typedef void *handle;
typedef unsigned short unit;

#define SYSTEM __declspec(dllimport)

SYSTEM handle GetProcessHeap(void);
SYSTEM void *HeapAlloc(handle heap, unsigned flags, unsigned long long n);
SYSTEM void *HeapReAlloc(handle heap, unsigned flags, void *block, unsigned long long n);
SYSTEM int HeapFree(handle heap, unsigned flags, void *block);

SYSTEM unit *GetCommandLineW(void);
SYSTEM unit **CommandLineToArgvW(const unit *line, int *count);
SYSTEM __attribute__((noreturn)) void ExitProcess(unsigned status);
SYSTEM int SetConsoleCtrlHandler(int (*does)(unsigned event), int is_added);
SYSTEM unsigned GetLastError(void);

SYSTEM handle GetStdHandle(unsigned which);
SYSTEM handle CreateFileW(const unit *name, unsigned access, unsigned share, void *security, unsigned how, unsigned flags, handle of);
SYSTEM int ReadFile(handle file, void *to, unsigned n, unsigned *did, void *overlapped);
SYSTEM int WriteFile(handle file, const void *from, unsigned n, unsigned *did, void *overlapped);
SYSTEM int CloseHandle(handle it);
SYSTEM int MultiByteToWideChar(unsigned page, unsigned flags, const char *from, int n, unit *to, int room);
SYSTEM unsigned GetFullPathNameW(const unit *name, unsigned room, unit *to, unit **last);
