// Memory under Windows: the process's heap. And what compiled code calls before it takes more of the stack than a page.
#include "heap.h"
#include "windows.h"

void *malloc(size n) { return HeapAlloc(GetProcessHeap(), 0, n); }
void *realloc(void *block, size n) { return HeapReAlloc(GetProcessHeap(), 0, block, n); }

void free(void *block) {
    if (block) HeapFree(GetProcessHeap(), 0, block);
}

// Touches each page of so many bytes below the caller's stack, as rax has them, from the top: the system gives a stack its
// pages one by one. It changes no register.
__asm__(".globl ___chkstk_ms\n___chkstk_ms: push %rcx\n push %rdx\n lea 24(%rsp), %rcx\n mov %rcx, %rdx\n sub %rax, %rdx\n"
        "1: sub $4096, %rcx\n cmp %rdx, %rcx\n jbe 2f\n test %al, (%rcx)\n jmp 1b\n"
        "2: test %al, (%rdx)\n pop %rdx\n pop %rcx\n ret\n");
