/* The services of Windows by which dumped.c and own_host.c write a dump, declared here, since they are
   built without Windows' headers; and how a frame is written. */
#include "dumped.h"

#define GENERIC_WRITE 0x40000000
#define CREATE_ALWAYS 2
#define CONTEXT_FULL 0x10000B

typedef struct __attribute__((aligned(16))) context {
    u64 homes[6];
    u32 flags, mx_csr;
    u16 segments[6];
    u32 e_flags;
    u64 debug[6];
    u64 integer[16]; /* rax rcx rdx rbx rsp rbp rsi rdi r8 .. r15 */
    u64 rip;
    u8 rest[1232 - 256];
} context;

typedef struct exception_pointers {
    u32 *record;
    context *registers;
} exception_pointers;

typedef struct dump_exception {
    u32 thread;
    exception_pointers *pointers;
    int client;
} __attribute__((packed, aligned(4))) dump_exception;

IMPORT void *CreateThread(void *, u64, u32 (*)(void *), void *, u32, u32 *);
IMPORT void *CreateFileA(const char *, u32, u32, void *, u32, u32, void *);
IMPORT int WriteFile(void *, const void *, u32, u32 *, void *);
IMPORT int CloseHandle(void *);
IMPORT void *GetCurrentProcess(void);
IMPORT u32 GetCurrentProcessId(void);
IMPORT u32 GetCurrentThreadId(void);
IMPORT u32 GetThreadId(void *);
IMPORT char *GetCommandLineA(void);
IMPORT u32 WaitForSingleObject(void *, u32);
IMPORT u32 SuspendThread(void *);
IMPORT int GetThreadContext(void *, context *);
IMPORT void ExitProcess(u32);
IMPORT void *RtlLookupFunctionEntry(u64, u64 *, void *);
IMPORT void *RtlVirtualUnwind(u32, u64, u64, void *, context *, void **, u64 *, void *);
IMPORT int MiniDumpWriteDump(void *, u32, void *, u32, dump_exception *, void *, void *);

int _fltused;

/* the compiler calls it to copy structures */
void *memcpy(void *to, const void *from, u64 size)
{
    void *end = to;

    __asm__ volatile("rep movsb" : "+D"(end), "+S"(from), "+c"(size) : : "memory");
    return to;
}

/* ---- what is written */

static char text[16384];
static u32 length;

static void put_char(char c)
{
    if (length < sizeof text)
        text[length++] = c;
}

static void put_number(u64 n)
{
    for (int shift = 60; shift >= 0; shift -= 4)
        if (n >> shift || shift == 0)
            put_char("0123456789abcdef"[n >> shift & 15]);
}

/* A line for a frame: RIP, RSP, RBX, RBP, RSI, RDI, R12 to R15. */
static void put_frame(const context *c)
{
    static const u8 order[] = {4, 3, 5, 6, 7, 12, 13, 14, 15};

    put_number(c->rip);
    for (u32 k = 0; k < sizeof order; k++) {
        put_char(' ');
        put_number(c->integer[order[k]]);
    }
    put_char('\n');
}

