/*
 * dumped.exe, which writes a dump of itself: make_dumps has the commands that build and run it.
 *
 *     dumped NAME [full]
 *
 * Three threads: the first one waits, the second turns in a loop, and the third stores to the
 * address 8, through functions of this image and of part.dll. The filter of its outermost __except
 * writes NAME.dmp, by MiniDumpWriteDump, and NAME.frames: for the second thread and for the third one
 * the frames that Windows' RtlLookupFunctionEntry and RtlVirtualUnwind find, as far as they lie in
 * these two images.
 */
#include "dumping.h"

extern u8 __ImageBase;

static void *turning_thread;
static volatile u64 turns;
static char names[2][64];
static u32 dump_type;

static KEEP void put_frames(u32 thread, const context *from)
{
    u64 bases[2] = {(u64)&__ImageBase, 0};
    context c = *from;

    RtlLookupFunctionEntry((u64)part_guarded, &bases[1], 0);
    put_char('t');
    put_char(' ');
    put_number(thread);
    put_char('\n');
    for (;;) {
        u64 base = 0, establisher;
        void *entry, *handler;

        entry = RtlLookupFunctionEntry(c.rip, &base, 0);
        if (entry && base != bases[0] && base != bases[1])
            break; /* another image's */
        put_frame(&c);
        if (entry)
            RtlVirtualUnwind(0, base, c.rip, entry, &c, &handler, &establisher, 0);
        else { /* a leaf function */
            c.rip = *(u64 *)c.integer[4];
            c.integer[4] += 8;
        }
        if (!c.rip)
            break;
    }
}

/* Writes the dump and the frames. */
static KEEP int report(exception_pointers *raised)
{
    dump_exception e = {GetCurrentThreadId(), raised, 0};
    static context turning;
    void *file;
    u32 written;

    SuspendThread(turning_thread);
    turning.flags = CONTEXT_FULL;
    GetThreadContext(turning_thread, &turning);
    put_frames(GetThreadId(turning_thread), &turning);
    put_frames(e.thread, raised->registers);
    file = CreateFileA(names[1], GENERIC_WRITE, 0, 0, CREATE_ALWAYS, 0, 0);
    WriteFile(file, text, length, &written, 0);
    CloseHandle(file);
    file = CreateFileA(names[0], GENERIC_WRITE, 0, 0, CREATE_ALWAYS, 0, 0);
    MiniDumpWriteDump(GetCurrentProcess(), GetCurrentProcessId(), file, dump_type, &e, 0, 0);
    CloseHandle(file);
    return 1;
}

/* ---- the third thread */

static KEEP u64 store(u64 a, u64 b)
{
    return part_store((volatile u64 *)8, a * b) + b;
}

/* a frame register, since the size of its numbers isn't known before */
static KEEP u64 with_array(u64 a, u64 b)
{
    volatile u64 numbers[a & 15];

    for (u64 k = 0; k < (a & 15); k++)
        numbers[k] = k * b;
    return store(a, numbers[(a & 15) - 1]) + numbers[0];
}

static KEEP u64 with_doubles(u64 a, u64 b)
{
    return (u64)part_with_doubles(with_array, a + b, (double)b);
}

static u32 storing(void *argument)
{
    __try {
        return (u32)part_guarded(with_doubles, (u64)argument);
    } __except (report(_exception_info())) {
        ExitProcess(0);
    }
    return 1;
}

/* ---- the second thread */

static KEEP u64 turn(u64 n)
{
    volatile u64 left[4] = {n}; /* so that it is no leaf function */

    while (left[0])
        turns++;
    return left[0];
}

static KEEP u64 turn_with_locals(u64 n)
{
    volatile u64 locals[32];

    locals[n & 31] = n;
    return turn(locals[n & 31]) + locals[0];
}

static u32 turning(void *argument)
{
    return (u32)turn_with_locals((u64)argument);
}

/* ---- the first thread */

/* NAME, the word after the first blank, with an ending. */
static const char *put_name(char *name, const char *ending)
{
    const char *line = GetCommandLineA();
    u32 n = 0;

    while (*line && *line != ' ')
        line++;
    while (*line == ' ')
        line++;
    while (*line && *line != ' ' && n < 48)
        name[n++] = *line++;
    while (*ending)
        name[n++] = *ending++;
    name[n] = 0;
    return line;
}

void start(void)
{
    void *storing_thread;

    put_name(names[1], ".frames");
    dump_type = *put_name(names[0], ".dmp") == ' ' ? 2 : 0; /* MiniDumpWithFullMemory */
    turning_thread = CreateThread(0, 0, turning, (void *)5, 0, 0);
    while (!turns)
        ;
    storing_thread = CreateThread(0, 0, storing, (void *)4, 0, 0);
    WaitForSingleObject(storing_thread, ~0u);
    ExitProcess(1);
}
