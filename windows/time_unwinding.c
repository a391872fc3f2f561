/* Times RtlLookupFunctionEntry and RtlVirtualUnwind over frames like those of examples/c/time_walk.c:
 * 4,000 frames of an image with 10,000 functions, each with one allocation of 0x28 bytes. Times are
 * the least of several runs. */
#include <stdio.h>
#include <string.h>
#include <windows.h>

enum { FUNCTIONS = 10000, FRAMES = 4000, RUNS = 20 };

/* 16 bytes each, as in time_walk.c */
__asm__(".text\n"
        ".macro timed_function\n"
        "timed_\\@:\n"
        ".seh_proc timed_\\@\n"
        "sub $0x28, %rsp\n"
        ".seh_stackalloc 0x28\n"
        ".seh_endprologue\n"
        ".byte 0xE8, 0, 0, 0, 0\n"
        "xor %eax, %eax\n"
        "add $0x28, %rsp\n"
        "ret\n"
        ".seh_endproc\n"
        ".endm\n"
        ".balign 16\n"
        ".globl timed_functions\n"
        "timed_functions:\n"
        ".rept 10000\n"
        "timed_function\n"
        ".endr\n");

extern char timed_functions[];
static char stack[48 * FRAMES];

/* Where a call in some function returns to. */
static DWORD64 return_address(unsigned *state)
{
    *state = *state * 1664525 + 1013904223;
    return (DWORD64)timed_functions + 16 * (*state / 65536 % FUNCTIONS) + 9;
}

static double now(void)
{
    LARGE_INTEGER count, each;

    QueryPerformanceCounter(&count);
    QueryPerformanceFrequency(&each);
    return (double)count.QuadPart * 1e9 / (double)each.QuadPart;
}

/* How many frames there are; 0 where they aren't as they have to be. */
static int walk(CONTEXT context, BOOL is_looked_up_once)
{
    DWORD64 base = 0;
    RUNTIME_FUNCTION *function = NULL;
    int frames = 0;

    for (; context.Rip != 0; frames++) {
        void *data;
        DWORD64 establisher;

        if (!is_looked_up_once || !function)
            function = RtlLookupFunctionEntry(context.Rip, &base, NULL);
        if (!function)
            return 0;
        RtlVirtualUnwind(UNW_FLAG_NHANDLER, base, context.Rip, function, &context, &data,
                         &establisher, NULL);
    }
    return frames;
}

static double time_of(const CONTEXT *context, BOOL is_looked_up_once)
{
    double least = 1e18;

    for (int run = 0; run < RUNS; run++) {
        double begun = now(), taken;

        if (walk(*context, is_looked_up_once) != FRAMES)
            return -1;
        taken = now() - begun;
        if (taken < least)
            least = taken;
    }
    return least / FRAMES;
}

int main(void)
{
    static CONTEXT context;
    unsigned state = 1;
    double both, alone;

    context.Rip = return_address(&state);
    context.Rsp = (DWORD64)stack;
    for (int k = 0; k < FRAMES; k++) {
        DWORD64 address = k == FRAMES - 1 ? 0 : return_address(&state);

        memcpy(stack + 48 * k + 40, &address, 8);
    }
    both = time_of(&context, FALSE);
    /* all functions have one unwind info's bytes, so that the first one's entry does for each */
    alone = time_of(&context, TRUE);
    printf("%-40s %8.0f\n", "look-up and RtlVirtualUnwind, a frame", both);
    printf("%-40s %8.0f\n", "RtlVirtualUnwind alone", alone);
    return both < 0 || alone < 0;
}
