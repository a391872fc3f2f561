/* What a crash reporter keeps of an exception, in a structure. */
#include <windows.h>
#include <stdio.h>

typedef struct CRASH_NOTE {
    DWORD code;
    DWORD count;
} CRASH_NOTE;

static CRASH_NOTE note;

static int Keep(DWORD code)
{
    note.code = code;
    note.count++;
    return EXCEPTION_EXECUTE_HANDLER;
}

static void Crash(int kind)
{
    volatile int zero = 0;

    __try {
        if (kind == 0)
            *(volatile int *)NULL = kind;
        else if (kind == 1)
            zero = 1 / zero;
        else
            RaiseException(0xE0000000 | kind, 0, 0, NULL);
    } __except (Keep(GetExceptionCode())) {
        printf("crash %lu: code ends in %lu\n", note.count, note.code & 0xFF);
    }
}

int main(void)
{
    for (int kind = 0; kind < 3; kind++)
        Crash(kind);
    return note.count == 3 ? EXIT_SUCCESS : EXIT_FAILURE;
}
