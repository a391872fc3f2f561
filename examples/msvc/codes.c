/* A table of codes, and which of them a handler takes. */
#include <windows.h>
#include <stdio.h>

static const DWORD codes[] = {
    STATUS_ACCESS_VIOLATION,
    STATUS_INTEGER_OVERFLOW,
    STATUS_NO_MEMORY,
    STATUS_STACK_OVERFLOW,
    EXCEPTION_BREAKPOINT,
};

static int Severity(DWORD code)
{
    switch (code) {
    case STATUS_ACCESS_VIOLATION:
    case STATUS_STACK_OVERFLOW:
        return 3;
    case STATUS_NO_MEMORY:
        return 2;
    default:
        return 1;
    }
}

static BOOL Taken(DWORD code, int least)
{
    __try {
        __try {
            RaiseException(code, 0, 0, NULL);
        } __except (Severity(GetExceptionCode()) >= least) {
            return TRUE;
        }
    } __except (EXCEPTION_EXECUTE_HANDLER) {
        return FALSE;
    }
    return FALSE;
}

int main(void)
{
    int least;

    for (least = 1; least <= 3; least++) {
        int taken = 0;
        for (size_t i = 0; i < ARRAYSIZE(codes); i++)
            taken += Taken(codes[i], least);
        printf("least %d: %d of %d\n", least, taken, (int)_countof(codes));
    }
    return 0;
}
