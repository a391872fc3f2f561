/* A lock that is given back whatever happens while it is held. */
#include <windows.h>
#include <stdio.h>

#define ERROR_IN_SECTION 0xE0000042

static volatile LONG lockDepth = 0;
static volatile LONG lockTotal = 0;

static VOID Acquire(VOID)
{
    ++lockDepth;
    ++lockTotal;
}

static VOID Release(VOID)
{
    --lockDepth;
}

static VOID Section(INT level, BOOL fail)
{
    Acquire();
    __try {
        printf("level %d, depth %d\n", level, lockDepth);
        if (level > 1)
            Section(level - 1, fail);
        else if (fail)
            RaiseException(ERROR_IN_SECTION, EXCEPTION_NONCONTINUABLE, 0, NULL);
    } __finally {
        Release();
        printf("level %d, abnormal %d\n", level, AbnormalTermination());
    }
}

int main(void)
{
    Section(2, FALSE);
    __try {
        Section(2, TRUE);
    } __except (GetExceptionCode() == ERROR_IN_SECTION) {
        printf("failed, depth %d\n", lockDepth);
    }
    printf("taken %d times\n", lockTotal);
    return lockDepth;
}
