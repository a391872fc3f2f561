/* A filter that has a raise continued a few times before it gives up. */
#include <windows.h>
#include <stdio.h>

#define DEVICE_BUSY 0xE00000B1
#define ATTEMPTS 3

static DWORD NextRequest(void)
{
    static DWORD next = 1;
    return next++;
}

static int Retry(DWORD code)
{
    static int left = ATTEMPTS;

    if (code != DEVICE_BUSY)
        return EXCEPTION_CONTINUE_SEARCH;
    if (left-- > 0)
        return EXCEPTION_CONTINUE_EXECUTION;
    left = ATTEMPTS;
    return EXCEPTION_EXECUTE_HANDLER;
}

static void Send(int busy)
{
    DWORD request = NextRequest();

    _try {
        while (busy-- > 0)
            RaiseException(DEVICE_BUSY, 0, 0, NULL);
        printf("request %lu sent\n", request);
    } _except (Retry(_exception_code())) {
        printf("request %lu given up, %d left\n", request, busy);
    }
}

int main(void)
{
    Send(0);
    Send(3);
    Send(2);
    Send(1);
    return 0;
}
