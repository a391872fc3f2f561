/* A recursion that gives up at a depth, and unwinds through a block at each level. */
#include <windows.h>
#include <stdio.h>

#define TOO_DEEP 0xE0000007ul

static unsigned int unwound;

static unsigned long long factorial(unsigned int n, unsigned int depth)
{
    unsigned long long value = 1;

    __try {
        if (depth == 0)
            RaiseException(TOO_DEEP, 0, 0, 0);
        if (n > 1)
            value = n * factorial(n - 1, depth - 1);
    }
    __finally {
        if (AbnormalTermination())
            unwound++;
    }
    return value;
}

static void report(unsigned int n, unsigned int depth)
{
    unwound = 0;
    __try {
        printf("%u! = %llu\n", n, factorial(n, depth));
    }
    __except (GetExceptionCode() == TOO_DEEP ? EXCEPTION_EXECUTE_HANDLER : EXCEPTION_CONTINUE_SEARCH) {
        printf("%u! is too deep, %u levels unwound\n", n, unwound);
    }
}

int main()
{
    report(5, 10);
    report(20, 20);
    report(6, 3);
    return 0;
}
