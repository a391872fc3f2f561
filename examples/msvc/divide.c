/* Divisions whose faults become results, told apart by a filter. */
#include <windows.h>
#include <stdio.h>
#include <limits.h>

typedef enum { DIVIDE_OK, DIVIDE_BY_ZERO, DIVIDE_OVERFLOW } DIVIDE_RESULT;

static DIVIDE_RESULT result;

static int DivideFilter(DWORD code)
{
    if (code == EXCEPTION_INT_DIVIDE_BY_ZERO)
        result = DIVIDE_BY_ZERO;
    else if (code == EXCEPTION_INT_OVERFLOW)
        result = DIVIDE_OVERFLOW;
    else
        return EXCEPTION_CONTINUE_SEARCH;
    return EXCEPTION_EXECUTE_HANDLER;
}

static LONG Divide(LONG a, LONG b)
{
    result = DIVIDE_OK;
    __try {
        return a / b;
    } __except (DivideFilter(GetExceptionCode())) {
        return 0;
    }
}

int main(void)
{
    const LONG pairs[6] = {7, 2, 1, 0, INT_MIN, -1};
    int i;

    for (i = 0; i < 3; i++) {
        LONG quotient = Divide(pairs[2 * i], pairs[2 * i + 1]);
        printf("%ld, result %d\n", quotient, result);
    }
    return 0;
}
