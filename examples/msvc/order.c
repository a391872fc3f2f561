/* In which order filters and blocks run: each prints its number. */
#include <windows.h>
#include <stdio.h>

static int Print(int n, int answer)
{
    printf("%d\n", n);
    return answer;
}

static void Inner(void)
{
    __try {
        __try {
            RaiseException(0xE0000001, 0, 0, NULL);
        } __finally {
            Print(40, 0);
        }
    } __except (Print(10, EXCEPTION_CONTINUE_SEARCH)) {
        Print(-1, 0);
    }
}

static void Outer(void)
{
    __try {
        Inner();
        Print(-2, 0);
    } __finally {
        Print(50, 0);
    }
}

void main(void)
{
    __try {
        __try {
            Outer();
        } __except (Print(20, EXCEPTION_CONTINUE_SEARCH)) {
            Print(-3, 0);
        }
    } __except (Print(30, EXCEPTION_EXECUTE_HANDLER)) {
        Print(60, 0);
    }
}
