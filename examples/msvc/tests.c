/* A tiny test runner: no test brings the runner down. */
#include <windows.h>
#include <stdio.h>

typedef int (*TEST)(void);

static int Passes(void) { return 1; }
static int Fails(void) { return 0; }
static int Faults(void) { return *(volatile int *)NULL; }
static int Raises(void) { RaiseException(0xE0000002, 0, 0, NULL); return 1; }

static const TEST tests[] = {Passes, Fails, Faults, Raises};

static int RunOne(int i)
{
    __try {
        return tests[i]() ? 0 : 1;
    } __except (EXCEPTION_EXECUTE_HANDLER) {
        return 2;
    }
}

int main(void)
{
    int counts[3] = {0, 0, 0};

    for (int i = 0; i < sizeof(tests) / sizeof(*tests); i++)
        counts[RunOne(i)]++;
    printf("%d passed, %d failed, %d crashed\n", counts[0], counts[1], counts[2]);
    return counts[0] == 1 ? 0 : 1;
}
