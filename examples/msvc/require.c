/* Conditions that raise: a macro with the number of the line as the argument. */
#include <windows.h>
#include <stdio.h>

#define REQUIRE_FAILED 0xE0000099
#define REQUIRE(condition, id)                                      \
    do {                                                            \
        if (!(condition)) {                                         \
            ULONG_PTR argument = (id);                              \
            RaiseException(REQUIRE_FAILED, 0, 1, &argument);        \
        }                                                           \
    } while (0)

static ULONG_PTR failed_id;

static int Filter(DWORD code, PEXCEPTION_POINTERS info)
{
    if (code != REQUIRE_FAILED || info->ExceptionRecord->NumberParameters != 1)
        return EXCEPTION_CONTINUE_SEARCH;
    failed_id = info->ExceptionRecord->ExceptionInformation[0];
    return EXCEPTION_EXECUTE_HANDLER;
}

static int Average(const int *values, int count)
{
    int sum = 0;
    REQUIRE(values != NULL, 11);
    REQUIRE(count > 0, 12);
    for (int i = 0; i < count; i++)
        sum += values[i];
    return sum / count;
}

int main(void)
{
    int values[] = {2, 4, 9};

    __try {
        printf("%d\n", Average(values, 3));
        printf("%d\n", Average(values, 0));
        printf("not reached\n");
    } __except (Filter(GetExceptionCode(), GetExceptionInformation())) {
        printf("requirement %llu failed\n", failed_id);
    }
    return 0;
}
