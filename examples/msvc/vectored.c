/* A vectored handler that counts first-chance exceptions, as a logger does. */
#include <windows.h>
#include <stdio.h>

static volatile LONG first_chance = 0;
static DWORD last_code = 0;

static LONG CALLBACK Logger(PEXCEPTION_POINTERS info)
{
    first_chance++;
    last_code = info->ExceptionRecord->ExceptionCode;
    return EXCEPTION_CONTINUE_SEARCH;
}

static int Try(int n)
{
    int answer = -1;

    __try {
        answer = 100 / n;
    } __except (EXCEPTION_EXECUTE_HANDLER) {
        answer = 0;
    }
    return answer;
}

int main(void)
{
    PVOID handle = AddVectoredExceptionHandler(1, Logger);

    if (handle == NULL)
        return 1;
    printf("%d\n", Try(4));
    printf("%d\n", Try(0));
    printf("seen %ld, last is a division: %d\n", first_chance,
           last_code == STATUS_INTEGER_DIVIDE_BY_ZERO);
    RemoveVectoredExceptionHandler(handle);
    printf("%d\n", Try(0));
    printf("seen %ld\n", first_chance);
    return 0;
}
