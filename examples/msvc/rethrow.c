/* An exception that is handled half and raised again, as `throw;` does in C++. */
#include <windows.h>
#include <stdio.h>

#define FILE_MISSING ((DWORD)0xE0010001)
#define FILE_LOCKED  ((DWORD)0xE0010002)

static int handled = 0, passed = 0;

static void Open(int file)
{
    if (file == 1)
        RaiseException(FILE_MISSING, 0, 0, NULL);
    if (file == 2)
        RaiseException(FILE_LOCKED, 0, 0, NULL);
    printf("opened %d\n", file);
}

static void Load(int file)
{
    __try {
        Open(file);
    } __except (EXCEPTION_EXECUTE_HANDLER) {
        DWORD code = GetExceptionCode();
        if (code == FILE_MISSING) {
            handled++;
            printf("file %d is missing\n", file);
        } else {
            passed++;
            RaiseException(code, 0, 0, NULL);
        }
    }
}

int main(void)
{
    int file;

    for (file = 0; file < 3; file++) {
        __try {
            Load(file);
        } __except (EXCEPTION_EXECUTE_HANDLER) {
            printf("file %d: %u\n", file, GetExceptionCode() & 0xFFFF);
        }
    }
    printf("%d handled, %d passed on\n", handled, passed);
    return 0;
}
