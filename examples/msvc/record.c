/* A filter function that looks at the exception's record, and keeps a note of it. */
#include <windows.h>
#include <stdio.h>

static DWORD lastCode, lastFlags, lastCount;
static ULONG_PTR lastAddress;

static LONG WINAPI Note(EXCEPTION_POINTERS *pointers, LONG answer)
{
    const EXCEPTION_RECORD *record = pointers->ExceptionRecord;

    lastCode = record->ExceptionCode;
    lastFlags = record->ExceptionFlags;
    lastCount = record->NumberParameters;
    lastAddress = record->NumberParameters >= 2 ? record->ExceptionInformation[1] : 0;
    return answer;
}

static VOID Print(LPCSTR what)
{
    printf("%s: flags %lu, parameters %lu, address %llu\n", what, lastFlags, lastCount, lastAddress);
}

int main(void)
{
    __try {
        *(volatile INT *)(ULONG_PTR)24 = 1;
    } __except (Note(GetExceptionInformation(), EXCEPTION_EXECUTE_HANDLER)) {
        Print("write");
    }
    __try {
        RaiseException(STATUS_INVALID_PARAMETER, EXCEPTION_NONCONTINUABLE, 0, NULL);
    } __except (Note(GetExceptionInformation(), EXCEPTION_EXECUTE_HANDLER)) {
        Print("raised");
    }
    return lastCode == STATUS_INVALID_PARAMETER ? 0 : 1;
}
