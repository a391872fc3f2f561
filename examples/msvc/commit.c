/* Memory that is committed as it is touched. */
#include <windows.h>
#include <stdio.h>

#define PAGE 4096
#define PAGES 4

static LPBYTE region;
static DWORD committed;

static LONG CommitFilter(LPEXCEPTION_POINTERS info)
{
    LPBYTE address = (LPBYTE)info->ExceptionRecord->ExceptionInformation[1];

    if (info->ExceptionRecord->ExceptionCode != EXCEPTION_ACCESS_VIOLATION)
        return EXCEPTION_CONTINUE_SEARCH;
    if (address < region || address >= region + PAGE * PAGES)
        return EXCEPTION_EXECUTE_HANDLER;
    if (!VirtualAlloc(address, 1, MEM_COMMIT, PAGE_READWRITE))
        return EXCEPTION_EXECUTE_HANDLER;
    committed++;
    return EXCEPTION_CONTINUE_EXECUTION;
}

static VOID Store(SIZE_T offset, BYTE value)
{
    BOOL stored = FALSE;

    __try {
        region[offset] = value;
        stored = TRUE;
    } __except (CommitFilter(GetExceptionInformation())) {
        printf("out of the region\n");
    }
    printf("stored: %d, pages: %lu\n", stored, committed);
}

int main(void)
{
    region = VirtualAlloc(NULL, PAGE * PAGES, MEM_RESERVE, PAGE_NOACCESS);
    Store(0, 1);
    Store(PAGE - 1, 2);
    Store(3 * PAGE, 3);
    Store((SIZE_T)0 - (SIZE_T)region, 4);
    VirtualFree(region, 0, MEM_RELEASE);
    return 0;
}
