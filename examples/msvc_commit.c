/* Memory that comes as it is touched: a filter reads the exception's record, opens the page, and
 * lets the access be made again, as a filter for cl.exe does by VirtualAlloc. Pages past a limit
 * are refused, and the loop that fills them ends in the handler. */
#include "winseh.h"

#define PAGE_SIZE 4096
#define PAGE_LIMIT 3

static ULONG_PTR region = 0x20000000;
static DWORD pages_open = 0;

static INT commit_page(DWORD code, ULONG_PTR kind, ULONG_PTR address)
{
    if (code != STATUS_ACCESS_VIOLATION)
        return EXCEPTION_CONTINUE_SEARCH;
    if (kind != EXCEPTION_WRITE_FAULT || pages_open == PAGE_LIMIT)
        return EXCEPTION_EXECUTE_HANDLER;
    if (!protect((LPVOID)address, PAGE_READWRITE))
        return EXCEPTION_EXECUTE_HANDLER;
    pages_open++;
    return EXCEPTION_CONTINUE_EXECUTION;
}

SIZE_T fill(SIZE_T count)
{
    DWORD *words = (DWORD *)region;
    SIZE_T at = 0;
    __try {
        for (at = 0; at < count; at++)
            words[at * 256] = (DWORD)at;
    } __except (commit_page(GetExceptionCode(),
                            GetExceptionInformation()->ExceptionRecord->ExceptionInformation[0],
                            GetExceptionInformation()->ExceptionRecord->ExceptionInformation[1])) {
        put(-1);
    }
    return at;
}

int main(void)
{
    DWORD sum = 0;
    SIZE_T filled = fill(8);
    SIZE_T at;

    put(filled);
    put(pages_open);
    for (at = 0; at < filled; at++)
        sum += ((DWORD *)region)[at * 256];
    put(sum);

    put(fill(PAGE_SIZE));
    put(pages_open);
    return 0;
}
