/* Guarded access, as a text for cl.exe has it: a probe that answers where a page can't be written,
 * a lock that is given back whatever happens, and an exception that is raised again. */
#include "winseh.h"

#define APP_ERROR_BUSY 0xE0000001

static volatile LONG lock_count = 0;

static LONG accept_access_violation(DWORD code)
{
    return code == EXCEPTION_ACCESS_VIOLATION ? EXCEPTION_EXECUTE_HANDLER
                                              : EXCEPTION_CONTINUE_SEARCH;
}

BOOL WINAPI probe_for_write(LPVOID address)
{
    __try {
        *(volatile BYTE *)address = 1;
        return TRUE;
    } __except (accept_access_violation(GetExceptionCode())) {
        return FALSE;
    }
}

VOID with_lock(DWORD code)
{
    lock_count++;
    __try {
        if (code != 0)
            RaiseException(code, EXCEPTION_NONCONTINUABLE, 0, NULL);
        put(lock_count);
    } __finally {
        lock_count--;
        put(AbnormalTermination());
    }
}

DWORD try_with_lock(DWORD code)
{
    DWORD status = 0;
    _try {
        with_lock(code);
    } _except (EXCEPTION_EXECUTE_HANDLER) {
        status = _exception_code();
    }
    return status;
}

int main(void)
{
    const ULONG_PTR page = 0x20001000;

    put(probe_for_write(NULL));
    put(probe_for_write((PVOID)page));
    protect((PVOID)page, PAGE_READWRITE);
    put(probe_for_write((PVOID)page));

    put(try_with_lock(0));
    put(try_with_lock(APP_ERROR_BUSY));
    put(lock_count);
    return lock_count != 0;
}
