/* Guards around single accesses: can this address be read, can it be written? */
#include <windows.h>
#include <stdio.h>

static BOOL CanRead(const volatile BYTE *address)
{
    BYTE value;

    __try {
        value = *address;
        (void)value;
    } __except (EXCEPTION_EXECUTE_HANDLER) {
        return FALSE;
    }
    return TRUE;
}

static BOOL CanWrite(LPBYTE address)
{
    __try {
        *(volatile BYTE *)address = *(volatile BYTE *)address;
        return TRUE;
    } __except (GetExceptionCode() == EXCEPTION_ACCESS_VIOLATION ? EXCEPTION_EXECUTE_HANDLER
                                                                 : EXCEPTION_CONTINUE_SEARCH) {
        return FALSE;
    }
}

int main(void)
{
    BYTE local = 7;

    printf("null: %d\n", CanRead(NULL));
    printf("low: %d\n", CanRead((LPBYTE)(ULONG_PTR)0x10));
    printf("local: %d %d\n", CanRead(&local), CanWrite(&local));
    printf("null, to write: %d\n", CanWrite(NULL));
    return local == 7 ? 0 : 1;
}
