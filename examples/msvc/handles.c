/* Handles that are closed by nested __finally blocks, also on the way out by return. */
#include <windows.h>
#include <stdio.h>

static HANDLE Open(DWORD id);
static BOOL Close(HANDLE handle);

static unsigned __int64 openMask;

static int Use(DWORD first, DWORD second, BOOL early)
{
    HANDLE a = INVALID_HANDLE_VALUE, b = INVALID_HANDLE_VALUE;

    __try {
        a = Open(first);
        __try {
            b = Open(second);
            if (early)
                return 1;
            printf("both open: %llu\n", openMask);
        } __finally {
            Close(b);
        }
    } __finally {
        Close(a);
        printf("left: %llu\n", openMask);
    }
    return 0;
}

int main(void)
{
    printf("%d\n", Use(1, 3, FALSE));
    printf("%d\n", Use(0, 5, TRUE));
    __try {
        Use(4, 64, FALSE);
    } __except (GetExceptionCode() == STATUS_INVALID_HANDLE) {
        printf("invalid, open: %llu\n", openMask);
    }
    return openMask == 0ui64 ? 0 : 1;
}

static HANDLE Open(DWORD id)
{
    if (id >= 64)
        RaiseException(STATUS_INVALID_HANDLE, 0, 0, NULL);
    openMask |= 1ui64 << id;
    return (HANDLE)(ULONG_PTR)(id + 1);
}

static BOOL Close(HANDLE handle)
{
    if (handle == INVALID_HANDLE_VALUE)
        return FALSE;
    openMask &= ~(1ui64 << ((ULONG_PTR)handle - 1));
    return TRUE;
}
