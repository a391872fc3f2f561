/* Handles that are closed by nested __finally blocks, also on the way out by return. */

unsigned long long openMask;

int Use(unsigned first, unsigned second, int early)
{
    void *a = ((void *)-1), *b = ((void *)-1);

    __try {
        a = Open(first);
        __try {
            b = Open(second);
            if (early)
                return 1;
            put(openMask); /* "both open: %llu\n" */
        } __finally {
            Close(b);
        }
    } __finally {
        Close(a);
        put(openMask); /* "left: %llu\n" */
    }
    return 0;
}

int main(void)
{
    put(Use(1, 3, 0));
    put(Use(0, 5, 1));
    __try {
        Use(4, 64, 0);
    } __except (GetExceptionCode() == 0xC0000008) {
        put(openMask); /* "invalid, open: %llu\n" */
    }
    return openMask == 0ull ? 0 : 1;
}

void *Open(unsigned id)
{
    if (id >= 64)
        RaiseException(0xC0000008, 0, 0, 0);
    openMask |= 1ull << id;
    return (void *)(unsigned long long)(id + 1);
}

int Close(void *handle)
{
    if (handle == ((void *)-1))
        return 0;
    openMask &= ~(1ull << ((unsigned long long)handle - 1));
    return 1;
}
