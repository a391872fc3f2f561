/* A lock that is given back whatever happens while it is held. */

int lockDepth = 0;
int lockTotal = 0;

void Acquire(void)
{
    ++lockDepth;
    ++lockTotal;
}

void Release(void)
{
    --lockDepth;
}

void Section(int level, int fail)
{
    Acquire();
    __try {
        put(level), put(lockDepth); /* "level %d, depth %d\n" */
        if (level > 1)
            Section(level - 1, fail);
        else if (fail)
            RaiseException(0xE0000042, 1, 0, 0);
    } __finally {
        Release();
        { int printed_0 = level; int printed_1 = AbnormalTermination(); put(printed_0); put(printed_1); } /* "level %d, abnormal %d\n" */
    }
}

int main(void)
{
    Section(2, 0);
    __try {
        Section(2, 1);
    } __except (GetExceptionCode() == 0xE0000042) {
        put(lockDepth); /* "failed, depth %d\n" */
    }
    put(lockTotal); /* "taken %d times\n" */
    return lockDepth;
}
