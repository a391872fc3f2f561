/* A table of codes, and which of them a handler takes. */

unsigned codes[5] = {0xC0000005, 0xC0000095, 0xC0000017, 0xC00000FD, 0x80000003};

int Severity(unsigned code)
{
    if (code == 0xC0000005 || code == 0xC00000FD)
        return 3;
    if (code == 0xC0000017)
        return 2;
    return 1;
}

int Taken(unsigned code, int least)
{
    __try {
        __try {
            RaiseException(code, 0, 0, 0);
        } __except (Severity(GetExceptionCode()) >= least) {
            return 1;
        }
    } __except (EXCEPTION_EXECUTE_HANDLER) {
        return 0;
    }
    return 0;
}

int main(void)
{
    int least;

    for (least = 1; least <= 3; least++) {
        int taken = 0;
        for (unsigned long long i = 0; i < 5ull; i++)
            taken += Taken(codes[i], least);
        { int printed_0 = least; int printed_1 = taken; int printed_2 = (int)5ull; put(printed_0); put(printed_1); put(printed_2); } /* "least %d: %d of %d\n" */
    }
    return 0;
}
