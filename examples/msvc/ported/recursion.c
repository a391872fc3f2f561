/* A recursion that gives up at a depth, and unwinds through a block at each level. */

unsigned int unwound;

unsigned long long factorial(unsigned int n, unsigned int depth)
{
    unsigned long long value = 1;

    __try {
        if (depth == 0)
            RaiseException(0xE0000007ul, 0, 0, 0);
        if (n > 1)
            value = n * factorial(n - 1, depth - 1);
    }
    __finally {
        if (AbnormalTermination())
            unwound++;
    }
    return value;
}

void report(unsigned int n, unsigned int depth)
{
    unwound = 0;
    __try {
        { unsigned printed_0 = n; unsigned long long printed_1 = factorial(n, depth); put(printed_0); put(printed_1); } /* "%u! = %llu\n" */
    }
    __except (GetExceptionCode() == 0xE0000007ul ? EXCEPTION_EXECUTE_HANDLER : EXCEPTION_CONTINUE_SEARCH) {
        put(n), put(unwound); /* "%u! is too deep, %u levels unwound\n" */
    }
}

int main()
{
    report(5, 10);
    report(20, 20);
    report(6, 3);
    return 0;
}
