/* Divisions whose faults become results, told apart by a filter. */

int result;

int DivideFilter(unsigned code)
{
    if (code == 0xC0000094)
        result = 1;
    else if (code == 0xC0000095)
        result = 2;
    else
        return EXCEPTION_CONTINUE_SEARCH;
    return EXCEPTION_EXECUTE_HANDLER;
}

int Divide(int a, int b)
{
    result = 0;
    __try {
        return a / b;
    } __except (DivideFilter(GetExceptionCode())) {
        return 0;
    }
}

int main(void)
{
    int pairs[6]; pairs[0] = 7; pairs[1] = 2; pairs[2] = 1; pairs[4] = (-2147483647 - 1); pairs[5] = -1;
    int i;

    for (i = 0; i < 3; i++) {
        int quotient = Divide(pairs[2 * i], pairs[2 * i + 1]);
        put(quotient), put(result); /* "%ld, result %d\n" */
    }
    return 0;
}
