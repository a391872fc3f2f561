/* A vectored handler that counts first-chance exceptions, as a logger does. */

int first_chance = 0;
unsigned last_code = 0;

int Logger(unsigned record_code, unsigned record_flags)
{
    first_chance++;
    last_code = record_code;
    return EXCEPTION_CONTINUE_SEARCH;
}

int Try(int n)
{
    int answer = -1;

    __try {
        answer = 100 / n;
    } __except (EXCEPTION_EXECUTE_HANDLER) {
        answer = 0;
    }
    return answer;
}

int main(void)
{
    int handle = AddVectoredExceptionHandler(1, Logger);

    if (handle == 0)
        return 1;
    put(Try(4));
    put(Try(0));
    put(first_chance), put((int)(last_code == 0xC0000094)); /* "seen %ld, last is a division: %d\n" */
    RemoveVectoredExceptionHandler(Logger);
    put(Try(0));
    put(first_chance); /* "seen %ld\n" */
    return 0;
}
