/* Conditions that raise: a macro with the number of the line as the argument. */
unsigned long long failed_id;

int Filter(unsigned code)
{
    if (code != 0xE0000099)
        return EXCEPTION_CONTINUE_SEARCH;
    return EXCEPTION_EXECUTE_HANDLER;
}

int Average(int *values, int count)
{
    int sum = 0;
    do { if (!(values != 0)) { failed_id = 11; RaiseException(0xE0000099, 0, 0, 0); } } while (0);
    do { if (!(count > 0)) { failed_id = 12; RaiseException(0xE0000099, 0, 0, 0); } } while (0);
    for (int i = 0; i < count; i++)
        sum += values[i];
    return sum / count;
}

int main(void)
{
    int values[3]; values[0] = 2; values[1] = 4; values[2] = 9;

    __try {
        put(Average(values, 3));
        put(Average(values, 0));
        ; /* "not reached\n" */
    } __except (Filter(GetExceptionCode())) {
        put(failed_id); /* "requirement %llu failed\n" */
    }
    return 0;
}
