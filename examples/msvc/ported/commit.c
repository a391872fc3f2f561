/* Memory that is committed as it is touched. */

unsigned char *region;
unsigned committed;

int CommitFilter(unsigned record_code, unsigned long long record_information_1)
{
    unsigned char *address = (unsigned char *)record_information_1;

    if (record_code != 0xC0000005)
        return EXCEPTION_CONTINUE_SEARCH;
    if (address < region || address >= region + 4096 * 4)
        return EXCEPTION_EXECUTE_HANDLER;
    if (!protect(address, 2))
        return EXCEPTION_EXECUTE_HANDLER;
    committed++;
    return EXCEPTION_CONTINUE_EXECUTION;
}

void Store(unsigned long long offset, unsigned char value)
{
    int stored = 0;

    __try {
        region[offset] = value;
        stored = 1;
    } __except (CommitFilter(GetExceptionInformation()->ExceptionRecord->ExceptionCode, GetExceptionInformation()->ExceptionRecord->ExceptionInformation[1])) {
        ; /* "out of the region\n" */
    }
    put(stored), put(committed); /* "stored: %d, pages: %lu\n" */
}

int main(void)
{
    region = (unsigned char *)0x20000000;
    Store(0, 1);
    Store(4096 - 1, 2);
    Store(3 * 4096, 3);
    Store((unsigned long long)0 - (unsigned long long)region, 4);
    return 0;
}
