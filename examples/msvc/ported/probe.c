/* Guards around single accesses: can this address be read, can it be written? */

int CanRead(unsigned char *address)
{
    unsigned char value;

    __try {
        value = *address;
        value;
    } __except (EXCEPTION_EXECUTE_HANDLER) {
        return 0;
    }
    return 1;
}

int CanWrite(unsigned char *address)
{
    __try {
        *(unsigned char *)address = *(unsigned char *)address;
        return 1;
    } __except (GetExceptionCode() == 0xC0000005 ? EXCEPTION_EXECUTE_HANDLER
                                                                 : EXCEPTION_CONTINUE_SEARCH) {
        return 0;
    }
}

int main(void)
{
    unsigned char local = 7;

    put(CanRead(0)); /* "null: %d\n" */
    put(CanRead((unsigned char *)(unsigned long long)0x10)); /* "low: %d\n" */
    { int printed_0 = CanRead(&local); int printed_1 = CanWrite(&local); put(printed_0); put(printed_1); } /* "local: %d %d\n" */
    put(CanWrite(0)); /* "null, to write: %d\n" */
    return local == 7 ? 0 : 1;
}
