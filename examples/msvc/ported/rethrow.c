/* An exception that is handled half and raised again, as `throw;` does in C++. */

int handled = 0, passed = 0;

void Open(int file)
{
    if (file == 1)
        RaiseException(((unsigned)0xE0010001), 0, 0, 0);
    if (file == 2)
        RaiseException(((unsigned)0xE0010002), 0, 0, 0);
    put(file); /* "opened %d\n" */
}

void Load(int file)
{
    __try {
        Open(file);
    } __except (EXCEPTION_EXECUTE_HANDLER) {
        unsigned code = GetExceptionCode();
        if (code == ((unsigned)0xE0010001)) {
            handled++;
            put(file); /* "file %d is missing\n" */
        } else {
            passed++;
            RaiseException(code, 0, 0, 0);
        }
    }
}

int main(void)
{
    int file;

    for (file = 0; file < 3; file++) {
        __try {
            Load(file);
        } __except (EXCEPTION_EXECUTE_HANDLER) {
            { int printed_0 = file; unsigned printed_1 = GetExceptionCode() & 0xFFFF; put(printed_0); put(printed_1); } /* "file %d: %u\n" */
        }
    }
    put(handled), put(passed); /* "%d handled, %d passed on\n" */
    return 0;
}
