/* A filter function that looks at the exception's record, and keeps a note of it. */

unsigned lastCode, lastFlags, lastCount;
unsigned long long lastAddress;

int Note(unsigned record_code, unsigned record_flags, unsigned record_count, unsigned long long record_information_1, int answer)
{

    lastCode = record_code;
    lastFlags = record_flags;
    lastCount = record_count;
    lastAddress = record_count >= 2 ? record_information_1 : 0;
    return answer;
}

void Print(void)
{
    put(lastFlags), put(lastCount), put(lastAddress); /* "flags %lu, parameters %lu, address %llu\n" */
}

int main(void)
{
    __try {
        *(int *)(unsigned long long)24 = 1;
    } __except (Note(GetExceptionInformation()->ExceptionRecord->ExceptionCode, GetExceptionInformation()->ExceptionRecord->ExceptionFlags, GetExceptionInformation()->ExceptionRecord->NumberParameters, GetExceptionInformation()->ExceptionRecord->ExceptionInformation[1], EXCEPTION_EXECUTE_HANDLER)) {
        Print();
    }
    __try {
        RaiseException(0xC000000D, 1, 0, 0);
    } __except (Note(GetExceptionInformation()->ExceptionRecord->ExceptionCode, GetExceptionInformation()->ExceptionRecord->ExceptionFlags, GetExceptionInformation()->ExceptionRecord->NumberParameters, GetExceptionInformation()->ExceptionRecord->ExceptionInformation[1], EXCEPTION_EXECUTE_HANDLER)) {
        Print();
    }
    return lastCode == 0xC000000D ? 0 : 1;
}
