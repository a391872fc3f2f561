/* A filter that has a raise continued a few times before it gives up. */

unsigned NextRequest_next = 1;
unsigned NextRequest(void)
{
    return NextRequest_next++;
}

int Retry_left = 3;
int Retry(unsigned code)
{

    if (code != 0xE00000B1)
        return EXCEPTION_CONTINUE_SEARCH;
    if (Retry_left-- > 0)
        return EXCEPTION_CONTINUE_EXECUTION;
    Retry_left = 3;
    return EXCEPTION_EXECUTE_HANDLER;
}

void Send(int busy)
{
    unsigned request = NextRequest();

    __try {
        while (busy-- > 0)
            RaiseException(0xE00000B1, 0, 0, 0);
        put(request); /* "request %lu sent\n" */
    } __except (Retry(GetExceptionCode())) {
        put(request), put(busy); /* "request %lu given up, %d left\n" */
    }
}

int main(void)
{
    Send(0);
    Send(3);
    Send(2);
    Send(1);
    return 0;
}
