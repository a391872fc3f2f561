/* A parser that raises at the first character it doesn't take. */
#include <windows.h>
#include <stdio.h>

#define BAD_CHARACTER (0xE0000000 + 5)

static const char text[] = "12,7,x";
static int position = 0;

static int ParseNumber(void)
{
    int value = 0;

    if (text[position] < '0' || text[position] > '9')
        RaiseException(BAD_CHARACTER, EXCEPTION_NONCONTINUABLE, 0, NULL);
    while (text[position] >= '0' && text[position] <= '9')
        value = value * 10 + (text[position++] - '0');
    return value;
}

static BOOL ParseAll(int *sum)
{
    *sum = 0;
    __try {
        for (;;) {
            *sum += ParseNumber();
            if (text[position] != ',')
                break;
            position++;
        }
        return TRUE;
    }
    __except (GetExceptionCode() == BAD_CHARACTER) {
        printf("bad character '%c' at %d\n", text[position], position);
        return FALSE;
    }
}

int main(int argc, char *argv[])
{
    int sum;
    BOOL whole = ParseAll(&sum);

    printf("whole: %d, sum %d\n", whole, sum);
    return whole ? 1 : 0;
}
