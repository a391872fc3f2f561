/* A parser that raises at the first character it doesn't take. */

char text[7] = {'1', '2', ',', '7', ',', 'x', 0};
int position = 0;

int ParseNumber(void)
{
    int value = 0;

    if (text[position] < '0' || text[position] > '9')
        RaiseException((0xE0000000 + 5), 1, 0, 0);
    while (text[position] >= '0' && text[position] <= '9')
        value = value * 10 + (text[position++] - '0');
    return value;
}

int ParseAll(int *sum)
{
    *sum = 0;
    __try {
        for (;;) {
            *sum += ParseNumber();
            if (text[position] != ',')
                break;
            position++;
        }
        return 1;
    }
    __except (GetExceptionCode() == (0xE0000000 + 5)) {
        put((int)(text[position])), put(position); /* "bad character '%c' at %d\n" */
        return 0;
    }
}

int main(void)
{
    int sum;
    int whole = ParseAll(&sum);

    put(whole), put((int)sum); /* "whole: %d, sum %d\n" */
    return whole ? 1 : 0;
}
