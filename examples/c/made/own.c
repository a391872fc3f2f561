int innermost(int n)
{
    put(n);
    return n + 1;
}

int middle(int n)
{
    __try {
        return innermost(n + 1);
    } __finally {
        put(2);
    }
}

int outer(int a, int b, int c, int d, int e, int f)
{
    return middle(a + b + c + d + e + f);
}

int main(void)
{
    __try {
        return outer(1, 2, 3, 4, 5, 6);
    } __except (1) {
        return 4;
    }
}
