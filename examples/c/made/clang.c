/*
 * What clang.exe is made of:
 *
 *     clang --target=x86_64-pc-windows-msvc -O1 -mno-stack-arg-probe -c clang.c
 *     lld-link /entry:start /subsystem:console /nodefaultlib /base:0x140000000 /timestamp:0 \
 *              /out:clang.exe clang.o
 *
 * `start` gets the address of `put`. There are functions that push registers, that allocate, that
 * have a frame register, and a call last in a function.
 */
typedef void (*put_function)(long long);

__attribute__((noinline)) static long long innermost(put_function put, long long n)
{
    put(n);
    return n + 1;
}

/* a frame register, since the size of its locals isn't known before */
__attribute__((noinline)) static long long with_array(put_function put, long long n)
{
    volatile long long numbers[n & 15];

    for (long long k = 0; k < (n & 15); k++)
        numbers[k] = k;
    return innermost(put, numbers[(n & 15) - 1]) + numbers[0];
}

/* many registers */
__attribute__((noinline)) static long long with_registers(put_function put, long long a, long long b,
                                                          long long c)
{
    long long x = with_array(put, a + 1), y = with_array(put, b + 2), z = with_array(put, c + 3);

    return a * x + b * y + c * z;
}

/* a large frame */
__attribute__((noinline)) static long long with_locals(put_function put)
{
    volatile long long locals[200];

    locals[3] = 4;
    locals[199] = with_registers(put, locals[3], 5, 6);
    return locals[199];
}

int start(put_function put)
{
    return (int)with_locals(put) + 1;
}
