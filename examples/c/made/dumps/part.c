/*
 * part.dll, a library that dumped.exe calls, and that calls it back: make_dumps has the commands.
 * There are a __try with a filter that lets an exception pass, a __finally, saved XMM registers, a
 * frame register, and a store that faults.
 */
#define PART
#include "dumped.h"

int _fltused;

static volatile u64 left;

/* lets each exception pass */
static KEEP int pass(u32 code)
{
    return code == 0;
}

static KEEP u64 guarded_call(callback call, u64 a)
{
    u64 result = 0;

    __try {
        result = call(a, a + 1);
    } __finally {
        left += a;
    }
    return result + left;
}

PART_FUNCTION u64 part_guarded(callback call, u64 a)
{
    u64 result = 0;

    __try {
        result = guarded_call(call, a * 3);
    } __except (pass(_exception_code())) {
        result = 1;
    }
    return result;
}

/* doubles that live across the call are in XMM6 to XMM15 */
PART_FUNCTION double part_with_doubles(callback call, u64 a, double x)
{
    double y = x * x, z = y * x, w = z + 1.5;
    double called = (double)call(a, 7);

    return called + x * y + z * w + w;
}

PART_FUNCTION u64 part_store(volatile u64 *to, u64 a)
{
    *to = a;
    return a;
}

int DllMain(void *instance, u32 reason, void *reserved)
{
    return instance && (reason || !reserved);
}
