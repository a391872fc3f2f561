/*
 * refuse_memory IMAGE: refuses each allocation of a call in turn. The call has to answer
 * SEH_NO_MEMORY then, and to write nothing; seh_scopes that it has written none.
 */
#define _GNU_SOURCE
#include "seh.h"

#include <stdio.h>
#include <stdlib.h>
#include <string.h>

/* how many allocations are granted before one is refused; below 0: all */
static long granted = -1;
static long asked;

extern void *__libc_malloc(size_t size);
extern void *__libc_realloc(void *at, size_t size);

static int is_refused(void)
{
    asked++;
    return granted >= 0 && granted-- == 0;
}

void *malloc(size_t size)
{
    return is_refused() ? NULL : __libc_malloc(size);
}

void *realloc(void *at, size_t size)
{
    return is_refused() ? NULL : __libc_realloc(at, size);
}

static uint8_t file[1 << 22], stack[64];
static size_t size;

/* what the calls write */
static seh_frame frame;
static seh_function function;
static seh_verdict verdict;
static uint64_t written;

static seh_view view;
static uint32_t numbers[64];

/* opens into another view, so that a refusal leaves the first one alone */
static seh_view opened;

static seh_status open_image(void)
{
    return seh_open(file, size, false, 0x140000000, &opened, numbers, 64);
}

static seh_status find(void)
{
    return seh_find_function(&view, 0x1000, &function);
}

static seh_status unwind(void)
{
    seh_range range = {0x1000, stack, sizeof stack};
    seh_context context = {.rip = 0x140001000, .rsp = 0x1000};

    return seh_unwind(&view, &range, 1, &context, &frame);
}

static seh_status check(void)
{
    return seh_check(&view, file, 0, &verdict);
}

static seh_status walk_modules(void)
{
    seh_range range = {0x1000, stack, sizeof stack};
    seh_context context = {.rip = 0x140001000, .rsp = 0x1000};

    return seh_walk_modules(&view, 1, &range, 1, &context, &frame, 1, &written);
}

static seh_status scopes(void)
{
    seh_scope scope;

    return seh_scopes(&view, 0x1000, &scope, 1, &written);
}

/* How many answers of a call are wrong. */
static long refuse(const char *name, seh_status (*call)(void), void *answer, size_t answer_size)
{
    static uint8_t before[sizeof(seh_frame)];
    long all, wrong = 0;

    asked = 0;
    if (call().code == SEH_NO_MEMORY)
        wrong++;
    all = asked;
    memset(before, 0, sizeof before);
    for (long k = 0; k < all; k++) {
        memset(answer, 0, answer_size);
        granted = k;
        if (call().code != SEH_NO_MEMORY || memcmp(answer, before, answer_size) != 0)
            wrong++;
        granted = -1;
    }
    printf("%s: %ld allocations refused, %ld wrong answers\n", name, all, wrong);
    return wrong;
}

int main(int argc, char **argv)
{
    FILE *in = argc == 2 ? fopen(argv[1], "rb") : NULL;
    long wrong;

    size = in ? fread(file, 1, sizeof file, in) : 0;
    wrong = seh_open(file, size, false, 0x140000000, &view, numbers, 64).code != SEH_OK;
    wrong += refuse("seh_open", open_image, &opened, sizeof opened);
    wrong += refuse("seh_find_function", find, &function, sizeof function);
    wrong += refuse("seh_unwind", unwind, &frame, sizeof frame);
    wrong += refuse("seh_walk_modules", walk_modules, &frame, sizeof frame);
    wrong += refuse("seh_check", check, &verdict, sizeof verdict);
    wrong += refuse("seh_scopes", scopes, &written, sizeof written);
    return wrong != 0;
}
