/*
 * time_walk: times what costs how much in an image that has 10,000 functions, made here: opening it,
 * a look-up, an unwinding and a walk, without an index and with one; and a frame of the walk that
 * libgcc makes over this program's own stack. Times are of the processor, the least of several runs.
 */
#define _GNU_SOURCE
#include "seh.h"

#include <stdio.h>
#include <string.h>
#include <time.h>
#include <unwind.h>

enum {
    FUNCTIONS = 10000,
    FRAMES = 4000,
    RUNS = 20,
    NUMBERS = 1024,
    DEPTH = 1000,
    HEADERS = 0x400,
    TEXT = 0x1000,
    XDATA = TEXT + (16 * FUNCTIONS + 0xFFF) / 0x1000 * 0x1000,
    PDATA = XDATA + 0x1000,
    END = PDATA + (12 * FUNCTIONS + 0xFFF) / 0x1000 * 0x1000
};

static const uint64_t BASE = 0x140000000, STACK = 0x10000;

/* sub rsp, 0x28; call; xor eax, eax; add rsp, 0x28; ret */
static const uint8_t code[16] = {0x48, 0x83, 0xEC, 0x28, 0xE8, 0,    0,    0,
                                 0,    0x31, 0xC0, 0x48, 0x83, 0xC4, 0x28, 0xC3};

/* version 1, a prologue of 4 bytes, one code: at 4 an allocation of 0x28 bytes */
static const uint8_t unwind_info[8] = {1, 4, 1, 0, 4, 0x42, 0, 0};

static uint8_t image[END];
static uint8_t stack[48 * FRAMES];
static seh_frame frames[FRAMES];
static uint32_t numbers[NUMBERS];
static uint64_t places[FRAMES];

static void put(uint8_t *at, uint64_t number, int bytes)
{
    for (int k = 0; k < bytes; k++)
        at[k] = (uint8_t)(number >> 8 * k);
}

static void put_section(uint8_t *header, uint32_t rva, uint32_t size, uint32_t flags)
{
    put(header + 8, size, 4);
    put(header + 12, rva, 4);
    put(header + 16, size, 4);
    put(header + 20, rva, 4);
    put(header + 36, flags, 4);
}

/* An image as a loader maps it (PE format). */
static void make_image(void)
{
    uint8_t *headers = image + 64, *optional = headers + 24;

    memcpy(image, "MZ", 2);
    put(image + 0x3c, 64, 4);
    memcpy(headers, "PE", 2);
    put(headers + 4, 0x8664, 2);
    put(headers + 6, 3, 2);
    put(headers + 20, 112 + 16 * 8, 2);
    put(optional, 0x20B, 2);
    put(optional + 16, TEXT, 4);
    put(optional + 24, BASE, 8);
    put(optional + 56, END, 4);
    put(optional + 60, HEADERS, 4);
    put(optional + 108, 16, 4);
    put(optional + 112 + 8 * 3, PDATA, 4);
    put(optional + 112 + 8 * 3 + 4, 12 * FUNCTIONS, 4);
    put_section(optional + 240, TEXT, 16 * FUNCTIONS, 0x60000020);
    put_section(optional + 280, XDATA, sizeof unwind_info, 0x40000040);
    put_section(optional + 320, PDATA, 12 * FUNCTIONS, 0x40000040);
    memcpy(image + XDATA, unwind_info, sizeof unwind_info);
    for (uint32_t k = 0; k < FUNCTIONS; k++) {
        uint8_t *entry = image + PDATA + 12 * k;

        memcpy(image + TEXT + 16 * k, code, sizeof code);
        put(entry, TEXT + 16 * k, 4);
        put(entry + 4, TEXT + 16 * k + 16, 4);
        put(entry + 8, XDATA, 4);
    }
}

/* Where a call in some function returns to. */
static uint64_t return_address(uint32_t *state)
{
    *state = *state * 1664525 + 1013904223;
    return BASE + TEXT + 16 * (*state / 65536 % FUNCTIONS) + 9;
}

static double microseconds(void)
{
    struct timespec now;

    clock_gettime(CLOCK_PROCESS_CPUTIME_ID, &now);
    return (double)now.tv_sec * 1e6 + (double)now.tv_nsec / 1e3;
}

static seh_view view;
static seh_range range = {STACK, stack, sizeof stack};
static seh_context context;
static size_t room;

/* What is timed: each is false where it isn't as it has to be. */

static bool opens(void)
{
    return seh_open(image, sizeof image, true, BASE, &view, numbers, room).code == SEH_OK;
}

static bool finds(void)
{
    for (int k = 0; k < FRAMES; k++) {
        uint32_t rva = (uint32_t)(places[k] - BASE);
        seh_function function;

        if (seh_find_function(&view, rva, &function).code != SEH_OK || rva < function.begin ||
            rva >= function.end)
            return false;
    }
    return true;
}

static bool unwinds(void)
{
    seh_context here = context;

    for (int k = 0; k < FRAMES; k++) {
        seh_frame frame;

        if (here.rip != places[k] || seh_unwind(&view, &range, 1, &here, &frame).code != SEH_OK)
            return false;
        here = frame.caller;
    }
    return here.rip == 0;
}

static bool walks(void)
{
    uint64_t written;
    seh_status status = seh_walk(&view, &range, 1, &context, frames, FRAMES, &written);

    return status.code == SEH_OK && written == FRAMES && frames[FRAMES - 1].caller.rip == 0;
}

static bool walks_modules(void)
{
    uint64_t written;
    seh_status status =
        seh_walk_modules(&view, 1, &range, 1, &context, frames, FRAMES, &written);

    return status.code == SEH_END && written == FRAMES && frames[FRAMES - 1].caller.rip == 0;
}

static int traced;

static _Unwind_Reason_Code count_frame(struct _Unwind_Context *at, void *unused)
{
    (void)at;
    (void)unused;
    traced++;
    return _URC_NO_REASON;
}

static bool traces(void)
{
    traced = 0;
    _Unwind_Backtrace(count_frame, NULL);
    return traced > DEPTH;
}

static double time_of(bool (*call)(void), int count)
{
    double least = 1e9;

    for (int run = 0; run < RUNS; run++) {
        double begun = microseconds(), taken;

        if (!call())
            return -1;
        taken = microseconds() - begun;
        if (taken < least)
            least = taken;
    }
    return least * 1000 / count;
}

__attribute__((noinline)) static double deep(int depth)
{
    double found = depth ? deep(depth - 1) : time_of(traces, DEPTH);

    __asm__ volatile("" ::: "memory"); /* so that this stays a call */
    return found;
}

static int wrong;

static void print(const char *what, double without, double with)
{
    printf("%-40s %8.0f %8.0f\n", what, without, with);
    wrong += without < 0 || with < 0;
}

static const struct {
    const char *name;
    bool (*call)(void);
    int count;
    uint32_t options;
} rows[] = {
    {"seh_open", opens, 1, 0},
    {"seh_find_function", finds, FRAMES, 0},
    {"seh_unwind", unwinds, FRAMES, 0},
    {"seh_walk, a frame", walks, FRAMES, 0},
    {"seh_walk_modules, a frame", walks_modules, FRAMES, 0},
    {"seh_unwind, SEH_PROFILE_OWN", unwinds, FRAMES, SEH_PROFILE_OWN},
    {"seh_walk, a frame, SEH_PROFILE_OWN", walks, FRAMES, SEH_PROFILE_OWN},
};

enum { ROWS = sizeof rows / sizeof rows[0] };

int main(void)
{
    uint32_t state = 1;
    double times[ROWS][2], trace;

    make_image();
    for (int k = 0; k < FRAMES; k++)
        places[k] = return_address(&state);
    context.rip = places[0];
    context.rsp = STACK;
    for (int k = 0; k < FRAMES; k++)
        put(stack + 48 * k + 40, k == FRAMES - 1 ? 0 : places[k + 1], 8);
    for (int k = 0; k < 2; k++) {
        room = k ? NUMBERS : 0;
        opens();
        for (int row = 0; row < ROWS; row++) {
            view.options = rows[row].options;
            times[row][k] = time_of(rows[row].call, rows[row].count);
        }
    }
    printf("%-40s %8s %8s\n", "10,000 entries; ns", "no index", "1,024");
    for (int row = 0; row < ROWS; row++)
        print(rows[row].name, times[row][0], times[row][1]);
    trace = deep(DEPTH);
    printf("%-40s %8.0f\n", "_Unwind_Backtrace of libgcc, a frame", trace);
    return wrong != 0 || trace < 0;
}
