/*
 * views IMAGE: what a view says, with an index and without one, and what is said by views whose
 * numbers were damaged: they may miss an entry, but not break, nor find one that doesn't cover the
 * address.
 */
#include "seh.h"

#include <stdio.h>
#include <string.h>

enum { ROOM = 64 };

static uint8_t file[1 << 22], stack[4096];
static uint32_t numbers[ROOM], damaged[ROOM];
static long wrong;

static void expect(bool is_right, const char *what, uint32_t rva)
{
    if (is_right)
        return;
    wrong++;
    if (wrong < 10)
        printf("%s at %x\n", what, (unsigned)rva);
}

/* The scopes of an entry by the imports, and by its handler. */
static void compare_scopes(const seh_view *view, uint32_t rva, uint32_t handler)
{
    seh_scope scopes[8], others[8];
    uint64_t written, count;
    seh_status one = seh_scopes(view, rva, scopes, 8, &written);
    seh_status other = seh_scopes_of(view, rva, handler, others, 8, &count);

    if (written == 0)
        return; /* another handler */
    expect(one.code == other.code && written == count, "another count of scopes", rva);
    for (uint64_t k = 0; k < written; k++)
        expect(scopes[k].begin == others[k].begin && scopes[k].end == others[k].end &&
                   scopes[k].handler_address == others[k].handler_address &&
                   scopes[k].jump_target == others[k].jump_target,
               "another scope", rva);
}

/* A walk through one image and the same through modules, of which it is the middle one. */
static void compare_walks(const seh_view *view, uint32_t rva)
{
    seh_view views[3] = {*view, *view, *view};
    seh_range range = {0x1000, stack, sizeof stack};
    seh_context context = {.rip = view->base + rva, .rsp = 0x1000};
    seh_frame frames[4], others[4];
    seh_status one, other;
    uint64_t written, count;

    views[0].base = view->base + view->image_size;
    views[2].base = view->base - view->image_size;
    memset(frames, 0, sizeof frames);
    memset(others, 0, sizeof others);
    one = seh_walk(view, &range, 1, &context, frames, 4, &written);
    other = seh_walk_modules(views, 3, &range, 1, &context, others, 4, &count);
    expect(written == count, "another count of frames", rva);
    for (uint64_t k = 0; k < written; k++)
        expect(others[k].module_index == 1 && others[k].begin == frames[k].begin &&
                   others[k].caller.rip == frames[k].caller.rip &&
                   others[k].caller.rsp == frames[k].caller.rsp,
               "another frame through modules", rva);
    if (one.code == SEH_OK) {
        uint64_t end = written ? frames[written - 1].caller.rip : context.rip;

        expect(other.code == (end ? SEH_UNKNOWN_CODE : SEH_END) && other.at == end,
               "another end through modules", rva);
    } else {
        expect(other.code == one.code, "another refusal through modules", rva);
    }
}

/* Calls each function once; whatever they answer, what is found covers the address. */
static void use(const seh_view *view, uint32_t rva)
{
    seh_range range = {0x1000, stack, sizeof stack};
    seh_context context = {.rip = view->base + rva, .rsp = 0x1000};
    seh_function function;
    seh_frame frame, frames[4];
    seh_scope scope;
    uint64_t written;

    if (seh_find_function(view, rva, &function).code == SEH_OK)
        expect(function.begin <= rva && rva < function.end, "an entry that doesn't cover it", rva);
    if (seh_unwind(view, &range, 1, &context, &frame).code == SEH_OK && frame.end != 0)
        expect(frame.begin <= rva && rva < frame.end, "a frame's entry doesn't cover it", rva);
    seh_walk(view, &range, 1, &context, frames, 4, &written);
    expect(written <= 4, "too many frames", rva);
    seh_walk_modules(view, 1, &range, 1, &context, frames, 4, &written);
    expect(written <= 4, "too many frames through modules", rva);
    seh_scopes(view, rva, &scope, 1, &written);
    expect(written <= 1, "too many scopes", rva);
    seh_scopes_of(view, rva, 0x1000, &scope, 1, &written);
    expect(written <= 1, "too many scopes of a handler", rva);
}

int main(int argc, char **argv)
{
    FILE *in = argc == 2 ? fopen(argv[1], "rb") : NULL;
    size_t size = in ? fread(file, 1, sizeof file, in) : 0;
    seh_view plain, view;
    uint32_t state = 1;

    if (seh_open(file, size, false, 0x140000000, &plain, numbers, 0).code != SEH_OK ||
        seh_open(file, size, false, 0x140000000, &view, numbers, ROOM).code != SEH_OK)
        return 1;
    for (uint32_t rva = 0; rva < view.image_size + 0x100; rva += 3) {
        seh_function one, other;
        uint32_t code = seh_find_function(&plain, rva, &one).code;

        expect(seh_find_function(&view, rva, &other).code == code, "another answer", rva);
        if (code == SEH_OK)
            expect(one.begin == other.begin && one.end == other.end &&
                       one.unwind_info == other.unwind_info && one.handler == other.handler &&
                       one.parents == other.parents && one.flags == other.flags,
                   "another entry", rva);
        if (code == SEH_OK && one.has_handler)
            compare_scopes(&view, rva, one.handler);
        if (rva < view.image_size)
            compare_walks(&view, rva);
    }
    view.options = SEH_PROFILE_OWN;
    for (uint32_t rva = 0; rva < view.image_size; rva += 7)
        compare_walks(&view, rva);
    view.options = 0;
    for (int k = 0; k < 2000; k++) {
        seh_view copy = view;

        memcpy(damaged, numbers, sizeof damaged);
        copy.index = damaged;
        state = state * 1664525 + 1013904223;
        switch (state >> 8 & 7) {
        case 0: copy.shift = state >> 16 & 63; break;
        case 1: copy.shift = state; break;
        case 2: damaged[state >> 16 & 63] = state; break;
        case 3: damaged[state >> 16 & 63] = state >> 24; break;
        case 4: copy.index_count = state >> 16 & 63; break;
        case 5: copy.size = size * (state >> 16 & 255) / 256; break;
        case 6: copy.mapped = state, copy.options = state >> 16; break;
        default: copy.base = state, copy.image_size = state, copy.functions = state; break;
        }
        state = state * 1664525 + 1013904223;
        use(&copy, (uint32_t)((state >> 8) % view.image_size));
    }
    printf("%s: %ld wrong answers by views\n", argv[1], wrong);
    return wrong != 0;
}
