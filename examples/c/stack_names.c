/* The names of functions in an image that was opened, for seh_stack.c: the table of the section
   `.sehname`, which images by seh have, and the exports (PE format, ".edata Section"). */
#include "stack_modules.h"

#include <stdio.h>
#include <string.h>

#define MOST_NAMES 20000 /* of a table that is looked through */

/* Bytes of an image. */
struct span {
    const uint8_t *bytes;
    size_t size;
};

static uint32_t u16(const uint8_t *at)
{
    return at[0] | at[1] << 8;
}

static uint32_t u32(const uint8_t *at)
{
    return u16(at) | u16(at + 2) << 16;
}

static const uint8_t *headers(const seh_view *view)
{
    return view->bytes + u32(view->bytes + 0x3c);
}

static uint32_t section_count(const seh_view *view)
{
    return u16(headers(view) + 6);
}

/* What a section stores; seh_open found its header there, and the bytes. */
static struct span section(const seh_view *view, const uint8_t *header)
{
    uint32_t virtual_size = u32(header + 8), raw_size = u32(header + 16);
    size_t size = virtual_size ? virtual_size : raw_size;

    if (view->mapped)
        return (struct span){view->bytes + u32(header + 12), size};
    if (raw_size < size)
        size = raw_size;
    return (struct span){view->bytes + (size ? u32(header + 20) : 0), size};
}

/* The header of a section by its index. */
static const uint8_t *section_header(const seh_view *view, uint32_t index)
{
    return headers(view) + 24 + u16(headers(view) + 20) + 40 * (size_t)index;
}

/* What the section that holds an RVA stores from there on. */
static struct span stored_from(const seh_view *view, uint32_t rva)
{
    for (uint32_t k = 0; k < section_count(view); k++) {
        const uint8_t *header = section_header(view, k);
        struct span s = section(view, header);
        uint32_t at = u32(header + 12);

        if (rva >= at && rva - at < s.size)
            return (struct span){s.bytes + (rva - at), s.size - (rva - at)};
    }
    return (struct span){view->bytes, 0};
}

/* Prints the characters up to a 0, at most 200. */
static void print_text(const seh_view *view, uint32_t rva)
{
    struct span s = stored_from(view, rva);

    putchar(' ');
    for (size_t k = 0; k < 200 && k < s.size && s.bytes[k]; k++)
        putchar(s.bytes[k] > 0x20 && s.bytes[k] < 0x7f ? s.bytes[k] : '?');
}

/* The name in the row of `.sehname` that holds an RVA: rows of begin, end, number and name. */
static bool print_own_name(const seh_view *view, uint32_t rva)
{
    for (uint32_t k = 0; k < section_count(view); k++) {
        const uint8_t *header = section_header(view, k);
        struct span s = section(view, header);

        if (memcmp(header, ".sehname", 8) != 0 || s.size < 4)
            continue;
        for (size_t n = 0; n < u32(s.bytes) && n < MOST_NAMES && 20 + 16 * n <= s.size; n++) {
            const uint8_t *row = s.bytes + 4 + 16 * n;

            if (u32(row) <= rva && rva < u32(row + 4)) {
                print_text(view, u32(row + 12));
                return true;
            }
        }
    }
    return false;
}

/* The nearest export at or below an RVA, and not below `begin`. */
static void print_export(const seh_view *view, uint32_t rva, uint32_t begin)
{
    struct span table, functions, names, ordinals;
    uint32_t nearest = 0, name = 0;

    if (u32(headers(view) + 24 + 108) == 0) /* no directory */
        return;
    table = stored_from(view, u32(headers(view) + 24 + 112));
    if (table.size < 40)
        return;
    functions = stored_from(view, u32(table.bytes + 28));
    names = stored_from(view, u32(table.bytes + 32));
    ordinals = stored_from(view, u32(table.bytes + 36));
    for (size_t k = 0; k < u32(table.bytes + 24) && k < MOST_NAMES; k++) {
        uint32_t ordinal, at;

        if (4 * k + 4 > names.size || 2 * k + 2 > ordinals.size)
            break;
        ordinal = u16(ordinals.bytes + 2 * k);
        if (4 * (size_t)ordinal + 4 > functions.size)
            continue;
        at = u32(functions.bytes + 4 * ordinal);
        if (begin <= at && at <= rva && (nearest < at || !name)) {
            nearest = at;
            name = u32(names.bytes + 4 * k);
        }
    }
    if (name)
        print_text(view, name);
}

void print_name(const struct module *m, uint32_t rva, uint32_t begin)
{
    if (!print_own_name(&m->view, rva))
        print_export(&m->view, rva, begin);
}
