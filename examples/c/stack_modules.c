/* The modules of a dump with their images, for seh_stack.c. */
#include "stack_modules.h"

#include <ctype.h>
#include <limits.h>
#include <stdio.h>
#include <stdlib.h>
#include <string.h>

#define INDEX_ROOM 1024

void *need(void *memory)
{
    if (!memory) {
        fprintf(stderr, "no memory is left\n");
        exit(2);
    }
    return memory;
}

uint8_t *read_file(const char *name, size_t *size)
{
    FILE *file = fopen(name, "rb");
    long end;
    uint8_t *bytes;

    if (!file)
        return NULL;
    /* the end of a folder is LONG_MAX */
    if (fseek(file, 0, SEEK_END) || (end = ftell(file)) < 0 || end == LONG_MAX ||
        fseek(file, 0, SEEK_SET)) {
        fclose(file);
        return NULL;
    }
    *size = (size_t)end;
    bytes = need(malloc(*size + 1));
    if (fread(bytes, 1, *size, file) != *size) {
        free(bytes);
        bytes = NULL;
    }
    fclose(file);
    return bytes;
}

static uint32_t number_at(const uint8_t *bytes)
{
    return bytes[0] | bytes[1] << 8 | bytes[2] << 16 | (uint32_t)bytes[3] << 24;
}

/* ---- the lists */

/* Appends a character in UTF-8; what isn't printed or is half a pair is `?`. */
static size_t put_utf8(char *out, uint32_t c)
{
    if (c < 0x20 || c == 0x7f || (c >= 0xd800 && c < 0xe000))
        c = '?';
    if (c < 0x80) {
        out[0] = (char)c;
        return 1;
    }
    if (c < 0x800) {
        out[0] = (char)(0xc0 | c >> 6);
        out[1] = (char)(0x80 | (c & 0x3f));
        return 2;
    }
    out[0] = (char)(0xe0 | c >> 12);
    out[1] = (char)(0x80 | (c >> 6 & 0x3f));
    out[2] = (char)(0x80 | (c & 0x3f));
    return 3;
}

/* The last part of the path that a dump names, at most 255 units of it. */
static char *name_of(const seh_dump *dump, uint32_t rva)
{
    seh_dump_bytes units = {dump->bytes, 0};
    seh_status status = seh_dump_string(dump, rva, &units);
    char *name = need(malloc(3 * 255 + 1));
    size_t first = 0, count = units.size / 2, length = 0;

    if (status.code != SEH_OK) {
        strcpy(name, seh_dump_code_name(status.code));
        return name;
    }
    for (size_t k = 0; k < count; k++)
        if (units.bytes[2 * k + 1] == 0 && strchr("/\\", units.bytes[2 * k]) && units.bytes[2 * k])
            first = k + 1;
    for (size_t k = first; k < count && k < first + 255; k++)
        length += put_utf8(name + length, units.bytes[2 * k] | units.bytes[2 * k + 1] << 8);
    name[length] = 0;
    return name;
}

static int by_base(const void *a, const void *b)
{
    uint64_t x = ((const struct module *)a)->record.base;
    uint64_t y = ((const struct module *)b)->record.base;

    return (x > y) - (x < y);
}

void read_modules(struct stack_dump *d)
{
    uint64_t count = d->dump.modules.count;

    d->modules = need(calloc(count + 1, sizeof *d->modules));
    d->views = need(calloc(count + 1, sizeof *d->views));
    d->opened = need(calloc(count + 1, sizeof *d->opened));
    for (d->module_count = 0; d->module_count < count; d->module_count++) {
        struct module *m = &d->modules[d->module_count];

        if (seh_dump_module(&d->dump, d->module_count, &m->record).code != SEH_OK)
            break;
        m->name = name_of(&d->dump, m->record.name_rva);
    }
    qsort(d->modules, d->module_count, sizeof *d->modules, by_base);
}

static int by_address(const void *a, const void *b)
{
    const seh_range *x = a, *y = b;

    if (x->at != y->at)
        return x->at < y->at ? -1 : 1;
    return (x->bytes > y->bytes) - (x->bytes < y->bytes);
}

/* Sorts the ranges, and cuts from each what one before it has, or passes the end of the addresses. */
static void sort_ranges(struct stack_dump *d)
{
    uint64_t end = 0; /* the last address that a range has */
    size_t kept = 0;

    qsort(d->ranges, d->range_count, sizeof *d->ranges, by_address);
    for (size_t k = 0; k < d->range_count; k++) {
        seh_range r = d->ranges[k];

        if (r.size && r.size - 1 > UINT64_MAX - r.at)
            r.size = (size_t)(UINT64_MAX - r.at) + 1;
        if (kept && r.at <= end) {
            uint64_t known = end - r.at + 1;

            if (known == 0 || known >= r.size)
                continue;
            r.at += known;
            r.bytes += known;
            r.size -= (size_t)known;
        }
        if (r.size == 0)
            continue;
        end = r.at + (r.size - 1);
        d->ranges[kept++] = r;
    }
    d->range_count = kept;
}

void read_ranges(struct stack_dump *d)
{
    seh_dump_place place = {0, d->dump.base_rva};
    seh_status status;

    d->ranges = need(calloc(d->dump.ranges.count + d->dump.ranges64.count + 1, sizeof *d->ranges));
    for (uint64_t k = 0; k < d->dump.ranges.count; k++) {
        if (seh_dump_range(&d->dump, k, &d->ranges[d->range_count]).code == SEH_OK)
            d->range_count++;
        else
            d->refused_ranges++;
    }
    while ((status = seh_dump_range64(&d->dump, &place, &d->ranges[d->range_count])).code == SEH_OK)
        d->range_count++;
    if (status.code != SEH_DUMP_MISSING)
        d->refused_ranges += d->dump.ranges64.count - place.index;
    sort_ranges(d);
}

/* ---- images */

struct module *module_at(struct stack_dump *d, uint64_t address)
{
    size_t low = 0, high = d->module_count;

    while (low < high) {
        size_t middle = low + (high - low) / 2;

        if (d->modules[middle].record.base <= address)
            low = middle + 1;
        else
            high = middle;
    }
    if (low == 0 || address - d->modules[low - 1].record.base >= d->modules[low - 1].record.size)
        return NULL;
    return &d->modules[low - 1];
}

/* Opens the bytes of an image, if they have the module's size and time stamp. */
static bool open_image(struct module *m, const uint8_t *bytes, size_t size, bool mapped)
{
    uint32_t header;

    if (!m->index)
        m->index = need(calloc(INDEX_ROOM, sizeof *m->index));
    if (seh_open(bytes, size, mapped, m->record.base, &m->view, m->index, INDEX_ROOM).code != SEH_OK)
        return false;
    header = number_at(bytes + 0x3c); /* e_lfanew; seh_open found the headers there */
    return m->view.image_size == m->record.size &&
           number_at(bytes + header + 8) == m->record.time_date_stamp;
}

/* The first range that ends above an address. */
static size_t range_above(const struct stack_dump *d, uint64_t address)
{
    size_t low = 0, high = d->range_count;

    while (low < high) {
        size_t middle = low + (high - low) / 2;
        const seh_range *r = &d->ranges[middle];

        if (r->at <= address && r->size - 1 < address - r->at)
            low = middle + 1;
        else if (r->at <= address)
            return middle;
        else
            high = middle;
    }
    return low;
}

const seh_range *range_at(const struct stack_dump *d, uint64_t address)
{
    size_t k = range_above(d, address);

    return k < d->range_count && d->ranges[k].at <= address ? &d->ranges[k] : NULL;
}

/* The image in the dump's memory, where the ranges have all of it. Pieces are gathered, of all modules
   together no more bytes than the dump has. */
static bool open_from_memory(struct stack_dump *d, struct module *m)
{
    uint64_t at = m->record.base, left = m->record.size;
    size_t first = range_above(d, at);

    for (size_t k = first; left; k++) {
        const seh_range *r = &d->ranges[k];
        uint64_t held;

        if (k >= d->range_count || r->at > at)
            return false;
        held = r->size - (at - r->at);
        if (k == first && held >= left)
            return open_image(m, r->bytes + (at - r->at), m->record.size, true);
        at += held;
        left = held < left ? left - held : 0;
    }
    if (m->record.size == 0 || m->record.size > d->dump.size - d->gathered)
        return false;
    d->gathered += m->record.size;
    m->owned = need(malloc(m->record.size));
    at = m->record.base;
    for (size_t k = first, done = 0; done < m->record.size; k++) {
        const seh_range *r = &d->ranges[k];
        size_t skip = (size_t)(at - r->at), size = r->size - skip;

        if (size > m->record.size - done)
            size = m->record.size - done;
        memcpy(m->owned + done, r->bytes + skip, size);
        done += size;
        at += size;
    }
    return open_image(m, m->owned, m->record.size, true);
}

/* The image in a folder, by the module's name, as it is or in lower case. */
static bool open_from_folder(struct module *m, const char *folder)
{
    char *path = need(malloc(strlen(folder) + strlen(m->name) + 2)), *name;
    size_t size;

    sprintf(path, "%s/%s", folder, m->name);
    free(m->owned);
    m->owned = read_file(path, &size);
    if (!m->owned) {
        for (name = path + strlen(folder) + 1; *name; name++)
            *name = (char)tolower((unsigned char)*name);
        m->owned = read_file(path, &size);
    }
    if (m->owned && open_image(m, m->owned, size, false)) {
        free(path);
        return true;
    }
    if (m->owned)
        fprintf(stderr, "%s isn't the image of %s: another size or time stamp, or no image\n", path,
                m->name);
    free(path);
    return false;
}

bool open_module(struct stack_dump *d, struct module *m)
{
    if (m->tried)
        return m->open;
    m->tried = true;
    m->open = open_from_memory(d, m);
    /* a name of a dump leads out of no folder */
    for (int k = 0; !m->open && m->name[0] && m->name[0] != '.' && k < d->folder_count; k++)
        m->open = open_from_folder(m, d->folders[k]);
    if (m->open) {
        d->opened[d->view_count] = m;
        d->views[d->view_count++] = m->view;
    }
    return m->open;
}

void free_dump(struct stack_dump *d)
{
    for (size_t k = 0; k < d->module_count; k++) {
        free(d->modules[k].name);
        free(d->modules[k].index);
        free(d->modules[k].owned);
    }
    free(d->modules);
    free(d->views);
    free(d->opened);
    free(d->ranges);
}
