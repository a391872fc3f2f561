/*
 * walk [--mapped] IMAGE REGISTERS STACK: prints the frames of a stack, innermost first, as far as
 * their code lies in an image. REGISTERS is a text: a line `NAME NUMBER` for each register, for
 * `base`, where the image lies, and for `stack`, the address of the first byte of STACK. Numbers are
 * hexadecimal. With --mapped the library is given the image as a loader maps it, and not its file.
 */
#include "seh.h"

#include <inttypes.h>
#include <stdio.h>
#include <stdlib.h>
#include <string.h>

struct registers {
    seh_context context;
    uint64_t base, stack;
};

static uint32_t numbers[256]; /* the index of the function table */

/* Reads a file whole. */
static uint8_t *read_file(const char *name, size_t *size)
{
    FILE *file = fopen(name, "rb");
    long end;
    uint8_t *bytes;

    if (!file || fseek(file, 0, SEEK_END) || (end = ftell(file)) < 0 || fseek(file, 0, SEEK_SET)) {
        perror(name);
        exit(2);
    }
    *size = (size_t)end;
    bytes = malloc(*size + 1);
    if (!bytes || fread(bytes, 1, *size, file) != *size) {
        perror(name);
        exit(2);
    }
    bytes[*size] = 0;
    fclose(file);
    return bytes;
}

static uint32_t number_at(const uint8_t *bytes)
{
    return bytes[0] | bytes[1] << 8 | bytes[2] << 16 | (uint32_t)bytes[3] << 24;
}

static size_t least(size_t a, size_t b)
{
    return a < b ? a : b;
}

/* The file of an image that was opened, mapped as a loader does (PE format, "Section Table"): headers
   and sections at their RVAs, in zeros. */
static uint8_t *map_image(const seh_view *view, size_t *mapped_size)
{
    const uint8_t *file = view->bytes, *headers = file + number_at(file + 0x3c), *section;
    size_t size = (size_t)(view->image_size + 4095) / 4096 * 4096;
    uint8_t *bytes = calloc(size + 1, 1);

    if (!bytes) {
        perror("the mapped image");
        exit(2);
    }
    /* SizeOfHeaders */
    memcpy(bytes, file, least(number_at(headers + 84), least(view->size, size)));
    section = headers + 24 + (headers[20] | headers[21] << 8);
    for (unsigned count = headers[6] | headers[7] << 8; count; count--, section += 40) {
        uint32_t virtual_size = number_at(section + 8), raw_size = number_at(section + 16);
        size_t stored = virtual_size ? least(virtual_size, raw_size) : raw_size;

        memcpy(bytes + number_at(section + 12), file + (stored ? number_at(section + 20) : 0),
               stored);
    }
    *mapped_size = size;
    return bytes;
}

/* Where a line's number goes; null where its name isn't known. */
static uint64_t *place_of(struct registers *r, const char *name)
{
    struct { const char *name; uint64_t *place; } places[] = {
        {"rip", &r->context.rip}, {"rsp", &r->context.rsp}, {"rbx", &r->context.rbx},
        {"rbp", &r->context.rbp}, {"rsi", &r->context.rsi}, {"rdi", &r->context.rdi},
        {"r12", &r->context.r12}, {"r13", &r->context.r13}, {"r14", &r->context.r14},
        {"r15", &r->context.r15}, {"base", &r->base}, {"stack", &r->stack},
    };

    for (size_t k = 0; k < sizeof places / sizeof places[0]; k++)
        if (strcmp(places[k].name, name) == 0)
            return places[k].place;
    return NULL;
}

static void read_registers(const char *name, struct registers *r)
{
    size_t size;
    char *text = (char *)read_file(name, &size), *line, *rest = text;
    char word[8];
    uint64_t number, *place;

    memset(r, 0, sizeof *r);
    while ((line = strtok(rest, "\n"))) {
        rest = NULL;
        if (sscanf(line, "%7s %" SCNx64, word, &number) != 2 || !(place = place_of(r, word))) {
            fprintf(stderr, "%s: what is \"%s\"?\n", name, line);
            exit(2);
        }
        *place = number;
    }
    free(text);
}

/* A line for each `__try` around a place; none where the imports can't be read. */
static void print_scopes(const seh_view *view, uint32_t rva)
{
    seh_scope scopes[8];
    uint64_t written;

    seh_scopes(view, rva, scopes, sizeof scopes / sizeof scopes[0], &written);
    for (uint64_t k = 0; k < written; k++)
        printf("    __try %" PRIx32 "..%" PRIx32 ": %" PRIx32 ", %" PRIx32 "\n", scopes[k].begin,
               scopes[k].end, scopes[k].handler_address, scopes[k].jump_target);
}

static void print_context(const seh_context *c)
{
    printf("    rip %" PRIx64 " rsp %" PRIx64 " rbx %" PRIx64 " rbp %" PRIx64 " rsi %" PRIx64
           " rdi %" PRIx64 " r12 %" PRIx64 " r13 %" PRIx64 " r14 %" PRIx64 " r15 %" PRIx64 "\n",
           c->rip, c->rsp, c->rbx, c->rbp, c->rsi, c->rdi, c->r12, c->r13, c->r14, c->r15);
}

/* A line for the place of a frame, with the function that holds it. */
static void print_place(const seh_view *view, uint64_t rip)
{
    seh_function function;
    seh_status status = seh_find_function(view, (uint32_t)(rip - view->base), &function);

    printf("%" PRIx64, rip);
    if (status.code == SEH_OK)
        printf(" in function %" PRIx32 "..%" PRIx32, function.begin, function.end);
    else if (status.code == SEH_NO_FUNCTION)
        printf(" in no function");
    else
        printf(" in a function that is refused (%" PRIu32 ")", status.code);
}

/* Prints the frames from a context on, whose last caller it leaves there. */
static seh_status walk(const seh_view *view, struct registers *r, const seh_range *stack)
{
    seh_frame frames[4]; /* few, so that a walk goes on more than once */
    seh_status status;
    uint64_t written;

    do {
        status = seh_walk(view, stack, 1, &r->context, frames, sizeof frames / sizeof frames[0],
                          &written);
        for (uint64_t k = 0; k < written; k++) {
            uint64_t rip = k ? frames[k - 1].caller.rip : r->context.rip;

            print_place(view, rip);
            printf(", frame %" PRIx64, frames[k].establisher);
            if (frames[k].has_handler)
                printf(", handler %" PRIx32, frames[k].handler);
            printf("\n");
            print_scopes(view, (uint32_t)(rip - view->base));
            print_context(&frames[k].caller);
        }
        if (written)
            r->context = frames[written - 1].caller;
    } while (status.code == SEH_MORE);
    return status;
}

int main(int argc, char **argv)
{
    bool mapped = argc == 5 && strcmp(argv[1], "--mapped") == 0;
    char **files = argv + 1 + mapped;
    struct registers r;
    seh_range stack;
    seh_view view;
    seh_status status;
    uint8_t *image, *bytes;
    size_t size;

    if (argc != 4 + mapped) {
        fprintf(stderr, "usage: walk [--mapped] IMAGE REGISTERS STACK\n");
        return 2;
    }
    image = read_file(files[0], &size);
    read_registers(files[1], &r);
    bytes = read_file(files[2], &stack.size);
    stack.at = r.stack;
    stack.bytes = bytes;
    status = seh_open(image, size, false, r.base, &view, numbers, sizeof numbers / sizeof *numbers);
    if (status.code == SEH_OK && mapped) {
        uint8_t *file = image;

        image = map_image(&view, &size);
        free(file);
        /* without an index here */
        status = seh_open(image, size, true, r.base, &view, numbers, 0);
    }
    if (status.code == SEH_OK) {
        printf("image of %" PRIu64 " bytes with %" PRIu64 " functions, at %" PRIx64 "\n",
               view.image_size, view.functions, r.base);
        status = walk(&view, &r, &stack);
    }
    if (status.code == SEH_OK)
        printf("%" PRIx64 " lies outside the image\n", r.context.rip);
    else
        printf("refused %" PRIu32 " at %" PRIx64 "\n", status.code, status.at);
    free(image);
    free(bytes);
    return status.code != SEH_OK;
}
