/* The file of an image, for windows/check_abi.c: its headers, its sections and its function table
 * (PE format, "Section Table" and "The .pdata Section"). What isn't well formed ends the program. */
#include <stdint.h>
#include <stdio.h>
#include <stdlib.h>
#include <string.h>

struct function {
    uint32_t begin, end, info;
};

static uint8_t *file;
static size_t file_size;
static struct function *functions;
static uint32_t function_count;

static void die(const char *what)
{
    fprintf(stderr, "check_abi: %s\n", what);
    exit(2);
}

static uint32_t number(size_t at, int size)
{
    uint32_t value = 0;

    if (at + size > file_size)
        die("the file is cut off");
    memcpy(&value, file + at, size);
    return value;
}

static size_t headers(void) { return number(0x3C, 4); }

static int section_count(void) { return number(headers() + 6, 2); }

static size_t section(int k) { return headers() + 24 + number(headers() + 20, 2) + 40 * (size_t)k; }

/* How many bytes of a section the file has. */
static uint32_t stored_size(int k)
{
    uint32_t size = number(section(k) + 8, 4), raw = number(section(k) + 16, 4);

    return size != 0 && size < raw ? size : raw;
}

/* The bytes of the file from an address on, and how many there are in its section. */
static const uint8_t *bytes_at(uint32_t rva, size_t *count)
{
    for (int k = 0; k < section_count(); k++) {
        uint32_t begin = number(section(k) + 12, 4);

        if (begin <= rva && rva - begin < stored_size(k)) {
            *count = stored_size(k) - (rva - begin);
            return file + number(section(k) + 20, 4) + (rva - begin);
        }
    }
    *count = 0;
    return NULL;
}

static void read_file(const char *name)
{
    FILE *from = fopen(name, "rb");

    if (!from)
        die("the image can't be read");
    fseek(from, 0, SEEK_END);
    file_size = ftell(from);
    rewind(from);
    file = malloc(file_size + 1);
    if (!file || fread(file, 1, file_size, from) != file_size)
        die("the image can't be read");
    fclose(from);
}

static void read_functions(void)
{
    size_t count;
    uint32_t rva = number(headers() + 24 + 112 + 8 * 3, 4);
    uint32_t size = number(headers() + 24 + 112 + 8 * 3 + 4, 4);
    const uint8_t *bytes = bytes_at(rva, &count);

    if (size == 0)
        return;
    if (!bytes || count < size)
        die("the function table isn't stored");
    function_count = size / sizeof *functions;
    functions = malloc(size);
    if (!functions)
        die("no memory");
    memcpy(functions, bytes, function_count * sizeof *functions);
}

/* The entry that covers an address. */
static struct function *function_at(uint32_t rva)
{
    uint32_t low = 0, high = function_count;

    while (low < high) {
        uint32_t middle = low + (high - low) / 2;

        if (functions[middle].end <= rva)
            low = middle + 1;
        else if (rva < functions[middle].begin)
            high = middle;
        else
            return &functions[middle];
    }
    return NULL;
}
