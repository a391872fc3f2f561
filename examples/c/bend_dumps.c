/*
 * bend_dumps COUNT DUMP [FOLDER..]: bends a dump COUNT times, each time by some bytes, numbers or its
 * length, and prints its stacks. Each has to be refused by a name or printed to its end. The numbers
 * are those of a fixed sequence, so that each run bends alike.
 */
#include "stack_modules.h"

#include <inttypes.h>
#include <stdio.h>
#include <stdlib.h>
#include <string.h>

static uint64_t state = 0x9e3779b97f4a7c15;

/* The next number of the sequence (Marsaglia's xorshift), below a limit above 0. */
static uint64_t below(uint64_t limit)
{
    state ^= state << 13;
    state ^= state >> 7;
    state ^= state << 17;
    return state % limit;
}

/* A number at an edge. */
static uint64_t edge(size_t size)
{
    const uint64_t edges[] = {0, 1, 3, 4, size, size - 1, size + 1, 0x7fffffff, 0x80000000, 0xffffffff,
                              0xfffffffe, 0x100000000, 0x1000000000000000, 0x7fffffffffffffff,
                              UINT64_MAX, UINT64_MAX - 1, UINT64_MAX - size};

    return below(4) ? edges[below(sizeof edges / sizeof *edges)] : below(2 * (uint64_t)size);
}

/* Bends bytes, and answers how many are left of them. */
static size_t bend(uint8_t *bytes, size_t size)
{
    size_t left = size;

    for (uint64_t k = 1 + below(4); k; k--) {
        uint64_t number = edge(size), kind = below(16);
        /* most often the header and the directory, which are at the front */
        size_t at = (size_t)below(below(3) ? size - 8 : 128);

        if (kind == 0)
            left = (size_t)below(size + 1);
        else if (kind < 4)
            bytes[at] = (uint8_t)below(256);
        else if (kind < 12)
            memcpy(bytes + at / 4 * 4, &number, 4);
        else
            memcpy(bytes + at / 4 * 4, &number, 8);
    }
    return left;
}

int main(int argc, char **argv)
{
    uint64_t count = argc > 2 ? strtoull(argv[1], NULL, 10) : 0, refused = 0, wrong = 0;
    uint8_t *dump, *bent;
    size_t size;

    if (count == 0 || !(dump = read_file(argv[2], &size)) || size < 136) {
        fprintf(stderr, "usage: bend_dumps COUNT DUMP [FOLDER..]\n");
        return 2;
    }
    if (!freopen("/dev/null", "w", stdout))
        return 2;
    for (uint64_t k = 0; k < count; k++) {
        seh_status status;
        size_t left;

        /* bytes of just that size, so that a sanitizer sees what passes their end */
        bent = need(malloc(size));
        memcpy(bent, dump, size);
        left = bend(bent, size);
        bent = need(realloc(bent, left + !left));
        status = print_stacks(bent, left, false, argv + 3, argc - 3);
        refused += status.code != SEH_OK;
        wrong += !seh_dump_code_name(status.code);
        free(bent);
    }
    fprintf(stderr, "%" PRIu64 " bent dumps of %s: %" PRIu64 " refused, the others printed, %" PRIu64
            " without a name\n", count, argv[2], refused, wrong);
    free(dump);
    return wrong != 0;
}
