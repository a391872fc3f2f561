/*
 * seh_stack [--frames] DUMP [FOLDER..]: prints what a minidump says of each thread: its frames with RIP,
 * module and RVA, the range of the function, the nearest name and RSP; and for the thread that raised
 * an exception which `__except` and `__finally` stand around each frame, in the order in which a search
 * asks them. With --frames it prints a line for each thread whose frames are found, `t` and its number,
 * and one for each of these frames: RIP, RSP, RBX, RBP, RSI, RDI, R12 to R15.
 *
 * The image of a module is taken from the dump's memory, where that has all of it, else from the first
 * folder that has a file of its name, of the size and time stamp that the dump says. The status is 0
 * where the dump was read, 1 where it is refused, and 2 where the file can't be read. Numbers are
 * hexadecimal.
 */
#include "stack_modules.h"

#include <inttypes.h>
#include <stdio.h>
#include <stdlib.h>
#include <string.h>

int main(int argc, char **argv)
{
    bool frames = argc > 1 && strcmp(argv[1], "--frames") == 0;
    char **words = argv + 1 + frames;
    seh_status status;
    uint8_t *bytes;
    size_t size;

    if (argc < 2 + frames) {
        fprintf(stderr, "usage: seh_stack [--frames] DUMP [FOLDER..]\n");
        return 2;
    }
    bytes = read_file(words[0], &size);
    if (!bytes) {
        perror(words[0]);
        return 2;
    }
    status = print_stacks(bytes, size, frames, words + 1, argc - 2 - frames);
    if (status.code != SEH_OK)
        printf("refused: %s, %" PRIx64 "\n", seh_dump_code_name(status.code), status.at);
    free(bytes);
    return status.code != SEH_OK;
}
