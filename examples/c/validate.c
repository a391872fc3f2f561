/*
 * validate IMAGE [PROBE]: prints whether the code of an image keeps its unwind information. PROBE has
 * the code of the image's stack probe.
 */
#include "seh.h"

#include <inttypes.h>
#include <stdio.h>

static uint8_t file[1 << 22], probe[4096];
static uint32_t no_index;

static size_t read_file(const char *name, uint8_t *bytes, size_t room)
{
    FILE *in = fopen(name, "rb");
    size_t size;

    if (!in) {
        perror(name);
        return 0;
    }
    size = fread(bytes, 1, room, in);
    fclose(in);
    return size;
}

int main(int argc, char **argv)
{
    size_t size = argc > 1 ? read_file(argv[1], file, sizeof file) : 0;
    size_t probe_size = argc > 2 ? read_file(argv[2], probe, sizeof probe) : 0;
    seh_verdict verdict;
    seh_view view;
    seh_status status = seh_open(file, size, false, 0, &view, &no_index, 0);

    if (status.code == SEH_OK)
        status = seh_check(&view, probe, probe_size, &verdict);
    if (status.code != SEH_OK) {
        printf("refused %" PRIu32 " at %" PRIx64 "\n", status.code, status.at);
        return 1;
    }
    if (verdict.rule == SEH_RULE_NONE)
        printf("no rule fails in %" PRIu64 " entries\n", verdict.entry);
    else
        printf("rule %" PRIu32 " fails at %" PRIx64 " in entry %" PRIu64 "\n", verdict.rule,
               verdict.at, verdict.entry);
    return 0;
}
