/* The modules of a dump with their images, and its stacks, for seh_stack.c and bend_dumps.c. */
#ifndef STACK_MODULES_H
#define STACK_MODULES_H

#include "seh_dump.h"

/* A module, and its image where one was found that fits. */
struct module {
    seh_dump_module_record record;
    char *name;       /* the last part of its path, in UTF-8 */
    seh_view view;    /* of its image, where it is open */
    uint32_t *index;  /* of the view */
    uint8_t *owned;   /* the image's bytes, where they were read or gathered */
    bool tried, open; /* the image was looked for; it was found */
};

/* What was read of a dump. */
struct stack_dump {
    seh_dump dump;
    struct module *modules; /* by their bases */
    size_t module_count;
    seh_view *views;         /* of the images that are open */
    struct module **opened;  /* the module of each view */
    size_t view_count;
    seh_range *ranges; /* in order, without overlaps */
    size_t range_count;
    uint64_t refused_ranges; /* how many aren't in the file */
    size_t frame_count; /* how many frames were found */
    size_t gathered;    /* how many bytes of images were gathered from ranges */
    bool frames_alone; /* of each frame RIP and the nonvolatile registers alone are printed */
    char **folders;    /* where images are looked for */
    int folder_count;
};

/* Memory that has to be there; the program ends without it. */
void *need(void *memory);

/* Reads a file whole; null where it can't be read. The bytes are the caller's. */
uint8_t *read_file(const char *name, size_t *size);

/* Reads the lists of modules and of memory. */
void read_modules(struct stack_dump *d);
void read_ranges(struct stack_dump *d);

/* The range that has the byte at an address; null where none does. */
const seh_range *range_at(const struct stack_dump *d, uint64_t address);

/* The module that holds an address; null where none does. */
struct module *module_at(struct stack_dump *d, uint64_t address);

/* Whether a module's image is open. The first time it is looked for: in the dump's memory, and then
   in the folders. What doesn't fit is said. */
bool open_module(struct stack_dump *d, struct module *m);

/* Prints the name of the function of a module that begins at or below an RVA, and not below `begin`:
   that of the table `.sehname`, else the nearest export. */
void print_name(const struct module *m, uint32_t rva, uint32_t begin);

void free_dump(struct stack_dump *d);

/* Prints the stacks of a dump; nothing where it is refused. */
seh_status print_stacks(const uint8_t *bytes, size_t size, bool frames_alone, char **folders,
                        int folder_count);

#endif
