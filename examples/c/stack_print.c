/* The stacks of a dump, printed: what seh_stack.c and bend_dumps.c share. */
#include "stack_modules.h"

#include <inttypes.h>
#include <stdio.h>

/* How many frames are printed of a thread, and of all, so that no dump makes much of few bytes. */
#define MOST_OF_THREAD 1000
#define MOST_FRAMES 20000

#define CONTEXT_FLOATING_POINT 8 /* of ContextFlags: the XMM registers were filled (winnt.h) */

/* The nonvolatile registers. */
static seh_context context_of(const seh_dump_registers *r)
{
    const uint64_t *n = r->integer;
    seh_context c = {.rip = r->rip, .rsp = n[4], .rbx = n[3], .rbp = n[5], .rsi = n[6], .rdi = n[7],
                     .r12 = n[12], .r13 = n[13], .r14 = n[14], .r15 = n[15],
                     .has_vectors = r->context_flags & CONTEXT_FLOATING_POINT};

    for (int k = 0; k < 10; k++)
        c.xmm[k] = (seh_vector){r->xmm[6 + k].low, r->xmm[6 + k].high};
    return c;
}

/* The __try records around a place of a module. */
static void print_scopes(const struct module *m, uint32_t rva)
{
    seh_scope scopes[16];
    uint64_t written;
    seh_status status = seh_scopes(&m->view, rva, scopes, sizeof scopes / sizeof *scopes, &written);

    for (uint64_t k = 0; k < written; k++) {
        const seh_scope *s = &scopes[k];

        if (s->jump_target == 0)
            printf("       __finally %" PRIx32, s->handler_address);
        else if (s->handler_address == 1)
            printf("       __except %" PRIx32 ", always", s->jump_target);
        else
            printf("       __except %" PRIx32 ", if filter %" PRIx32 " says so", s->jump_target,
                   s->handler_address);
        printf(", of __try %" PRIx32 "..%" PRIx32 "\n", s->begin, s->end);
    }
    if (status.code != SEH_OK)
        printf("       scopes: %s\n", seh_dump_code_name(status.code));
}

/* A line for a frame: its number, module, RVA, function and name. */
static void print_frame(unsigned number, const struct module *m, uint64_t rip, const seh_context *c)
{
    seh_function function;
    uint32_t rva;

    printf("  %2u %" PRIx64, number, rip);
    if (!m) {
        printf(" in no module");
    } else {
        rva = (uint32_t)(rip - m->record.base);
        printf(" %s+%" PRIx32, m->name, rva);
        if (m->open) {
            bool found = seh_find_function(&m->view, rva, &function).code == SEH_OK;

            if (found)
                printf(" in %" PRIx32 "..%" PRIx32, function.begin, function.end);
            print_name(m, rva, found ? function.begin : 0);
        }
    }
    printf(", rsp %" PRIx64 "\n", c->rsp);
}

/* The registers of a frame, and nothing else. */
static void print_registers(const seh_context *c)
{
    printf("%" PRIx64 " %" PRIx64 " %" PRIx64 " %" PRIx64 " %" PRIx64 " %" PRIx64 " %" PRIx64
           " %" PRIx64 " %" PRIx64 " %" PRIx64 "\n",
           c->rip, c->rsp, c->rbx, c->rbp, c->rsi, c->rdi, c->r12, c->r13, c->r14, c->r15);
}

/* The frames from a context on through the images that are open, some at a time; the context becomes
   that of the last one's caller. */
static seh_status walk_open(struct stack_dump *d, seh_context *context, unsigned *number, bool raised)
{
    seh_frame frames[16];
    uint64_t written;
    seh_status status = seh_walk_modules(d->views, d->view_count, d->ranges, d->range_count, context,
                                         frames, sizeof frames / sizeof *frames, &written);

    for (uint64_t k = 0; k < written; k++) {
        const struct module *m = d->opened[frames[k].module_index];

        if (d->frames_alone)
            print_registers(context);
        else
            print_frame(*number, m, context->rip, context);
        if (!d->frames_alone && raised && frames[k].has_handler)
            print_scopes(m, (uint32_t)(context->rip - m->record.base));
        ++*number;
        d->frame_count++;
        *context = frames[k].caller;
    }
    return status;
}

/* The last frame, and why the walk ends there. */
static void print_end(const struct stack_dump *d, unsigned number, const struct module *m,
                      const seh_context *context, seh_status status)
{
    if (d->frames_alone)
        return;
    print_frame(number, m, context->rip, context);
    if (m && !m->open)
        printf("     no image of %s is there: the walk ends\n", m->name);
    else if (m)
        printf("     its caller isn't found: %s at %" PRIx64 "\n", seh_dump_code_name(status.code),
               status.at);
}

/* A first frame in no module is most often a call of an address that isn't one, as of null: then its
   caller is that of a leaf function. It is printed as a guess. */
static void guess_caller(const struct stack_dump *d, seh_context *context, unsigned *number)
{
    const seh_range *r = range_at(d, context->rsp);
    uint64_t rip = 0;

    if (!r || r->size - (context->rsp - r->at) < 8)
        return;
    for (int byte = 7; byte >= 0; byte--)
        rip = rip << 8 | r->bytes[context->rsp - r->at + byte];
    print_frame((*number)++, NULL, context->rip, context);
    printf("     guessed, as a call of that address:\n");
    context->rip = rip;
    context->rsp += 8;
}

/* The frames of a thread from its registers on. An image is opened as its first frame comes. */
static void print_frames(struct stack_dump *d, const seh_dump_registers *registers, bool raised)
{
    seh_context context = context_of(registers);
    unsigned number = 0;

    if (!module_at(d, context.rip) && !d->frames_alone)
        guess_caller(d, &context, &number);
    while (number < MOST_OF_THREAD && d->frame_count < MOST_FRAMES) {
        seh_status status = walk_open(d, &context, &number, raised);
        struct module *m = module_at(d, context.rip);

        if (status.code == SEH_END)
            return;
        if (status.code == SEH_MORE ||
            (status.code == SEH_UNKNOWN_CODE && m && !m->tried && open_module(d, m)))
            continue;
        print_end(d, number, m, &context, status);
        return;
    }
    if (!d->frames_alone)
        printf("  ..\n");
}

/* Whether a thread has a frame that is found. */
static bool has_frames(struct stack_dump *d, const seh_dump_registers *registers)
{
    struct module *m = module_at(d, registers->rip);

    return m && open_module(d, m);
}

/* The exception, and its thread; false where there is none. */
static bool print_exception(struct stack_dump *d, seh_dump_exception_record *e)
{
    seh_status status = seh_dump_exception(d->dump.bytes, d->dump.size, e);
    struct module *m;

    if (status.code == SEH_DUMP_MISSING)
        return false;
    if (status.code != SEH_OK) {
        if (!d->frames_alone)
            printf("exception: %s\n", seh_dump_code_name(status.code));
        return false;
    }
    if (d->frames_alone)
        return true;
    printf("exception %" PRIx32 " at %" PRIx64, e->exception_code, e->exception_address);
    if ((m = module_at(d, e->exception_address)))
        printf(" (%s+%" PRIx64 ")", m->name, e->exception_address - m->record.base);
    for (uint32_t k = 0; k < e->number_parameters && k < 15; k++)
        printf("%s%" PRIx64, k ? ", " : ": ", e->information[k]);
    printf(", in thread %" PRIx32 "\n", e->thread_id);
    return true;
}

/* A thread with its frames: those from the exception on, where it raised one. */
static void print_thread(struct stack_dump *d, const seh_dump_thread_record *t,
                         const seh_dump_exception_record *e)
{
    seh_dump_registers registers;
    seh_status status = seh_dump_context(&d->dump, e ? &e->context : &t->context, &registers);

    if (!d->frames_alone)
        printf("thread %" PRIx32 "\n", t->thread_id);
    else if (status.code == SEH_OK && has_frames(d, &registers))
        printf("t %" PRIx32 "\n", t->thread_id);
    if (status.code == SEH_OK)
        print_frames(d, &registers, e != NULL);
    else if (!d->frames_alone)
        printf("  registers: %s\n", seh_dump_code_name(status.code));
}

/* What there is, and what isn't as it has to be. */
static void print_lists(const struct stack_dump *d)
{
    seh_dump_system_record system;

    printf("%" PRIu64 " threads, %zu modules, %zu ranges of memory\n", d->dump.threads.count,
           d->module_count, d->range_count);
    if (seh_dump_system(d->dump.bytes, d->dump.size, &system).code == SEH_OK &&
        system.processor_architecture != 9)
        printf("processor architecture %u: not x64\n", system.processor_architecture);
    if (d->dump.threads_status.code != SEH_OK)
        printf("threads: %s\n", seh_dump_code_name(d->dump.threads_status.code));
    if (d->dump.modules_status.code != SEH_OK)
        printf("modules: %s\n", seh_dump_code_name(d->dump.modules_status.code));
    if (d->refused_ranges)
        printf("memory: %" PRIu64 " ranges aren't in the file\n", d->refused_ranges);
}

static void print_dump(struct stack_dump *d)
{
    seh_dump_exception_record exception;
    seh_dump_thread_record thread;
    bool raised;

    read_modules(d);
    read_ranges(d);
    if (!d->frames_alone)
        print_lists(d);
    raised = print_exception(d, &exception);
    for (uint64_t k = 0; seh_dump_thread(&d->dump, k, &thread).code == SEH_OK; k++)
        print_thread(d, &thread, raised && thread.thread_id == exception.thread_id ? &exception : NULL);
}

seh_status print_stacks(const uint8_t *bytes, size_t size, bool frames_alone, char **folders,
                        int folder_count)
{
    struct stack_dump d = {.frames_alone = frames_alone, .folders = folders,
                           .folder_count = folder_count};
    seh_status status = seh_dump_open(bytes, size, &d.dump);

    if (status.code == SEH_OK)
        print_dump(&d);
    free_dump(&d);
    return status;
}
