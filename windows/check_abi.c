/* Unwinds frames of an image by RtlVirtualUnwind and by the library for C, and compares.
 *
 *     check_abi.exe IMAGE BOUNDARIES > CALLERS
 *     check_abi IMAGE BOUNDARIES < CALLERS
 *
 * BOUNDARIES has the address of each instruction in hexadecimal digits, as a disassembler gives it.
 * The first program is for Windows. It maps the image, which isn't started, and writes for each
 * boundary in a function of the table the caller that RtlVirtualUnwind finds. The second one finds
 * the same callers by the library, and counts. The state at a boundary is any state, its stack and
 * registers made of pseudo-random numbers: both have to find the same of it, whether the code comes
 * to it or not. Where they differ, the form of the code there is told by name. */
#include <stdbool.h>
#include <stdint.h>
#include <stdio.h>
#include <stdlib.h>
#include <string.h>
#ifdef _WIN32
#include <fcntl.h>
#include <io.h>
#include <setjmp.h>
#include <windows.h>
#else
#include "seh.h"
#endif
#include "check_abi_image.h"

/* Registers point into the middle of the stack, so that frames of some MiB may be read. */
#define STACK_SIZE 0x1000000
#define REGISTERS 8

/* where the image and the stack lie in the process of the first program */
struct origin {
    uint64_t image, stack;
};

/* RIP, RSP, RBX, RBP, RSI, RDI and R12 to R15, and XMM6 to XMM15 */
struct state {
    uint64_t rip, rsp, registers[REGISTERS], xmm[20];
};

struct caller {
    struct state state;
    uint64_t establisher;
    uint32_t handler; /* its RVA, 0 where none is asked */
    uint32_t is_found;
};

static uint8_t *stack;

/* Numbers that only seem random (SplitMix64). */
static uint64_t mixed(uint64_t seed)
{
    uint64_t z = (seed + 1) * 0x9E3779B97F4A7C15u;

    z = (z ^ (z >> 30)) * 0xBF58476D1CE4E5B9u;
    z = (z ^ (z >> 27)) * 0x94D049BB133111EBu;
    return z ^ (z >> 31);
}

static void fill_stack(void)
{
    for (uint64_t k = 0; k < STACK_SIZE / 8; k++) {
        uint64_t word = mixed(k);

        memcpy(stack + 8 * k, &word, 8);
    }
}

static uint64_t place_in(const struct origin *origin, uint64_t seed)
{
    return origin->stack + STACK_SIZE / 4 + mixed(seed) % (STACK_SIZE / 2) / 16 * 16;
}

static struct state state_at(const struct origin *origin, uint32_t rva)
{
    struct state state;
    uint64_t seed = 64 * (uint64_t)rva;

    state.rip = origin->image + rva;
    state.rsp = place_in(origin, seed++);
    for (int k = 0; k < REGISTERS; k++)
        state.registers[k] = place_in(origin, seed++);
    for (int k = 0; k < 20; k++)
        state.xmm[k] = mixed(seed++);
    return state;
}

/* ---- boundaries */

/* The size of what a trailing part begins with: `add rsp`, or `lea rsp` from some register. */
static int opening(const uint8_t *b)
{
    if (b[0] == 0x48 && b[2] == 0xC4 && (b[1] == 0x83 || b[1] == 0x81))
        return b[1] == 0x83 ? 4 : 7;
    if ((b[0] == 0x48 || b[0] == 0x49) && b[1] == 0x8D && (b[2] & 0x38) == 0x20 &&
        (b[2] >> 6 == 1 || b[2] >> 6 == 2))
        return b[2] >> 6 == 1 ? 4 : 7;
    return 0;
}

/* Whether pops and jumps by a distance lead around in a function, as a jump to itself does. Wine
 * follows them without end. */
static bool leads_around(uint32_t rva)
{
    const struct function *function = function_at(rva);

    for (int steps = 0; steps < 1000; steps++) {
        size_t count;
        const uint8_t *b = bytes_at(rva, &count);
        int32_t distance;

        if (!b || count < 8)
            return false;
        if (steps == 0 && opening(b)) {
            rva += opening(b);
        } else if ((b[0] & 0xF0) == 0x40 || (b[0] & 0xF8) == 0x58) {
            rva++;
        } else if (b[0] == 0xEB) {
            rva += 2 + (int8_t)b[1];
        } else if (b[0] == 0xE9) {
            memcpy(&distance, b + 1, 4);
            rva += 5 + distance;
        } else {
            return false;
        }
        if (rva < function->begin || rva >= function->end)
            return false;
    }
    return true;
}

static size_t around;

/* The next boundary in a function, as an RVA; false where there is none. */
static bool next_boundary(FILE *from, uint32_t *rva)
{
    unsigned long long address, base = number(headers() + 48, 4);

    base |= (unsigned long long)number(headers() + 52, 4) << 32;
    while (fscanf(from, "%llx", &address) == 1) {
        *rva = (uint32_t)(address - base);
        if (!function_at(*rva))
            continue;
        if (!leads_around(*rva))
            return true;
        around++;
    }
    return false;
}

#ifdef _WIN32

static jmp_buf not_readable;

static LONG CALLBACK on_fault(EXCEPTION_POINTERS *pointers)
{
    if (pointers->ExceptionRecord->ExceptionCode == EXCEPTION_ACCESS_VIOLATION)
        longjmp(not_readable, 1);
    return EXCEPTION_CONTINUE_SEARCH;
}

static uint8_t *mapped_image(void)
{
    uint8_t *image = VirtualAlloc(NULL, number(headers() + 24 + 56, 4), MEM_COMMIT | MEM_RESERVE,
                                  PAGE_EXECUTE_READWRITE);

    if (!image)
        die("no memory");
    for (int k = 0; k < section_count(); k++)
        memcpy(image + number(section(k) + 12, 4), file + number(section(k) + 20, 4),
               stored_size(k));
    return image;
}

/* The registers of a context in the order of a state. */
static DWORD64 *register_of(CONTEXT *context, int k)
{
    DWORD64 *registers[REGISTERS] = {&context->Rbx, &context->Rbp, &context->Rsi, &context->Rdi,
                                     &context->R12, &context->R13, &context->R14, &context->R15};

    return registers[k];
}

static struct caller caller_of(const struct origin *origin, uint32_t rva)
{
    static CONTEXT context;
    static struct caller caller;
    static struct state state;
    struct function *function = function_at(rva);
    EXCEPTION_ROUTINE *handler;
    void *data;

    memset(&caller, 0, sizeof caller);
    state = state_at(origin, rva);
    memset(&context, 0, sizeof context);
    context.Rip = state.rip;
    context.Rsp = state.rsp;
    context.Rax = context.Rcx = context.Rdx = context.R8 = state.rsp;
    context.R9 = context.R10 = context.R11 = state.rsp;
    for (int k = 0; k < REGISTERS; k++)
        *register_of(&context, k) = state.registers[k];
    memcpy(&context.Xmm6, state.xmm, sizeof state.xmm);
    if (setjmp(not_readable))
        return caller;
    handler = RtlVirtualUnwind(UNW_FLAG_EHANDLER | UNW_FLAG_UHANDLER, origin->image, context.Rip,
                               (RUNTIME_FUNCTION *)function, &context, &data, &caller.establisher,
                               NULL);
    caller.is_found = 1;
    caller.handler = handler ? (uint32_t)((DWORD64)handler - origin->image) : 0;
    caller.state.rip = context.Rip;
    caller.state.rsp = context.Rsp;
    for (int k = 0; k < REGISTERS; k++)
        caller.state.registers[k] = *register_of(&context, k);
    memcpy(caller.state.xmm, &context.Xmm6, sizeof state.xmm);
    return caller;
}

static int compare(FILE *boundaries)
{
    struct origin origin;
    uint32_t rva;

    stack = VirtualAlloc(NULL, STACK_SIZE, MEM_COMMIT | MEM_RESERVE, PAGE_READWRITE);
    if (!stack)
        die("no memory");
    fill_stack();
    origin.image = (uint64_t)mapped_image();
    origin.stack = (uint64_t)stack;
    AddVectoredExceptionHandler(1, on_fault);
    _setmode(_fileno(stdout), _O_BINARY);
    fwrite(&origin, sizeof origin, 1, stdout);
    while (next_boundary(boundaries, &rva)) {
        struct caller caller = caller_of(&origin, rva);

        fwrite(&caller, sizeof caller, 1, stdout);
    }
    return 0;
}

#else

/* ---- the form of the code at a boundary */

/* In which way Wine and Windows are held to differ there. */
enum form {
    JUMP_BY_DISTANCE, /* the trailing part ends by EB or E9 */
    JUMP_OF_IMPORT,   /* by FF 25 */
    JUMP_BY_REX_W,    /* by a jump through a register or memory with REX.W */
    BOUND_RETURN,     /* by a return with the prefix F2 */
    RETURN_OF_BYTES,  /* by C2, which pops bytes too */
    OTHER_FRAME,      /* the trailing part begins by `lea rsp` from another register */
    EARLY_EXIT,       /* it stands in the prologue */
    NO_CODES,         /* it stands in a function without unwind codes */
    FRAME_NOT_SET,    /* in the prologue of a function with a frame register */
    CHAINED,          /* in an entry that is chained to another */
    UNKNOWN,
    FORMS
};

static const char *const names[FORMS] = {
    "the epilogue ends by a jump by a distance (EB, E9)",
    "the epilogue ends by a jump through an import (FF 25)",
    "the epilogue ends by a jump with REX.W (FF /4)",
    "the epilogue ends by a return with F2 before it",
    "the epilogue ends by a return that pops bytes (C2)",
    "`lea rsp` from a register that isn't the frame register",
    "the epilogue stands in the prologue",
    "the epilogue stands in a function without unwind codes",
    "the frame register isn't set yet, in a prologue",
    "the entry is chained to another",
    "another form",
};

static struct info {
    int prologue_size, codes, frame_register, flags;
} info_at(uint32_t rva)
{
    size_t count;
    const uint8_t *bytes = bytes_at(rva, &count);
    struct info info = {0, 0, 0, 0};

    if (bytes && count >= 4) {
        info.flags = bytes[0] >> 3;
        info.prologue_size = bytes[1];
        info.codes = bytes[2];
        info.frame_register = bytes[3] & 15;
    }
    return info;
}

static bool is_from_frame(const uint8_t *b, int frame_register)
{
    return b[1] != 0x8D || (frame_register != 0 && (b[0] & 1) * 8 + (b[2] & 7) == frame_register);
}

static const uint8_t *after_pops(const uint8_t *b, const uint8_t *end)
{
    while (b < end) {
        if ((b[0] & 0xF8) == 0x58)
            b++;
        else if ((b[0] & 0xF0) == 0x40 && (b[1] & 0xF8) == 0x58)
            b += 2;
        else
            break;
    }
    return b;
}

static enum form form_at(uint32_t rva)
{
    static uint8_t bytes[4096];
    const struct function *function = function_at(rva);
    struct info info = info_at(function->info);
    size_t count;
    const uint8_t *found = bytes_at(rva, &count), *b = bytes;
    bool in_prologue = rva - function->begin < (uint32_t)info.prologue_size, has_other = false;

    memset(bytes, 0, sizeof bytes);
    if (found)
        memcpy(bytes, found, count < sizeof bytes - 16 ? count : sizeof bytes - 16);
    if (opening(b)) {
        has_other = !is_from_frame(b, info.frame_register);
        b += opening(b);
    }
    b = after_pops(b, bytes + sizeof bytes - 16);
    if (b[0] == 0xEB || b[0] == 0xE9)
        return JUMP_BY_DISTANCE;
    if (b[0] == 0xFF && b[1] == 0x25)
        return JUMP_OF_IMPORT;
    if ((b[0] & 0xF8) == 0x48 && b[1] == 0xFF && (b[2] & 0x38) == 0x20)
        return JUMP_BY_REX_W;
    if (b[0] == 0xF2 && (b[1] == 0xC3 || b[1] == 0xC2))
        return BOUND_RETURN;
    if (b[0] == 0xC2)
        return RETURN_OF_BYTES;
    if (b[0] == 0xC3 || (b[0] == 0xF3 && b[1] == 0xC3))
        return has_other ? OTHER_FRAME : in_prologue ? EARLY_EXIT : info.codes == 0 ? NO_CODES
               : info.flags == 4 ? CHAINED : UNKNOWN;
    if (in_prologue && info.frame_register)
        return FRAME_NOT_SET;
    return info.flags == 4 ? CHAINED : UNKNOWN;
}

/* ---- the library's callers */

static uint64_t *register_of(seh_context *context, int k)
{
    uint64_t *registers[REGISTERS] = {&context->rbx, &context->rbp, &context->rsi, &context->rdi,
                                      &context->r12, &context->r13, &context->r14, &context->r15};

    return registers[k];
}

static struct caller caller_of(const seh_view *view, const struct origin *origin, uint32_t rva,
                               seh_status *status)
{
    struct caller caller;
    struct state state = state_at(origin, rva);
    seh_range range = {origin->stack, stack, STACK_SIZE};
    seh_context context;
    seh_frame frame;

    memset(&caller, 0, sizeof caller);
    memset(&context, 0, sizeof context);
    context.rip = state.rip;
    context.rsp = state.rsp;
    for (int k = 0; k < REGISTERS; k++)
        *register_of(&context, k) = state.registers[k];
    memcpy(context.xmm, state.xmm, sizeof state.xmm);
    context.has_vectors = 1;
    *status = seh_unwind(view, &range, 1, &context, &frame);
    if (status->code != SEH_OK)
        return caller;
    caller.is_found = 1;
    caller.establisher = frame.establisher;
    caller.handler = frame.has_handler ? frame.handler : 0;
    caller.state.rip = frame.caller.rip;
    caller.state.rsp = frame.caller.rsp;
    for (int k = 0; k < REGISTERS; k++)
        caller.state.registers[k] = *register_of(&frame.caller, k);
    memcpy(caller.state.xmm, frame.caller.xmm, sizeof state.xmm);
    return caller;
}

static size_t equal, unreadable, refused, differing[FORMS];

static void count(const struct caller *own, const struct caller *other, const seh_status *status,
                  uint32_t rva)
{
    enum form form;

    if (status->code != SEH_OK && status->code != SEH_UNREADABLE) {
        refused++;
    } else if (memcmp(own, other, sizeof *own) == 0) {
        equal++;
        unreadable += !own->is_found;
    } else {
        form = form_at(rva);
        if (++differing[form] <= 20 && form == UNKNOWN)
            fprintf(stderr, "check_abi: another caller at %x\n", (unsigned)rva);
    }
}

static void say_counts(void)
{
    printf("%zu equal\n%zu of these with a word that neither can read\n", equal, unreadable);
    if (refused)
        printf("%zu in entries that the library refuses\n", refused);
    if (around)
        printf("%zu left out: a loop of jumps, which Wine follows without end\n", around);
    for (int k = 0; k < FORMS; k++)
        if (differing[k])
            printf("%zu differ: %s\n", differing[k], names[k]);
}

static int compare(FILE *boundaries)
{
    static uint32_t index[1024];
    struct origin origin;
    struct caller other;
    seh_view view;
    seh_status status;
    uint32_t rva;

    stack = malloc(STACK_SIZE);
    if (!stack || fread(&origin, sizeof origin, 1, stdin) != 1)
        die("there are no callers");
    fill_stack();
    status = seh_open(file, file_size, false, origin.image, &view, index, 1024);
    if (status.code != SEH_OK) {
        printf("refused as %s\n", seh_code_name(status.code));
        return 0;
    }
    while (next_boundary(boundaries, &rva)) {
        struct caller own = caller_of(&view, &origin, rva, &status);

        if (fread(&other, sizeof other, 1, stdin) != 1)
            die("callers are missing");
        count(&own, &other, &status, rva);
    }
    say_counts();
    return differing[UNKNOWN] != 0;
}

#endif

int main(int count, char **words)
{
    FILE *boundaries;

    if (count != 3)
        die("give an image and its boundaries");
    read_file(words[1]);
    read_functions();
    boundaries = fopen(words[2], "r");
    if (!boundaries)
        die("the boundaries can't be read");
    return compare(boundaries);
}
