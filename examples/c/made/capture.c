/*
 * capture IMAGE NAME: runs the entry point of an image (PE32+, x64) on Linux until it calls `put`,
 * by its import or by the address that is its argument, and writes NAME.registers and NAME.stack:
 * the registers that the caller of `put` has after the return, and its stack from there up to the
 * top. The entry point is entered with a return address outside the image, ENTERED_FROM, and with
 * numbers of its own in the nonvolatile registers, so that the last frame is known.
 *
 *     gcc -no-pie -o capture capture.c
 */
#include <inttypes.h>
#include <stdio.h>
#include <stdlib.h>
#include <string.h>
#include <sys/mman.h>

#define STACK_AT 0x200000000
#define STACK_SIZE 0x10000

/* in the order in which `put` below stores them */
uint64_t captured[10], host_stack;

void put(void);
int enter(void *entry, uint64_t top, uint64_t argument);

__asm__(
    ".pushsection .text\n.globl enter, put\n"
    "enter:\n"
    "  push %rbx\n  push %rbp\n  push %r12\n  push %r13\n  push %r14\n  push %r15\n"
    "  mov %rsp, host_stack(%rip)\n"
    "  lea -40(%rsi), %rsp\n"
    "  movq $0x7FF61000, (%rsp)\n" /* ENTERED_FROM; the home space is above it */
    "  mov %rdi, %rax\n"
    "  mov %rdx, %rcx\n"
    "  movabs $0xB0B0B0B0B0B0B0B0, %rbx\n  movabs $0xB1B1B1B1B1B1B1B1, %rbp\n"
    "  movabs $0xB2B2B2B2B2B2B2B2, %rsi\n  movabs $0xB3B3B3B3B3B3B3B3, %rdi\n"
    "  movabs $0xB4B4B4B4B4B4B4B4, %r12\n  movabs $0xB5B5B5B5B5B5B5B5, %r13\n"
    "  movabs $0xB6B6B6B6B6B6B6B6, %r14\n  movabs $0xB7B7B7B7B7B7B7B7, %r15\n"
    "  jmp *%rax\n"
    "put:\n"
    "  pop %rax\n"
    "  mov %rax, captured(%rip)\n  mov %rsp, captured+8(%rip)\n"
    "  mov %rbx, captured+16(%rip)\n  mov %rbp, captured+24(%rip)\n"
    "  mov %rsi, captured+32(%rip)\n  mov %rdi, captured+40(%rip)\n"
    "  mov %r12, captured+48(%rip)\n  mov %r13, captured+56(%rip)\n"
    "  mov %r14, captured+64(%rip)\n  mov %r15, captured+72(%rip)\n"
    "  mov host_stack(%rip), %rsp\n"
    "  pop %r15\n  pop %r14\n  pop %r13\n  pop %r12\n  pop %rbp\n  pop %rbx\n"
    "  ret\n.popsection\n");

static uint8_t file[1 << 22];

static uint32_t u32(const uint8_t *at)
{
    uint32_t n;

    memcpy(&n, at, 4);
    return n;
}

static uint64_t u64(const uint8_t *at)
{
    uint64_t n;

    memcpy(&n, at, 8);
    return n;
}

/* Puts the address of `put` into the slots of imports of that name. */
static void bind(uint8_t *image, uint32_t descriptors)
{
    if (!descriptors)
        return;
    for (uint8_t *d = image + descriptors; u32(d + 12); d += 20) {
        uint32_t names = u32(d) ? u32(d) : u32(d + 16);
        uint8_t *slot = image + u32(d + 16);

        for (uint8_t *n = image + names; u64(n); n += 8, slot += 8)
            if (strcmp((char *)image + u32(n) + 2, "put") == 0) {
                uint64_t address = (uint64_t)put;

                memcpy(slot, &address, 8);
            }
    }
}

static void write_file(const char *name, const char *ending, const void *bytes, size_t size)
{
    char path[256];
    FILE *out;

    snprintf(path, sizeof path, "%s.%s", name, ending);
    out = fopen(path, "wb");
    if (!out || fwrite(bytes, 1, size, out) != size || fclose(out)) {
        perror(path);
        exit(2);
    }
}

int main(int argc, char **argv)
{
    static const char *names[] = {"rip", "rsp", "rbx", "rbp", "rsi",
                                  "rdi", "r12", "r13", "r14", "r15"};
    char text[1024] = "";
    FILE *in = argc == 3 ? fopen(argv[1], "rb") : NULL;
    uint8_t *pe, *sections, *image;
    uint64_t base;

    if (!in || !fread(file, 1, sizeof file, in))
        return 2;
    pe = file + u32(file + 60);
    sections = pe + 24 + (u32(pe + 20) & 0xFFFF);
    base = u64(pe + 48);
    image = mmap((void *)base, u32(pe + 80), PROT_READ | PROT_WRITE | PROT_EXEC,
                 MAP_PRIVATE | MAP_ANONYMOUS | MAP_FIXED_NOREPLACE, -1, 0);
    if ((uint64_t)image != base
        || mmap((void *)STACK_AT, STACK_SIZE, PROT_READ | PROT_WRITE,
                MAP_PRIVATE | MAP_ANONYMOUS | MAP_FIXED_NOREPLACE, -1, 0) != (void *)STACK_AT)
        return 2;
    for (uint32_t k = 0; k < (u32(pe + 6) & 0xFFFF); k++) {
        uint8_t *s = sections + 40 * k;
        uint32_t size = u32(s + 8) < u32(s + 16) ? u32(s + 8) : u32(s + 16);

        memcpy(image + u32(s + 12), file + u32(s + 20), size);
    }
    bind(image, u32(pe + 144));
    enter(image + u32(pe + 40), STACK_AT + STACK_SIZE, (uint64_t)put);
    for (int k = 0; k < 10; k++)
        sprintf(text + strlen(text), "%s %" PRIx64 "\n", names[k], captured[k]);
    sprintf(text + strlen(text), "base %" PRIx64 "\nstack %" PRIx64 "\n", base, captured[1]);
    write_file(argv[2], "registers", text, strlen(text));
    write_file(argv[2], "stack", (void *)captured[1], STACK_AT + STACK_SIZE - captured[1]);
    return 0;
}
