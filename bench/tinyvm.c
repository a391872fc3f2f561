/* A plain interpreter of decoded instructions in C, to measure the machine of seh against: what a
   programmer would write without proofs. Registers in an array, a stack whose bounds are checked
   at each access, a limit on turns, one switch. No host, no tables, no memory but the stack.

       tinyvm registers TURNS      three instructions: mov rax, n; push rax; ret
       tinyvm loop TURNS           the loop of `int i = 0; while (1) i = i + 1;`, as seh compiles it
       tinyvm raises COUNT FRAMES  exceptions in a function that calls itself so often: a handler
                                   is searched for and unwound to, frame by frame, by a table of
                                   1,000 ranges, sorted by address, by halves

   It prints what it computed, so that no work is left out. Built by `cc -O2`. */
#include <inttypes.h>
#include <stdint.h>
#include <stdio.h>
#include <stdlib.h>
#include <string.h>

enum { RAX, RCX, RDX, RBX, RSP, REGISTERS = 16 };
enum { STACK_SIZE = 1 << 20, STACK_BASE = 0x10000000, CODE_BASE = 0x140001000, CODE_STEP = 16 };

enum operation { MOVE_NUMBER, MOVE, LOAD, STORE, ADD32, COMPARE, JUMP_EQUAL, JUMP, NOTHING, PUSH,
                 RETURN, SUB32, LOWER_STACK, CALL, RAISE };

struct instruction {
    enum operation operation;
    uint8_t to, from;
    int64_t number; /* a displacement, a constant, or the index that is jumped to */
};

enum end { OUT_OF_TURNS, BAD_ACCESS, BAD_CODE, RAISED };

struct machine {
    uint64_t registers[REGISTERS];
    uint64_t next; /* the index of the next instruction */
    int is_equal;
    uint8_t *stack;
};

/* The eight bytes at an address of the stack, or NULL. */
static uint8_t *word(struct machine *machine, uint64_t address)
{
    uint64_t at = address - STACK_BASE;
    return at <= STACK_SIZE - 8 ? machine->stack + at : NULL;
}

static enum end run(struct machine *machine, const struct instruction *code, size_t count,
                    uint64_t turns)
{
    uint64_t *r = machine->registers;
    for (; turns; turns--) {
        if (machine->next >= count)
            return BAD_CODE;
        const struct instruction *it = &code[machine->next++];
        uint8_t *at;
        switch (it->operation) {
        case MOVE_NUMBER: r[it->to] = (uint64_t)it->number; break;
        case MOVE: r[it->to] = r[it->from]; break;
        case LOAD:
            if (!(at = word(machine, r[it->from] + (uint64_t)it->number)))
                return BAD_ACCESS;
            memcpy(&r[it->to], at, 8);
            break;
        case STORE:
            if (!(at = word(machine, r[it->to] + (uint64_t)it->number)))
                return BAD_ACCESS;
            memcpy(at, &r[it->from], 8);
            break;
        case ADD32: r[it->to] = (uint32_t)(r[it->to] + r[it->from]); break;
        case COMPARE: machine->is_equal = r[it->to] == (uint64_t)it->number; break;
        case JUMP_EQUAL:
            if (machine->is_equal)
                machine->next = (uint64_t)it->number;
            break;
        case JUMP: machine->next = (uint64_t)it->number; break;
        case NOTHING: break;
        case PUSH:
            if (!(at = word(machine, r[RSP] - 8)))
                return BAD_ACCESS;
            memcpy(at, &r[it->from], 8);
            r[RSP] -= 8;
            break;
        case SUB32: r[it->to] = (uint32_t)(r[it->to] - r[it->from]); break;
        case LOWER_STACK: r[RSP] -= (uint64_t)it->number; break;
        case CALL:
            if (!(at = word(machine, r[RSP] - 8)))
                return BAD_ACCESS;
            r[RSP] -= 8;
            machine->next = CODE_BASE + machine->next * CODE_STEP;
            memcpy(at, &machine->next, 8);
            machine->next = (uint64_t)it->number;
            break;
        case RAISE: return RAISED;
        case RETURN:
            if (!(at = word(machine, r[RSP])))
                return BAD_ACCESS;
            memcpy(&machine->next, at, 8);
            machine->next = (machine->next - CODE_BASE) / CODE_STEP;
            r[RSP] += 8;
            break;
        }
    }
    return OUT_OF_TURNS;
}

static const struct instruction in_registers[] = {
    {MOVE_NUMBER, RAX, 0, CODE_BASE}, {PUSH, 0, RAX, 0}, {RETURN, 0, 0, 0}};

static const struct instruction loop[] = {
    {MOVE_NUMBER, RAX, 0, 0}, {MOVE, RBX, RAX, 0},
    {NOTHING, 0, 0, 0},
    {MOVE_NUMBER, RAX, 0, 1}, {STORE, RSP, RAX, 0x20}, {LOAD, RAX, RSP, 0x20},
    {COMPARE, RAX, 0, 0}, {JUMP_EQUAL, 0, 0, 21},
    {MOVE, RAX, RBX, 0}, {STORE, RSP, RAX, 0x20},
    {MOVE_NUMBER, RAX, 0, 1}, {STORE, RSP, RAX, 0x28},
    {LOAD, RAX, RSP, 0x20}, {LOAD, RCX, RSP, 0x28}, {ADD32, RAX, RCX, 0},
    {STORE, RSP, RAX, 0x20}, {LOAD, RAX, RSP, 0x20}, {MOVE, RBX, RAX, 0},
    {NOTHING, 0, 0, 0}, {NOTHING, 0, 0, 0}, {JUMP, 0, 0, 2}, {NOTHING, 0, 0, 0}};

/* `int down(int n) { if (n) return down(n - 1) + 1; raise(); }`, up to its exception, as seh
   compiles it, behind its caller's call */
static const struct instruction down[] = {
    {CALL, 0, 0, 1},
    {PUSH, 0, RBX, 0}, {LOWER_STACK, 0, 0, 0x50}, {NOTHING, 0, 0, 0}, {MOVE, RBX, RCX, 0},
    {MOVE, RAX, RBX, 0}, {STORE, RSP, RAX, 0x20}, {LOAD, RAX, RSP, 0x20},
    {COMPARE, RAX, 0, 0}, {JUMP_EQUAL, 0, 0, 21},
    {MOVE, RAX, RBX, 0}, {STORE, RSP, RAX, 0x20}, {MOVE_NUMBER, RAX, 0, 1},
    {STORE, RSP, RAX, 0x28}, {LOAD, RAX, RSP, 0x20}, {LOAD, RCX, RSP, 0x28}, {SUB32, RAX, RCX, 0},
    {STORE, RSP, RAX, 0x20}, {LOAD, RCX, RSP, 0x20}, {LOAD, RDX, RSP, 0x28},
    {CALL, 0, 0, 1}, {RAISE, 0, 0, 0}};

/* ---- exceptions over frames */

struct range {
    uint64_t begin, end;
    uint32_t frame_size;
    int has_handler;
};

enum { RANGES = 1000 };

static const struct range *covering(const struct range *ranges, uint64_t address)
{
    size_t low = 0, high = RANGES;
    while (low < high) {
        size_t middle = low + (high - low) / 2;
        if (ranges[middle].end <= address)
            low = middle + 1;
        else if (address < ranges[middle].begin)
            high = middle;
        else
            return &ranges[middle];
    }
    return NULL;
}

/* Walks up from a frame to the one that has a handler, and says how many frames it passed. */
static uint64_t walked(struct machine *machine, const struct range *ranges, uint64_t rip,
                       uint64_t rsp)
{
    for (uint64_t frames = 0;; frames++) {
        const struct range *range = covering(ranges, rip);
        uint8_t *at;
        if (!range)
            return 0;
        if (range->has_handler)
            return frames;
        rsp += range->frame_size;
        if (!(at = word(machine, rsp)))
            return 0;
        memcpy(&rip, at, 8);
        rsp += 8;
    }
}

static uint64_t raises(struct machine *machine, uint64_t count, uint64_t frames)
{
    static struct range ranges[RANGES];
    uint64_t passed = 0, top = machine->registers[RSP];
    uint64_t begin = CODE_BASE + CODE_STEP, end = CODE_BASE + CODE_STEP * (sizeof down / sizeof *down);
    ranges[0] = (struct range){CODE_BASE, CODE_BASE + 1, 0, 1};
    ranges[0].end = begin + 1;
    ranges[1] = (struct range){begin + 1, end, 0x58, 0};
    for (uint64_t k = 2; k < RANGES; k++)
        ranges[k] = (struct range){end + 64 * k, end + 64 * k + 64, 0x38, 0};
    for (; count; count--) {
        machine->registers[RSP] = top;
        machine->registers[RCX] = frames;
        machine->next = 0;
        if (run(machine, down, sizeof down / sizeof *down, UINT64_MAX) != RAISED)
            return 0;
        uint64_t rip = CODE_BASE + machine->next * CODE_STEP - 1;
        passed += walked(machine, ranges, rip, machine->registers[RSP]);
        passed += walked(machine, ranges, rip, machine->registers[RSP]);
    }
    return passed;
}

int main(int count, char **words)
{
    struct machine machine = {.stack = calloc(STACK_SIZE, 1)};
    machine.registers[RSP] = STACK_BASE + STACK_SIZE - 256;
    if (!machine.stack || count < 3)
        return 2;
    uint64_t number = strtoull(words[2], NULL, 10);
    if (!strcmp(words[1], "raises") && count == 4) {
        printf("%" PRIu64 " frames\n", raises(&machine, number, strtoull(words[3], NULL, 10)));
        return 0;
    }
    int is_loop = !strcmp(words[1], "loop");
    const struct instruction *code = is_loop ? loop : in_registers;
    size_t length = is_loop ? sizeof loop / sizeof *loop : sizeof in_registers / sizeof *in_registers;
    enum end end = run(&machine, code, length, number);
    printf("end %d, rax %" PRIu64 "\n", end, machine.registers[RAX]);
    return 0;
}
