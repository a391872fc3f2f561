/* Unwinds every instruction boundary of a compiled image by Windows' own RtlVirtualUnwind, and
 * compares with the caller that the frame must have.
 *
 *     check_unwinding.exe IMAGE < BOUNDARIES
 *
 * BOUNDARIES has the address of each instruction in hexadecimal digits, as a disassembler gives it.
 * The image is mapped, not started. Each function of its function table is entered with a planted
 * return address, stack and nonvolatile registers. Its prologue is run by the processor, one
 * instruction at a time (the trap flag), so the state at each of its boundaries is the true one: no
 * unwind code has a part in it. The body has the state that the prologue left: nothing of it is run
 * and volatile registers are set to rubbish. From each epilogue's first instruction the processor
 * runs again, up to the planted return address. At each boundary RtlVirtualUnwind has to give that
 * address, the stack pointer above it, and the planted registers. Outside of all functions of the
 * table, as in a thunk, there must be no entry: there the stack pointer has the return address. */
#include <stdio.h>
#include <stdlib.h>
#include <string.h>
#include <windows.h>

#define STACK_SIZE 0x40000
#define STACK_ABOVE 0x1000
#define TRAP_FLAG 0x100
#define MOST_STEPS 10000
#define RUBBISH 0xDEADBEEFDEADBEEFULL

/* the image as it is mapped, its function table, and the boundaries, as offsets from its base */
static char *image;
static RUNTIME_FUNCTION *table;
static DWORD table_count;
static DWORD *boundaries;
static size_t boundary_count;

/* the function at work, what its caller has, and the state that its prologue leaves */
static RUNTIME_FUNCTION *function;
static CONTEXT entered, body, driver;
static DWORD64 return_address;

/* where stepping ends, and what it is for */
static DWORD64 stop_at;
static volatile BOOL is_stepping;
static int steps;

static size_t in_prologues, in_bodies, in_epilogues, in_leaves, wrong;

static void die(const char *what) {
  fprintf(stderr, "check_unwinding: %s\n", what);
  exit(2);
}

static void complain(const char *what, DWORD64 at) {
  if (++wrong <= 20) printf("wrong at %llx: %s\n", at - (DWORD64)image, what);
}

/* Whether two contexts have the same nonvolatile registers. */
static BOOL same_nonvolatile(const CONTEXT *a, const CONTEXT *b) {
  return a->Rbx == b->Rbx && a->Rbp == b->Rbp && a->Rsi == b->Rsi && a->Rdi == b->Rdi &&
         a->R12 == b->R12 && a->R13 == b->R13 && a->R14 == b->R14 && a->R15 == b->R15 &&
         memcmp(&a->Xmm6, &b->Xmm6, 10 * sizeof a->Xmm6) == 0;
}

/* Unwinds one frame of the function at work from this state, and compares. */
static void check(const CONTEXT *state) {
  static CONTEXT caller;
  DWORD64 base, frame;
  void *data;
  RUNTIME_FUNCTION *entry = RtlLookupFunctionEntry(state->Rip, &base, NULL);
  if (entry == NULL || entry->BeginAddress != function->BeginAddress) {
    complain("another entry", state->Rip);
    return;
  }
  caller = *state;
  RtlVirtualUnwind(UNW_FLAG_NHANDLER, base, state->Rip, entry, &caller, &data, &frame, NULL);
  if (caller.Rip != return_address) complain("the return address", state->Rip);
  if (caller.Rsp != entered.Rsp + 8) complain("the stack pointer", state->Rip);
  if (!same_nonvolatile(&caller, &entered)) complain("a nonvolatile register", state->Rip);
}

static BOOL is_in_function(DWORD64 rip) {
  return rip >= (DWORD64)image + function->BeginAddress &&
         rip < (DWORD64)image + function->EndAddress;
}

/* After each instruction: the state is checked, up to the place where stepping ends. What the
 * prologue calls (__chkstk) is run too, and not checked. */
static LONG CALLBACK on_step(EXCEPTION_POINTERS *pointers) {
  CONTEXT *state = pointers->ContextRecord;
  if (!is_stepping || pointers->ExceptionRecord->ExceptionCode != EXCEPTION_SINGLE_STEP) {
    return EXCEPTION_CONTINUE_SEARCH;
  }
  state->EFlags &= ~TRAP_FLAG;
  if (state->Rip != stop_at && ++steps < MOST_STEPS) {
    if (is_in_function(state->Rip)) {
      check(state);
      stop_at == return_address ? in_epilogues++ : in_prologues++;
    }
    state->EFlags |= TRAP_FLAG;
    return EXCEPTION_CONTINUE_EXECUTION;
  }
  if (state->Rip != stop_at) complain("stepping doesn't end", state->Rip);
  if (stop_at == return_address) {
    if (state->Rsp != entered.Rsp + 8 || !same_nonvolatile(state, &entered)) {
      complain("the epilogue returns with other registers", state->Rip);
    }
  } else {
    body = *state;
  }
  is_stepping = FALSE;
  *state = driver;
  return EXCEPTION_CONTINUE_EXECUTION;
}

/* Runs the processor from a state, instruction by instruction, until it comes to an address. */
static void step(const CONTEXT *from, DWORD64 to) {
  static CONTEXT start;
  start = *from;
  /* an exception's context says that more follows it, which a copy lacks */
  start.ContextFlags = CONTEXT_FULL;
  start.EFlags |= TRAP_FLAG;
  stop_at = to;
  steps = 0;
  is_stepping = TRUE;
  RtlCaptureContext(&driver);
  if (!is_stepping) return;
  RtlRestoreContext(&start, NULL);
  die("a context can't be set");
}

/* The state of a call of the function: each register that it must keep has a value of its own. */
static void plant(char *stack) {
  DWORD64 *slots = (DWORD64 *)(stack + STACK_SIZE - STACK_ABOVE);
  DWORD64 *kept[8] = {&entered.Rbx, &entered.Rbp, &entered.Rsi, &entered.Rdi,
                      &entered.R12, &entered.R13, &entered.R14, &entered.R15};
  int k;
  memset(stack, 0xA5, STACK_SIZE);
  RtlCaptureContext(&entered);
  for (k = 0; k < 8; k++) *kept[k] = 0x1111111111111111ULL * (k + 1);
  memset(&entered.Xmm6, 0x5A, 10 * sizeof entered.Xmm6);
  for (k = 0; k < 10; k++) (&entered.Xmm6)[k].Low = 0x600 + k;
  /* a filter gets the exception's pointers and a frame, a __finally block a flag and a frame */
  entered.Rcx = entered.Rdx = (DWORD64)(slots + 64);
  entered.Rsp = (DWORD64)(slots + 1);
  entered.Rip = (DWORD64)image + function->BeginAddress;
  *(DWORD64 *)entered.Rsp = return_address;
}

/* Whether an instruction is `pop`, or what an epilogue may begin with: `add rsp`, `lea rsp`. */
static BOOL is_pop(const unsigned char *at) {
  return (at[0] & 0xF8) == 0x58 || (at[0] == 0x41 && (at[1] & 0xF8) == 0x58);
}

static BOOL is_epilogue_begin(const unsigned char *at) {
  return (at[0] == 0x48 && at[2] == 0xC4 && (at[1] == 0x83 || at[1] == 0x81)) ||
         (at[0] == 0x48 && at[1] == 0x8D && ((at[2] & 0x38) == 0x20));
}

/* The index of the first instruction of the epilogue that ends with this `ret`; of a `ret` alone it
 * is its own. */
static size_t epilogue_begin(size_t ret, size_t first) {
  size_t k = ret;
  while (k > first && is_pop((unsigned char *)image + boundaries[k - 1])) k--;
  if (k > first && is_epilogue_begin((unsigned char *)image + boundaries[k - 1])) k--;
  return k;
}

/* Checks the boundaries of the function at work, by their indices. The stack as the prologue
 * left it is kept, since the traps of an epilogue write over what it has popped. */
static void check_function(size_t first, size_t end, char *stack, char *left) {
  const unsigned char *info = (unsigned char *)image + function->UnwindData;
  DWORD64 prologue_end = (DWORD64)image + function->BeginAddress + info[1];
  char *is_done = calloc(end - first, 1);
  size_t k, at, before = in_prologues;
  static CONTEXT state;
  if (is_done == NULL) die("no memory");
  plant(stack);
  if (info[1] != 0) {
    check(&entered);
    in_prologues++;
    step(&entered, prologue_end);
  } else {
    body = entered;
  }
  for (k = first; k < end && (DWORD64)image + boundaries[k] < prologue_end; k++) {
    is_done[k - first] = 1;
    before++;
  }
  memcpy(left, stack, STACK_SIZE);
  if (before != in_prologues) complain("a boundary of the prologue isn't reached", entered.Rip);
  body.EFlags &= ~TRAP_FLAG;
  body.Rax = body.Rcx = body.R8 = body.R9 = body.R10 = body.R11 = RUBBISH;
  for (; k < end; k++) {
    if ((unsigned char)image[boundaries[k]] != 0xC3) continue;
    at = epilogue_begin(k, first);
    if (at == k) continue;
    memset(is_done + at + 1 - first, 1, k - at);
    state = body;
    state.Rip = (DWORD64)image + boundaries[at];
    step(&state, return_address);
    memcpy(stack, left, STACK_SIZE);
  }
  for (k = first; k < end; k++) {
    if (is_done[k - first]) continue;
    state = body;
    state.Rip = (DWORD64)image + boundaries[k];
    check(&state);
    in_bodies++;
  }
  free(is_done);
}

static void read_boundaries(DWORD64 image_base) {
  size_t room = 0;
  unsigned long long address;
  while (scanf("%llx", &address) == 1) {
    if (boundary_count == room) {
      room = 2 * room + 1024;
      boundaries = realloc(boundaries, room * sizeof *boundaries);
      if (boundaries == NULL) die("no memory");
    }
    boundaries[boundary_count++] = (DWORD)(address - image_base);
  }
}

/* Maps the file's headers and sections at an address of Windows' choice; answers its image base. */
static DWORD64 map(const char *name) {
  FILE *file = fopen(name, "rb");
  IMAGE_NT_HEADERS64 *headers;
  IMAGE_SECTION_HEADER *section;
  IMAGE_DATA_DIRECTORY *directory;
  char *bytes;
  long size;
  int k;
  if (file == NULL || fseek(file, 0, SEEK_END) != 0) die("the image can't be read");
  size = ftell(file);
  rewind(file);
  bytes = malloc(size);
  if (bytes == NULL || fread(bytes, 1, size, file) != (size_t)size) die("the image can't be read");
  fclose(file);
  headers = (IMAGE_NT_HEADERS64 *)(bytes + ((IMAGE_DOS_HEADER *)bytes)->e_lfanew);
  image = VirtualAlloc(NULL, headers->OptionalHeader.SizeOfImage, MEM_RESERVE | MEM_COMMIT,
                       PAGE_EXECUTE_READWRITE);
  if (image == NULL) die("no memory for the image");
  section = IMAGE_FIRST_SECTION(headers);
  for (k = 0; k < headers->FileHeader.NumberOfSections; k++) {
    memcpy(image + section[k].VirtualAddress, bytes + section[k].PointerToRawData,
           section[k].SizeOfRawData);
  }
  directory = &headers->OptionalHeader.DataDirectory[IMAGE_DIRECTORY_ENTRY_EXCEPTION];
  table = (RUNTIME_FUNCTION *)(image + directory->VirtualAddress);
  table_count = directory->Size / sizeof *table;
  if (!RtlAddFunctionTable(table, table_count, (DWORD64)image)) die("the table isn't taken");
  return headers->OptionalHeader.ImageBase;
}

int main(int count, char **words) {
  char stack[STACK_SIZE] __attribute__((aligned(16)));
  char *left = malloc(STACK_SIZE);
  size_t k = 0, first;
  DWORD entry;
  DWORD64 base;
  if (left == NULL) die("no memory");
  if (count != 2) die("check_unwinding IMAGE < BOUNDARIES");
  read_boundaries(map(words[1]));
  return_address = (DWORD64)&die;
  AddVectoredExceptionHandler(1, on_step);
  for (entry = 0; entry <= table_count; entry++) {
    /* what lies before the entry, and after the last one, is in no function */
    DWORD next = entry < table_count ? table[entry].BeginAddress : ~(DWORD)0;
    while (k < boundary_count && boundaries[k] < next) {
      if (RtlLookupFunctionEntry((DWORD64)image + boundaries[k], &base, NULL) != NULL) {
        complain("an entry outside of all functions", (DWORD64)image + boundaries[k]);
      }
      in_leaves++;
      k++;
    }
    if (entry == table_count) break;
    function = &table[entry];
    if (k == boundary_count || boundaries[k] != function->BeginAddress) die("no such boundary");
    for (first = k; k < boundary_count && boundaries[k] < function->EndAddress;) k++;
    check_function(first, k, stack, left);
  }
  printf("%lu functions: %llu boundaries in prologues, %llu in bodies, %llu in epilogues; "
         "%llu outside; %llu wrong\n",
         table_count, (unsigned long long)in_prologues, (unsigned long long)in_bodies,
         (unsigned long long)in_epilogues, (unsigned long long)in_leaves,
         (unsigned long long)wrong);
  return wrong != 0;
}
