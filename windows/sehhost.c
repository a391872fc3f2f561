/* The host of compiled images on Windows: the library sehhost.dll that they import.
 *
 * RaiseException, __C_specific_handler and _local_unwind are Windows' own, forwarded by sehhost.def.
 * put and protect are the two services that Windows lacks, and the arena is memory that protect
 * opens page by page. The two services of vectored handlers are Windows' own but for their answers.
 * The data stack is memory that images read and write, with their pointer in its first bytes. */
#include <windows.h>

#define ARENA ((char *)0x20000000)
#define ARENA_SIZE 0x100000
#define PAGE_SIZE 0x1000
#define DATA_STACK ((char *)0x30000000)
#define DATA_STACK_SIZE 0x400000
#define FIRST_PART (DATA_STACK + 16)
#define MOST_HANDLERS 16

/* The vectored handlers that are there: the name thunk of each, and Windows' handle of it. */
static struct {
  PVECTORED_EXCEPTION_HANDLER thunk;
  PVOID handle;
} handlers[MOST_HANDLERS];
static int handler_count;

/* The index of a handler, or the number of handlers where it is none of them. */
static int index_of(PVECTORED_EXCEPTION_HANDLER thunk) {
  int index = 0;
  while (index < handler_count && handlers[index].thunk != thunk) index++;
  return index;
}

/* Makes a name thunk a vectored handler, in front of the others where first isn't 0, else behind
 * them. Answers 1; answers 0 and changes nothing where it is one already or 16 are there. */
int add_vectored_handler(unsigned first, PVECTORED_EXCEPTION_HANDLER thunk) {
  PVOID handle;
  if (index_of(thunk) < handler_count || handler_count == MOST_HANDLERS) return 0;
  handle = AddVectoredExceptionHandler(first, thunk);
  if (handle == NULL) return 0;
  handlers[handler_count].thunk = thunk;
  handlers[handler_count].handle = handle;
  handler_count++;
  return 1;
}

/* Makes a name thunk a vectored handler no more. Answers 1, or 0 where it was none. */
int remove_vectored_handler(PVECTORED_EXCEPTION_HANDLER thunk) {
  int index = index_of(thunk);
  if (index == handler_count) return 0;
  RemoveVectoredExceptionHandler(handlers[index].handle);
  handlers[index] = handlers[--handler_count];
  return 1;
}

/* Writes a number in decimal digits and a line feed to standard output. */
__declspec(dllexport) void put(long long number) {
  char line[24];
  char *end = line + sizeof line;
  char *begin = end;
  unsigned long long rest = number < 0 ? 0ULL - (unsigned long long)number : (unsigned long long)number;
  DWORD written;
  *--begin = '\n';
  do {
    *--begin = (char)('0' + rest % 10);
    rest /= 10;
  } while (rest != 0);
  if (number < 0) *--begin = '-';
  WriteFile(GetStdHandle(STD_OUTPUT_HANDLE), begin, (DWORD)(end - begin), &written, NULL);
}

/* Sets the rights of the page of the arena that holds the address: 0 none, 1 read, 2 read and write.
 * Answers 1; answers 0 and changes nothing outside the arena or for another mode. */
__declspec(dllexport) int protect(void *address, int mode) {
  static const DWORD rights[3] = {PAGE_NOACCESS, PAGE_READONLY, PAGE_READWRITE};
  char *at = address;
  DWORD old;
  if (at < ARENA || at >= ARENA + ARENA_SIZE || mode < 0 || mode > 2) return 0;
  at = ARENA + (at - ARENA) / PAGE_SIZE * PAGE_SIZE;
  return VirtualProtect(at, PAGE_SIZE, rights[mode], &old) != 0;
}

/* Takes memory of a size at an address, with these rights: whether it could be had there. */
static BOOL take(char *address, SIZE_T size, DWORD rights) {
  return VirtualAlloc(address, size, MEM_RESERVE | MEM_COMMIT, rights) == address;
}

/* Takes the memory of the arena, with no rights, and that of the data stack, whose pointer is where
 * the first part begins. An image whose memory can't be had isn't started. */
BOOL WINAPI DllMain(HINSTANCE self, DWORD reason, LPVOID reserved) {
  (void)self;
  (void)reserved;
  if (reason != DLL_PROCESS_ATTACH) return TRUE;
  if (!take(ARENA, ARENA_SIZE, PAGE_NOACCESS)) return FALSE;
  if (!take(DATA_STACK, DATA_STACK_SIZE, PAGE_READWRITE)) return FALSE;
  *(char **)DATA_STACK = FIRST_PART;
  return TRUE;
}
