/* The host of the cases, for compilers of 64-bit Windows programs that have __try: cl, clang-cl, and
 * clang for Windows. It goes in front of a case on the command line, so that cases stay as they are:
 *
 *     cl /FIhost.h case.c
 *     clang --target=x86_64-w64-mingw32 -fms-extensions -include host.h -c case.c
 */
#ifndef HOST_H
#define HOST_H

#if !defined(_MSC_VER) && !defined(__clang__)
#error "this compiler has no __try: take cl, clang-cl, or clang with -fms-extensions"
#endif

#define WIN32_LEAN_AND_MEAN
#include <windows.h>
#include <stdio.h>

/* mingw's own macro has no parentheses around its cast */
#undef GetExceptionInformation
#define GetExceptionInformation() ((EXCEPTION_POINTERS *)_exception_info())

#define HOST_ARENA ((char *)0x20000000)
#define HOST_ARENA_SIZE 0x100000
#define HOST_PAGE_SIZE 0x1000
#define HOST_MOST_HANDLERS 4

/* Writes a number and a line feed at once, so that nothing is lost where the program crashes. */
static void put(long long number) {
  printf("%lld\n", number);
  fflush(stdout);
}

/* Sets the rights of the page of the arena that holds the address: 0 none, 1 read, 2 read and write.
 * The arena is taken by the first call; before it nothing is there, and each access is refused. */
static int protect(void *address, int mode) {
  static const DWORD rights[3] = {PAGE_NOACCESS, PAGE_READONLY, PAGE_READWRITE};
  static char *arena;
  char *at = (char *)((unsigned long long)address / HOST_PAGE_SIZE * HOST_PAGE_SIZE);
  DWORD old;
  if (at < HOST_ARENA || at >= HOST_ARENA + HOST_ARENA_SIZE || mode < 0 || mode > 2) return 0;
  if (!arena) {
    arena = VirtualAlloc(HOST_ARENA, HOST_ARENA_SIZE, MEM_RESERVE | MEM_COMMIT, PAGE_NOACCESS);
    if (arena != HOST_ARENA) ExitProcess(99);
  }
  return VirtualProtect(at, HOST_PAGE_SIZE, rights[mode], &old) != 0;
}

/* A vectored handler of a case takes the code and the flags. Windows calls one of these functions,
 * which calls the handler of its number. */
typedef int (*host_handler)(unsigned code, unsigned flags);
static host_handler host_handlers[HOST_MOST_HANDLERS];
static PVOID host_handles[HOST_MOST_HANDLERS];

static LONG host_call(int number, EXCEPTION_POINTERS *pointers) {
  EXCEPTION_RECORD *record = pointers->ExceptionRecord;
  return host_handlers[number](record->ExceptionCode, record->ExceptionFlags);
}
static LONG CALLBACK host_call_0(EXCEPTION_POINTERS *pointers) { return host_call(0, pointers); }
static LONG CALLBACK host_call_1(EXCEPTION_POINTERS *pointers) { return host_call(1, pointers); }
static LONG CALLBACK host_call_2(EXCEPTION_POINTERS *pointers) { return host_call(2, pointers); }
static LONG CALLBACK host_call_3(EXCEPTION_POINTERS *pointers) { return host_call(3, pointers); }

/* The number of a handler, or of the first free place for 0; -1 where there is none. */
static int host_number(host_handler handler) {
  int number = 0;
  while (number < HOST_MOST_HANDLERS && host_handlers[number] != handler) number++;
  return number < HOST_MOST_HANDLERS ? number : -1;
}

/* Adds a handler, in front of the others where first isn't 0: 1, or 0 where it is one already. */
static int host_add(unsigned first, host_handler handler) {
  static const PVECTORED_EXCEPTION_HANDLER calls[HOST_MOST_HANDLERS] = {host_call_0, host_call_1,
                                                                        host_call_2, host_call_3};
  int number = host_number(0);
  if (host_number(handler) >= 0 || number < 0) return 0;
  host_handlers[number] = handler;
  host_handles[number] = AddVectoredExceptionHandler(first, calls[number]);
  return host_handles[number] != NULL;
}

/* Removes a handler: 1, or 0 where it is none. */
static int host_remove(host_handler handler) {
  int number = host_number(handler);
  if (number < 0) return 0;
  host_handlers[number] = 0;
  return RemoveVectoredExceptionHandler(host_handles[number]) != 0;
}

#define AddVectoredExceptionHandler(first, handler) host_add(first, handler)
#define RemoveVectoredExceptionHandler(handler) host_remove(handler)

#endif
