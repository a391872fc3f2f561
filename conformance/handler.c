/* The handler of C functions with __try, __C_specific_handler, as Windows has it: linked with a case
 * it takes the place of the one that the system's library exports. So a difference that is there
 * with the system's handler alone is that handler's.
 *
 * The scope table of a function has a row for each guarded section, inner ones first (Microsoft x64
 * ABI, "x64 exception handling", Language-specific handler). */
#define __C_specific_handler system_handler
#include <windows.h>
#undef __C_specific_handler

typedef SCOPE_TABLE_AMD64 SCOPE_TABLE;
typedef LONG (*Filter)(EXCEPTION_POINTERS *pointers, PVOID frame);
typedef void (*Termination)(BOOLEAN is_abnormal, PVOID frame);

#define ALWAYS_ACCEPTS 1
#define UNWINDING (EXCEPTION_UNWINDING | EXCEPTION_EXIT_UNWIND)

/* Whether an offset of the image is in the guarded section of a row. */
static BOOL holds(const SCOPE_TABLE *table, DWORD row, ULONG64 offset) {
  return table->ScopeRecord[row].BeginAddress <= offset
      && offset < table->ScopeRecord[row].EndAddress;
}

/* Asks the filters of the rows that hold the point of the exception, the innermost first. */
static EXCEPTION_DISPOSITION search(EXCEPTION_RECORD *record, PVOID frame, CONTEXT *context,
                                    DISPATCHER_CONTEXT *dispatch) {
  const SCOPE_TABLE *table = dispatch->HandlerData;
  EXCEPTION_POINTERS pointers = {record, context};
  char *base = (char *)dispatch->ImageBase;
  DWORD row;
  for (row = dispatch->ScopeIndex; row < table->Count; row++) {
    DWORD handler = table->ScopeRecord[row].HandlerAddress;
    DWORD block = table->ScopeRecord[row].JumpTarget;
    LONG answer = 1;
    if (!holds(table, row, dispatch->ControlPc - dispatch->ImageBase) || block == 0) continue;
    if (handler != ALWAYS_ACCEPTS) answer = ((Filter)(base + handler))(&pointers, frame);
    if (answer < 0) return ExceptionContinueExecution;
    if (answer > 0)
      RtlUnwindEx(frame, base + block, record, (PVOID)(ULONG_PTR)record->ExceptionCode, context,
                  dispatch->HistoryTable);
  }
  return ExceptionContinueSearch;
}

/* Runs the __finally blocks of the rows that hold the point of the exception, the innermost first.
 * In the frame that the unwinding goes to, it ends at the statement that accepted, or at a section
 * that holds the target. A block that raises isn't run again: the next row is kept. */
static void unwind(EXCEPTION_RECORD *record, PVOID frame, DISPATCHER_CONTEXT *dispatch) {
  const SCOPE_TABLE *table = dispatch->HandlerData;
  ULONG64 target = dispatch->TargetIp - dispatch->ImageBase;
  BOOL is_target = (record->ExceptionFlags & EXCEPTION_TARGET_UNWIND) != 0;
  DWORD row;
  for (row = dispatch->ScopeIndex; row < table->Count; row++) {
    DWORD block = table->ScopeRecord[row].JumpTarget;
    if (!holds(table, row, dispatch->ControlPc - dispatch->ImageBase)) continue;
    if (is_target && (block == target || holds(table, row, target))) return;
    if (block != 0) continue;
    dispatch->ScopeIndex = row + 1;
    ((Termination)(dispatch->ImageBase + table->ScopeRecord[row].HandlerAddress))(TRUE, frame);
  }
}

EXCEPTION_DISPOSITION __C_specific_handler(EXCEPTION_RECORD *record, PVOID frame, CONTEXT *context,
                                           DISPATCHER_CONTEXT *dispatch) {
  if (!(record->ExceptionFlags & UNWINDING)) return search(record, frame, context, dispatch);
  unwind(record, frame, dispatch);
  return ExceptionContinueSearch;
}
