/*
 * seh.h - the stack of 64-bit Windows code, unwound by the function tables of its images.
 *
 * The functions read the bytes of an image (PE32+, x64), bytes of a process's memory, and
 * registers, all of which the caller passes. They look at no file, no process and no state of
 * their own, and may be called from any number of threads at once. What each answers is proved to
 * be what the definitions say: those of the Microsoft x64 ABI ("x64 exception handling") as crates
 * pe_image, eh_tables, eh_index, abi_unwind, virtual_unwind, unwind_check, seh_views and seh_c have
 * them, in specs/. docs/LIBRARY.md says how to build the library, and how to use it: what to pass,
 * what each refusal means, what costs what, and which images are outside.
 *
 * seh_open looks at an image once, and fills a seh_view, plain data that the caller owns: nothing is
 * to be closed. The other functions take a view. A view may be copied, and lasts as long as the
 * bytes and the index that it points to. But for these two pointers and their counts a view is trusted for
 * nothing: whatever its numbers are, a call is safe and ends. By a view that seh_open filled, with
 * the bytes and the index as they were then, each answer is exact: that of opening the image anew. By
 * any other, an entry that is found is still one of the table in these bytes, and covers the address;
 * it may be missed.
 *
 * The bytes of an image are given in one of two forms, and there is a parameter for it, as
 * ImageDirectoryEntryToDataEx of dbghelp has:
 *
 *  - mapped is false: they are the image's file, whole. A section's bytes are its raw data.
 *  - mapped is true: they are memory from the image's base on, into which a loader mapped the image,
 *    its headers first. A section's bytes are at its RVA, and all of its size has to be there: pages
 *    that can't be read are passed as zeros. What a loader wrote there, as relocated addresses, is
 *    read as it is.
 *
 * Any bytes and any numbers may be passed as an image, as memory and as registers. What no clause
 * of a contract can say, the caller owes:
 *
 *  - A pointer isn't null, also where its count is 0. It is aligned for its type, and all that it
 *    points to may be read for as long as the call takes (of the last parameters: written).
 *  - Nothing else writes what is passed, and what is written overlaps nothing else that is passed.
 *  - A count of bytes, or of elements times their size, is below 2^63.
 *  - 64 KiB of stack are left, and for seh_check 1 MiB.
 *  - malloc, realloc and free are one allocator's, which aligns a block as C demands. No call is
 *    made in a signal handler that may have interrupted malloc. A call takes one block, of 32 bytes
 *    for each section of the image, since an image may have up to 65,535 of them; seh_scopes takes
 *    more for the imports, and seh_check for the instructions of a prologue at a time. A call
 *    gives back all that it takes; what it answers holds none.
 *
 * Addresses in an image (RVAs) count from its base. All numbers are little-endian, as in the
 * formats.
 */
#ifndef SEH_H
#define SEH_H

#include <stdbool.h>
#include <stddef.h>
#include <stdint.h>

#ifdef __cplusplus
extern "C" {
#endif

/* The version of what is declared here. It grows where a declaration changes. */
#define SEH_VERSION 3

/* How a call ended. Where it isn't SEH_OK, `at` and `more` of seh_status are what is said here, and
   0 where nothing is. */
enum seh_code {
    SEH_OK = 0,
    SEH_BAD_RANGES = 1,  /* the memory range number `at` begins below the end of the one before, or
                            passes the end of the addresses */
    SEH_NO_MEMORY = 2,   /* malloc answered null; nothing is said of what was passed */
    SEH_MORE = 3,        /* the array is full, and there is more */
    SEH_NO_FUNCTION = 4, /* no entry covers the address: code there is a leaf function */
    SEH_END = 5,         /* by seh_walk_modules: RIP is 0, where a stack ends */
    SEH_UNKNOWN_CODE = 6, /* by seh_walk_modules: RIP, which is `at`, lies in no module */

    /* The bytes are no image: the first check that fails. */
    SEH_IMAGE_TRUNCATED = 16, /* the header at offset `at` passes the end of the bytes */
    SEH_IMAGE_NOT_PE = 17,    /* the signature at offset `at` is missing */
    SEH_IMAGE_MACHINE = 18,   /* the field Machine is `at`, and not 0x8664 */
    SEH_IMAGE_MAGIC = 19,     /* the field Magic is `at`, and not 0x20B */
    SEH_IMAGE_LAYOUT = 20,    /* section number `at` doesn't lie as it must in bytes and image */
    SEH_IMAGE_IMPORT = 21,    /* import number `at` can't be read; by seh_scopes and seh_check */

    /* The function table, or the entry that is asked, can't be read: the first check that fails.
       `at` is the number of the entry, but for the first two. seh_open looks at the ranges of all
       entries and at nothing else of them, seh_check at all, the others at the one entry. */
    SEH_TABLE_TRUNCATED = 32,   /* the table or unwind info at RVA `at` isn't stored whole */
    SEH_TABLE_MISALIGNED = 33,  /* the table or unwind info at RVA `at` isn't 4-aligned */
    SEH_TABLE_EMPTY_RANGE = 34, /* the entry's begin isn't below its end */
    SEH_TABLE_UNSORTED = 35,    /* the entry begins below the end of the one before */
    SEH_TABLE_VERSION = 36,     /* the unwind info's version is `more`, and not 1; where a caller is
                                   found as Windows does, not 2 either */
    SEH_TABLE_FLAGS = 37,       /* the unwind info's flags aren't defined */
    SEH_TABLE_OPERATION = 38,   /* the unwind code at slot `more` isn't defined */
    SEH_TABLE_CODE_ORDER = 39,  /* the unwind code at slot `more` is out of order */
    SEH_TABLE_CHAIN = 40,       /* more than 32 unwind infos are chained */
    SEH_TABLE_SCOPE = 41,       /* scope record number `more` isn't within the image */

    /* The caller of a frame isn't found. */
    SEH_UNREADABLE = 48, /* the word of the stack at address `at` is needed, and no range has it:
                            pass more memory, and call again */
    SEH_BACKWARD = 49    /* the caller's stack pointer wouldn't be above `at`, that of the frame;
                            in a walk, and by SEH_PROFILE_OWN */
};

/* How a call ended: one of enum seh_code, and the numbers that it speaks of. */
typedef struct seh_status {
    uint32_t code;
    uint64_t at;
    uint64_t more;
} seh_status;

/* Bytes of a process's memory: `size` bytes from the address `at` on. Where several ranges are
   passed, each begins at or above the end of the one before, as a minidump has them when they are
   sorted. A thread's stack in one range is enough where its frames alone are asked. */
typedef struct seh_range {
    uint64_t at;
    const uint8_t *bytes;
    size_t size;
} seh_range;

/* A vector register of sixteen bytes, the low eight first. */
typedef struct seh_vector {
    uint64_t low, high;
} seh_vector;

/* RIP, RSP, the other nonvolatile integer registers, and XMM6 to XMM15 (Microsoft x64 ABI,
   "Caller/callee saved registers"): what a caller can rely on. Where the vector registers aren't
   known, has_vectors is 0; then those of a frame's caller don't count either. */
typedef struct seh_context {
    uint64_t rip, rsp, rbx, rbp, rsi, rdi, r12, r13, r14, r15;
    seh_vector xmm[10];   /* XMM6 to XMM15 */
    uint32_t has_vectors; /* not 0: they count */
} seh_context;

/* What may be set in the options of a view: frames are found by the project's own profile of the
   unwind procedure, in place of Windows' own. It looks for an epilogue past the prologue alone,
   knows fewer ends of epilogues, restores no vector register, so that has_vectors of a caller is 0,
   and refuses a frame whose caller's stack pointer isn't above its own. */
enum { SEH_PROFILE_OWN = 1 };

/* An image that was opened, and where it lies in a process; seh_open fills it. */
typedef struct seh_view {
    const uint8_t *bytes; /* the image, of `size` bytes, in the form that was passed */
    size_t size;
    const uint32_t *index; /* the index of its function table, of `index_count` numbers */
    size_t index_count;
    uint64_t base;           /* where it lies in the process; it may be set anew */
    uint64_t preferred_base; /* the image's own, ImageBase */
    uint64_t image_size;     /* how many bytes it takes in memory, SizeOfImage */
    uint64_t entry_point;    /* the RVA of its entry point */
    uint64_t functions;      /* how many entries its function table has */
    uint32_t shift;          /* how many low bits of an RVA the index leaves out */
    uint32_t mapped;         /* 0: the bytes are the image's file; else as a loader mapped it */
    uint32_t options;        /* 0, or SEH_PROFILE_OWN; it may be set anew */
} seh_view;

/* A frame. */
typedef struct seh_frame {
    seh_context caller;    /* the registers of its caller, after the return */
    uint64_t establisher;  /* the establisher frame: the frame register less its offset where it is
                              set, else RSP */
    uint64_t module_index; /* by seh_walk_modules, the index of the view that has its code; else 0 */
    uint32_t begin, end;   /* RVAs: the code of the entry that covers RIP, from begin to before end;
                              both are 0 in a leaf function, which has no entry */
    uint32_t handler;      /* the RVA of its language handler, where has_handler */
    bool has_handler;      /* there is a handler, which is asked: not in an epilogue, nor in a
                              prologue */
    bool in_body;          /* by SEH_PROFILE_OWN: RIP is in the body of a function, and not in its
                              prologue or epilogue, nor in a leaf function; else false */
} seh_frame;

/* An entry of a function table, with its unwind info (Microsoft x64 ABI, "struct
   RUNTIME_FUNCTION" and "struct UNWIND_INFO"). */
typedef struct seh_function {
    uint32_t begin, end;    /* RVAs: the code from begin to before end */
    uint32_t unwind_info;   /* the RVA of its unwind info */
    uint32_t handler;       /* the RVA of its language handler, where has_handler */
    uint32_t parents;       /* how many unwind infos its own is chained to */
    uint8_t prologue_size;  /* in bytes */
    uint8_t frame_register; /* its number in instructions (5: RBP); 0 where there is none */
    uint8_t frame_offset;   /* how many bytes it lies above the base of the frame */
    uint8_t flags;          /* 1 UNW_FLAG_EHANDLER, 2 UNW_FLAG_UHANDLER, 4 UNW_FLAG_CHAININFO */
    bool has_handler;
} seh_function;

/* A record of the scope table of __C_specific_handler (Windows headers, winnt.h,
   SCOPE_TABLE_AMD64): a __try. All are RVAs. */
typedef struct seh_scope {
    uint32_t begin, end;       /* its body: the code from begin to before end */
    uint32_t handler_address;  /* its __finally block, where jump_target is 0; else its filter, or
                                  1, which always accepts */
    uint32_t jump_target;      /* its __except block, or 0 */
} seh_scope;

/* A rule on an entry of a function table and its code (Microsoft x64 ABI, "x64 exception handling"
   and "Prolog and epilog"). */
enum seh_rule {
    SEH_RULE_NONE = 0,
    SEH_RULE_DECODE = 1,      /* no instruction that is known stands there, or it passes the end of
                                 the entry or of its prologue */
    SEH_RULE_CHAIN = 2,       /* the entry is chained to another one, and has codes, a prologue or
                                 another frame register than that one; or that one is chained
                                 itself, or is no entry of the table */
    SEH_RULE_CODES = 3,       /* unwind codes of no prologue: of a machine frame or an XMM register,
                                 at no instruction's end, of a register that is saved twice or isn't
                                 nonvolatile, of a place outside the allocation */
    SEH_RULE_PROLOGUE = 4,    /* an instruction of the prologue isn't what its code says */
    SEH_RULE_STACK_WRITE = 5, /* an instruction of the body writes RSP or the frame register */
    SEH_RULE_UNSAVED = 6,     /* an instruction of the body writes a nonvolatile register that no
                                 code saves; of a chained entry none of its function */
    SEH_RULE_EPILOGUE = 7     /* an epilogue doesn't give back exactly what the prologue took */
};

/* What is said of the code of an image. */
typedef struct seh_verdict {
    uint64_t entry; /* the number of the first entry in which a rule fails; how many entries there
                       are, where none does */
    uint64_t at;    /* the RVA at which it fails first in that entry; 0 where none does */
    uint32_t rule;  /* the first rule that fails there: one of enum seh_rule */
} seh_verdict;

/*
 * Opens an image: reads its headers and sections, and checks the order of its function table, whose
 * entries have to ascend. No entry's unwind info is read, and none of the imports. It costs the
 * sections, the entries and the room for the index together.
 *
 * bytes, size   the image
 * mapped        false: its file, whole; true: as a loader mapped it
 * base          where the image lies in the process; where that isn't known, any number will do for
 *               the functions that take an RVA
 * view          what is filled; written with SEH_OK alone
 * index, room   an array for an index of the function table, which the view then points to; what it
 *               holds with another status is not said. With none, where `room` is 0, a look-up halves
 *               the whole table. With n numbers it halves what begins or ends in one n-th of the
 *               image: 1,024 of them are much for most images
 */
seh_status seh_open(const uint8_t *bytes, size_t size, bool mapped, uint64_t base, seh_view *view,
                    uint32_t *index, size_t room);

/*
 * Finds the entry of the function table whose range covers an address. Of all entries that one
 * alone is read and can be refused.
 *
 * rva           the address, from the image's base
 * function      what is found; written with SEH_OK alone
 */
seh_status seh_find_function(const seh_view *view, uint32_t rva, seh_function *function);

/*
 * Finds the caller of a frame: one virtual unwind, as RtlVirtualUnwind makes it, of a leaf function,
 * or of a place in the prologue, the body or an epilogue of the entry that covers RIP. The code of
 * the image is at the view's base as its bytes have it, but where a range has other bytes.
 *
 * ranges, count the memory, in ascending order
 * context       the registers in the frame
 * frame         what is found; written with SEH_OK alone
 */
seh_status seh_unwind(const seh_view *view, const seh_range *ranges, size_t count,
                      const seh_context *context, seh_frame *frame);

/*
 * Finds the frames from a context on, innermost first, as far as RIP lies in the image and the stack
 * pointer rises.
 *
 * frames, room  an array, and how many frames it has room for
 * written       how many were written; set by each call, to 0 where the image or the memory is
 *               refused
 *
 * SEH_OK        RIP of the last frame's caller lies outside the image (or that of `context` does):
 *               continue with that caller in its own image
 * SEH_MORE      the array is full: call again with the last frame's caller
 *
 * Where a frame is refused, the frames below it have been written, and the answer is that of
 * seh_unwind for it.
 */
seh_status seh_walk(const seh_view *view, const seh_range *ranges, size_t count,
                    const seh_context *context, seh_frame *frames, size_t room, uint64_t *written);

/*
 * Finds the frames from a context on, innermost first, through all images of a process. Which of
 * them has the code is asked by base and size; of several that do, the one of the frame before is
 * taken, else the first.
 *
 * views, view_count  the images, in any order, each at its base; each as seh_open filled it
 * frames, room       an array, and how many frames it has room for; each frame has the index of
 *                    its view
 * written            how many were written; set by each call
 *
 * SEH_END            RIP of the last frame's caller is 0
 * SEH_UNKNOWN_CODE   it lies in none of the images
 * SEH_MORE           the array is full: call again with the last frame's caller
 *
 * Where a frame is refused, the frames below it have been written, and the answer is that of
 * seh_walk for it. Each frame costs what seh_unwind costs, and the views in the worst case.
 */
seh_status seh_walk_modules(const seh_view *views, size_t view_count, const seh_range *ranges,
                            size_t count, const seh_context *context, seh_frame *frames,
                            size_t room, uint64_t *written);

/*
 * Finds the scope records of the entry that covers an address which hold it, innermost first: the
 * order in which a search asks their filters. None are there where the entry's handler isn't
 * __C_specific_handler. Which one is, the image's imports tell, so they are read too, all of them,
 * and refused with SEH_IMAGE_IMPORT where one can't be read or is by ordinal. The image is opened
 * anew for that, the order of its table checked too.
 *
 * scopes, room  an array, and how many records it has room for
 * written       how many were written; set by each call
 *
 * SEH_MORE      there are more of them
 */
seh_status seh_scopes(const seh_view *view, uint32_t rva, seh_scope *scopes, size_t room,
                      uint64_t *written);

/*
 * Finds the same where the caller knows which handler is __C_specific_handler, as by symbols: at the
 * RVA `handler`, as unwind infos name it (seh_function has it). None are there where the entry's
 * handler is another one. No import is read, and the order of the table isn't checked anew. The
 * records are given as they are stored: their addresses may lie outside the image.
 */
seh_status seh_scopes_of(const seh_view *view, uint32_t rva, uint32_t handler, seh_scope *scopes,
                         size_t room, uint64_t *written);

/*
 * Tells whether the code of an image keeps its unwind information: of each entry, that each
 * instruction of its prologue is what its unwind code says, that its body leaves RSP, the frame
 * register and nonvolatile registers that aren't saved alone, and that its epilogues undo the
 * prologue. Where that is so of all entries, an unwinding from any instruction of theirs finds the
 * registers of the caller. The code of a chained entry, which is a fragment of a function, is held
 * to the codes of the function. The rules are those that code by seh keeps, and stricter than the
 * ABI: what other compilers make may fail one, as a fragment with codes of its own does.
 *
 * The imports and all entries are read, and refused.
 *
 * probe, probe_size  the code of the image's stack probe, __chkstk, from its first byte to its last.
 *                    A prologue with a large allocation may call code that begins with these bytes;
 *                    where there are none, any code
 * verdict            what is found; written with SEH_OK alone
 */
seh_status seh_check(const seh_view *view, const uint8_t *probe, size_t probe_size,
                     seh_verdict *verdict);

/* The name of a code of enum seh_code; null where there is none. */
static inline const char *seh_code_name(uint32_t code)
{
    switch (code) {
    case SEH_OK: return "SEH_OK";
    case SEH_BAD_RANGES: return "SEH_BAD_RANGES";
    case SEH_NO_MEMORY: return "SEH_NO_MEMORY";
    case SEH_MORE: return "SEH_MORE";
    case SEH_NO_FUNCTION: return "SEH_NO_FUNCTION";
    case SEH_END: return "SEH_END";
    case SEH_UNKNOWN_CODE: return "SEH_UNKNOWN_CODE";
    case SEH_IMAGE_TRUNCATED: return "SEH_IMAGE_TRUNCATED";
    case SEH_IMAGE_NOT_PE: return "SEH_IMAGE_NOT_PE";
    case SEH_IMAGE_MACHINE: return "SEH_IMAGE_MACHINE";
    case SEH_IMAGE_MAGIC: return "SEH_IMAGE_MAGIC";
    case SEH_IMAGE_LAYOUT: return "SEH_IMAGE_LAYOUT";
    case SEH_IMAGE_IMPORT: return "SEH_IMAGE_IMPORT";
    case SEH_TABLE_TRUNCATED: return "SEH_TABLE_TRUNCATED";
    case SEH_TABLE_MISALIGNED: return "SEH_TABLE_MISALIGNED";
    case SEH_TABLE_EMPTY_RANGE: return "SEH_TABLE_EMPTY_RANGE";
    case SEH_TABLE_UNSORTED: return "SEH_TABLE_UNSORTED";
    case SEH_TABLE_VERSION: return "SEH_TABLE_VERSION";
    case SEH_TABLE_FLAGS: return "SEH_TABLE_FLAGS";
    case SEH_TABLE_OPERATION: return "SEH_TABLE_OPERATION";
    case SEH_TABLE_CODE_ORDER: return "SEH_TABLE_CODE_ORDER";
    case SEH_TABLE_CHAIN: return "SEH_TABLE_CHAIN";
    case SEH_TABLE_SCOPE: return "SEH_TABLE_SCOPE";
    case SEH_UNREADABLE: return "SEH_UNREADABLE";
    case SEH_BACKWARD: return "SEH_BACKWARD";
    default: return NULL;
    }
}

/* The name of a rule of enum seh_rule; null where there is none. */
static inline const char *seh_rule_name(uint32_t rule)
{
    switch (rule) {
    case SEH_RULE_NONE: return "SEH_RULE_NONE";
    case SEH_RULE_DECODE: return "SEH_RULE_DECODE";
    case SEH_RULE_CHAIN: return "SEH_RULE_CHAIN";
    case SEH_RULE_CODES: return "SEH_RULE_CODES";
    case SEH_RULE_PROLOGUE: return "SEH_RULE_PROLOGUE";
    case SEH_RULE_STACK_WRITE: return "SEH_RULE_STACK_WRITE";
    case SEH_RULE_UNSAVED: return "SEH_RULE_UNSAVED";
    case SEH_RULE_EPILOGUE: return "SEH_RULE_EPILOGUE";
    default: return NULL;
    }
}

#ifdef __cplusplus
}
#endif

#endif
