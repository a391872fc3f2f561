/*
 * seh_dump.h - the minidumps of 64-bit Windows processes, read in place.
 *
 * The functions read the bytes of a minidump (Windows headers, minidumpapiset.h) that the caller
 * passes, whole. They copy none of them, take no memory, and look at no file and no state of their
 * own. Any bytes may be passed: each answer is proved to be what crates minidump and minidump_c
 * define in specs/, and each refusal to come exactly when it is said to.
 *
 * The rules: the signature is `MDMP`, and the low 16 bits of the version are A793h. A stream that
 * the directory doesn't name is missing, of several of one type the first counts, and streams of
 * other types are passed over. A stream that can't be read is refused alone, and so is a thread's
 * context, a module's name and a range of memory. Records follow their count at once. Whether ranges
 * overlap, or pass the end of the addresses, isn't looked at: sort them, and cut what overlaps,
 * before they are passed to functions of seh.h.
 *
 * A seh_dump is plain data that the caller owns: nothing is to be closed. But for its bytes it is
 * trusted for nothing. What the caller owes is what seh.h says of pointers, counts and the stack;
 * malloc isn't called. Build and link: docs/CRASHES.md.
 */
#ifndef SEH_DUMP_H
#define SEH_DUMP_H

#include "seh.h"

#ifdef __cplusplus
extern "C" {
#endif

/* How a call ended, beside SEH_OK; `at` of seh_status is what is said here, and 0 where nothing is. */
enum seh_dump_code {
    SEH_DUMP_TRUNCATED = 64,           /* the header passes the end of the file */
    SEH_DUMP_SIGNATURE = 65,           /* the signature is `at` */
    SEH_DUMP_VERSION = 66,             /* the low 16 bits of the version are `at` */
    SEH_DUMP_DIRECTORY_TRUNCATED = 67, /* the directory at offset `at` passes the end */
    SEH_DUMP_STREAM_TRUNCATED = 68,    /* the stream of type `at` passes the end */
    SEH_DUMP_STREAM_SHORT = 69,        /* the stream of type `at` has fewer bytes than its structure,
                                          or than its count of records wants */
    SEH_DUMP_STRING_TRUNCATED = 70,    /* the string at offset `at` passes the end */
    SEH_DUMP_STRING_ODD = 71,          /* the string at offset `at` ends within a UTF-16 unit */
    SEH_DUMP_CONTEXT_SHORT = 72,       /* the context has `at` bytes, and fewer than CONTEXT of x64 */
    SEH_DUMP_CONTEXT_TRUNCATED = 73,   /* the context at offset `at` passes the end */
    SEH_DUMP_CONTEXT_KIND = 74,        /* the context's flags are `at`, which aren't those of x64 */
    SEH_DUMP_RANGE_TRUNCATED = 75,     /* the bytes of range number `at` pass the end */
    SEH_DUMP_MISSING = 76              /* there is no such stream, or no record of that index */
};

/* Records of one size: the offset of the first in the file, and how many there are. */
typedef struct seh_dump_table {
    uint64_t at, count;
} seh_dump_table;

/* Bytes of the file (MINIDUMP_LOCATION_DESCRIPTOR): how many, and the offset of the first. */
typedef struct seh_dump_location {
    uint32_t size, rva;
} seh_dump_location;

/* A dump that was opened; seh_dump_open fills it. A list that is missing or refused has no records,
   and its status says which: SEH_OK, SEH_DUMP_MISSING, SEH_DUMP_STREAM_TRUNCATED or
   SEH_DUMP_STREAM_SHORT. */
typedef struct seh_dump {
    const uint8_t *bytes; /* the file, of `size` bytes */
    size_t size;
    seh_dump_table threads, modules;
    seh_dump_table ranges;   /* of the memory list */
    seh_dump_table ranges64; /* of the 64-bit memory list */
    uint64_t base_rva;       /* the offset of the bytes of the first range of ranges64 */
    seh_status threads_status, modules_status, ranges_status, ranges64_status;
} seh_dump;

/* A thread (MINIDUMP_THREAD). */
typedef struct seh_dump_thread_record {
    uint32_t thread_id, suspend_count, priority_class, priority;
    uint64_t teb;              /* the address of its thread environment block */
    uint64_t stack_start;      /* its stack: the address of the first byte, and where the bytes are; */
    seh_dump_location stack;   /* in a dump with all memory they may be in a range of ranges64 alone */
    seh_dump_location context; /* its registers, for seh_dump_context */
} seh_dump_thread_record;

/* Sixteen bytes of a register (winnt.h, M128A). */
typedef struct seh_dump_m128a {
    uint64_t low, high;
} seh_dump_m128a;

/* The registers of a thread (winnt.h, CONTEXT for x64). */
typedef struct seh_dump_registers {
    uint32_t context_flags; /* which parts were filled */
    uint32_t mx_csr, e_flags;
    uint64_t integer[16]; /* RAX, RCX, RDX, RBX, RSP, RBP, RSI, RDI and R8 to R15 */
    uint64_t rip;
    seh_dump_m128a xmm[16];
} seh_dump_registers;

/* A module (MINIDUMP_MODULE): an image that was loaded. */
typedef struct seh_dump_module_record {
    uint64_t base;            /* where it lies in the process */
    uint32_t size;            /* SizeOfImage of its header */
    uint32_t check_sum;
    uint32_t time_date_stamp; /* TimeDateStamp of its header */
    uint32_t name_rva;        /* its name, for seh_dump_string */
    seh_dump_location cv_record;
} seh_dump_module_record;

/* Bytes of the file. */
typedef struct seh_dump_bytes {
    const uint8_t *bytes;
    size_t size;
} seh_dump_bytes;

/* A place in ranges64; {0, base_rva} is that of the first range. */
typedef struct seh_dump_place {
    uint64_t index; /* of the range */
    uint64_t at;    /* the offset of its bytes */
} seh_dump_place;

/* What was raised, and by which thread (MINIDUMP_EXCEPTION_STREAM). */
typedef struct seh_dump_exception_record {
    uint32_t thread_id;
    uint32_t exception_code, exception_flags;
    uint64_t exception_record;  /* the address of another record, or 0 */
    uint64_t exception_address;
    uint32_t number_parameters; /* how many of `information` count; the dump may say more than 15 */
    uint64_t information[15];
    seh_dump_location context;  /* the registers where it was raised, for seh_dump_context */
} seh_dump_exception_record;

/* The system on which the dump was made (MINIDUMP_SYSTEM_INFO). */
typedef struct seh_dump_system_record {
    uint16_t processor_architecture; /* 9: x64 */
    uint32_t major_version, minor_version, build_number, platform_id;
} seh_dump_system_record;

/*
 * Opens a dump: checks its header, from the front, and finds its lists. It costs the entries of the
 * directory. `dump` is written with SEH_OK alone.
 */
seh_status seh_dump_open(const uint8_t *bytes, size_t size, seh_dump *dump);

/* The thread of an index, or SEH_DUMP_MISSING; `thread` is written with SEH_OK alone, as is what the
   next functions fill. */
seh_status seh_dump_thread(const seh_dump *dump, uint64_t index, seh_dump_thread_record *thread);

/* The registers at a location, that of a thread or of an exception. */
seh_status seh_dump_context(const seh_dump *dump, const seh_dump_location *location,
                            seh_dump_registers *registers);

/* The module of an index, or SEH_DUMP_MISSING. */
seh_status seh_dump_module(const seh_dump *dump, uint64_t index, seh_dump_module_record *module);

/* The string at an offset, as a module's name: its UTF-16 units, lowest byte first; what ends it
   isn't among them. */
seh_status seh_dump_string(const seh_dump *dump, uint64_t rva, seh_dump_bytes *units);

/* The range of an index of the memory list, or SEH_DUMP_MISSING. */
seh_status seh_dump_range(const seh_dump *dump, uint64_t index, seh_range *range);

/* The range at a place of the 64-bit memory list, or SEH_DUMP_MISSING; with SEH_OK alone `place` is
   then that of the next range. Where a range is refused, no later one is in the file. */
seh_status seh_dump_range64(const seh_dump *dump, seh_dump_place *place, seh_range *range);

/* What was raised, or SEH_DUMP_MISSING, by the bytes of the file. */
seh_status seh_dump_exception(const uint8_t *bytes, size_t size,
                              seh_dump_exception_record *exception);

/* The system, or SEH_DUMP_MISSING, by the bytes of the file. */
seh_status seh_dump_system(const uint8_t *bytes, size_t size, seh_dump_system_record *system);

/* The name of a code of enum seh_dump_code or enum seh_code; null where there is none. */
static inline const char *seh_dump_code_name(uint32_t code)
{
    switch (code) {
    case SEH_DUMP_TRUNCATED: return "SEH_DUMP_TRUNCATED";
    case SEH_DUMP_SIGNATURE: return "SEH_DUMP_SIGNATURE";
    case SEH_DUMP_VERSION: return "SEH_DUMP_VERSION";
    case SEH_DUMP_DIRECTORY_TRUNCATED: return "SEH_DUMP_DIRECTORY_TRUNCATED";
    case SEH_DUMP_STREAM_TRUNCATED: return "SEH_DUMP_STREAM_TRUNCATED";
    case SEH_DUMP_STREAM_SHORT: return "SEH_DUMP_STREAM_SHORT";
    case SEH_DUMP_STRING_TRUNCATED: return "SEH_DUMP_STRING_TRUNCATED";
    case SEH_DUMP_STRING_ODD: return "SEH_DUMP_STRING_ODD";
    case SEH_DUMP_CONTEXT_SHORT: return "SEH_DUMP_CONTEXT_SHORT";
    case SEH_DUMP_CONTEXT_TRUNCATED: return "SEH_DUMP_CONTEXT_TRUNCATED";
    case SEH_DUMP_CONTEXT_KIND: return "SEH_DUMP_CONTEXT_KIND";
    case SEH_DUMP_RANGE_TRUNCATED: return "SEH_DUMP_RANGE_TRUNCATED";
    case SEH_DUMP_MISSING: return "SEH_DUMP_MISSING";
    default: return seh_code_name(code);
    }
}

#ifdef __cplusplus
}
#endif

#endif
