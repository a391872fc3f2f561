/* What dumped.c and part.c share: the types and services of Windows that they use, declared here,
   since they are built without Windows' headers. */
typedef unsigned char u8;
typedef unsigned short u16;
typedef unsigned int u32;
typedef unsigned long long u64;

#define IMPORT __declspec(dllimport)
#define EXPORT __declspec(dllexport)
#define KEEP __attribute__((noinline))

/* part.c */
typedef u64 (*callback)(u64 a, u64 b);

#ifdef PART
#define PART_FUNCTION EXPORT
#else
#define PART_FUNCTION IMPORT
#endif

PART_FUNCTION u64 part_guarded(callback call, u64 a);
PART_FUNCTION double part_with_doubles(callback call, u64 a, double x);
PART_FUNCTION u64 part_store(volatile u64 *to, u64 a);
