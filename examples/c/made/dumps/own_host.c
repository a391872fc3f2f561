/*
 * sehhost.dll for made/own.exe, in place of the host of windows/: the first `put` writes own.dmp, a
 * small dump in which the registers of the call stand as those of a breakpoint, and own.frames, the
 * frames that Windows' RtlLookupFunctionEntry and RtlVirtualUnwind find, as far as they lie in own.exe
 * and here.
 */
#include "dumping.h"

IMPORT void RtlCaptureContext(context *);

extern u8 __ImageBase;

static void put_frames(const context *from)
{
    context c = *from;

    for (;;) {
        u64 base = 0, establisher;
        void *entry, *handler;

        entry = RtlLookupFunctionEntry(c.rip, &base, 0);
        if (!entry || (base != (u64)&__ImageBase && base >> 32 != 1))
            break; /* another image's; own.exe lies at 140000000h */
        put_frame(&c);
        RtlVirtualUnwind(0, base, c.rip, entry, &c, &handler, &establisher, 0);
    }
}

EXPORT void put(long long number)
{
    static context here;
    static u32 record[38] = {0x80000003};
    exception_pointers pointers = {record, &here};
    dump_exception e = {GetCurrentThreadId(), &pointers, 0};
    void *file;
    u32 written;

    RtlCaptureContext(&here);
    *(u64 *)&record[4] = here.rip; /* ExceptionAddress */
    put_char('t');
    put_char(' ');
    put_number(e.thread);
    put_char('\n');
    put_frames(&here);
    file = CreateFileA("own.frames", GENERIC_WRITE, 0, 0, CREATE_ALWAYS, 0, 0);
    WriteFile(file, text, length, &written, 0);
    CloseHandle(file);
    file = CreateFileA("own.dmp", GENERIC_WRITE, 0, 0, CREATE_ALWAYS, 0, 0);
    MiniDumpWriteDump(GetCurrentProcess(), GetCurrentProcessId(), file, 0, &e, 0, 0);
    CloseHandle(file);
    ExitProcess((u32)number);
}

int DllMain(void *instance, u32 reason, void *reserved)
{
    return instance && (reason || !reserved);
}
