#!/usr/bin/env python3
"""trim_dump IN OUT MODULE..: a minidump without the memory of other modules.

Of the streams it keeps the system, the threads with their contexts, the modules with their names, the
exception, and of the memory list or the 64-bit memory list what lies in the named modules or in a
thread's stack from its stack pointer on. Where a 64-bit memory list is there, it keeps no other one.
"""
import struct
import sys

THREADS, MODULES, MEMORY, EXCEPTION, SYSTEM, MEMORY64 = 3, 4, 5, 6, 7, 9


def numbers(form, data, at):
    return struct.unpack_from('<' + form, data, at)


def streams_of(data):
    signature, version, count, at = numbers('4I', data, 0)
    assert signature == 0x504D444D and version & 0xFFFF == 0xA793
    found = {}
    for k in range(count):
        kind, size, rva = numbers('3I', data, at + 12 * k)
        found.setdefault(kind, (size, rva))
    return found


def ranges_of(data, streams):
    """The ranges: address, and bytes."""
    if MEMORY64 in streams:
        rva = streams[MEMORY64][1]
        count, at = numbers('2Q', data, rva)
        for k in range(count):
            start, size = numbers('2Q', data, rva + 16 + 16 * k)
            yield start, data[at:at + size]
            at += size
    else:
        rva = streams[MEMORY][1]
        for k in range(numbers('I', data, rva)[0]):
            start, size, at = numbers('QII', data, rva + 4 + 16 * k)
            yield start, data[at:at + size]


def name_at(data, rva):
    size = numbers('I', data, rva)[0]
    return data[rva + 4:rva + 4 + size].decode('utf-16-le')


class Writer:
    """A file that grows; what is put has its offset."""

    def __init__(self, directory_size):
        self.data = bytearray(32 + 12 * directory_size)

    def put(self, piece):
        at = len(self.data)
        self.data += piece + bytes(-len(piece) % 4)
        return at


def put_modules(out, data, streams, named):
    """The module list, and the ranges of the named ones."""
    rva = streams[MODULES][1]
    records, kept = b'', []
    for k in range(numbers('I', data, rva)[0]):
        at = rva + 4 + 108 * k
        base, size, _check, _stamp, name_rva = numbers('Q4I', data, at)
        name = name_at(data, name_rva)
        if name.lower().replace('\\', '/').split('/')[-1] in named:
            kept.append((base, base + size))
        record = bytearray(data[at:at + 108])
        text = name.encode('utf-16-le')
        struct.pack_into('<I', record, 20, out.put(struct.pack('<I', len(text)) + text + b'\0\0'))
        record[76:92] = bytes(16)
        records += record
    return struct.pack('<I', len(records) // 108) + records, kept


def put_context(out, data, record, place):
    """Puts the context that a record names at a place of it, and answers its RSP."""
    size, at = numbers('2I', record, place)
    context = data[at:at + size]
    struct.pack_into('<I', record, place + 4, out.put(context))
    return numbers('Q', context, 0x98)[0]


def put_exception(out, data, streams):
    """The exception stream, and the stack pointer of the thread that raised it."""
    rva = streams[EXCEPTION][1]
    record = bytearray(data[rva:rva + 168])
    rsp = put_context(out, data, record, 160)
    return bytes(record), {numbers('I', record, 0)[0]: rsp}


def put_threads(out, data, streams, raised):
    """The thread list, and the ranges of the stacks from the stack pointers on."""
    rva = streams[THREADS][1]
    records, kept = b'', []
    for k in range(numbers('I', data, rva)[0]):
        record = bytearray(data[rva + 4 + 48 * k:rva + 52 + 48 * k])
        start, size = numbers('QI', record, 24)
        rsp = put_context(out, data, record, 40)
        rsp = raised.get(numbers('I', record, 0)[0], rsp)
        if start <= rsp < start + size:
            kept.append((rsp, start + size))
            struct.pack_into('<QI', record, 24, rsp, start + size - rsp)
        struct.pack_into('<I', record, 36, 0)
        records += record
    return struct.pack('<I', len(records) // 48) + records, kept


def pieces_of(data, streams, kept):
    """What the ranges have of what is kept: address, and bytes."""
    pieces = []
    for start, held in ranges_of(data, streams):
        for low, high in kept:
            first, last = max(start, low), min(start + len(held), high)
            if first < last:
                pieces.append((first, held[first - start:last - start]))
    return sorted(pieces)


def put_memory(out, streams, pieces):
    """The memory list; of a 64-bit one the offset of its first range is put in later."""
    if MEMORY64 in streams:
        records = b''.join(struct.pack('<2Q', at, len(piece)) for at, piece in pieces)
        return MEMORY64, struct.pack('<2Q', len(pieces), 0) + records
    records = b''.join(struct.pack('<QII', at, len(piece), out.put(piece)) for at, piece in pieces)
    return MEMORY, struct.pack('<I', len(pieces)) + records


def main(source, target, *named):
    data = open(source, 'rb').read()
    streams = streams_of(data)
    out = Writer(5)
    modules, kept = put_modules(out, data, streams, named)
    exception, raised = put_exception(out, data, streams)
    threads, stacks = put_threads(out, data, streams, raised)
    size, rva = streams[SYSTEM]
    pieces = pieces_of(data, streams, kept + stacks)
    memory = put_memory(out, streams, pieces)
    directory = [(EXCEPTION, exception), (THREADS, threads), (MODULES, modules),
                 (SYSTEM, data[rva:rva + size]), memory]
    for k, (kind, piece) in enumerate(directory):
        at = out.put(piece)
        struct.pack_into('<3I', out.data, 32 + 12 * k, kind, len(piece), at)
    if memory[0] == MEMORY64:
        struct.pack_into('<Q', out.data, at + 8, len(out.data))
        out.data += b''.join(piece for _at, piece in pieces)
    out.data[0:32] = data[0:8] + struct.pack('<2I', len(directory), 32) + data[16:32]
    open(target, 'wb').write(out.data)


main(*sys.argv[1:])
