//! The functions of `seh_dump.h` for Rust, in one file: `mod seh; mod seh_dump;` at the top of a
//! program, and link both libraries as docs/CRASHES.md says. It is safe to call: what `seh_dump.h`
//! asks of a caller, slices and references keep.
//!
//! ```ignore
//! let dump = seh_dump::Dump::open(&file)?;
//! for thread in dump.threads() {
//!     let registers = dump.registers(thread.context)?;
//!     println!("{:x} at {:x}", thread.thread_id, registers.rip);
//! }
//! ```

use crate::seh::{Context, Range, Status, Vector, OK};
use std::marker::PhantomData;

/// `SEH_DUMP_MISSING`: there is no such stream, or no record of that index.
pub const MISSING: u32 = 76;

/// Records of one size: the offset of the first in the file, and how many there are.
#[repr(C)]
#[derive(Clone, Copy, Debug, Default, PartialEq, Eq)]
pub struct Table {
    pub at: u64,
    pub count: u64,
}

/// Bytes of the file: how many, and the offset of the first.
#[repr(C)]
#[derive(Clone, Copy, Debug, Default, PartialEq, Eq)]
pub struct Location {
    pub size: u32,
    pub rva: u32,
}

/// A thread.
#[repr(C)]
#[derive(Clone, Copy, Debug, Default, PartialEq, Eq)]
pub struct Thread {
    pub thread_id: u32,
    pub suspend_count: u32,
    pub priority_class: u32,
    pub priority: u32,
    /// The address of its thread environment block.
    pub teb: u64,
    /// The address of the first byte of its stack, and where the bytes are in the file.
    pub stack_start: u64,
    pub stack: Location,
    /// Its registers, for [`Dump::registers`].
    pub context: Location,
}

/// Sixteen bytes of a register.
#[repr(C)]
#[derive(Clone, Copy, Debug, Default, PartialEq, Eq)]
pub struct M128A {
    pub low: u64,
    pub high: u64,
}

/// The flag of a context whose vector registers were filled (Windows headers, `winnt.h`,
/// CONTEXT_FLOATING_POINT).
const CONTEXT_FLOATING_POINT: u32 = 8;

/// The registers of a thread.
#[repr(C)]
#[derive(Clone, Copy, Debug, Default, PartialEq, Eq)]
pub struct Registers {
    /// Which parts were filled.
    pub context_flags: u32,
    pub mx_csr: u32,
    pub e_flags: u32,
    /// RAX, RCX, RDX, RBX, RSP, RBP, RSI, RDI and R8 to R15.
    pub integer: [u64; 16],
    pub rip: u64,
    pub xmm: [M128A; 16],
}

impl Registers {
    /// Those of them that an unwinding follows.
    pub fn context(&self) -> Context {
        let n = &self.integer;
        Context {
            rip: self.rip,
            rsp: n[4],
            rbx: n[3],
            rbp: n[5],
            rsi: n[6],
            rdi: n[7],
            r12: n[12],
            r13: n[13],
            r14: n[14],
            r15: n[15],
            xmm: std::array::from_fn(|k| Vector {
                low: self.xmm[6 + k].low,
                high: self.xmm[6 + k].high,
            }),
            has_vectors: self.context_flags & CONTEXT_FLOATING_POINT,
        }
    }
}

/// A module: an image that was loaded.
#[repr(C)]
#[derive(Clone, Copy, Debug, Default, PartialEq, Eq)]
pub struct Module {
    /// Where it lies in the process.
    pub base: u64,
    /// SizeOfImage of its header.
    pub size: u32,
    pub check_sum: u32,
    /// TimeDateStamp of its header.
    pub time_date_stamp: u32,
    /// Its name, for [`Dump::string`].
    pub name_rva: u32,
    pub cv_record: Location,
}

/// What was raised, and by which thread.
#[repr(C)]
#[derive(Clone, Copy, Debug, Default, PartialEq, Eq)]
pub struct Exception {
    pub thread_id: u32,
    pub exception_code: u32,
    pub exception_flags: u32,
    /// The address of another record, or 0.
    pub exception_record: u64,
    pub exception_address: u64,
    /// How many of `information` count; the dump may say more than 15.
    pub number_parameters: u32,
    pub information: [u64; 15],
    /// The registers where it was raised, for [`Dump::registers`].
    pub context: Location,
}

/// The system on which the dump was made; `processor_architecture` of x64 is 9.
#[repr(C)]
#[derive(Clone, Copy, Debug, Default, PartialEq, Eq)]
pub struct System {
    pub processor_architecture: u16,
    pub major_version: u32,
    pub minor_version: u32,
    pub build_number: u32,
    pub platform_id: u32,
}

/// A dump that was opened. A list that is missing or refused has no records, and its status says
/// which.
#[repr(C)]
#[derive(Clone, Copy)]
pub struct Dump<'a> {
    bytes: *const u8,
    size: usize,
    pub threads: Table,
    pub modules: Table,
    pub ranges: Table,
    pub ranges64: Table,
    base_rva: u64,
    pub threads_status: Status,
    pub modules_status: Status,
    pub ranges_status: Status,
    pub ranges64_status: Status,
    held: PhantomData<&'a [u8]>,
}

#[repr(C)]
struct Bytes {
    bytes: *const u8,
    size: usize,
}

#[repr(C)]
#[derive(Clone, Copy)]
struct Place {
    index: u64,
    at: u64,
}

mod c {
    use super::*;

    extern "C" {
        pub fn seh_dump_open(bytes: *const u8, size: usize, dump: *mut Dump<'_>) -> Status;
        pub fn seh_dump_thread(dump: *const Dump<'_>, index: u64, thread: *mut Thread) -> Status;
        pub fn seh_dump_context(
            dump: *const Dump<'_>,
            location: *const Location,
            registers: *mut Registers,
        ) -> Status;
        pub fn seh_dump_module(dump: *const Dump<'_>, index: u64, module: *mut Module) -> Status;
        pub fn seh_dump_string(dump: *const Dump<'_>, rva: u64, units: *mut Bytes) -> Status;
        pub fn seh_dump_range(dump: *const Dump<'_>, index: u64, range: *mut Range<'_>) -> Status;
        pub fn seh_dump_range64(
            dump: *const Dump<'_>,
            place: *mut Place,
            range: *mut Range<'_>,
        ) -> Status;
        pub fn seh_dump_exception(bytes: *const u8, size: usize, e: *mut Exception) -> Status;
        pub fn seh_dump_system(bytes: *const u8, size: usize, system: *mut System) -> Status;
    }
}

fn answer<T>(status: Status, found: T) -> Result<T, Status> {
    if status.code == OK {
        Ok(found)
    } else {
        Err(status)
    }
}

fn if_there<T>(status: Status, found: T) -> Result<Option<T>, Status> {
    if status.code == MISSING {
        Ok(None)
    } else {
        answer(status, Some(found))
    }
}

const NONE: Status = Status {
    code: MISSING,
    at: 0,
    more: 0,
};

// SAFETY, of all calls here: slices and references are pointers to what may be read, or by one
// alone written, for as long as the call takes, aligned, and never null; a dump points to a slice
// that it borrows; the functions of `seh_dump.h` ask no more.

impl<'a> Dump<'a> {
    /// Opens a dump: checks its header, and finds its lists.
    pub fn open(file: &'a [u8]) -> Result<Dump<'a>, Status> {
        let mut dump = Dump {
            bytes: file.as_ptr(),
            size: file.len(),
            threads: Table::default(),
            modules: Table::default(),
            ranges: Table::default(),
            ranges64: Table::default(),
            base_rva: 0,
            threads_status: NONE,
            modules_status: NONE,
            ranges_status: NONE,
            ranges64_status: NONE,
            held: PhantomData,
        };
        let status = unsafe { c::seh_dump_open(file.as_ptr(), file.len(), &mut dump) };
        answer(status, dump)
    }

    /// The threads.
    pub fn threads(&self) -> impl Iterator<Item = Thread> + '_ {
        (0..self.threads.count).map_while(|index| {
            let mut thread = Thread::default();
            let status = unsafe { c::seh_dump_thread(self, index, &mut thread) };
            (status.code == OK).then_some(thread)
        })
    }

    /// The modules.
    pub fn modules(&self) -> impl Iterator<Item = Module> + '_ {
        (0..self.modules.count).map_while(|index| {
            let mut module = Module::default();
            let status = unsafe { c::seh_dump_module(self, index, &mut module) };
            (status.code == OK).then_some(module)
        })
    }

    /// The registers at a location.
    pub fn registers(&self, location: Location) -> Result<Registers, Status> {
        let mut registers = Registers::default();
        let status = unsafe { c::seh_dump_context(self, &location, &mut registers) };
        answer(status, registers)
    }

    /// The string at an offset, as a module's name; what is no UTF-16 is replaced.
    pub fn string(&self, rva: u32) -> Result<String, Status> {
        let mut units = Bytes {
            bytes: self.bytes,
            size: 0,
        };
        let status = unsafe { c::seh_dump_string(self, rva.into(), &mut units) };
        let bytes = unsafe { std::slice::from_raw_parts(units.bytes, units.size) };
        let units = bytes.chunks_exact(2).map(|u| u16::from_le_bytes([u[0], u[1]]));
        let text = char::decode_utf16(units).map(|c| c.unwrap_or(char::REPLACEMENT_CHARACTER));
        answer(status, text.collect())
    }

    /// The ranges of the memory list, each of which may be refused alone.
    pub fn ranges(&self) -> impl Iterator<Item = Result<Range<'a>, Status>> + '_ {
        (0..self.ranges.count).map(|index| {
            let mut range = Range::new(0, &[]);
            let status = unsafe { c::seh_dump_range(self, index, &mut range) };
            answer(status, range)
        })
    }

    /// The ranges of the 64-bit memory list, up to the first that is refused.
    pub fn ranges64(&self) -> impl Iterator<Item = Range<'a>> + '_ {
        let first = Place {
            index: 0,
            at: self.base_rva,
        };
        (0..self.ranges64.count).scan(first, |place, _| {
            let mut range = Range::new(0, &[]);
            let status = unsafe { c::seh_dump_range64(self, place, &mut range) };
            (status.code == OK).then_some(range)
        })
    }

    /// What was raised; none where the dump has no such stream.
    pub fn exception(&self) -> Result<Option<Exception>, Status> {
        let mut exception = Exception::default();
        let status = unsafe { c::seh_dump_exception(self.bytes, self.size, &mut exception) };
        if_there(status, exception)
    }

    /// The system; none where the dump has no such stream.
    pub fn system(&self) -> Result<Option<System>, Status> {
        let mut system = System::default();
        let status = unsafe { c::seh_dump_system(self.bytes, self.size, &mut system) };
        if_there(status, system)
    }
}
