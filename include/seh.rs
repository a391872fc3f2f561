//! The functions of `seh.h` for Rust, in one file: `mod seh;`, and link `libseh_c.a` as README.md
//! says ("From C"). It is safe to call: what `seh.h` asks of a caller, slices and references keep.
//!
//! ```ignore
//! let mut index = [0; 1024];
//! let view = seh::View::open(&file, seh::Layout::File, base, &mut index)?;
//! let stack = [seh::Range::new(stack_at, &stack)];
//! for frame in view.frames(&stack, context) {
//!     let frame = frame?;
//!     println!("{:x}", frame.caller.rip);
//! }
//! ```

use std::ffi::c_void;
use std::fmt;
use std::marker::PhantomData;

/// The version of the declarations, `SEH_VERSION`.
pub const VERSION: u32 = 3;

/// How a call ended: one of `enum seh_code` in `seh.h`, and the numbers that it speaks of.
#[repr(C)]
#[derive(Clone, Copy, Debug, PartialEq, Eq)]
pub struct Status {
    /// The code.
    pub code: u32,
    /// What the code says: an offset, an address or the number of an entry; else 0.
    pub at: u64,
    /// A second number where the code speaks of two; else 0.
    pub more: u64,
}

impl Status {
    /// The name of the code, as `seh.h` has it.
    pub fn name(&self) -> Option<&'static str> {
        Some(match self.code {
            0 => "SEH_OK",
            1 => "SEH_BAD_RANGES",
            2 => "SEH_NO_MEMORY",
            3 => "SEH_MORE",
            4 => "SEH_NO_FUNCTION",
            5 => "SEH_END",
            6 => "SEH_UNKNOWN_CODE",
            16 => "SEH_IMAGE_TRUNCATED",
            17 => "SEH_IMAGE_NOT_PE",
            18 => "SEH_IMAGE_MACHINE",
            19 => "SEH_IMAGE_MAGIC",
            20 => "SEH_IMAGE_LAYOUT",
            21 => "SEH_IMAGE_IMPORT",
            32 => "SEH_TABLE_TRUNCATED",
            33 => "SEH_TABLE_MISALIGNED",
            34 => "SEH_TABLE_EMPTY_RANGE",
            35 => "SEH_TABLE_UNSORTED",
            36 => "SEH_TABLE_VERSION",
            37 => "SEH_TABLE_FLAGS",
            38 => "SEH_TABLE_OPERATION",
            39 => "SEH_TABLE_CODE_ORDER",
            40 => "SEH_TABLE_CHAIN",
            41 => "SEH_TABLE_SCOPE",
            48 => "SEH_UNREADABLE",
            49 => "SEH_BACKWARD",
            _ => return None,
        })
    }
}

impl fmt::Display for Status {
    fn fmt(&self, f: &mut fmt::Formatter<'_>) -> fmt::Result {
        match self.name() {
            Some(name) => write!(f, "{name} ({:#x}, {:#x})", self.at, self.more),
            None => write!(f, "code {} ({:#x}, {:#x})", self.code, self.at, self.more),
        }
    }
}

impl std::error::Error for Status {}

/// `SEH_OK`: all was done.
pub const OK: u32 = 0;

/// `SEH_MORE`: the array is full, and there is more.
pub const MORE: u32 = 3;

/// `SEH_NO_FUNCTION`: no entry covers the address.
pub const NO_FUNCTION: u32 = 4;

/// `SEH_END`: RIP is 0, where a stack ends.
pub const END: u32 = 5;

/// `SEH_UNKNOWN_CODE`: RIP lies in no module.
pub const UNKNOWN_CODE: u32 = 6;

/// In which form the bytes of an image are given.
#[derive(Clone, Copy, Debug, PartialEq, Eq)]
pub enum Layout {
    /// The image's file, whole.
    File,
    /// Memory from the image's base on, into which a loader mapped it.
    Mapped,
}

/// Bytes of a process's memory from an address on.
#[repr(C)]
#[derive(Clone, Copy)]
pub struct Range<'a> {
    at: u64,
    bytes: *const u8,
    size: usize,
    held: PhantomData<&'a [u8]>,
}

impl<'a> Range<'a> {
    /// The bytes that lie from the address `at` on.
    pub fn new(at: u64, bytes: &'a [u8]) -> Range<'a> {
        Range {
            at,
            bytes: bytes.as_ptr(),
            size: bytes.len(),
            held: PhantomData,
        }
    }

    /// The address of the first byte.
    pub fn at(&self) -> u64 {
        self.at
    }

    /// The bytes.
    pub fn bytes(&self) -> &'a [u8] {
        // SAFETY: they are those of a slice that the range borrows
        unsafe { std::slice::from_raw_parts(self.bytes, self.size) }
    }
}

/// A vector register of sixteen bytes.
#[repr(C)]
#[derive(Clone, Copy, Debug, Default, PartialEq, Eq)]
pub struct Vector {
    pub low: u64,
    pub high: u64,
}

/// RIP, RSP, the other nonvolatile integer registers, and XMM6 to XMM15.
#[repr(C)]
#[derive(Clone, Copy, Debug, Default, PartialEq, Eq)]
pub struct Context {
    pub rip: u64,
    pub rsp: u64,
    pub rbx: u64,
    pub rbp: u64,
    pub rsi: u64,
    pub rdi: u64,
    pub r12: u64,
    pub r13: u64,
    pub r14: u64,
    pub r15: u64,
    /// XMM6 to XMM15.
    pub xmm: [Vector; 10],
    /// Not 0: the vector registers count.
    pub has_vectors: u32,
}

/// A frame.
#[repr(C)]
#[derive(Clone, Copy, Debug, Default, PartialEq, Eq)]
pub struct Frame {
    /// The registers of its caller, after the return.
    pub caller: Context,
    /// The establisher frame.
    pub establisher: u64,
    /// Of a walk through modules, the index of the view that has its code; else 0.
    pub module_index: u64,
    /// The code of the entry that covers RIP, from `begin` to before `end`, as RVAs; both are 0 in a
    /// leaf function.
    pub begin: u32,
    pub end: u32,
    /// The RVA of its language handler, where `has_handler`.
    pub handler: u32,
    /// Whether there is a handler, which is asked.
    pub has_handler: bool,
    /// By [`PROFILE_OWN`], whether RIP is in the body of a function.
    pub in_body: bool,
}

/// An entry of a function table, with its unwind info.
#[repr(C)]
#[derive(Clone, Copy, Debug, Default, PartialEq, Eq)]
pub struct Function {
    /// The code, from `begin` to before `end`, as RVAs.
    pub begin: u32,
    pub end: u32,
    /// The RVA of the unwind info.
    pub unwind_info: u32,
    /// The RVA of the language handler, where `has_handler`.
    pub handler: u32,
    /// How many unwind infos it is chained to.
    pub parents: u32,
    pub prologue_size: u8,
    pub frame_register: u8,
    pub frame_offset: u8,
    pub flags: u8,
    pub has_handler: bool,
}

/// A record of the scope table of `__C_specific_handler`; all are RVAs.
#[repr(C)]
#[derive(Clone, Copy, Debug, Default, PartialEq, Eq)]
pub struct Scope {
    /// The body of the `__try`, from `begin` to before `end`.
    pub begin: u32,
    pub end: u32,
    /// The `__finally` block, where the jump target is 0; else the filter, or 1.
    pub handler_address: u32,
    /// The `__except` block, or 0.
    pub jump_target: u32,
}

/// What is said of the code of an image: `rule`, one of `enum seh_rule` in `seh.h`, fails first at
/// the RVA `at` of entry number `entry`. It is 0 where none of so many entries fails in one.
#[repr(C)]
#[derive(Clone, Copy, Debug, Default, PartialEq, Eq)]
pub struct Verdict {
    pub entry: u64,
    pub at: u64,
    pub rule: u32,
}

/// `SEH_PROFILE_OWN`, for the options of a view: frames are found by the project's own profile.
pub const PROFILE_OWN: u32 = 1;

/// An image that was opened, and where it lies in a process, `seh_view`.
#[repr(C)]
#[derive(Clone, Copy)]
pub struct View<'a> {
    bytes: *const u8,
    size: usize,
    index: *const u32,
    index_count: usize,
    /// Where the image lies in the process.
    pub base: u64,
    preferred_base: u64,
    image_size: u64,
    entry_point: u64,
    functions: u64,
    shift: u32,
    mapped: u32,
    /// 0, or [`PROFILE_OWN`].
    pub options: u32,
    held: PhantomData<&'a [u8]>,
}

// SAFETY: a view points to slices that are shared for as long as it lasts, and to nothing else.
unsafe impl Send for View<'_> {}
unsafe impl Sync for View<'_> {}

mod c {
    use super::*;

    extern "C" {
        pub fn seh_open(
            bytes: *const u8,
            size: usize,
            mapped: bool,
            base: u64,
            view: *mut c_void,
            index: *mut u32,
            room: usize,
        ) -> Status;
        pub fn seh_find_function(view: *const c_void, rva: u32, function: *mut Function) -> Status;
        pub fn seh_unwind(
            view: *const c_void,
            ranges: *const Range<'_>,
            count: usize,
            context: *const Context,
            frame: *mut Frame,
        ) -> Status;
        pub fn seh_walk(
            view: *const c_void,
            ranges: *const Range<'_>,
            count: usize,
            context: *const Context,
            frames: *mut Frame,
            room: usize,
            written: *mut u64,
        ) -> Status;
        pub fn seh_walk_modules(
            views: *const c_void,
            view_count: usize,
            ranges: *const Range<'_>,
            count: usize,
            context: *const Context,
            frames: *mut Frame,
            room: usize,
            written: *mut u64,
        ) -> Status;
        pub fn seh_scopes(
            view: *const c_void,
            rva: u32,
            scopes: *mut Scope,
            room: usize,
            written: *mut u64,
        ) -> Status;
        pub fn seh_scopes_of(
            view: *const c_void,
            rva: u32,
            handler: u32,
            scopes: *mut Scope,
            room: usize,
            written: *mut u64,
        ) -> Status;
        pub fn seh_check(
            view: *const c_void,
            probe: *const u8,
            probe_size: usize,
            verdict: *mut Verdict,
        ) -> Status;
    }
}

fn answer<T>(status: Status, found: T) -> Result<T, Status> {
    if status.code == OK {
        Ok(found)
    } else {
        Err(status)
    }
}

// SAFETY, of all calls here: slices and references are pointers to what may be read, or by one
// alone written, for as long as the call takes, aligned, and never null; a view points to slices
// that it borrows; the functions of `seh.h` ask no more.

impl<'a> View<'a> {
    /// Opens an image that lies at `base`, and fills an index of its function table, which may be
    /// empty.
    pub fn open(
        bytes: &'a [u8],
        layout: Layout,
        base: u64,
        index: &'a mut [u32],
    ) -> Result<View<'a>, Status> {
        let mut view = View {
            bytes: bytes.as_ptr(),
            size: bytes.len(),
            index: index.as_ptr(),
            index_count: 0,
            base,
            preferred_base: 0,
            image_size: 0,
            entry_point: 0,
            functions: 0,
            shift: 0,
            mapped: 0,
            options: 0,
            held: PhantomData,
        };
        let status = unsafe {
            c::seh_open(
                bytes.as_ptr(),
                bytes.len(),
                layout == Layout::Mapped,
                base,
                (&mut view as *mut View<'a>).cast(),
                index.as_mut_ptr(),
                index.len(),
            )
        };
        answer(status, view)
    }

    fn pointer(&self) -> *const c_void {
        (self as *const View<'a>).cast()
    }

    /// The image's own base, ImageBase.
    pub fn preferred_base(&self) -> u64 {
        self.preferred_base
    }

    /// How many bytes the image takes in memory, SizeOfImage.
    pub fn image_size(&self) -> u64 {
        self.image_size
    }

    /// The RVA of the entry point.
    pub fn entry_point(&self) -> u64 {
        self.entry_point
    }

    /// How many entries the function table has.
    pub fn functions(&self) -> u64 {
        self.functions
    }

    /// The entry whose range covers an RVA; none where the code there is a leaf function.
    pub fn find_function(&self, rva: u32) -> Result<Option<Function>, Status> {
        let mut function = Function::default();
        let status = unsafe { c::seh_find_function(self.pointer(), rva, &mut function) };
        if status.code == NO_FUNCTION {
            return Ok(None);
        }
        answer(status, Some(function))
    }

    /// The caller of a frame.
    pub fn unwind(&self, ranges: &[Range<'_>], context: &Context) -> Result<Frame, Status> {
        let mut frame = Frame::default();
        let status = unsafe {
            c::seh_unwind(
                self.pointer(),
                ranges.as_ptr(),
                ranges.len(),
                context,
                &mut frame,
            )
        };
        answer(status, frame)
    }

    /// The frames from a context on, as far as RIP lies in the image and `frames` has room: how many
    /// were written, and why no more (`OK`: RIP lies outside the image; `MORE`: there is no room).
    pub fn walk(
        &self,
        ranges: &[Range<'_>],
        context: &Context,
        frames: &mut [Frame],
    ) -> (usize, Status) {
        let mut written = 0;
        let status = unsafe {
            c::seh_walk(
                self.pointer(),
                ranges.as_ptr(),
                ranges.len(),
                context,
                frames.as_mut_ptr(),
                frames.len(),
                &mut written,
            )
        };
        (written as usize, status)
    }

    /// The frames from a context on, innermost first, one after another: as far as RIP lies in the
    /// image, or up to the first that is refused.
    pub fn frames<'r>(&'r self, ranges: &'r [Range<'r>], context: Context) -> Frames<'r> {
        Frames::new(Code::View(*self), ranges, context)
    }

    /// The scope records of the entry that covers an RVA which hold it, innermost first: how many
    /// were written, and why no more (`MORE`: there is no room).
    pub fn scopes(&self, rva: u32, scopes: &mut [Scope]) -> (usize, Status) {
        let mut written = 0;
        let status = unsafe {
            c::seh_scopes(
                self.pointer(),
                rva,
                scopes.as_mut_ptr(),
                scopes.len(),
                &mut written,
            )
        };
        (written as usize, status)
    }

    /// The same where the RVA of `__C_specific_handler` is known, as unwind infos name it: no import
    /// is read.
    pub fn scopes_of(&self, rva: u32, handler: u32, scopes: &mut [Scope]) -> (usize, Status) {
        let mut written = 0;
        let status = unsafe {
            c::seh_scopes_of(
                self.pointer(),
                rva,
                handler,
                scopes.as_mut_ptr(),
                scopes.len(),
                &mut written,
            )
        };
        (written as usize, status)
    }

    /// Whether the code of the image keeps its unwind information; `probe` is the code of its stack
    /// probe, `__chkstk`.
    ///
    /// # Panics
    /// Where `probe` has more than 4,096 bytes.
    pub fn check(&self, probe: &[u8]) -> Result<Verdict, Status> {
        assert!(probe.len() <= 4096, "the code of a stack probe");
        let mut verdict = Verdict::default();
        let status =
            unsafe { c::seh_check(self.pointer(), probe.as_ptr(), probe.len(), &mut verdict) };
        answer(status, verdict)
    }
}

/// The frames from a context on, through all images of a process, each at its base, as far as RIP
/// lies in one of them and `frames` has room: how many were written, and why no more (`END`,
/// `UNKNOWN_CODE`, `MORE`, or a refusal).
pub fn walk_modules(
    views: &[View<'_>],
    ranges: &[Range<'_>],
    context: &Context,
    frames: &mut [Frame],
) -> (usize, Status) {
    let mut written = 0;
    let status = unsafe {
        c::seh_walk_modules(
            views.as_ptr().cast(),
            views.len(),
            ranges.as_ptr(),
            ranges.len(),
            context,
            frames.as_mut_ptr(),
            frames.len(),
            &mut written,
        )
    };
    (written as usize, status)
}

/// The frames of a stack from a context on, innermost first, through all images of a process. After
/// the last one comes its end as an error: `END`, `UNKNOWN_CODE`, or a refusal.
pub fn stack<'r>(views: &'r [View<'r>], ranges: &'r [Range<'r>], context: Context) -> Frames<'r> {
    Frames::new(Code::Modules(views), ranges, context)
}

/// How many frames [`Frames`] finds at once.
const SOME: usize = 32;

/// Whose code the frames of an iterator have.
enum Code<'r> {
    View(View<'r>),
    Modules(&'r [View<'r>]),
}

/// An iterator over frames; [`View::frames`] and [`stack`] make it.
pub struct Frames<'r> {
    code: Code<'r>,
    ranges: &'r [Range<'r>],
    context: Context,
    found: [Frame; SOME],
    count: usize,
    given: usize,
    status: Status,
}

impl<'r> Frames<'r> {
    fn new(code: Code<'r>, ranges: &'r [Range<'r>], context: Context) -> Frames<'r> {
        Frames {
            code,
            ranges,
            context,
            found: [Frame::default(); SOME],
            count: 0,
            given: 0,
            status: Status {
                code: MORE,
                at: 0,
                more: 0,
            },
        }
    }

    /// The registers after the frames that were given: those of the last one's caller.
    pub fn context(&self) -> Context {
        self.context
    }
}

impl Iterator for Frames<'_> {
    type Item = Result<Frame, Status>;

    fn next(&mut self) -> Option<Result<Frame, Status>> {
        if self.given == self.count && self.status.code == MORE {
            (self.count, self.status) = match &self.code {
                Code::View(view) => view.walk(self.ranges, &self.context, &mut self.found),
                Code::Modules(views) => {
                    walk_modules(views, self.ranges, &self.context, &mut self.found)
                }
            };
            self.given = 0;
        }
        if self.given < self.count {
            let frame = self.found[self.given];
            self.given += 1;
            self.context = frame.caller;
            return Some(Ok(frame));
        }
        match self.status.code {
            OK => None,
            _ => {
                let refused = self.status;
                self.status.code = OK;
                Some(Err(refused))
            }
        }
    }
}
