//! dump_frames DUMP FOLDER..: what `seh_stack --frames` prints, in Rust, over include/seh.rs and
//! include/seh_dump.rs. Images come from the folders alone.

// some functions of the wrappers aren't used here
#[allow(dead_code)]
#[path = "../../include/seh.rs"]
mod seh;
#[allow(dead_code)]
#[path = "../../include/seh_dump.rs"]
mod seh_dump;

use seh::{Context, Layout, Range, View};
use seh_dump::{Dump, Module};

/// The file of a module, in the first folder that has one of its name.
fn file_of(dump: &Dump, module: &Module, folders: &[String]) -> Option<Vec<u8>> {
    let path = dump.string(module.name_rva).ok()?;
    let name = path.rsplit(['\\', '/']).next()?;
    folders.iter().find_map(|folder| std::fs::read(format!("{folder}/{name}")).ok())
}

/// The ranges of both lists, in order; what an earlier one has is left out.
fn ranges_of<'a>(dump: &Dump<'a>) -> Vec<Range<'a>> {
    let mut found: Vec<_> = dump.ranges().flatten().chain(dump.ranges64()).collect();
    found.sort_by_key(|range| range.at());
    let mut kept: Vec<Range> = Vec::new();
    for range in found {
        let end = kept.last().map_or(0, |last| last.at() + last.bytes().len() as u64);
        let known = end.saturating_sub(range.at()).min(range.bytes().len() as u64);
        let rest = &range.bytes()[known as usize..];
        if !rest.is_empty() {
            kept.push(Range::new(range.at() + known, rest));
        }
    }
    kept
}

fn print_frame(c: &Context) {
    println!(
        "{:x} {:x} {:x} {:x} {:x} {:x} {:x} {:x} {:x} {:x}",
        c.rip, c.rsp, c.rbx, c.rbp, c.rsi, c.rdi, c.r12, c.r13, c.r14, c.r15
    );
}

/// The frames from a context on, as far as images are there.
fn print_frames(views: &[View], ranges: &[Range], mut context: Context) {
    let view_at = |rip: u64| {
        let lies_in = |v: &&View| rip.wrapping_sub(v.base) < v.image_size();
        views.iter().find(lies_in)
    };
    while let Some(view) = view_at(context.rip) {
        for frame in view.frames(ranges, context) {
            let Ok(frame) = frame else { return };
            print_frame(&context);
            context = frame.caller;
        }
    }
}

fn main() {
    let words: Vec<String> = std::env::args().collect();
    let file = std::fs::read(&words[1]).expect("the dump");
    let dump = Dump::open(&file).expect("a dump");
    let ranges = ranges_of(&dump);
    let modules: Vec<_> = dump.modules().collect();
    let files: Vec<_> = modules.iter().map(|m| file_of(&dump, m, &words[2..])).collect();
    let views: Vec<View> = (modules.iter().zip(&files))
        .filter_map(|(m, file)| {
            View::open(file.as_ref()?, Layout::File, m.base, &mut []).ok()
        })
        .collect();
    let raised = dump.exception().expect("the exception");
    for thread in dump.threads() {
        let context = match raised {
            Some(e) if e.thread_id == thread.thread_id => e.context,
            _ => thread.context,
        };
        let context = dump.registers(context).expect("registers").context();
        if views.iter().any(|v| context.rip.wrapping_sub(v.base) < v.image_size()) {
            println!("t {:x}", thread.thread_id);
            print_frames(&views, &ranges, context);
        }
    }
}
