//! What walk.c does, in Rust, over include/seh.rs.

// some functions of the wrapper aren't used here
#[allow(dead_code)]
#[path = "../../include/seh.rs"]
mod seh;

use seh::{Context, Layout, Range, Scope, Status, View};
use std::process::exit;

fn print_context(c: &Context) {
    println!(
        "    rip {:x} rsp {:x} rbx {:x} rbp {:x} rsi {:x} rdi {:x} r12 {:x} r13 {:x} r14 {:x} r15 {:x}",
        c.rip, c.rsp, c.rbx, c.rbp, c.rsi, c.rdi, c.r12, c.r13, c.r14, c.r15
    );
}

fn print_place(view: &View, rip: u64) {
    print!("{rip:x}");
    match view.find_function(rip.wrapping_sub(view.base) as u32) {
        Ok(Some(function)) => print!(" in function {:x}..{:x}", function.begin, function.end),
        Ok(None) => print!(" in no function"),
        Err(status) => print!(" in a function that is refused ({})", status.code),
    }
}

fn print_scopes(view: &View, rva: u32) {
    let mut scopes = [Scope::default(); 8];
    let (count, _) = view.scopes(rva, &mut scopes);
    for scope in &scopes[..count] {
        println!(
            "    __try {:x}..{:x}: {:x}, {:x}",
            scope.begin, scope.end, scope.handler_address, scope.jump_target
        );
    }
}

/// The context, the base and the stack's address that a text of lines `NAME NUMBER` gives.
fn read_registers(text: &str) -> Option<(Context, u64, u64)> {
    let (mut context, mut base, mut stack) = (Context::default(), 0, 0);
    for line in text.lines() {
        let (name, number) = line.split_once(' ')?;
        let place = match name {
            "rip" => &mut context.rip,
            "rsp" => &mut context.rsp,
            "rbx" => &mut context.rbx,
            "rbp" => &mut context.rbp,
            "rsi" => &mut context.rsi,
            "rdi" => &mut context.rdi,
            "r12" => &mut context.r12,
            "r13" => &mut context.r13,
            "r14" => &mut context.r14,
            "r15" => &mut context.r15,
            "base" => &mut base,
            "stack" => &mut stack,
            _ => return None,
        };
        *place = u64::from_str_radix(number, 16).ok()?;
    }
    Some((context, base, stack))
}

fn refused(status: Status) -> ! {
    println!("refused {} at {:x}", status.code, status.at);
    exit(1)
}

fn main() {
    let words: Vec<String> = std::env::args().collect();
    let [_, image, registers, stack] = &words[..] else {
        eprintln!("usage: walk_rust IMAGE REGISTERS STACK");
        exit(2)
    };
    let file = std::fs::read(image).expect("the image");
    let text = std::fs::read_to_string(registers).expect("the registers");
    let stack = std::fs::read(stack).expect("the stack");
    let (mut context, base, stack_at) = read_registers(&text).expect("lines `NAME NUMBER`");
    let mut index = [0; 64];
    let view =
        View::open(&file, Layout::File, base, &mut index).unwrap_or_else(|status| refused(status));
    println!(
        "image of {} bytes with {} functions, at {base:x}",
        view.image_size(),
        view.functions()
    );
    let ranges = [Range::new(stack_at, &stack)];
    for frame in view.frames(&ranges, context) {
        let frame = frame.unwrap_or_else(|status| refused(status));
        print_place(&view, context.rip);
        print!(", frame {:x}", frame.establisher);
        if frame.has_handler {
            print!(", handler {:x}", frame.handler);
        }
        println!();
        print_scopes(&view, context.rip.wrapping_sub(base) as u32);
        print_context(&frame.caller);
        context = frame.caller;
    }
    println!("{:x} lies outside the image", context.rip);
}
