//! Counts the stack that a call can take at most, in machine code alone.
//!
//!     objdump -dr --no-show-raw-insn OBJECT... | stack [--tables] LIMIT NAME...
//!
//! reads a listing of x86-64 or AArch64 (of objdump or llvm-objdump) and prints for each NAME its worst path: what is pushed,
//! what the stack pointer is moved by, what is used below it (x86-64's red zone), and what each call adds. The figure of a
//! NAME has its own return address in it. It ends with 1 where a figure is not below LIMIT, and where something cannot be
//! counted: a call or jump through a register, a callee that is not in the listing, a call that comes back to its caller, a
//! stack pointer that is moved by anything but a plain number or differs by the way that led to a place, an instruction that
//! no way leads to, or one of x86-64 that it does not know. With --tables a jump through a register is taken to stay in its function, as those of a jump table do.

mod count;
mod listing;
mod step;
#[cfg(test)]
mod tests;

use std::io::Read;
use std::process::ExitCode;

use count::Counter;
use listing::Listing;

fn main() -> ExitCode {
    let mut words: Vec<String> = std::env::args().skip(1).collect();
    let tables = words.first().is_some_and(|word| word == "--tables");
    if tables {
        words.remove(0);
    }
    let limit = words.first().and_then(|word| word.parse().ok());
    let (Some(limit), [_, names @ ..]) = (limit, &words[..]) else {
        eprintln!("usage: stack [--tables] LIMIT NAME... <LISTING");
        return ExitCode::from(2);
    };
    let mut text = String::new();
    if let Err(error) = std::io::stdin().read_to_string(&mut text) {
        eprintln!("stack: the listing could not be read: {error}");
        return ExitCode::from(2);
    }
    let listing = Listing::of(&text);
    let mut counter = Counter::new(&listing, tables);
    let mut within = !names.is_empty();
    for name in names {
        match counter.call(name) {
            Ok(path) => {
                let over = if path.bytes < limit { "" } else { ": TOO MUCH" };
                println!("{name}: {} bytes ({}){over}", path.bytes, path.by.join(", "));
                within &= path.bytes < limit;
            }
            Err(why) => {
                println!("{name}: CANNOT BE COUNTED: {why}");
                within = false;
            }
        }
    }
    if within {
        ExitCode::SUCCESS
    } else {
        ExitCode::FAILURE
    }
}
