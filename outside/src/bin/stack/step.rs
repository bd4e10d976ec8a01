//! What one instruction does to the stack and to the way through a function.

use crate::listing::{Instruction, Machine};

#[derive(Debug, PartialEq)]
pub enum Step {
    /// the next instruction follows, with so many bytes more on the stack
    On(i64),
    /// the next instruction follows; so many bytes below the stack pointer are used
    Below(i64),
    /// the next instruction follows; an address near the stack pointer is worked out, by which any of the red zone may be used
    Near,
    /// the next instruction follows, after a call
    Call,
    /// the way may go on at a place as well
    Branch(u64),
    /// the way goes on at a place
    Jump(u64),
    /// it goes to another function for good
    Leave,
    /// it goes where a register says
    Table,
    Return,
    /// no way goes on
    End,
    Unknown,
}

/// All that lies below the stack pointer of x86-64 and is a function's own, if it calls none.
pub const RED_ZONE: i64 = 128;

/// What x86-64 does to numbers and flags, by names that may end with a width; and how the names begin of what it does to
/// vectors, and of moves. All of these move the stack pointer only where they name it. What is not among them is not counted.
const NUMBERS: &[&str] = &[
    "lea", "add", "adc", "sub", "sbb", "and", "or", "xor", "not", "neg", "inc", "dec", "cmp", "test", "shl", "shr",
    "sal", "sar", "rol", "ror", "imul", "mul", "div", "idiv", "bsf", "bsr", "bswap", "bt", "btr", "bts", "btc",
    "tzcnt", "lzcnt", "popcnt", "cqto", "cltd", "cltq", "cwtl", "cwtd", "nop", "endbr64", "stos", "xchg",
];
const VECTORS: &[&str] = &[
    "mov", "cmov", "set", "cvt", "pack", "punpck", "unpck", "padd", "psub", "pmul", "pmadd", "pand", "por", "pxor",
    "pblend", "pcmp", "pmin", "pmax", "pshuf", "psll", "psrl", "psra", "pextr", "pinsr", "pavg", "pmovmskb", "movmsk",
    "shuf", "xorp", "andp", "andnp", "orp",
];

fn is_plain(name: &str) -> bool {
    let narrow = name.strip_suffix(['b', 'w', 'l', 'q']).unwrap_or(name);
    NUMBERS.contains(&name) || NUMBERS.contains(&narrow) || VECTORS.iter().any(|start| name.starts_with(start))
}

/// The names of Arm that begin as its branches do, and are none.
const ARM: &[&str] = &["bic", "bics", "bif", "bit", "bsl", "bfi", "bfxil", "bfc", "bfm", "bti"];

pub fn step(machine: Machine, i: &Instruction) -> Step {
    match machine {
        Machine::X86 => x86(i),
        Machine::Arm => arm(i),
    }
}

/// a filler between functions or loops
pub fn is_filler(text: &str) -> bool {
    let name = name_of(text).0;
    name.starts_with("nop") || matches!(name, "int3" | "ud2" | "udf" | "brk") || text == "xchg %ax,%ax"
}

/// mnemonic and operands, past the prefixes that say nothing of the stack
fn name_of(text: &str) -> (&str, &str) {
    let (name, rest) = text.split_once(' ').unwrap_or((text, ""));
    match name {
        "rep" | "repz" | "repnz" | "lock" | "data16" | "cs" | "notrack" | "bnd" => name_of(rest),
        _ => (name, rest),
    }
}

/// operands, parted at the commas that stand in no brackets
fn operands(text: &str) -> Vec<&str> {
    let (mut parts, mut deep, mut from) = (Vec::new(), 0, 0);
    for (at, c) in text.char_indices() {
        match c {
            '(' | '[' | '{' => deep += 1,
            ')' | ']' | '}' => deep -= 1,
            ',' if deep == 0 => {
                parts.push(text[from..at].trim());
                from = at + 1;
            }
            _ => {}
        }
    }
    parts.push(text[from..].trim());
    parts
}

/// a number with or without 0x, with or without a sign
fn number(text: &str) -> Option<i64> {
    let (minus, digits) = text.strip_prefix('-').map_or((false, text), |rest| (true, rest));
    let value = match digits.strip_prefix("0x") {
        Some(hex) => u64::from_str_radix(hex, 16).ok()? as i64, // 0xffffffffffffff80 is -128
        None => digits.parse().ok()?,
    };
    Some(if minus { -value } else { value })
}

/// where a branch goes: the number before `<NAME+0x10>`, in hexadecimal, behind what else it has
fn place(operands: &str) -> Option<u64> {
    let text = operands.split(" <").next()?.rsplit([',', ' ']).next()?;
    u64::from_str_radix(text.trim_start_matches("0x"), 16).ok()
}

/// A jump to a symbol leaves the function.
fn jump(i: &Instruction, operands: &str) -> Step {
    match (&i.symbol, place(operands)) {
        (Some(_), _) => Step::Leave,
        (None, Some(at)) => Step::Jump(at),
        _ => Step::Unknown,
    }
}

fn branch(i: &Instruction, operands: &str) -> Step {
    match (&i.symbol, place(operands)) {
        (None, Some(at)) => Step::Branch(at),
        _ => Step::Unknown,
    }
}

fn x86(i: &Instruction) -> Step {
    let (name, rest) = name_of(&i.text);
    let parts = operands(rest);
    let (from, to) = (parts[0], *parts.last().expect("split has a part"));
    let is_pointer = |part: &str| matches!(part, "%rsp" | "%esp" | "%sp" | "%spl");
    let by = |sign: i64| match from.strip_prefix('$').and_then(number) {
        Some(n) if to == "%rsp" && parts.len() == 2 => Step::On(sign * n),
        _ => Step::Unknown,
    };
    match name {
        "push" | "pushq" => Step::On(8),
        "pop" | "popq" if !is_pointer(to) => Step::On(-8),
        "sub" | "subq" if is_pointer(to) => by(1),
        "add" | "addq" if is_pointer(to) => by(-1),
        "lea" | "leaq" if to == "%rsp" => match from.strip_suffix("(%rsp)").and_then(number) {
            Some(n) => Step::On(-n),
            None => Step::Unknown,
        },
        "call" | "callq" if to.starts_with('*') => Step::Unknown,
        "call" | "callq" => Step::Call,
        "ret" | "retq" if rest.is_empty() => Step::Return,
        "jmp" | "jmpq" if to.starts_with("*%") => Step::Table,
        "jmp" | "jmpq" => jump(i, rest),
        "ud2" | "hlt" | "int3" => Step::End,
        _ if name.starts_with('j') => branch(i, rest),
        // a copy of the pointer
        "mov" | "movq" if from == "%rsp" && parts.len() == 2 && !is_pointer(to) => Step::Near,
        _ if parts.iter().any(|part| is_pointer(part)) => Step::Unknown,
        _ if !is_plain(name) => Step::Unknown,
        _ => parts.iter().map(|part| near(part, name)).max_by_key(rank).expect("split has a part"),
    }
}

/// What an operand of x86-64 uses below the stack pointer: so much where it is told plainly, else anything of the red zone.
fn near(part: &str, name: &str) -> Step {
    match part.split_once('(') {
        Some((offset, "%rsp)")) if !name.starts_with("lea") => match number(offset) {
            Some(n) if n < 0 => Step::Below(-n),
            Some(_) => Step::On(0),
            None if offset.is_empty() => Step::On(0),
            None => Step::Unknown,
        },
        Some((_, base)) if base.contains("%rsp") => Step::Near,
        _ => Step::On(0),
    }
}

fn rank(step: &Step) -> i64 {
    match step {
        Step::On(_) => 0,
        Step::Below(n) => *n,
        Step::Near => i64::MAX - 1,
        _ => i64::MAX,
    }
}

fn arm(i: &Instruction) -> Step {
    let (name, rest) = name_of(&i.text);
    let parts = operands(rest);
    match name {
        "bl" => Step::Call,
        "ret" if rest.is_empty() => Step::Return,
        "br" => Step::Table,
        "b" => jump(i, rest),
        "cbz" | "cbnz" | "tbz" | "tbnz" => branch(i, rest),
        "udf" | "brk" => Step::End,
        _ if name.starts_with("b.") => branch(i, rest),
        _ if name.starts_with('b') && !ARM.contains(&name) => Step::Unknown,
        _ if name.starts_with(['<', '(', '.']) => Step::Unknown,
        _ if ["ret", "eret", "svc", "hvc", "smc", "hlt", "undefined"].iter().any(|s| name.starts_with(s)) => {
            Step::Unknown
        }
        "sub" | "add" if parts[0] == "sp" && parts.get(1) == Some(&"sp") => {
            let sign = if name == "sub" { 1 } else { -1 };
            match (parts[2].strip_prefix('#').and_then(number), &parts[3..]) {
                (Some(n), []) => Step::On(sign * n),
                (Some(n), ["lsl #12"]) => Step::On(sign * (n << 12)),
                _ => Step::Unknown,
            }
        }
        _ if parts[0] == "sp" || parts[0] == "wsp" => Step::Unknown,
        _ => match parts.iter().position(|part| part.starts_with("[sp")) {
            None => Step::On(0),
            Some(at) => on_pointer(parts[at], parts.get(at + 1)),
        },
    }
}

/// `[sp, #-16]!` moves the pointer before, `[sp], #16` after. AArch64 has no red zone.
fn on_pointer(part: &str, after: Option<&&str>) -> Step {
    let moved = match (part.strip_suffix('!'), after) {
        (Some(before), None) => before.strip_prefix("[sp, #").and_then(|rest| rest.strip_suffix(']')),
        (None, Some(after)) if part == "[sp]" => after.strip_prefix('#'),
        (None, None) if part.contains("#-") => None,
        (None, None) => return Step::On(0),
        _ => None,
    };
    moved.and_then(number).map_or(Step::Unknown, |n| Step::On(-n))
}
