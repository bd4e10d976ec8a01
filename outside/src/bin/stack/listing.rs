//! A listing of machine code: its functions, their instructions, and where relocations lead.

use std::collections::HashMap;

#[derive(Clone, Copy, Debug, PartialEq)]
pub enum Machine {
    X86,
    Arm,
}

pub struct Instruction {
    pub at: u64,
    /// mnemonic and operands, with single blanks, without what the disassembler remarks
    pub text: String,
    /// what the linker puts in: the symbol, if it is meant from its start
    pub symbol: Option<String>,
}

pub struct Function {
    pub machine: Machine,
    pub instructions: Vec<Instruction>,
}

#[derive(Default)]
pub struct Listing {
    pub functions: HashMap<String, Function>,
    /// names that stand for more than one function
    pub twice: Vec<String>,
}

impl Listing {
    /// of the listings of any number of objects
    pub fn of(text: &str) -> Listing {
        let mut listing = Listing::default();
        let mut object = Object::default();
        for line in text.lines() {
            if let Some((_, format)) = line.split_once("file format ") {
                listing.add(std::mem::take(&mut object));
                object.machine = match format.trim() {
                    "elf64-x86-64" => Some(Machine::X86),
                    "elf64-littleaarch64" => Some(Machine::Arm),
                    _ => None,
                };
            } else {
                object.read(line);
            }
        }
        listing.add(object);
        listing
    }

    fn add(&mut self, object: Object) {
        let Some(machine) = object.machine else { return };
        for (name, mut instructions) in object.functions {
            for i in &mut instructions {
                // a section stands for the function that it begins with
                if let Some(first) = i.symbol.as_ref().and_then(|symbol| object.sections.get(symbol)) {
                    i.symbol = Some(first.clone());
                }
            }
            if self.functions.insert(name.clone(), Function { machine, instructions }).is_some() {
                self.twice.push(name);
            }
        }
    }
}

/// What was read of one object.
#[derive(Default)]
struct Object {
    machine: Option<Machine>,
    section: String,
    functions: Vec<(String, Vec<Instruction>)>,
    sections: HashMap<String, String>,
}

impl Object {
    fn read(&mut self, line: &str) {
        if let Some(its) = line.strip_prefix("Disassembly of section ") {
            self.section = its.trim_end_matches(':').into();
        } else if let Some(name) = heading(line) {
            self.functions.push((name.into(), Vec::new()));
            if line.starts_with("0000000000000000 ") {
                self.sections.insert(self.section.clone(), name.into());
            }
        } else if let (Some((_, instructions)), Some((at, text))) = (self.functions.last_mut(), numbered(line)) {
            match (text.strip_prefix("R_"), instructions.last_mut()) {
                (Some(relocation), Some(last)) => last.symbol = Some(symbol(relocation)),
                _ => instructions.push(Instruction { at, text: plain(text), symbol: None }),
            }
        }
    }
}

/// `0000000000000010 <NAME>:`
fn heading(line: &str) -> Option<&str> {
    let (at, rest) = line.split_once(" <")?;
    u64::from_str_radix(at, 16).ok()?;
    rest.strip_suffix(">:")
}

/// `10: WHAT`
fn numbered(line: &str) -> Option<(u64, &str)> {
    let (at, what) = line.split_once(':')?;
    Some((u64::from_str_radix(at.trim(), 16).ok()?, what.trim()))
}

/// of `X86_64_PLT32 NAME-0x4` the name; a place inside of it keeps how far, which is the name of no function
fn symbol(relocation: &str) -> String {
    let (kind, target) = relocation.split_once(char::is_whitespace).unwrap_or((relocation, ""));
    let target = target.trim();
    // an x86-64 branch counts from behind its four bytes
    let start = if kind.starts_with("X86_64_") { target.strip_suffix("-0x4").unwrap_or("?") } else { target };
    start.into()
}

fn plain(text: &str) -> String {
    let text = text.split_whitespace().collect::<Vec<_>>().join(" ");
    let end = [" # ", " // "].iter().filter_map(|remark| text.find(remark)).min();
    text[..end.unwrap_or(text.len())].into()
}
