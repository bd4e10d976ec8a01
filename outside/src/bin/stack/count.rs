//! The deepest that the stack gets under a function.

use std::collections::HashMap;

use crate::listing::{Function, Instruction, Listing, Machine};
use crate::step::{is_filler, step, Step, RED_ZONE};

/// The most stack that a function takes, and how much of it each function on the way there does.
#[derive(Clone, Debug, PartialEq)]
pub struct Path {
    pub bytes: i64,
    pub by: Vec<String>,
}

pub struct Counter<'a> {
    listing: &'a Listing,
    tables: bool,
    found: HashMap<String, Result<Path, String>>,
}

impl<'a> Counter<'a> {
    pub fn new(listing: &'a Listing, tables: bool) -> Counter<'a> {
        Counter { listing, tables, found: HashMap::new() }
    }

    /// A call of a function, its return address counted: x86-64 pushes it.
    pub fn call(&mut self, name: &str) -> Result<Path, String> {
        if let Some(found) = self.found.get(name) {
            return found.clone();
        }
        self.found.insert(name.into(), Err(format!("{name} comes back to itself")));
        let found = self.function(name);
        self.found.insert(name.into(), found.clone());
        found
    }

    fn function(&mut self, name: &str) -> Result<Path, String> {
        let function = self.listing.functions.get(name).ok_or_else(|| format!("{name} is not in the listing"))?;
        if self.listing.twice.iter().any(|twice| twice == name) {
            return Err(format!("{name} stands for more than one function"));
        }
        let back = match function.machine {
            Machine::X86 => 8,
            Machine::Arm => 0,
        };
        let depths = depths(name, function, self.tables)?;
        // below the pointer a function that calls others, and comes back, can keep nothing
        let calls = |i: &Instruction| step(function.machine, i) == Step::Call;
        let zone = if function.instructions.iter().any(calls) { 0 } else { RED_ZONE };
        let mut worst = Path { bytes: back, by: vec![format!("{name} {back}")] };
        for (i, depth) in function.instructions.iter().zip(depths) {
            let Some(depth) = depth else { continue };
            let (own, callee) = match step(function.machine, i) {
                Step::On(n) => (depth + n.max(0), None),
                Step::Below(n) => (depth + n, None),
                Step::Near => (depth + zone, None),
                Step::Call => (depth, Some(self.call(&callee(name, i)?)?)),
                // its return address is ours
                Step::Leave if depth == 0 => (-back, Some(self.call(&callee(name, i)?)?)),
                Step::Leave => return Err(odd(name, i, "leaves with something on the stack")),
                _ => (depth, None),
            };
            let bytes = back + own + callee.as_ref().map_or(0, |path| path.bytes);
            if worst.bytes < bytes {
                let mut by = vec![format!("{name} {}", back + own)];
                by.extend(callee.into_iter().flat_map(|path| path.by));
                worst = Path { bytes, by };
            }
        }
        Ok(worst)
    }
}

/// The function that a call or a leaving jump names.
fn callee(name: &str, i: &Instruction) -> Result<String, String> {
    if let Some(symbol) = &i.symbol {
        return Ok(symbol.clone());
    }
    let named = i.text.split_once('<').and_then(|(_, rest)| rest.strip_suffix('>'));
    named.map(String::from).ok_or_else(|| odd(name, i, "calls nobody that is named"))
}

fn odd(name: &str, i: &Instruction, why: &str) -> String {
    format!("{name} {why} at {:x}: {}", i.at, i.text)
}

/// How much a function has on the stack before each of its instructions, by every way through it; none where no way leads.
fn depths(name: &str, function: &Function, tables: bool) -> Result<Vec<Option<i64>>, String> {
    let lines = &function.instructions;
    let places: HashMap<u64, usize> = lines.iter().enumerate().map(|(k, i)| (i.at, k)).collect();
    let mut depths = vec![None; lines.len()];
    let mut ways = vec![(0, 0)];
    let mut at_tables = None;
    loop {
        while let Some((k, depth)) = ways.pop() {
            let Some(i) = lines.get(k) else { return Err(format!("{name} runs on past its end")) };
            match depths[k] {
                Some(known) if known == depth => continue,
                Some(_) => return Err(odd(name, i, "has one way with more on the stack than another")),
                None => depths[k] = Some(depth),
            }
            let to = |at: u64| places.get(&at).copied().ok_or_else(|| odd(name, i, "jumps out of itself"));
            match step(function.machine, i) {
                Step::On(n) if depth + n < 0 => return Err(odd(name, i, "takes what is not its own from the stack")),
                Step::On(n) => ways.push((k + 1, depth + n)),
                Step::Below(_) | Step::Near | Step::Call => ways.push((k + 1, depth)),
                Step::Branch(at) => ways.extend([(k + 1, depth), (to(at)?, depth)]),
                Step::Jump(at) => ways.push((to(at)?, depth)),
                Step::Return if depth != 0 => return Err(odd(name, i, "returns with something on the stack")),
                // with nothing on the stack it could be a call for good
                Step::Table if tables && 0 < depth && at_tables.is_none_or(|known| known == depth) => {
                    at_tables = Some(depth)
                }
                Step::Leave | Step::Return | Step::End => {}
                Step::Table | Step::Unknown => return Err(odd(name, i, "does what is not counted")),
            }
        }
        // what no other way leads to, a table does
        let left = (0..lines.len()).find(|&k| depths[k].is_none() && !is_filler(&lines[k].text));
        match (left, at_tables) {
            (None, _) => return Ok(depths),
            (Some(k), Some(depth)) => ways.push((k, depth)),
            (Some(k), None) => return Err(odd(name, &lines[k], "has an instruction that no way leads to")),
        }
    }
}
