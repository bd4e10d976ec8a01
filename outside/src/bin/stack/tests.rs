//! What the counter counts, and what it refuses to count.

use crate::count::{Counter, Path};
use crate::listing::Listing;

fn counted(machine: &str, functions: &[(&str, &[&str])], name: &str, tables: bool) -> Result<Path, String> {
    let mut text = format!("a.o:     file format {machine}\n\n");
    for (function, lines) in functions {
        text += &format!("Disassembly of section .text.{function}:\n\n0000000000000000 <{function}>:\n");
        for (k, line) in lines.iter().enumerate() {
            match line.strip_prefix("R ") {
                Some(symbol) => text += &format!("\t\t\t{k:x}: R_{symbol}\n"),
                None => text += &format!("  {k:x}:\t{line}\n"),
            }
        }
    }
    let listing = Listing::of(&text);
    Counter::new(&listing, tables).call(name)
}
fn x86(lines: &[&str]) -> Result<i64, String> {
    let functions: [(&str, &[&str]); 2] =
        [("f", lines), ("leaf", &["mov %rax,-0x18(%rsp)", "mov -0x8(%rsp),%rcx", "ret"])];
    counted("elf64-x86-64", &functions, "f", false).map(|path| path.bytes)
}
fn arm(lines: &[&str]) -> Result<i64, String> {
    let functions: [(&str, &[&str]); 2] = [("f", lines), ("leaf", &["sub sp, sp, #0x20", "add sp, sp, #0x20", "ret"])];
    counted("elf64-littleaarch64", &functions, "f", false).map(|path| path.bytes)
}
fn refused(found: Result<i64, String>, why: &str) {
    let said = found.expect_err("it was counted");
    assert!(said.contains(why), "refused, but: {said}");
}

#[test]
fn pushes_frames_and_return_addresses() {
    assert_eq!(x86(&["ret"]), Ok(8));
    assert_eq!(x86(&["push %rbp", "sub $0x20,%rsp", "add $0x20,%rsp", "pop %rbp", "ret"]), Ok(8 + 8 + 32));
    assert_eq!(x86(&["pushq\t%rbp", "subq\t$32, %rsp", "addq\t$32, %rsp", "popq\t%rbp", "retq"]), Ok(48));
    assert_eq!(x86(&["add $0xffffffffffffff80,%rsp", "lea 0x80(%rsp),%rsp", "ret"]), Ok(8 + 128));
    assert_eq!(x86(&["popcnt %rax,%rcx", "ret"]), Ok(8));
    assert_eq!(arm(&["ret"]), Ok(0));
    assert_eq!(
        arm(&[
            "stp x29, x30, [sp, #-32]!",
            "mov x29, sp",
            "sub sp, sp, #1, lsl #12",
            "add sp, sp, #0x1, lsl #12",
            "ldp x29, x30, [sp], #32",
            "ret"
        ]),
        Ok(32 + 4096)
    );
    assert_eq!(
        arm(&["sub\tsp, sp, #0x30", "str x30, [sp, #16]", "ldr x30, [sp, #0x10]", "add sp, sp, #48", "ret"]),
        Ok(48)
    );
}

#[test]
fn what_lies_below_the_pointer() {
    assert_eq!(x86(&["mov %rax,-0x18(%rsp)", "ret"]), Ok(8 + 24));
    assert_eq!(x86(&["movq\t%rax, -24(%rsp)", "retq"]), Ok(8 + 24));
    assert_eq!(x86(&["mov %rax,0x18(%rsp)", "ret"]), Ok(8));
    // it may lie anywhere in the red zone
    assert_eq!(x86(&["lea -0x18(%rsp),%rax", "ret"]), Ok(8 + 128));
    assert_eq!(x86(&["mov %al,-0x78(%rsp,%rcx,1)", "ret"]), Ok(8 + 128));
    assert_eq!(x86(&["mov %al,0x10(%rsp,%rcx,1)", "ret"]), Ok(8 + 128));
    assert_eq!(x86(&["lea 0x18(%rsp),%rax", "ret"]), Ok(8 + 128));
    assert_eq!(x86(&["mov %rsp,%rax", "ret"]), Ok(8 + 128));
    let leaving = ["mov %al,-0x68(%rsp,%rcx,1)", "jmp 7 <f+0x7>", "R X86_64_PLT32\tleaf-0x4"];
    assert_eq!(x86(&leaving), Ok(8 + 128));
    // but not where a call would overwrite it
    assert_eq!(x86(&["lea 0x18(%rsp),%rax", "call 5 <f+0x5>", "R X86_64_PLT32\tleaf-0x4", "ret"]), Ok(8 + 8 + 24));
    refused(arm(&["str x0, [sp, #-16]", "ret"]), "not counted"); // Arm has none
}

#[test]
fn calls() {
    let leaf = 8 + 24;
    assert_eq!(x86(&["push %rax", "call 6 <f+0x6>", "R X86_64_PLT32\tleaf-0x4", "pop %rax", "ret"]), Ok(16 + leaf));
    assert_eq!(x86(&["call 5 <f+0x5>", "R X86_64_PLT32\t.text.leaf-0x4", "ret"]), Ok(8 + leaf));
    assert_eq!(x86(&["push %rax", "pop %rax", "jmp 7 <f+0x7>", "R X86_64_PLT32\tleaf-0x4"]), Ok(leaf));
    assert_eq!(
        arm(&["str x30, [sp, #-16]!", "bl 0 <leaf>", "R AARCH64_CALL26\tleaf", "ldr x30, [sp], #16", "ret"]),
        Ok(16 + 32)
    );
    assert_eq!(arm(&["b 0 <leaf>", "R AARCH64_JUMP26\tleaf"]), Ok(32));

    refused(x86(&["call *%rax", "ret"]), "not counted");
    refused(x86(&["jmp *%rax"]), "not counted");
    refused(x86(&["call 5 <f+0x5>", "R X86_64_PLT32\tmemcpy-0x4", "ret"]), "memcpy is not in the listing");
    refused(x86(&["call 5 <f+0x5>", "R X86_64_PLT32\tleaf+0x10", "ret"]), "not in the listing");
    refused(x86(&["call 5 <f+0x5>", "R X86_64_PLT32\tf-0x4", "ret"]), "comes back to itself");
    refused(x86(&["push %rax", "jmp 7 <f+0x7>", "R X86_64_PLT32\tleaf-0x4"]), "leaves with something");
    refused(x86(&["je 7 <f+0x7>", "R X86_64_PLT32\tleaf-0x4", "ret"]), "not counted");
    refused(arm(&["blr x8", "ret"]), "not counted");
    refused(arm(&["br x8"]), "not counted");
    for line in [
        "rex.W call 5 <leaf>",
        "addr32 call 5 <leaf>",
        "ds jmp *%rax",
        "{evex} call 5 <leaf>",
        "ljmp *(%rax)",
        "xbegin 9",
    ] {
        refused(x86(&[line, "ret"]), "not counted");
    }
    for line in ["bc.eq 0 <f>", "blraa x8, x9", "retab", "svc #0"] {
        refused(arm(&[line, "ret"]), "not counted");
    }
}

#[test]
fn every_way() {
    // 0 je 3; 1 sub; 2 add; 3 ret
    assert_eq!(x86(&["je 3 <f+0x3>", "sub $0x40,%rsp", "add $0x40,%rsp", "ret"]), Ok(8 + 64));
    refused(x86(&["sub $0x40,%rsp", "ret"]), "returns with something on the stack");
    refused(x86(&["je 2 <f+0x2>", "sub $0x40,%rsp", "ret"]), "one way with more");
    refused(x86(&["push %rax", "jmp 0 <f>"]), "one way with more");
    refused(x86(&["jmp 2 <f+0x2>", "push %rax", "ret"]), "no way leads to");
    refused(x86(&["pop %rax", "ret"]), "not its own");
    refused(x86(&["jmp 99 <g+0x99>"]), "jumps out of itself");
    refused(x86(&["push %rax"]), "past its end");
    assert_eq!(x86(&["jmp 2 <f+0x2>", "nopw 0x0(%rax,%rax,1)", "ret"]), Ok(8));
}

#[test]
fn a_pointer_that_is_moved_otherwise() {
    for line in [
        "sub %rax,%rsp",
        "and $0xfffffffffffffff0,%rsp",
        "mov %rbp,%rsp",
        "leave",
        "xchg %rax,%rsp",
        "pop %rsp",
        "(bad)",
    ] {
        refused(x86(&[line, "ret"]), "not counted");
    }
    refused(x86(&["ret $0x8"]), "not counted");
    for line in ["mov sp, x29", "sub sp, x29, #0x10", "sub sp, sp, x8", "and sp, x9, #0xfffffffffffffff0", "<unknown>"]
    {
        refused(arm(&[line, "ret"]), "not counted");
    }
}

#[test]
fn jump_tables_where_they_are_allowed() {
    let lines: &[&str] = &["push %rax", "notrack jmp *%rcx", "sub $0x10,%rsp", "add $0x10,%rsp", "pop %rax", "ret"];
    let found = counted("elf64-x86-64", &[("f", lines)], "f", true).map(|path| path.bytes);
    assert_eq!(found, Ok(8 + 8 + 16));
    assert!(counted("elf64-x86-64", &[("f", lines)], "f", false).is_err());
    // with nothing on the stack it may leave for good
    assert!(counted("elf64-x86-64", &[("f", &["jmp *%rcx"])], "f", true).is_err());
}

#[test]
fn names() {
    let ret: &[&str] = &["ret"];
    refused(counted("elf64-x86-64", &[("f", ret)], "g", false).map(|path| path.bytes), "g is not in the listing");
    refused(counted("elf64-x86-64", &[("f", ret), ("f", ret)], "f", false).map(|path| path.bytes), "more than one");
    refused(counted("elf32-i386", &[("f", ret)], "f", false).map(|path| path.bytes), "not in the listing");
    let path =
        counted("elf64-x86-64", &[("f", &["call 5 <g>", "R X86_64_PC32\tg-0x4", "ret"]), ("g", ret)], "f", false);
    assert_eq!(path.map(|path| path.by), Ok(vec!["f 8".into(), "g 8".into()]));
}
