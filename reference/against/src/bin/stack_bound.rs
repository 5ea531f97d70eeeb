//! A bound of the stack that a call of the archive needs, from the archive's machine code.
//!
//! ```text
//! objdump -dr --no-show-raw-insn libhub_ffi.a | stack_bound
//! ```
//!
//! It reads each function's frame and whom it calls, takes the longest path from the functions of
//! include/hub.h on, and fails if that is above HUB_STACK_LEN, or if it cannot tell: at a call through a
//! register, a frame of no constant size, or recursion that it knows no bound of.
//!
//! What it takes for granted: objdump's reading; that a jump through a register, in a function that has a table
//! of constants, goes to a place of the function; and that a push or a subtraction from the stack pointer in a
//! loop is undone in the loop, as compilers do, but for the loop that touches a long frame page by page.

use against::{archive, header};
use std::collections::{BTreeMap, BTreeSet};
use std::io::Read;
use std::process::ExitCode;

/// The functions that a host calls.
const ENTRIES: [&str; 9] = [
    "hub_attach",
    "hub_attach_msgpack",
    "hub_detach",
    "hub_message",
    "hub_settings_read",
    "hub_settings_read_1",
    "hub_settings_write",
    "hub_settings_write_1",
    "hub_settings_default",
];

/// The arguments of hub_message behind its first six, which the host puts on the stack: two of eight, or four of ten where
/// the step takes settings.
const ARGUMENTS: usize = if archive::STEP_TAKES_SETTINGS { 32 } else { 16 };

/// The address to return to, and a push.
const WORD: usize = 8;

/// What a function that calls none may use below the stack pointer (System V ABI for x86-64, 3.2.2).
const RED_ZONE: usize = 128;

/// What a function of the C library is allowed, its return address counted in. Copying and filling use next
/// to nothing; but a program that binds them at their first call looks them up then, on the same stack, with
/// every vector register saved there.
const OUTSIDE: usize = 4096;
const ALLOWED_OUTSIDE: [&str; 4] = ["memcpy", "memmove", "memset", "memcmp"];

/// The functions that call themselves or each other, by how their names begin, and how often each is on the
/// stack at most.
///
/// The readers of JSON, and those of MessagePack, call each other for what stands inside a list or dict. A
/// message's elements stand at depth 2 of 8, and one at depth 9 is refused by the reader that is called for it:
/// 8 times. So do those that convert the one to the other.
///
/// A number is written by writing its tenth first. One of 64 bits has at most 20 digits. In MessagePack it is
/// written in at most 8 bytes by writing those before the last first, and a call for no byte writes none: 9 times.
const RECURSIONS: [(&str, usize); 6] = [
    ("json_text::read_", 8),
    ("msgpack::read_", 8),
    ("to_json::json_", 8),
    ("to_msgpack::pack_", 8),
    ("buffer::put_number", 20),
    ("packing::put_wide", 9),
];

#[derive(Default)]
struct Function {
    frame: usize,
    calls: BTreeSet<String>,
    /// Does it jump through a register, and does it have a table of constants to take the place from?
    jumps: bool,
    has_table: bool,
    /// Where a register points, as a frame's size: the end of a loop that touches each page of the frame.
    end: Option<(String, usize)>,
}

type Functions = BTreeMap<String, Function>;

/// The functions of a listing.
fn functions(listing: &str) -> Result<Functions, String> {
    let mut functions = Functions::new();
    let mut name = String::new();
    let mut lines = listing.lines().peekable();
    while let Some(line) = lines.next() {
        if let Some(begun) = line.strip_suffix(">:").and_then(|line| line.split_once(" <")) {
            name = begun.1.to_string();
            functions.insert(name.clone(), Function { frame: WORD, ..Function::default() });
            continue;
        }
        // `ADDRESS:<tab>INSTRUCTION`, and on a line of its own the symbol that the linker puts into it.
        let Some((_, instruction)) = line.split_once(":\t") else { continue };
        let symbol = lines.peek().and_then(|line| line.split_once(": R_X86_64_")).map(|(_, symbol)| symbol);
        let function = functions.get_mut(&name).ok_or("an instruction before any function")?;
        function.take(instruction.trim(), symbol).map_err(|why| format!("{name}: {why}: {}", line.trim()))?;
    }
    match functions.iter().find(|(_, function)| function.jumps && !function.has_table) {
        Some((name, _)) => Err(format!("{name}: a jump through a register, and no table of places")),
        None => Ok(functions),
    }
}

impl Function {
    /// Takes one instruction in.
    fn take(&mut self, instruction: &str, symbol: Option<&str>) -> Result<(), &'static str> {
        let (operation, operands) = instruction.split_once(' ').unwrap_or((instruction, ""));
        let operands = operands.trim();
        self.has_table |= symbol.is_some_and(|symbol| symbol.contains(".rodata"));
        match operation {
            "jmp" if operands.starts_with("*%") => self.jumps = true,
            "call" | "jmp" if operands.starts_with('*') => return Err("a call whose target is not told"),
            "call" => drop(self.calls.insert(target(operands, symbol).ok_or("a call of no function")?)),
            // A jump out of the function is its last call.
            _ if operation.starts_with('j') => self.calls.extend(symbol.and_then(of_symbol)),
            "push" => self.frame += WORD,
            "sub" if operands.ends_with(",%rsp") => {
                self.frame += subtracted(operands).ok_or("a frame of no constant size")?;
            }
            "mov" if operands.starts_with("%rsp,%") => self.end = Some((operands[5..].into(), self.frame)),
            "sub" if self.end.as_ref().is_some_and(|(register, _)| operands.ends_with(&**register)) => {
                let place = |(register, frame)| Some((register, frame + subtracted(operands)?));
                self.end = self.end.take().and_then(place);
            }
            "cmp" if operands.ends_with(",%rsp") => {
                let known = self.end.take().filter(|(register, _)| operands.starts_with(&**register));
                self.frame = self.frame.max(known.ok_or("a frame of no constant size")?.1);
            }
            // These only give back.
            "add" if operands.starts_with('$') => {}
            "pop" | "cmp" | "test" => {}
            _ if operands.ends_with("%rsp") || ["enter", "leave"].contains(&operation) => {
                return Err("the stack pointer is set");
            }
            _ => {}
        }
        Ok(())
    }
}

/// What an instruction subtracts, if that is a constant: `$0xSIZE,REGISTER`.
fn subtracted(operands: &str) -> Option<usize> {
    let size = operands.strip_prefix("$0x")?.split(',').next()?;
    usize::from_str_radix(size, 16).ok()
}

/// The function that is called: the linker's symbol, or without one the name beside the address.
fn target(operands: &str, symbol: Option<&str>) -> Option<String> {
    match symbol {
        Some(symbol) => of_symbol(symbol),
        None => operands
            .split_once('<')?
            .1
            .strip_suffix('>')
            .filter(|name| !name.contains('+'))
            .map(str::to_string),
    }
}

/// The function of a symbol such as `PLT32<tab>.text.json_text::read_dict-0x4`.
fn of_symbol(symbol: &str) -> Option<String> {
    let name = symbol.split_ascii_whitespace().nth(1)?.strip_suffix("-0x4")?;
    Some(name.strip_prefix(".text.").unwrap_or(name).to_string())
}

/// All that a function calls, by others too.
fn reached(functions: &Functions, name: &str) -> BTreeSet<String> {
    let mut found = BTreeSet::new();
    let mut left = vec![name];
    while let Some(name) = left.pop() {
        for called in functions.get(name).iter().flat_map(|function| &function.calls) {
            if found.insert(called.clone()) {
                left.push(called);
            }
        }
    }
    found
}

/// The stack that a function needs with all that it calls.
fn need(functions: &Functions, name: &str) -> Result<usize, String> {
    let Some(function) = functions.get(name) else {
        let allowed = ALLOWED_OUTSIDE.contains(&name).then_some(OUTSIDE);
        return allowed.ok_or_else(|| format!("{name} is not in the archive"));
    };
    // The functions that call each other round, this one among them; itself alone if there are none.
    let round: BTreeSet<String> = reached(functions, name)
        .into_iter()
        .filter(|other| reached(functions, other).contains(name))
        .chain([name.to_string()])
        .collect();
    let times = if round.len() > 1 || function.calls.contains(name) {
        let bounded = RECURSIONS.iter().find(|(begin, _)| round.iter().all(|name| name.starts_with(begin)));
        bounded.ok_or_else(|| format!("recursion without a bound: {round:?}"))?.1
    } else {
        1
    };
    let frames: usize = round.iter().map(|name| functions[name].frame).sum();
    let mut deepest = RED_ZONE;
    for called in round.iter().flat_map(|name| &functions[name].calls).filter(|name| !round.contains(*name)) {
        deepest = deepest.max(need(functions, called)?);
    }
    Ok(deepest + frames * times)
}

fn bound(listing: &str) -> Result<usize, String> {
    let functions = functions(listing)?;
    let mut most = 0;
    for entry in ENTRIES {
        most = most.max(ARGUMENTS + need(&functions, entry)?);
    }
    Ok(most)
}

fn main() -> ExitCode {
    let mut listing = String::new();
    let read = std::io::stdin().read_to_string(&mut listing).map_err(|error| error.to_string());
    let allowed = header::figure("HUB_STACK_LEN");
    match read.and_then(|_| bound(&listing)) {
        Ok(most) if most <= allowed => {
            println!("by its machine code a call needs at most {most} bytes of stack, of {allowed}");
            ExitCode::SUCCESS
        }
        Ok(most) => {
            println!("by its machine code a call may need {most} bytes of stack: HUB_STACK_LEN is {allowed}");
            ExitCode::FAILURE
        }
        Err(why) => {
            println!("no bound of the stack: {why}");
            ExitCode::FAILURE
        }
    }
}

#[cfg(test)]
mod tests {
    use super::*;

    /// A listing of functions, each a name and its instructions; a symbol follows a `#`.
    fn listing(functions: &[(&str, &[&str])]) -> String {
        let mut text = String::new();
        for (name, instructions) in functions {
            text += &format!("0000000000000000 <{name}>:\n");
            for instruction in *instructions {
                let (instruction, symbol) = instruction.split_once('#').unwrap_or((instruction, ""));
                text += &format!("   0:\t{instruction}\n");
                if !symbol.is_empty() {
                    text += &format!("\t\t\t1: R_X86_64_PLT32\t{symbol}-0x4\n");
                }
            }
        }
        text
    }

    /// The bound of the entries, of which hub_message has these instructions, and of other functions.
    fn bound_of(message: &[&str], others: &[(&str, &[&str])]) -> Result<usize, String> {
        let mut all: Vec<(&str, &[&str])> = ENTRIES.map(|entry| (entry, &["ret"] as &[&str])).into();
        all[3].1 = message;
        all.extend(others);
        bound(&listing(&all))
    }

    #[test]
    fn frames_add_up_along_the_longest_path() {
        let alone = ARGUMENTS + WORD + RED_ZONE;
        assert_eq!(bound_of(&["ret"], &[]), Ok(alone));
        assert_eq!(bound_of(&["push   %rbx", "sub    $0x48,%rsp", "add    $0x48,%rsp"], &[]), Ok(alone + 80));
        let others: [(&str, &[&str]); 2] = [("a", &["sub    $0x100,%rsp"]), ("b", &["sub    $0x200,%rsp"])];
        let calls = ["call   9 <hub_message+0x9>#.text.a", "call   9 <hub_message+0x9>#.text.b"];
        assert_eq!(bound_of(&calls, &others), Ok(alone + WORD + 512));
        let jumps = ["jmp    9 <hub_message+0x9>#.text.a", "call   9 <b>"];
        assert_eq!(bound_of(&jumps, &others), Ok(alone + WORD + 512));
        assert_eq!(bound_of(&["call   5 <x+0x5>#memcpy"], &[]), Ok(ARGUMENTS + WORD + OUTSIDE));
    }

    #[test]
    fn a_frame_that_is_touched_page_by_page_counts_whole() {
        let lines = ["sub    $0x1000,%rsp", "movq   $0x0,(%rsp)", "cmp    %r11,%rsp", "jne    14 <x+0x14>"];
        let touched = |before: &[&'static str]| [before, &lines, &["sub    $0x18,%rsp"]].concat();
        let alone = ARGUMENTS + WORD + RED_ZONE;
        let whole = touched(&["push   %rbx", "mov    %rsp,%r11", "sub    $0xa000,%r11"]);
        assert_eq!(bound_of(&whole, &[]), Ok(alone + WORD + 0xa000 + 0x18));
        for before in [&[] as &[&str], &["mov    %rsp,%r11", "sub    %rax,%r11"], &["mov    %rsp,%r10"]] {
            assert!(bound_of(&touched(before), &[]).is_err(), "{before:?}");
        }
    }

    #[test]
    fn the_readers_stand_on_the_stack_as_often_as_the_depth_allows() {
        let others: [(&str, &[&str]); 3] = [
            (
                "json_text::read_value",
                &["push   %rbx", "call   5 <x+0x5>#.text.json_text::read_dict", "call   0 <json_text::read_value>"],
            ),
            (
                "json_text::read_dict",
                &["sub    $0x800,%rsp", "call   5 <x+0x5>#.text.json_text::read_value", "call   1 <q>"],
            ),
            ("q", &["ret"]),
        ];
        let entry = ARGUMENTS + WORD;
        let wanted = entry + 8 * (16 + 2056) + WORD + RED_ZONE;
        assert_eq!(bound_of(&["call   5 <x+0x5>#.text.json_text::read_value"], &others), Ok(wanted));
    }

    #[test]
    fn what_cannot_be_told_fails() {
        for instruction in [
            "call   *%rax",
            "call   *0x8(%rax)",
            "jmp    *0x8(%rax)",
            "call   7 <hub_message+0x7>",
            "sub    %rax,%rsp",
            "cmp    %rax,%rsp",
            "and    $0xffffffffffffffe0,%rsp",
            "mov    %rbp,%rsp",
            "lea    -0x20(%rbp),%rsp",
            "leave",
            "call   5 <x+0x5>#malloc",
            "call   0 <hub_message>",
            "jmp    *%rax",
        ] {
            assert!(bound_of(&[instruction], &[]).is_err(), "{instruction}");
        }
        let table = "lea    0x0(%rip),%rax#.rodata.hub_message";
        assert!(bound_of(&[table, "jmp    *%rax", "cmp    %rsp,%rax", "mov    %rsp,%rdi"], &[]).is_ok());
    }
}
