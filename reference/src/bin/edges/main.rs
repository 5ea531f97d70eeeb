//! Makes the files of the crate `edges`: its standard input, a script of steps at the edges of the protocol, and
//! the standard output that the program must write on it.
//!
//! ```text
//! edges            writes crates/edges/stdin and crates/edges/stdout
//! edges --check    compares them with what it makes, and fails at the first difference
//! ```
//!
//! The script ends with steps of slots that speak MessagePack. They have a line of their own, `attach_msgpack SLOT`;
//! their messages are lines `bytes`, and messages sent to them are written in hex.

mod cases;
mod script;

use reference::made;
use std::process::ExitCode;

fn main() -> ExitCode {
    let words: Vec<_> = std::env::args().skip(1).collect();
    let mut script = script::Script::default();
    cases::all(&mut script);
    let told = script.told();
    let files = made::of_crate("edges", script.stdin, script.stdout);
    if let Err(reason) = made::write_or_compare("edges", &words, &files) {
        eprintln!("{reason}");
        return ExitCode::FAILURE;
    }
    println!("{told}");
    ExitCode::SUCCESS
}

#[cfg(test)]
mod tests {
    use super::*;

    /// The crate takes no longer script.
    const LONGEST: usize = 524_288;

    /// Each case says what must come of its steps, on both sides of its edge.
    #[test]
    fn the_cases() {
        let mut script = script::Script::default();
        cases::all(&mut script);
        assert!(script.stdin.len() <= LONGEST, "{}", script.stdin.len());
        assert!(String::from_utf8(script.stdout).is_ok(), "messages of MessagePack are written in hex");
    }
}
