//! Makes the vector files of the crates `vectors` and `settings_vectors`: their standard input, a case to a line, and the
//! standard output that the program must write on it, an answer to a line.
//!
//! ```text
//! vectors            writes stdin and stdout of crates/vectors and crates/settings_vectors
//! vectors --check    compares them with what it makes, and fails at the first difference
//! ```

mod cases;
mod lines;

use reference::made;
use std::process::ExitCode;

fn main() -> ExitCode {
    let mut lines = lines::Lines::default();
    cases::all(&mut lines);
    let mut on_settings = lines::Lines::default();
    cases::on_settings(&mut on_settings);
    let told = cases_by_kind(&(lines.stdin.clone() + &on_settings.stdin));
    let mut files = Vec::from(made::of_crate("vectors", lines.stdin.into_bytes(), lines.stdout.into_bytes()));
    files.extend(made::of_crate(
        "settings_vectors",
        on_settings.stdin.into_bytes(),
        on_settings.stdout.into_bytes(),
    ));
    let words: Vec<_> = std::env::args().skip(1).collect();
    if let Err(reason) = made::write_or_compare("vectors", &words, &files) {
        eprintln!("{reason}");
        return ExitCode::FAILURE;
    }
    println!("{told}");
    ExitCode::SUCCESS
}

/// How many cases there are of each kind, in the order in which the kinds appear.
fn cases_by_kind(stdin: &str) -> String {
    let mut counts: Vec<(&str, usize)> = Vec::new();
    for line in stdin.lines().filter(|line| !line.starts_with('#')) {
        let kind = line.split(' ').next().unwrap_or("");
        match counts.iter_mut().find(|(name, _)| *name == kind) {
            Some((_, count)) => *count += 1,
            None => counts.push((kind, 1)),
        }
    }
    let total: usize = counts.iter().map(|(_, count)| count).sum();
    let parts: Vec<_> = counts.iter().map(|(kind, count)| format!("{kind} {count}")).collect();
    format!("{total} cases: {}", parts.join(", "))
}
