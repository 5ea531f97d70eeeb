//! Files of the repository that a program makes: written, or compared with those that stand.

use std::path::{Path, PathBuf};

/// A file as it is made.
pub struct Made {
    pub path: PathBuf,
    pub bytes: Vec<u8>,
}

/// The files `stdin` and `stdout` of a crate of the repository.
pub fn of_crate(name: &str, stdin: Vec<u8>, stdout: Vec<u8>) -> [Made; 2] {
    let folder = Path::new(env!("CARGO_MANIFEST_DIR")).join("../crates").join(name);
    [Made { path: folder.join("stdin"), bytes: stdin }, Made { path: folder.join("stdout"), bytes: stdout }]
}

/// Does what the program's arguments ask for: writes the files, or with `--check` compares them.
pub fn write_or_compare(program: &str, arguments: &[String], files: &[Made]) -> Result<(), String> {
    match arguments.iter().map(String::as_str).collect::<Vec<_>>()[..] {
        [] => files.iter().try_for_each(write),
        ["--check"] => files.iter().try_for_each(compare),
        _ => Err(format!("usage: {program} [--check]")),
    }
}

fn write(made: &Made) -> Result<(), String> {
    std::fs::write(&made.path, &made.bytes).map_err(|error| format!("{}: {error}", made.path.display()))
}

/// Are the file's bytes those that were made?
fn compare(made: &Made) -> Result<(), String> {
    let path = made.path.display();
    let stands = std::fs::read(&made.path).map_err(|error| format!("{path}: {error}"))?;
    if stands == made.bytes {
        return Ok(());
    }
    let (stands, made) = (String::from_utf8_lossy(&stands), String::from_utf8_lossy(&made.bytes));
    let (mut found, mut wanted) = (stands.lines(), made.lines());
    for number in 1.. {
        let (there, here) = (found.next(), wanted.next());
        if there != here || there.is_none() {
            let (there, here) = (there.unwrap_or("(no line)"), here.unwrap_or("(no line)"));
            return Err(format!("{path}:{number}\n  stands: {there}\n  made:   {here}"));
        }
    }
    unreachable!("the numbers do not end")
}
