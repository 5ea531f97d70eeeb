//! Times the same steps through the proved hub (the archive) and through the independent program, in one run.
//!
//! ```text
//! bench                      prints a table of times
//! bench --cases              prints the cases, a line each: its name, a tab, its title
//! bench --count SIDE CASE    runs one case on one side (archive or reference) a fixed number of times and
//!                            prints how many steps it made, for a tool that counts the instructions
//!                            of `counted_step`
//! ```

mod cases;

use against::side::{taken_apart, Side, Step};
use cases::Case;
use std::process::ExitCode;
use std::time::Instant;

/// The rounds of a case on each side. Their median is told.
const ROUNDS: usize = 201;

/// The turns that are counted of a case whose turns are one step each; of the others it is one turn.
const COUNTED: usize = 10;

/// The output's length: more than any case needs.
const OUT: usize = 300_000;

/// One step. It has a name that a tool can find, and is the same for both sides but for the call inside.
#[no_mangle]
#[inline(never)]
fn counted_step(side: Side, step: &Step, state: &mut [u8], out: &mut [u8]) -> u64 {
    side.run(step, state, out)
}

/// A side with its lent buffers. They are filled once, so that no page is new to a step, and not cleared
/// between steps.
struct Lent {
    side: Side,
    state: Vec<u8>,
    out: Vec<u8>,
}

impl Lent {
    fn new(side: Side, case: &Case) -> Lent {
        Lent { side, state: case.start.clone(), out: vec![0xee; OUT] }
    }

    /// One turn. Answers the sum of the answers, so that none of them is thought needless.
    fn turn(&mut self, case: &Case) -> u64 {
        self.state.copy_from_slice(&case.start);
        case.steps
            .iter()
            .fold(0, |sum, step| sum + counted_step(self.side, step, &mut self.state, &mut self.out))
    }

    /// The nanoseconds of one step in one round.
    fn round(&mut self, case: &Case) -> f64 {
        let begin = Instant::now();
        for _ in 0..case.turns {
            std::hint::black_box(self.turn(case));
        }
        begin.elapsed().as_nanos() as f64 / (case.turns * case.steps.len()) as f64
    }
}

/// Both sides do every step of the case, to the same end.
fn check(case: &Case) {
    let (mut archive, mut reference) = (Lent::new(Side::Archive, case), Lent::new(Side::Reference, case));
    for step in &case.steps {
        let answer = counted_step(Side::Reference, step, &mut reference.state, &mut reference.out);
        assert_eq!(taken_apart(answer).1, 0, "{}: a step is refused", case.title);
        let same = counted_step(Side::Archive, step, &mut archive.state, &mut archive.out) == answer;
        assert!(same, "{}: the answers differ", case.title);
        assert!(archive.state == reference.state, "{}: the states differ", case.title);
        assert!(archive.out == reference.out, "{}: the outputs differ", case.title);
    }
}

fn median(mut times: Vec<f64>) -> f64 {
    times.sort_by(f64::total_cmp);
    times[times.len() / 2]
}

/// The medians of the two sides, whose rounds take turns, so that a slow moment of the machine meets both.
fn times(case: &Case) -> (f64, f64) {
    let (mut archive, mut reference) = (Lent::new(Side::Archive, case), Lent::new(Side::Reference, case));
    // The first round of each is not counted.
    archive.round(case);
    reference.round(case);
    let rounds = (0..ROUNDS).map(|_| (archive.round(case), reference.round(case)));
    let (archives, references): (Vec<f64>, Vec<f64>) = rounds.unzip();
    (median(archives), median(references))
}

/// The nanoseconds of putting a start into the lent state, which the cases of one step a turn have in them.
fn copying(case: &Case) -> f64 {
    let mut lent = Lent::new(Side::Reference, case);
    let rounds = (0..ROUNDS).map(|_| {
        let begin = Instant::now();
        for _ in 0..1000 {
            lent.state.copy_from_slice(std::hint::black_box(&case.start));
            std::hint::black_box(&lent.state);
        }
        begin.elapsed().as_nanos() as f64 / 1000.0
    });
    median(rounds.collect())
}

fn table(cases: &[Case]) {
    println!("| case | archive, ns a step | independent program, ns a step | ratio |");
    println!("|---|---:|---:|---:|");
    for case in cases {
        check(case);
        let (archive, reference) = times(case);
        println!("| {} | {archive:.0} | {reference:.0} | {:.2} |", case.title, archive / reference);
    }
    println!();
    let copying = copying(&cases[0]);
    println!("Copying the state, which is in the cases of a violation and of one CALL: {copying:.0} ns.");
}

fn count(cases: &[Case], side: Side, name: &str) -> Result<(), String> {
    let case = cases.iter().find(|case| case.name == name).ok_or(format!("there is no case '{name}'"))?;
    let mut lent = Lent::new(side, case);
    let turns = if case.steps.len() == 1 { COUNTED } else { 1 };
    for _ in 0..turns {
        lent.turn(case);
    }
    println!("{}", turns * case.steps.len());
    Ok(())
}

fn main() -> ExitCode {
    let words: Vec<String> = std::env::args().skip(1).collect();
    let words: Vec<&str> = words.iter().map(String::as_str).collect();
    let cases = cases::all();
    let done = match words[..] {
        [] => {
            table(&cases);
            Ok(())
        }
        ["--cases"] => {
            cases.iter().for_each(|case| println!("{}\t{}", case.name, case.title));
            Ok(())
        }
        ["--count", "archive", name] => count(&cases, Side::Archive, name),
        ["--count", "reference", name] => count(&cases, Side::Reference, name),
        _ => Err("usage: bench [--cases | --count archive|reference CASE]".to_string()),
    };
    if let Err(reason) = done {
        eprintln!("{reason}");
        return ExitCode::FAILURE;
    }
    ExitCode::SUCCESS
}

#[cfg(test)]
mod tests {
    use super::*;

    #[test]
    fn the_independent_program_refuses_no_step() {
        for case in &cases::all() {
            let mut lent = Lent::new(Side::Reference, case);
            for step in &case.steps {
                let answer = counted_step(lent.side, step, &mut lent.state, &mut lent.out);
                assert_eq!(taken_apart(answer).1, 0, "{}", case.name);
            }
        }
    }

    #[test]
    fn payloads_are_converted_for_all_receivers() {
        for (name, first, length) in
            [("publish-to-msgpack", 0x95, 224 * 1024), ("publish-to-json", b'[', 224 * 1024)]
        {
            let cases = cases::all();
            let case = cases.iter().find(|case| case.name == name).expect("the case");
            let mut lent = Lent::new(Side::Reference, case);
            let answer = counted_step(lent.side, &case.steps[0], &mut lent.state, &mut lent.out);
            assert!(taken_apart(answer).0 > length, "{name}");
            assert_eq!((lent.out[..2].to_vec(), lent.out[2 + 3 * 224]), (vec![0, 224], first), "{name}");
        }
    }

    #[test]
    fn the_options_leave_so_many_receivers() {
        for (name, receivers) in [("publish", 224), ("publish-exclude", 160), ("publish-eligible", 224)] {
            let cases = cases::all();
            let case = cases.iter().find(|case| case.name == name).expect("the case");
            let mut lent = Lent::new(Side::Reference, case);
            counted_step(lent.side, &case.steps[0], &mut lent.state, &mut lent.out);
            assert_eq!(lent.out[..2], [0, receivers], "{name}");
        }
    }
}
