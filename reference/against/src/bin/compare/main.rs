//! Drives the proved hub (the archive) and the independent program through the same long random runs, and
//! compares after each step the answer, every byte of the state and every byte of the output. For each hundred steps it
//! makes six calls of the functions that read and write settings files, and compares answer and output.
//!
//! ```text
//! compare [--json] [--plain-publish] [--settings] [--files] [--dry] [--seed N] [--steps N] [--jobs N] [--complete] [--trace]
//!     --json             every slot speaks JSON; else slots speak both formats
//!     --plain-publish    no PUBLISH has an option that chooses its receivers; else about half of them do
//!     --settings         settings are drawn for each stretch and lent to both sides, for an archive whose step takes
//!                        some; else the independent program is lent the default ones
//!     --files            no steps are made, but as many calls of the settings functions
//!     --dry              in the archive's place the independent program runs, from the state printed anew
//!     --seed N           the first seed (1)
//!     --steps N          the steps of each run (1,000,000)
//!     --jobs N           so many runs at a time, with the seeds from the first on (1)
//!     --complete         fails also where something of what it counts was never met
//!     --trace            tells each step on standard error before it is run
//! ```
//!
//! The archive runs on a painted stack of its own, of which it may use HUB_STACK_LEN bytes, and every buffer that
//! it is lent lies against a page that traps, with its first byte or its last (`guarded`).
//!
//! Where slots speak both formats each output is also read as its receivers would (`sent`): it has the layout, every
//! message is one of its receiver's format, and a payload is the same bytes or the same value.
//!
//! At the end it tells what it did, and `no difference`; or the first difference, too much stack or a trap,
//! with the seed and the step, and ends with status 1. The same seed and number of steps make the same run again.

mod breaches;
mod choices;
mod deep;
mod deep_packed;
mod draft;
mod dump;
mod fates;
mod faults;
mod filed;
mod files;
mod filing;
mod guarded;
mod lent;
mod packed;
mod packs;
mod pages;
mod pair;
mod permissions;
mod random;
mod receivers;
mod run;
mod sent;
mod settled;
mod spelling;
mod spoil;
mod stack;
mod states;
mod tally;
mod texts;
mod traffic;
mod trap;
mod turns;
mod unlawful;
mod values;

use against::header;
use pair::Mode;
use run::Run;
use std::process::ExitCode;
use std::thread;
use tally::Tally;

/// What the command line asks for.
struct Asked {
    mode: Mode,
    seed: u64,
    steps: u64,
    jobs: u64,
    complete: bool,
    trace: bool,
}

const USAGE: &str =
    "usage: compare [--json] [--plain-publish] [--settings] [--files] [--dry] [--seed N] [--steps N] [--jobs N] [--complete] [--trace]";

fn asked() -> Result<Asked, String> {
    let mode = Mode { msgpack: true, receivers: true, settings: false, files: false, dry: false };
    let mut asked = Asked { mode, seed: 1, steps: 1_000_000, jobs: 1, complete: false, trace: false };
    let mut words = std::env::args().skip(1);
    while let Some(word) = words.next() {
        let mut number = || {
            let word = words.next().unwrap_or_default();
            word.parse().map_err(|_| format!("'{word}' is no number"))
        };
        match word.as_str() {
            "--seed" => asked.seed = number()?,
            "--steps" => asked.steps = number()?,
            "--jobs" => asked.jobs = number()?,
            "--json" => asked.mode.msgpack = false,
            "--plain-publish" => asked.mode.receivers = false,
            "--settings" => asked.mode.settings = true,
            "--files" => asked.mode.files = true,
            "--dry" => asked.mode.dry = true,
            "--complete" => asked.complete = true,
            "--trace" => asked.trace = true,
            _ => return Err(USAGE.to_string()),
        }
    }
    Ok(asked)
}

/// One run: its counts, and the first difference if there is one.
fn run(seed: u64, asked: &Asked) -> (Tally, Result<(), String>) {
    let mut run = Run::new(seed, asked.mode, asked.trace);
    let done = run.go(asked.steps).map_err(|told| format!("seed {seed}, {told}"));
    (run.tally, done)
}

fn main() -> ExitCode {
    let asked = match asked() {
        Ok(asked) => asked,
        Err(reason) => {
            eprintln!("{reason}");
            return ExitCode::from(2);
        }
    };
    trap::tell_all();
    let mut whole = Tally::new(asked.mode);
    let mut differences = Vec::new();
    thread::scope(|scope| {
        let seeds = asked.seed..asked.seed + asked.jobs;
        let asked = &asked;
        let jobs: Vec<_> = seeds.map(|seed| scope.spawn(move || run(seed, asked))).collect();
        for job in jobs {
            let (tally, done) = job.join().expect("a run ends with a difference at worst");
            whole.add(&tally);
            differences.extend(done.err());
        }
    });
    print!("{whole}");
    if !asked.mode.dry {
        println!("{}, of {} bytes", whole.told_stack(), header::figure("HUB_STACK_LEN"));
    }
    for difference in &differences {
        println!("{difference}");
    }
    if !differences.is_empty() {
        return ExitCode::FAILURE;
    }
    let missing = whole.missing();
    for missing in &missing {
        println!("never met: {missing}");
    }
    println!("{} steps, {} file calls, no difference", whole.steps(), whole.filed.calls());
    if asked.complete && !missing.is_empty() {
        return ExitCode::FAILURE;
    }
    ExitCode::SUCCESS
}
