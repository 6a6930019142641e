//! The command line over the library. The status is 0 when nothing differs, 1
//! when something does, and 2 when nothing was run.
#![forbid(unsafe_code)]

use std::process::ExitCode;

use arith_check::options::{self, Command, USAGE};
use arith_check::{fused, report, root, speed};
use hosirekar_sys::{hosirekar_fused, hosirekar_root};

fn main() -> ExitCode {
    let arguments: Vec<String> = std::env::args().skip(1).collect();
    let command = match options::parse(&arguments) {
        Ok(command) => command,
        Err(message) => return refuse(&format!("{message}\n{USAGE}")),
    };
    match run(command) {
        Ok(true) => ExitCode::SUCCESS,
        Ok(false) => ExitCode::from(1),
        Err(message) => refuse(&message),
    }
}

/// Says why nothing was run.
fn refuse(message: &str) -> ExitCode {
    eprintln!("arith-check: {message}");
    ExitCode::from(2)
}

/// Runs one form; gives whether nothing differed.
fn run(command: Command) -> Result<bool, String> {
    match command {
        Command::Root { from, to, threads } => {
            Ok(run_root(&[root::Span::every(from, to)], threads))
        }
        Command::Fused {
            count,
            seed,
            threads,
        } => run_fused(fused::Plan::at_least(count, seed), seed, threads),
        Command::Speed => {
            run_speed();
            Ok(true)
        }
        Command::Short { seed, threads } => {
            let root = run_root(&root::short(), threads);
            let plan = fused::Plan::generating(fused::SHORT, seed);
            Ok(run_fused(plan, seed, threads)? && root)
        }
    }
}

fn run_root(spans: &[root::Span], threads: usize) -> bool {
    let result = root::check(spans, threads, |x| hosirekar_root(x));
    println!("{}", report::root_line(&result));
    result.is_ok()
}

fn run_fused(plan: fused::Plan, seed: u64, threads: usize) -> Result<bool, String> {
    fused::trust(fused::machine)?;
    eprintln!("fused: {} triples to run (seed {seed})", plan.triples());
    let result = fused::check(&plan, threads, |a, b, c| hosirekar_fused(a, b, c));
    println!("{}", report::fused_line(&result, seed));
    Ok(result.is_ok())
}

fn run_speed() {
    println!("{}", speed::head());
    for row in speed::table() {
        println!("{row}");
    }
}
