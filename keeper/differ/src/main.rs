//! `differ [--calls N] [--files N] [--plans N] [--seed S]` holds the static
//! library against the keeper: N calls over accepted terms, with new terms and
//! other numbers for the members among them, N damaged texts and as many damaged
//! memories, with calls, new terms and other numbers, and memories whose tables
//! are drawn, with new terms and other numbers; N plans against a rival among
//! calls, and two for each damaged text; then as much of two banks. The first
//! difference is printed with its seed, made small, and the exit status is 1.

mod archive;
mod banks;
mod library;
mod named;
mod options;
mod plans;
mod renumber;
mod revise;
mod rounds;
mod shown;
mod tally;

use options::Options;
use std::process::ExitCode;
use std::time::Instant;
use tally::Tallies;

fn main() -> ExitCode {
    let options = match Options::parse(std::env::args().skip(1)) {
        Ok(options) => options,
        Err(wrong) => {
            eprintln!("{wrong}\nusage: differ [--calls N] [--files N] [--plans N] [--seed S]");
            return ExitCode::from(2);
        }
    };
    let begin = Instant::now();
    let mut tally = Tallies::default();
    let result = rounds::all(&options, &mut tally);
    print!("{tally}");
    println!("{:.1} s", begin.elapsed().as_secs_f64());
    match result {
        Ok(()) if options.is_long() && !tally.unseen().is_empty() => {
            println!("no difference, but never seen: {}", tally.unseen().join(", "));
            ExitCode::FAILURE
        }
        Ok(()) => {
            println!("no difference");
            ExitCode::SUCCESS
        }
        Err(report) => {
            println!("DIFFERENCE\n{report}");
            ExitCode::FAILURE
        }
    }
}
