//! `differ vectors DIR` holds this implementation to vector files.
//! `differ run SEED CASES [CALLS] -- COMMAND` makes cases from the seed and holds the driver program, which COMMAND runs, to this implementation.
//! CALLS is a list of calls as `start,publish`; without it all are tried.

mod absence;
mod audits;
mod call;
mod case;
mod damage;
mod edges;
mod forge;
mod histories;
mod level;
mod liar;
mod lookups;
mod rng;
mod run;
mod vectors;
mod world;

use std::process::ExitCode;

fn main() -> ExitCode {
    let words: Vec<String> = std::env::args().skip(1).collect();
    match command(&words) {
        Ok(true) => ExitCode::SUCCESS,
        Ok(false) => ExitCode::FAILURE,
        Err(why) => {
            eprintln!("differ: {why}");
            ExitCode::FAILURE
        }
    }
}

fn command(words: &[String]) -> Result<bool, String> {
    let usage = || "usage: differ vectors DIR, or differ run SEED CASES [CALLS] -- COMMAND".to_string();
    let number = |word: &String| word.parse::<u64>().map_err(|_| usage());
    match words {
        [what, folder] if what == "vectors" => vectors::agree(folder),
        [what, seed, cases, rest @ ..] if what == "run" => {
            let end = rest.iter().position(|word| word == "--").ok_or_else(usage)?;
            let calls: Vec<&str> = match &rest[..end] {
                [] => call::CALLS.iter().map(|call| call.name).collect(),
                [names] => names.split(',').collect(),
                _ => return Err(usage()),
            };
            run::run(number(seed)?, number(cases)? as usize, &calls, &rest[end + 1..])
        }
        _ => Err(usage()),
    }
}
