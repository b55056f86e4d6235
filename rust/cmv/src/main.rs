//! cmv: what a transport stream recording holds, read by the proved library Clomaverift.

mod events;
mod input;
mod losses;
mod options;
mod payload;
mod rewrite;
mod summary;
mod svg;
mod table;
mod times;

use input::Failure;
use std::process::ExitCode;

fn main() -> ExitCode {
    let matches = options::command().get_matches(); // ends the program itself for help (status 0) and wrong usage (2)
    let (name, matches) = matches.subcommand().expect("clap asks for a sub-command");
    let done = options::Options::of(matches).and_then(|options| match name {
        "events" => events::run(options),
        "times" => times::run(options),
        "summary" => summary::run(options),
        "payload" => payload::run(options),
        _ => rewrite::run(options),
    });
    match done {
        Ok(()) | Err(Failure::Closed) => ExitCode::SUCCESS,
        Err(Failure::Told) => ExitCode::FAILURE,
        Err(Failure::Said(sentence)) => {
            input::say(&sentence);
            ExitCode::FAILURE
        }
    }
}
