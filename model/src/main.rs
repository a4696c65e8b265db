//! An independent model of document 01's receiver, with a generator of inputs for the programs `trace` and `calls`.
//!
//! model trace FILE                        what trace must print for a recording
//! model calls FILE                        what calls must print for a list of calls
//! model images FILE                       what replay_images must print for stored items
//! model gen-trace SEED FILE               writes the recording of a seed
//! model gen-calls SEED FILE               writes the list of calls of a seed
//! model compare TRACE CALLS FROM TO       compares two commands with the model on the seeds FROM up to, not including, TO
//! model examples KIND SEED N              prints a file of N examples (cells, bytes, sound, values or images) for the crate examples
//! model top WHICH COMMAND [NUMBER]        compares one on a long input whose numbers run up to 2^24 (or a smaller number):
//!                                         step or reliable for trace, cpp or datagram for calls
mod bare;
mod compare;
mod examples;
mod gen;
mod image;
mod images;
mod model;
mod programs;
mod restore;
mod rng;
mod sender;
mod session;
mod shrink;
mod sound;
mod stored;
mod stream;
mod tally;
mod top;
mod window;
mod wire;

use std::process::ExitCode;

fn number(text: &str) -> u64 {
    text.parse().unwrap_or_else(|_| panic!("{text}: not a number"))
}

fn read(path: &str) -> Vec<u8> {
    std::fs::read(path).unwrap_or_else(|e| panic!("{path}: {e}"))
}

fn write(path: &str, bytes: Vec<u8>) {
    std::fs::write(path, bytes).unwrap_or_else(|e| panic!("{path}: {e}"))
}

fn top(which: &str, command: &str, below: u32) -> ExitCode {
    match top::compare(which, command, below) {
        Some(true) => ExitCode::SUCCESS,
        Some(false) => ExitCode::FAILURE,
        None => ExitCode::from(2),
    }
}

fn main() -> ExitCode {
    let words: Vec<String> = std::env::args().skip(1).collect();
    let words: Vec<&str> = words.iter().map(|w| w.as_str()).collect();
    match words[..] {
        ["trace", file] => print!("{}", programs::trace(&read(file)).0),
        ["calls", file] => print!("{}", programs::calls(&read(file)).0),
        ["images", file] => print!("{}", stored::images(&read(file))),
        ["gen-trace", seed, file] => write(file, gen::trace(number(seed)).bytes()),
        ["gen-calls", seed, file] => write(file, gen::calls(number(seed)).bytes()),
        ["compare", trace, calls, from, to] => {
            if !compare::compare(trace, calls, number(from), number(to)) {
                return ExitCode::FAILURE;
            }
        }
        ["examples", what, seed, n] => match examples::file(what, number(seed), number(n)) {
            Some(text) => print!("{text}"),
            None => return ExitCode::from(2),
        },
        ["top", which, command] => return top(which, command, window::NUMBERS),
        ["top", which, command, below] => return top(which, command, number(below) as u32),
        _ => {
            eprintln!("model trace FILE | calls FILE | images FILE | gen-trace SEED FILE | gen-calls SEED FILE | compare TRACE CALLS FROM TO | top WHICH COMMAND [NUMBER] | examples KIND SEED N");
            return ExitCode::from(2);
        }
    }
    ExitCode::SUCCESS
}
