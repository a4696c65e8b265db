//! Compares the original, built unchanged, with our static library, in one process.
//!
//! usage: compare short|long [SEED]      prints what was compared and how many, and stops at the first difference with a smallest input
//!        compare differences            the intended differences, each on its smallest input
//!        compare answers SEED           the stored input of program replay_original
//!        compare stored SEED            the stored input of program replay_receivers
mod answers;
mod calls;
mod channels;
mod datagrams;
mod differences;
mod lists;
mod ours;
mod random;
mod receivers;
mod references;
mod report;
mod senders;
mod shrink;
mod splits;
mod stored;
mod windows;

use random::Random;
use report::Report;
use std::io::Write;

fn compare(long: bool, seed: u64) -> Result<(), String> {
    let mut report = Report::new();
    let mut r = Random::new(seed);
    let times = if long { 100 } else { 1 };
    windows::exhaustive(&mut report)?;
    windows::random(&mut report, &mut r, 20_000 * times)?;
    if long {
        windows::whole_range(&mut report, &mut r)?;
    }
    lists::exhaustive(&mut report)?;
    lists::random(&mut report, &mut r, 1_000 * times)?;
    splits::exhaustive(&mut report, &mut r)?;
    splits::random(&mut report, &mut r, 200 * times)?;
    datagrams::kinds()?;
    channels::exhaustive(&mut report)?;
    channels::random(&mut report, &mut r, 5_000 * times)?;
    receivers::random(&mut report, &mut r, 10_000 * times)?;
    report.totals();
    Ok(())
}

fn answers(seed: u64) -> Result<(), String> {
    let (input, done) = answers::input(seed);
    eprintln!("{} bytes: {} answers of windows, {} lists, {} splits", input.len(), done[0], done[1], done[2]);
    std::io::stdout().write_all(&input).map_err(|e| e.to_string())
}

fn stored(seed: u64) -> Result<(), String> {
    let (input, done) = stored::input(seed);
    eprintln!("{} bytes: {} datagrams, {} messages, {} unsent lists, {} missing lists", input.len(), done[0], done[1], done[2], done[3]);
    std::io::stdout().write_all(&input).map_err(|e| e.to_string())
}

fn main() {
    let words: Vec<String> = std::env::args().skip(1).collect();
    let words: Vec<&str> = words.iter().map(|w| w.as_str()).collect();
    let seed = |w: Option<&&str>| w.map_or(Ok(1), |s| s.parse()).expect("SEED is a number");
    let done = match words[..] {
        ["short", ..] => compare(false, seed(words.get(1))),
        ["long", ..] => compare(true, seed(words.get(1))),
        ["differences"] => {
            differences::all();
            Ok(())
        }
        ["answers", _] => answers(seed(words.get(1))),
        ["stored", _] => stored(seed(words.get(1))),
        _ => Err("usage: compare short|long [SEED]; compare differences; compare answers|stored SEED".to_string()),
    };
    if let Err(e) = done {
        println!("DIFFERENT  {e}");
        std::process::exit(1);
    }
}
