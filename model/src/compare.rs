//! Runs the programs on generated inputs and compares their whole output with the model's.
use crate::gen;
use crate::programs::{expected, Input, Program};
use crate::shrink::smallest;
use crate::tally::Tally;
use std::io::{Read, Write};
use std::process::{Command, Stdio};

/// Runs a command (words between blanks) on an input; what it prints, and whether it ended well.
pub fn run(command: &str, input: &[u8]) -> (Vec<u8>, bool) {
    let mut words = command.split_whitespace();
    let name = words.next().expect("a command");
    let mut child = Command::new(name).args(words).stdin(Stdio::piped()).stdout(Stdio::piped()).spawn().unwrap_or_else(|e| panic!("{name}: {e}"));
    let mut stdin = child.stdin.take().unwrap();
    let mut stdout = child.stdout.take().unwrap();
    let mut printed = Vec::new();
    std::thread::scope(|s| {
        // a program that ends before its input does closes the pipe: that is its right
        s.spawn(move || drop(stdin.write_all(input)));
        stdout.read_to_end(&mut printed).expect("output");
    });
    let ended_well = child.wait().expect("an exit").success();
    (printed, ended_well)
}

/// Does the command's output differ from the model's?
pub fn differs(command: &str, input: &Input) -> bool {
    let bytes = input.bytes();
    let (printed, ended_well) = run(command, &bytes);
    !ended_well || printed != expected(input.program, &bytes).0.into_bytes()
}

fn hex(bytes: &[u8]) -> String {
    bytes.iter().map(|b| format!("{b:02X}")).collect::<Vec<_>>().join(" ")
}

fn report(command: &str, seed: u64, input: &Input) {
    let bytes = input.bytes();
    let (printed, ended_well) = run(command, &bytes);
    println!("DIFFERENCE with '{command}' at seed {seed}; the smallest input found:");
    println!("  {}", hex(&input.head));
    for item in &input.items {
        println!("  {}", hex(item));
    }
    println!("  {}", hex(&input.tail));
    println!("the model prints:\n{}", expected(input.program, &bytes).0);
    println!("the program prints (ended well: {ended_well}):\n{}", String::from_utf8_lossy(&printed));
}

/// Compares the seeds from `from` up to, not including, `to`; false at the first difference. A command '-' is left out.
pub fn compare(trace: &str, calls: &str, from: u64, to: u64) -> bool {
    let mut tally = Tally::default();
    for seed in from..to {
        for (command, program) in [(trace, Program::Trace), (calls, Program::Calls)] {
            if command == "-" {
                continue;
            }
            let input = match program {
                Program::Trace => gen::trace(seed),
                Program::Calls => gen::calls(seed),
            };
            if differs(command, &input) {
                tally.print();
                report(command, seed, &smallest(command, &input));
                return false;
            }
            tally.add(seed, &input);
        }
    }
    tally.print();
    println!("no difference");
    true
}
