//! What a comparison covered.
use crate::gen::mode_of;
use crate::model::{Fates, FATES};
use crate::programs::{expected, Input, Program};
use crate::restore::Flaw;
use crate::session::Drops;
use crate::wire::PROFILES;
use std::collections::BTreeMap;

const FATE_NAMES: [&str; FATES] = [
    "accepted before",
    "over a limit",
    "piece refused",
    "late",
    "piece kept",
    "held",
    "ready",
    "joined dropped",
    "joined held",
    "joined ready",
];

#[derive(Default)]
pub struct Tally {
    inputs: BTreeMap<String, u64>,
    bytes: usize,
    trace: BTreeMap<u8, u64>,
    calls: BTreeMap<(char, u8), u64>,
    fates: Fates,
    drops: Drops,
    restored: BTreeMap<&'static str, u64>,
    flaws: BTreeMap<Flaw, u64>,
    longest: [usize; 3],
}

impl Tally {
    pub fn add(&mut self, seed: u64, input: &Input) {
        let bytes = input.bytes();
        let (_, run) = expected(input.program, &bytes);
        *self.inputs.entry(format!("{:?} {:?}", input.program, mode_of(seed))).or_default() += 1;
        self.bytes += bytes.len();
        for ((letter, number), n) in &run.answers {
            if input.program == Program::Calls {
                *self.calls.entry((*letter, *number)).or_default() += n;
            } else if *letter == 'r' {
                *self.trace.entry(*number).or_default() += n;
            }
        }
        for (sums, more) in self.fates.iter_mut().flatten().zip(run.receiver.fates.iter().flatten()) {
            for (sum, n) in sums.iter_mut().zip(more) {
                *sum += n;
            }
        }
        self.drops.add(&run.drops);
        for (fit, n) in &run.restores.done {
            *self.restored.entry(fit).or_default() += n;
        }
        for (flaw, n) in &run.restores.flaws {
            *self.flaws.entry(*flaw).or_default() += n;
        }
        for (longest, now) in self.longest.iter_mut().zip([run.longest_missing, run.longest_unsent, run.longest_message]) {
            *longest = now.max(*longest);
        }
    }

    pub fn print(&self) {
        let inputs: u64 = self.inputs.values().sum();
        let datagrams: u64 = self.trace.values().sum();
        let calls: u64 = self.calls.values().sum();
        println!("compared: {inputs} inputs of {} bytes, {datagrams} datagrams of trace, {calls} calls of calls", self.bytes);
        for (name, n) in &self.inputs {
            println!("  {n:7} {name}");
        }
        println!("trace, datagrams by answer:");
        for (number, n) in &self.trace {
            println!("  {n:7} {number}");
        }
        println!("calls, by letter and answer:");
        for ((letter, number), n) in &self.calls {
            println!("  {n:7} {letter} {number}");
        }
        for profile in PROFILES {
            println!("frames of accepted datagrams, profile {profile:?}, by fate, for kinds 0 to 7:");
            for (fate, name) in FATE_NAMES.iter().enumerate() {
                let by_kind: Vec<String> = self.fates[profile as usize].iter().map(|kind| format!("{:7}", kind[fate])).collect();
                println!("  {name:15} {}", by_kind.join(" "));
            }
        }
        let Drops { freed, freed_none_of_open, left_unreliable, left_old_reliable, made_room } = self.drops;
        println!("drops of unfinished messages:");
        println!("  {freed:7} freed cells");
        println!("  {freed_none_of_open:7} freed none, though ids were open");
        println!("  {left_unreliable:7} freed cells and left other ids of a kind without a reliable number");
        println!("  {left_old_reliable:7} left an id older than n of a kind with one");
        println!("  {made_room:7} datagrams accepted after one that would have been refused with 8 without it");
        println!("images restored, into how many cells beside those before:");
        for (fit, n) in &self.restored {
            println!("  {n:7} {fit}");
        }
        println!("images refused with 22, by the first flaw:");
        for (flaw, n) in &self.flaws {
            println!("  {n:7} {flaw:?}");
        }
        let [missing, unsent, message] = self.longest;
        println!("longest: missing list {missing}, unsent list {unsent}, message {message} bytes");
    }
}
