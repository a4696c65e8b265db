//! `ReliableWindow::insert` beside ours: accepted or not, low, and at times the missing numbers.
use crate::ours;
use crate::random::Random;
use crate::report::Report;
use crate::shrink::smallest;
use rak_rs::oracle::ReliableWindow;

pub const REACH: u32 = 2048;
pub const NUMBERS: u32 = 1 << 24;

/// The original and ours, given the same numbers.
struct Both {
    original: ReliableWindow,
    ours: ours::Window,
    highest: Option<u32>,
}

impl Both {
    fn new() -> Both {
        Both { original: ReliableWindow::new(), ours: ours::Window::new(), highest: None }
    }

    /// Whether it was accepted. The original answers false to every refusal; ours tells 4 and 5 apart, which is held to the original's range.
    fn insert(&mut self, n: u32) -> Result<bool, String> {
        let beyond = n > self.original.range().1;
        let accepted = self.original.insert(n);
        let number = self.ours.insert(n);
        let expected = if accepted { 0 } else if beyond { 5 } else { 4 };
        if number != expected {
            return Err(format!("insert {n}: the original {}, ours {number}", if accepted { "accepts" } else { "refuses" }));
        }
        if accepted {
            self.highest = self.highest.max(Some(n));
        }
        let (low, end) = self.original.range();
        if self.ours.low() != low || end != low + REACH {
            return Err(format!("after insert {n}: low {low} to {end} in the original, ours {}", self.ours.low()));
        }
        Ok(accepted)
    }

    /// The original's list names every number in its range that it hasn't got; ours ends at the highest accepted.
    fn missing(&self) -> Result<(), String> {
        let mut expected = self.original.missing();
        expected.retain(|&n| Some(n) < self.highest);
        let found = self.ours.missing();
        if found != expected {
            return Err(format!("missing: {expected:?} by the original, ours {found:?}"));
        }
        Ok(())
    }
}

fn compare(numbers: &[u32]) -> Result<(), String> {
    let mut both = Both::new();
    for &n in numbers {
        both.insert(n)?;
    }
    both.missing()
}

fn fails(numbers: &[u32], what: String) -> String {
    let fewest = smallest(numbers, &|l| compare(l).is_err());
    match compare(&fewest) {
        Err(e) => format!("window inserts {fewest:?}: {e}"),
        Ok(()) => format!("window inserts {numbers:?}: {what}"),
    }
}

/// All sequences of five over eight numbers around the edge of a new window's reach.
pub fn exhaustive(report: &mut Report) -> Result<(), String> {
    let around = [0, 1, 2, 2047, 2048, 2049, 2050, 2051];
    for code in 0..8usize.pow(5) {
        let numbers: Vec<u32> = (0..5).map(|i| around[code / 8usize.pow(i) % 8]).collect();
        compare(&numbers).map_err(|e| fails(&numbers, e))?;
    }
    let n = 8u64.pow(5);
    report.say("windows: all sequences of five over 0, 1, 2, 2047 .. 2051", &[(5 * n, "inserts"), (n, "missing lists")]);
    Ok(())
}

/// A number near what a window decides by: its low and its reach.
fn near(r: &mut Random, low: u32, sent: &[u32]) -> u32 {
    let n = match r.below(20) {
        0..=5 => low + r.below(16),
        6..=8 => low + r.below(REACH + 1),
        9..=10 => low + r.between(REACH - 2, REACH + 3),
        11 => low.saturating_sub(r.below(40)),
        12 => r.below(NUMBERS),
        13..=14 if !sent.is_empty() => *r.pick(sent),
        _ => low,
    };
    n.min(NUMBERS - 1)
}

pub fn random(report: &mut Report, r: &mut Random, inserts: u64) -> Result<(), String> {
    let (mut done, mut windows, mut lists, mut accepted) = (0, 0, 0, 0);
    while done < inserts {
        let mut both = Both::new();
        let mut sent = Vec::new();
        for k in 0..r.between(1, 4000) {
            let n = near(r, both.ours.low(), &sent);
            sent.push(n);
            accepted += both.insert(n).map_err(|e| fails(&sent, e))? as u64;
            if k % 64 == 63 {
                both.missing().map_err(|e| fails(&sent, e))?;
                lists += 1;
            }
        }
        done += sent.len() as u64;
        windows += 1;
    }
    let of = format!("windows: {windows} random ones, {accepted} of the inserts accepted");
    report.say(&of, &[(done, "inserts"), (lists, "missing lists")]);
    Ok(())
}

/// Every number of 24 bits, each eight of them shuffled: low comes to 2^24.
pub fn whole_range(report: &mut Report, r: &mut Random) -> Result<(), String> {
    let mut both = Both::new();
    for first in (0..NUMBERS).step_by(8) {
        let mut eight: Vec<u32> = (first..first + 8).collect();
        for i in (1..8).rev() {
            eight.swap(i, r.below(i as u32 + 1) as usize);
        }
        for n in eight {
            both.insert(n).map_err(|e| format!("window inserts 0 .. {first} and on, each eight shuffled: {e}"))?;
        }
    }
    report.say("windows: every number below 2^24, each eight shuffled", &[(NUMBERS as u64, "inserts")]);
    Ok(())
}
