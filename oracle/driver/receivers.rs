//! Whole receivers: `RecvQueue::insert` with `flush`, `ack_flush` as a set and `nack_queue` less the accepted numbers, beside our calls, on random
//! datagrams within document 01's 'References'.
use crate::calls::{first_difference, Call, Expected};
use crate::datagrams::{set_bytes, Datagram};
use crate::random::Random;
use crate::references::{within, MAX_DATAGRAM, REACH};
use crate::report::Report;
use crate::senders::Sender;
use crate::shrink::smallest;
use rak_rs::oracle::{window_low, RecvQueue};
use std::collections::HashSet;

/// A datagram, and whether the unsent and the missing are written after it.
#[derive(Clone, Debug)]
pub struct Step {
    pub datagram: Datagram,
    pub unsent: bool,
    pub missing: bool,
}

/// The original, with the datagram numbers that it accepted.
pub struct Original {
    queue: RecvQueue,
    accepted: HashSet<u32>,
}

impl Original {
    pub fn new() -> Original {
        Original { queue: RecvQueue::new(), accepted: HashSet::new() }
    }

    /// The calls of one step, with what the original answers.
    pub fn step(&mut self, step: &Step, calls: &mut Vec<(Call, Expected)>) {
        let number = step.datagram.number;
        let refusal = if number > window_low(&self.queue) + REACH { 5 } else { 4 };
        let accepted = self.queue.insert(step.datagram.original()).is_ok();
        let ready = self.queue.flush();
        let receive = Call::Receive(step.datagram.bytes());
        if accepted {
            self.accepted.insert(number);
            calls.push((receive, Expected::Received { ready: ready.len() }));
        } else {
            calls.push((receive, Expected::Refused(refusal)));
        }
        calls.extend(ready.into_iter().map(|body| (Call::Take, Expected::Bytes(body))));
        calls.push((Call::Take, Expected::Refused(20)));
        if step.unsent {
            let mut numbers = self.queue.ack_flush();
            numbers.sort_unstable();
            let bytes = set_bytes(0xc0, &numbers);
            calls.push((Call::Unsent, Expected::Bytes(bytes)));
        }
        if step.missing {
            let mut numbers = self.queue.nack_queue();
            numbers.retain(|n| !self.accepted.contains(n));
            numbers.sort_unstable();
            let bytes = set_bytes(0xa0, &numbers);
            calls.push((Call::Missing, Expected::Bytes(bytes)));
        }
    }
}

fn expected(steps: &[Step]) -> Vec<(Call, Expected)> {
    let mut original = Original::new();
    let mut calls = Vec::new();
    for step in steps {
        original.step(step, &mut calls);
    }
    calls
}

/// A step with a little less in it.
fn lesser(step: &Step) -> Vec<Step> {
    let mut out = Vec::new();
    for (unsent, missing) in [(false, step.missing), (step.unsent, false)] {
        if (unsent, missing) != (step.unsent, step.missing) {
            out.push(Step { unsent, missing, ..step.clone() });
        }
    }
    for i in 0..step.datagram.frames.len() {
        let mut fewer = step.clone();
        fewer.datagram.frames.remove(i);
        out.push(fewer);
        let body = &step.datagram.frames[i].body;
        for len in [0, body.len() / 2, body.len().saturating_sub(1)] {
            if len < body.len() {
                let mut shorter = step.clone();
                shorter.datagram.frames[i].body.truncate(len);
                out.push(shorter);
            }
        }
    }
    out
}

/// The smallest list within 'References' that still differs.
fn fails(cells: usize, steps: &[Step]) -> String {
    let differs = |l: &[Step]| within(cells, l) && first_difference(cells, &expected(l)).is_some();
    let mut least = smallest(steps, &differs);
    let mut i = 0;
    while i < least.len() {
        let less = lesser(&least[i]).into_iter().find(|s| {
            let mut l = least.clone();
            l[i] = s.clone();
            differs(&l)
        });
        match less {
            Some(step) => least[i] = step,
            None => i += 1,
        }
    }
    let calls = expected(&least);
    let (i, answer) = first_difference(cells, &calls).unwrap();
    format!("{cells} cells, {least:?}: {:?} by the original, ours {answer:?}", calls[i].1)
}

/// How many answers of each sort were compared.
fn tally(calls: &[(Call, Expected)], counts: &mut [u64; 5]) {
    for (call, expected) in calls {
        match (call, expected) {
            (Call::Receive(_), Expected::Refused(_)) => counts[1] += 1,
            (Call::Receive(_), _) => counts[0] += 1,
            (Call::Take, Expected::Bytes(_)) => counts[2] += 1,
            (Call::Unsent, _) => counts[3] += 1,
            (Call::Missing, _) => counts[4] += 1,
            _ => {}
        }
    }
}

pub fn random(report: &mut Report, r: &mut Random, datagrams: u64) -> Result<(), String> {
    let mut counts = [0; 5];
    let mut receivers = 0;
    while counts[0] + counts[1] < datagrams {
        let cells = *r.pick(&[1, 2, 8, 32, 32, 32, 32, 33, 256, 4096]);
        let mut sender = Sender::new(cells, MAX_DATAGRAM);
        let steps: Vec<Step> = (0..r.between(1, 3000)).map(|_| sender.step(r)).collect();
        assert!(within(cells, &steps));
        let calls = expected(&steps);
        if first_difference(cells, &calls).is_some() {
            return Err(fails(cells, &steps));
        }
        tally(&calls, &mut counts);
        receivers += 1;
    }
    let told = [
        (counts[0] + counts[1], "datagrams"),
        (counts[1], "of them refused"),
        (counts[2], "messages"),
        (counts[3], "unsent lists"),
        (counts[4], "missing lists"),
    ];
    report.say(&format!("receivers: {receivers} random ones"), &told);
    Ok(())
}
