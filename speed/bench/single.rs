//! Calls by themselves: frames read and ACK lists written.
use crate::clock;
use crate::datagrams::{Datagram, Fields};
use crate::ours;
use crate::Figure;
use rak_rs::oracle::Ack;

/// Nanoseconds a call.
fn time(rounds: usize, calls: u32, call: &mut dyn FnMut() -> usize) -> Figure {
    let mut one = || {
        let mut sum = 0;
        let start = clock::nanoseconds();
        for _ in 0..calls {
            sum += call();
        }
        let taken = clock::nanoseconds() - start;
        assert!(sum > 0);
        taken / calls as f64
    };
    Figure::of((0..rounds).map(|_| one()).collect())
}

fn row(what: &str, original: Figure, ours: Figure) {
    let thousands = 1e6 / ours.median;
    println!("{what}\n    the original {:24} ours {:24} ratio {:.2}; ours {thousands:.0} thousand a second", original.told(), ours.told(), ours.median / original.median);
}

fn list(rounds: usize, what: &str, numbers: &[u32]) {
    let original = time(rounds, 500, &mut || Ack::from_records(numbers.to_vec(), false).records.len());
    let mut out = vec![0; 9000];
    let ours = time(rounds, 500, &mut || ours::write_list_into(&mut out, false, numbers));
    row(what, original, ours);
}

/// A datagram full of frames of 20 bytes; the original's reading of bytes isn't at hand.
fn frames(rounds: usize) {
    let frame = |i| Fields { kind: 3, reliable: i, order: i, body: vec![1; 20], ..Fields::default() };
    let datagram = Datagram { number: 0, frames: (0..48).map(frame).collect() }.bytes();
    let count = ours::read_frames(&datagram).count;
    let figure = time(rounds, 2000, &mut || ours::read_frames(&datagram).count);
    println!("frames read from a datagram of {count}\n    ours {}; {:.1} million frames a second", figure.told(), count as f64 / figure.median * 1e3);
}

pub fn all(rounds: usize) {
    frames(rounds);
    list(rounds, "ACK list of 32 numbers in one run (the original makes records, no bytes)", &(100..132).collect::<Vec<u32>>());
    list(rounds, "ACK list of 1,024 numbers, two apart (the original makes records, no bytes)", &(100..1124).map(|i| 2 * i).collect::<Vec<u32>>());
}
