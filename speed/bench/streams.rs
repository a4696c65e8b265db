//! The streams that both receivers are given: datagrams as values, so that the original's figures exclude reading bytes.
use crate::datagrams::{Datagram, Fields};
use crate::random::Random;

pub struct Stream {
    pub name: &'static str,
    pub datagrams: Vec<Datagram>,
    /// the acknowledgements are sent after so many datagrams
    pub acks_after: usize,
}

impl Stream {
    /// The bytes of all messages.
    pub fn bytes(&self) -> usize {
        self.datagrams.iter().flat_map(|d| &d.frames).map(|f| f.body.len()).sum()
    }
}

const ACKS_AFTER: usize = 32;

/// Whole groups of sixteen, and whole messages of ten pieces.
const WHOLE: u32 = 80;

/// Kind 3 has rising order numbers and kind 1 rising sequence numbers, on channel 0.
fn one_frame(kind: u8, n: u32, len: usize) -> Datagram {
    let (order, sequence) = (if kind == 3 { n } else { 0 }, if kind == 1 { n } else { 0 });
    Datagram { number: n, frames: vec![Fields { kind, reliable: n, sequence, order, body: vec![n as u8; len], ..Fields::default() }] }
}

/// Each sixteen datagrams in another order.
fn shuffled(mut datagrams: Vec<Datagram>) -> Vec<Datagram> {
    let mut r = Random::new(16);
    for sixteen in datagrams.chunks_mut(16) {
        for i in (1..sixteen.len()).rev() {
            sixteen.swap(i, r.below(i as u32 + 1) as usize);
        }
    }
    datagrams
}

/// Piece `n % 10` of message `n / 10`.
fn piece(n: u32) -> Datagram {
    let piece = Some((10, (n / 10) as u16, n % 10));
    Datagram { number: n, frames: vec![Fields { kind: 2, reliable: n, piece, body: vec![n as u8; 1400], ..Fields::default() }] }
}

fn eight(n: u32) -> Datagram {
    let frame = |i| Fields { kind: 3, reliable: 8 * n + i, order: 8 * n + i, body: vec![i as u8; 20], ..Fields::default() };
    Datagram { number: n, frames: (0..8).map(frame).collect() }
}

pub fn all(datagrams: u32) -> Vec<Stream> {
    let n = datagrams.next_multiple_of(WHOLE);
    let stream = |name, datagrams| Stream { name, datagrams, acks_after: ACKS_AFTER };
    let in_order = |kind| (0..n).map(|i| one_frame(kind, i, 100)).collect::<Vec<Datagram>>();
    vec![
        stream("one kind-3 frame of 100 bytes, in order", in_order(3)),
        stream("one kind-1 frame of 100 bytes, rising sequence numbers", in_order(1)),
        stream("kind-2 frames of 100 bytes, shuffled within 16", shuffled(in_order(2))),
        stream("ordered frames of 100 bytes, shuffled within 16", shuffled(in_order(3))),
        stream("ten pieces of 1,400 bytes, one a datagram", (0..n).map(piece).collect()),
        stream("eight kind-3 frames of 20 bytes a datagram", (0..n).map(eight).collect()),
        Stream { acks_after: 1024, ..stream("in order, the unsent list sent when it is full", in_order(3)) },
    ]
}

/// Datagrams that leave all but `free` of the cells in use: single pieces of messages that never become whole.
pub fn filling(cells: usize, free: usize) -> Vec<Datagram> {
    let used = cells.saturating_sub(free) as u32;
    let frame = |i: u32| Fields { kind: 0, piece: Some((1024, 60_000 + (i / 1000) as u16, i % 1000)), body: vec![0; 10], ..Fields::default() };
    (0..used).collect::<Vec<u32>>().chunks(50).enumerate().map(|(k, c)| Datagram { number: k as u32, frames: c.iter().map(|&i| frame(i)).collect() }).collect()
}
