//! A message of a hundred pieces written as frames into a hundred datagrams, beside a plain copy of the same bytes to the same places, and
//! the original's split, which makes frames, whose bodies are vectors, and no bytes (its writer of bytes isn't at hand).
use crate::clock;
use crate::ours::{self, HEAD_BYTES, MAX_DATAGRAM, PIECE_HEADER};
use crate::Figure;
use rak_rs::oracle::FragmentQueue;
use std::hint::black_box;

const PIECES: usize = 100;
const CHUNK: usize = 1400;
/// What a chunk is less than the mtu.
const OVERHEAD: usize = 60;
const MTU: u16 = (CHUNK + OVERHEAD) as u16;
const ID: u16 = 7;

/// Where the body of a datagram's first frame begins.
const BODY: usize = HEAD_BYTES + PIECE_HEADER;

type Datagram = [u8; MAX_DATAGRAM];

const CALLS: usize = 1000;

/// Nanoseconds a piece.
fn time(call: &mut dyn FnMut()) -> f64 {
    let start = clock::nanoseconds();
    for _ in 0..CALLS {
        call();
    }
    (clock::nanoseconds() - start) / (CALLS * PIECES) as f64
}

fn write(data: &[u8], datagrams: &mut [Datagram]) {
    for (k, d) in datagrams.iter_mut().enumerate() {
        assert_eq!(ours::write_piece(data, MTU, ID, k as u32, 0, 0, k as u32, &mut d[HEAD_BYTES..]), Ok(PIECE_HEADER + CHUNK));
    }
}

/// How many frames the original makes.
fn split(data: &[u8]) -> usize {
    FragmentQueue::split(data, ID, MTU).map_or(0, |frames| black_box(frames).len())
}

fn copy(data: &[u8], datagrams: &mut [Datagram]) {
    for (d, part) in datagrams.iter_mut().zip(data.chunks(CHUNK)) {
        d[BODY..BODY + CHUNK].copy_from_slice(part);
    }
}

pub fn all(rounds: usize) {
    let data: Vec<u8> = (0..PIECES * CHUNK).map(|i| (i / 7) as u8).collect();
    let (mut written, mut copied) = (vec![[0; MAX_DATAGRAM]; PIECES], vec![[0; MAX_DATAGRAM]; PIECES]);
    let mut times = [const { Vec::new() }; 3];
    for _ in 0..rounds {
        times[0].push(time(&mut || copy(black_box(&data), black_box(&mut copied))));
        times[1].push(time(&mut || write(black_box(&data), black_box(&mut written))));
        times[2].push(time(&mut || assert_eq!(split(black_box(&data)), PIECES)));
    }
    assert!(written.iter().zip(&copied).all(|(w, c)| w[BODY..] == c[BODY..]));
    let [copy, ours, original] = times.map(Figure::of);
    println!("a message of {PIECES} pieces of {CHUNK} bytes, written into as many datagrams; nanoseconds a piece");
    println!("    a plain copy {}", copy.told());
    println!("    ours {:28} ratio {:.2}", ours.told(), ours.median / copy.median);
    println!("    the original, which writes no bytes {:28} ours to it {:.2}", original.told(), ours.median / original.median);
}
