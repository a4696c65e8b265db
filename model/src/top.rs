//! Long inputs that carry the numbers up to 2^24, compared while they stream: trace with datagram, reliable and order numbers in step;
//! trace with reliable numbers alone; calls with reliable numbers alone, by kind 4 to a C++ receiver; calls with datagram numbers alone. The
//! first and the last have 2^24 datagrams.
use crate::gen::other_call;
use crate::programs::{call_line, drop_item, new_item, receive_item, trace_lines, with_length, Program, TRACE_CELLS};
use crate::rng::Rng;
use crate::sender::{datagram, Sender, Style, PLAIN};
use crate::session::Session;
use crate::stream::{Mode, Stream};
use crate::window::NUMBERS;
use crate::wire::{frame_bytes, Frame, Piece, Profile};
use std::io::{Read, Write};
use std::process::{Child, ChildStdin, ChildStdout, Command, Stdio};
use std::sync::mpsc;

/// The last numbers, which do not come in a row.
const LAST: u32 = 4000;

/// As many reliable numbers as frames of ten bytes, or of C++'s kind 4, fit into a datagram.
const SPENT: u32 = 149;
const SPENT_CPP: u32 = 115;

/// A program and the model beside it. An item's lines go to the reader before its bytes go to the program, so neither waits for the other.
struct Feed {
    program: Program,
    live: Session,
    bytes: Vec<u8>,
    lines: String,
    to_program: ChildStdin,
    to_reader: mpsc::Sender<String>,
    items: u64,
}

impl Feed {
    fn datagram(&mut self, d: &[u8]) {
        match self.program {
            Program::Trace => {
                self.lines += &trace_lines(&mut self.live, d);
                self.bytes.extend(with_length(d));
            }
            Program::Calls => return self.call(&receive_item(d)),
        }
        self.count();
    }

    /// A datagram, after which `calls` is told to do what `trace` does: takes all ready and sends the unsent.
    fn settled(&mut self, d: &[u8]) {
        self.datagram(d);
        if self.program == Program::Calls {
            while self.live.receiver.earliest().is_some() {
                self.call(&[1, 0xFF, 0xFF]);
            }
            self.call(&[2, 0xFF, 0xFF]);
        }
    }

    fn call(&mut self, item: &[u8]) {
        self.lines += &call_line(&mut self.live, item);
        self.bytes.extend(item);
        self.count();
    }

    fn count(&mut self) {
        self.items += 1;
        if self.bytes.len() > 60_000 {
            self.flush();
        }
    }

    fn flush(&mut self) {
        // a program that has ended reads no more; the reader sees it
        let _ = self.to_reader.send(std::mem::take(&mut self.lines));
        let _ = self.to_program.write_all(&self.bytes);
        self.bytes.clear();
    }

    fn wild(&mut self, rng: &mut Rng, how_many: usize) {
        for mode in [Mode::Wild, Mode::Edges] {
            let mut stream = Stream::new(rng, self.live.receiver.made_for(), mode, 0);
            for _ in 0..how_many {
                if let Some(d) = stream.next(rng, &self.live.receiver) {
                    self.datagram(&d);
                }
                if self.program == Program::Calls && rng.percent(20) {
                    let what = rng.pick(&[1, 1, 2, 3, 5]);
                    self.call(&other_call(rng, &self.live.receiver, what));
                }
            }
        }
    }
}

/// A whole frame of kind 3, or of kind 4 in C++, without a body.
fn whole(profile: Profile, n: u32, channel: u8) -> Vec<u8> {
    let (kind, sequence) = if profile == Profile::Cpp { (4, n) } else { (3, 0) };
    frame_bytes(profile, &Frame { kind, reliable: n, sequence, order: n, channel, piece: None, body: Vec::new() }, 0, 0)
}

fn ordered(n: u32) -> Vec<u8> {
    whole(Profile::Console, n, 0)
}

/// Every number is a datagram's, a reliable and an order number; the last ones come out of order and twice.
fn in_step(feed: &mut Feed, rng: &mut Rng, below: u32) {
    for n in 0..below - LAST {
        feed.datagram(&datagram(0x84, n, &[ordered(n)]));
    }
    let mut last: Vec<u32> = (below - LAST..below).collect();
    rng.shuffle(&mut last, 20);
    for i in 0..last.len() {
        feed.datagram(&datagram(0x84, last[i], &[ordered(last[i])]));
        let before = last[i.saturating_sub(rng.below(50))];
        if rng.percent(20) {
            feed.datagram(&datagram(0x84, before, &[ordered(before)]));
        }
    }
    feed.wild(rng, 2000);
}

/// Reliable numbers are spent by frames of channel 32; the last ones are a sender's.
fn reliable_alone(feed: &mut Feed, rng: &mut Rng, below: u32) {
    let profile = feed.live.receiver.made_for();
    let spent = if profile == Profile::Cpp { SPENT_CPP } else { SPENT };
    let mut n = 0;
    let mut number = 0;
    while n + spent <= below - LAST {
        let frames: Vec<Vec<u8>> = (n..n + spent).map(|i| whole(profile, i, 32)).collect();
        feed.settled(&datagram(0x84, number, &frames));
        n += spent;
        number += 1;
    }
    let mut sender = Sender { number, reliable: n, ..Sender::new(profile) };
    let mut all = Vec::new();
    let style = Style { ids: 60_000, ..PLAIN };
    while sender.reliable < below - 100 {
        let frames = sender.messages(rng, &style, 10);
        all.extend(sender.pack(rng, &style, &frames));
    }
    rng.shuffle(&mut all, 3);
    for d in all {
        feed.settled(&d);
    }
    feed.wild(rng, 2000);
}

/// The same to a C++ receiver of `calls`.
fn reliable_cpp(feed: &mut Feed, rng: &mut Rng, below: u32) {
    feed.call(&new_item(Profile::Cpp));
    reliable_alone(feed, rng, below);
}

/// The first of two pieces of kinds without reliable numbers, and of one with.
fn halves(reliable: u32) -> Vec<Vec<u8>> {
    let half = |kind: u8| {
        let piece = Some(Piece { count: 2, id: kind as u16, index: 0 });
        frame_bytes(Profile::Console, &Frame { kind, reliable, sequence: 0, order: 0, channel: 0, piece, body: vec![kind] }, 0, 0)
    };
    [0, 1, 2, 5, 6].map(half).to_vec()
}

/// So many datagrams go by until halves are dropped, and others come.
const HALVES: u32 = 300_000;

/// Bare datagrams, few of them with halves of messages that grow old; the last ones come out of order, with gaps, among writings.
fn datagrams_alone(feed: &mut Feed, rng: &mut Rng, below: u32) {
    for n in 0..below - LAST {
        let age = n % HALVES;
        if age == 0 {
            for n in [HALVES - 1, HALVES - 2] {
                feed.call(&drop_item(n));
            }
        }
        let frames = if age == 0 { halves(n / HALVES) } else { Vec::new() };
        feed.datagram(&datagram(0x84, n, &frames));
        if n % 1000 == 999 {
            feed.call(&drop_item(age));
            feed.call(&other_call(rng, &feed.live.receiver, 3));
            feed.call(&[2, 0xFF, 0xFF]);
        }
    }
    let mut last: Vec<u32> = (below - LAST..below).collect();
    rng.shuffle(&mut last, 1500);
    for n in last {
        feed.datagram(&datagram(0x84, n, &[]));
        if rng.percent(10) {
            let what = rng.pick(&[2, 3]);
            feed.call(&other_call(rng, &feed.live.receiver, what));
        }
    }
    feed.wild(rng, 2000);
    for n in feed.live.receiver.datagrams.low..below {
        feed.call(&[2, 0xFF, 0xFF]);
        feed.datagram(&datagram(0x84, n, &[]));
    }
    feed.wild(rng, 500);
}

/// Reads as much as the model printed, and nothing after it.
fn same(mut printed: ChildStdout, from_model: mpsc::Receiver<String>) -> bool {
    for lines in from_model {
        let mut got = vec![0; lines.len()];
        if printed.read_exact(&mut got).is_err() || got != lines.as_bytes() {
            let place = got.iter().zip(lines.as_bytes()).take_while(|(a, b)| a == b).count();
            let from = lines[..place].rfind('\n').map_or(0, |i| i + 1);
            let end = (from + 100).min(lines.len());
            println!("DIFFERENCE; the model prints:\n{}", &lines[from..end]);
            println!("the program prints:\n{}", String::from_utf8_lossy(&got[from..end]));
            return false;
        }
    }
    let mut rest = Vec::new();
    printed.read_to_end(&mut rest).is_ok() && rest.is_empty()
}

fn start(command: &str) -> Child {
    let mut words = command.split_whitespace();
    let name = words.next().expect("a command");
    let started = Command::new(name).args(words).stdin(Stdio::piped()).stdout(Stdio::piped()).spawn();
    started.unwrap_or_else(|e| panic!("{name}: {e}"))
}

fn one(name: &str, command: &str, program: Program, below: u32, input: fn(&mut Feed, &mut Rng, u32)) -> bool {
    let mut child = start(command);
    let (to_reader, from_model) = mpsc::channel();
    let to_program = child.stdin.take().unwrap();
    let printed = child.stdout.take().unwrap();
    let reader = std::thread::spawn(move || same(printed, from_model));
    let live = Session::new(TRACE_CELLS, false);
    let mut feed = Feed { program, live, bytes: Vec::new(), lines: String::new(), to_program, to_reader, items: 0 };
    if program == Program::Calls {
        feed.bytes.extend((TRACE_CELLS as u16).to_be_bytes());
    }
    input(&mut feed, &mut Rng::new(below as u64), below);
    feed.flush();
    let Feed { live, items, to_reader, to_program, .. } = feed;
    drop((to_reader, to_program));
    let agreed = reader.join().expect("the reader ends") && child.wait().expect("an exit").success();
    let r = &live.receiver;
    println!(
        "{name}: {items} items; never accepted from datagram number {}, reliable number {}; channel 0 at {}",
        r.datagrams.low, r.reliables.low, r.next[0]
    );
    println!("  {}", if agreed { "no difference" } else { "the outputs differ" });
    agreed
}

/// One of the inputs, with numbers below `below`, which is 2^24 but for trials; None where there is no such input.
pub fn compare(which: &str, command: &str, below: u32) -> Option<bool> {
    assert!(LAST < below && below <= NUMBERS);
    match which {
        "step" => Some(one("trace, all numbers in step", command, Program::Trace, below, in_step)),
        "reliable" => Some(one("trace, reliable numbers alone", command, Program::Trace, below, reliable_alone)),
        "cpp" => Some(one("calls, reliable numbers of kind 4", command, Program::Calls, below, reliable_cpp)),
        "datagram" => Some(one("calls, datagram numbers alone", command, Program::Calls, below, datagrams_alone)),
        _ => None,
    }
}
