//! What the programs `trace` and `calls` must print, and their inputs as lists of items.
use crate::model::{Report, CELL_BYTES};
use crate::session::Session;
use crate::wire::{self, Profile};

/// "Program `trace` (32 cells)"
pub const TRACE_CELLS: usize = 32;

/// A joining buffer of as many cells.
const TRACE_ROOM: usize = TRACE_CELLS * CELL_BYTES;

/// `calls` has no more cells than this.
pub const CALLS_CELLS: usize = 256;

/// "an output of 64 · n bytes, at most 1,048,576"; an image longer than that "ends the list".
pub const UNIT: usize = 64;
pub const IMAGE: usize = 1 << 20;

#[derive(Clone, Copy, PartialEq, Debug)]
pub enum Program {
    Trace,
    Calls,
}

/// A program's input, cut into the items that a shrinking run leaves out one by one.
#[derive(Clone)]
pub struct Input {
    pub program: Program,
    /// The number of cells as `calls` reads it; nothing for `trace`.
    pub head: Vec<u8>,
    /// Datagrams with their lengths, or calls.
    pub items: Vec<Vec<u8>>,
    /// Bytes at the end, which may be a cut item.
    pub tail: Vec<u8>,
}

impl Input {
    pub fn bytes(&self) -> Vec<u8> {
        [self.head.clone(), self.items.concat(), self.tail.clone()].concat()
    }
}

pub fn big16(b: &[u8]) -> usize {
    (b[0] as usize) << 8 | b[1] as usize
}

/// A datagram as `trace` reads it.
pub fn with_length(d: &[u8]) -> Vec<u8> {
    [&(d.len() as u16).to_be_bytes(), d].concat()
}

/// A call of receive as `calls` reads it.
pub fn receive_item(d: &[u8]) -> Vec<u8> {
    [vec![0], with_length(d)].concat()
}

/// A new receiver.
pub fn new_item(profile: Profile) -> Vec<u8> {
    other_item(4, profile.number() as usize)
}

/// The profile of the receiver that an item makes, if it makes one.
pub fn made_by(item: &[u8]) -> Option<Profile> {
    (item[0] == 4).then(|| Profile::of(big16(&item[1..]) as u32))?
}

/// A call that drops the unfinished of the number n, which stands in two halves: "n · 65,536 + the two bytes (big-endian)".
pub fn drop_item(n: u32) -> Vec<u8> {
    [other_item(5, (n >> 16) as usize), (n as u16).to_be_bytes().to_vec()].concat()
}

/// An image to restore into n cells.
pub fn restore_item(n: usize, image: &[u8]) -> Vec<u8> {
    [other_item(8, n), (image.len() as u32).to_be_bytes().to_vec(), image.to_vec()].concat()
}

/// Another call: its byte and the length of its buffer or output, of its output in units of 64 bytes, or the number of its cells.
pub fn other_item(what: u8, n: usize) -> Vec<u8> {
    [vec![what], (n as u16).to_be_bytes().to_vec()].concat()
}

/// "SUM is over the bytes handed out: start at 1, for each byte h = (31 h + byte) mod 65521."
fn sum(bytes: &[u8]) -> u64 {
    bytes.iter().fold(1, |h, b| (31 * h + *b as u64) % 65521)
}

/// A datagram's own line in `trace`.
fn trace_line(datagram: &[u8], answer: Result<Report, u8>) -> String {
    let (number, ready, dropped) = match answer {
        Ok(report) => (0, report.ready, report.dropped),
        Err(number) => (number, 0, 0),
    };
    let name = match number {
        9 | 1 | 2 | 3 => "-".to_string(),
        _ => wire::number_of(datagram).to_string(),
    };
    format!("{name} {number} {ready} {dropped}\n")
}

/// "after each takes all ready and empties the acknowledgements": a datagram's lines.
pub fn trace_lines(session: &mut Session, datagram: &[u8]) -> String {
    let answer = session.receive(datagram);
    let mut lines = trace_line(datagram, answer);
    while let Ok(message) = session.take(TRACE_ROOM) {
        lines += &format!("+ {}\n", message.body.len());
    }
    session.receiver.unsent.clear();
    lines
}

/// How many bytes the first item has; None where it is cut.
fn trace_item(input: &[u8]) -> Option<usize> {
    let size = 2 + big16(input.get(..2)?);
    (size <= input.len()).then_some(size)
}

/// Runs `trace`: what it prints, and the session at its end.
pub fn trace(input: &[u8]) -> (String, Session) {
    let mut session = Session::new(TRACE_CELLS, true);
    let mut printed = String::new();
    let mut at = input;
    while let Some(size) = trace_item(at) {
        printed += &trace_lines(&mut session, &at[2..size]);
        at = &at[size..];
    }
    session.end();
    (printed, session)
}

fn written(letter: char, answer: Result<Vec<u8>, u8>) -> String {
    match answer {
        Ok(bytes) => format!("{letter} 0 {} {}\n", bytes.len(), sum(&bytes)),
        Err(number) => format!("{letter} {number}\n"),
    }
}

fn restored(answer: Result<(), u8>) -> String {
    format!("i {}\n", answer.err().unwrap_or(0))
}

/// The line of one call, given as an item.
pub fn call_line(session: &mut Session, item: &[u8]) -> String {
    let n = big16(&item[1..]);
    match item[0] {
        0 => match session.receive(&item[3..]) {
            Ok(report) => format!("r 0 {} {} {}\n", report.ready, report.dropped, report.left),
            Err(number) => format!("r {number}\n"),
        },
        1 => match session.take(n) {
            Ok(m) => format!("t 0 {} {} {} {} {}\n", m.body.len(), sum(&m.body), m.kind, m.channel, m.order),
            Err(number) => format!("t {number}\n"),
        },
        2 => written('u', session.write_unsent(n)),
        3 => written('m', session.write_missing(n)),
        5 => format!("x 0 {}\n", session.drop_unfinished((n as u32) << 16 | big16(&item[3..]) as u32)),
        6 => written('s', session.save(IMAGE.min(UNIT * n))),
        7 => restored(session.resume(n, CALLS_CELLS)),
        8 => restored(session.restore(n, CALLS_CELLS, &item[7..])),
        _ => {
            session.renew(made_by(item).expect("a call that makes a receiver"));
            "n 0\n".to_string()
        }
    }
}

/// How many bytes the first call has; None where it is cut or no call ("above 1 ends the list").
fn call_item(input: &[u8]) -> Option<usize> {
    let head = input.get(..3)?;
    let size = match head[0] {
        0 => 3 + big16(&head[1..]),
        1..=3 => 3,
        4 if made_by(head).is_some() => 3,
        5 => 5,
        6 | 7 => 3,
        8 => 7 + image_length(input)?,
        _ => return None,
    };
    (size <= input.len()).then_some(size)
}

/// The length after a call's head; None where it is cut or too large ("above 1,048,576 ends the list").
fn image_length(input: &[u8]) -> Option<usize> {
    let length = input.get(3..7)?.iter().fold(0, |sum, b| sum << 8 | *b as usize);
    (length <= IMAGE).then_some(length)
}

/// Runs `calls`: what it prints, and the session at its end.
pub fn calls(input: &[u8]) -> (String, Session) {
    let cells = input.get(..2).map_or(0, big16);
    if !(1..=CALLS_CELLS).contains(&cells) {
        let mut none = Session::new(0, true);
        none.count('-', Some(9));
        return ("- 9\n".to_string(), none);
    }
    let mut session = Session::new(cells, true);
    let mut printed = String::new();
    let mut at = &input[2..];
    while let Some(size) = call_item(at) {
        printed += &call_line(&mut session, &at[..size]);
        at = &at[size..];
    }
    session.end();
    (printed, session)
}

pub fn expected(program: Program, input: &[u8]) -> (String, Session) {
    match program {
        Program::Trace => trace(input),
        Program::Calls => calls(input),
    }
}
