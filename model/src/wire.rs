//! Document 01's section 'Bytes': frames and acknowledgements; frames under a profile, by document 02's request 2.
use crate::window::{LIST, NUMBERS};

/// "A receiver, frame reader or frame writer is made for the console profile of document 01 or for this one, and keeps it."
#[derive(Clone, Copy, PartialEq, Eq, Debug)]
pub enum Profile {
    Console,
    Cpp,
}

pub const PROFILES: [Profile; 2] = [Profile::Console, Profile::Cpp];

impl Profile {
    /// 0 console, 1 C++; no other number is a profile's.
    pub fn of(number: u32) -> Option<Profile> {
        PROFILES.get(number as usize).copied()
    }

    pub fn number(self) -> u32 {
        self as u32
    }

    pub fn fields(self, kind: u8) -> &'static Fields {
        match self {
            Profile::Console => &CONSOLE[kind as usize],
            Profile::Cpp => &CPP[kind as usize],
        }
    }

    /// The bytes of a body of so many bits: "the remainder after dividing by 8 is dropped"; C++ "rounds a bit length up to whole bytes".
    pub fn body_bytes(self, bits: u32) -> usize {
        match self {
            Profile::Console => bits as usize / 8,
            Profile::Cpp => bits as usize / 8 + (bits % 8 != 0) as usize,
        }
    }

    /// A length in bits for so many bytes; `inexact` bits of it are ones that reading drops, or that it rounds away.
    fn bits(self, bytes: usize, inexact: u16) -> u16 {
        let exact = (bytes as u16).wrapping_mul(8);
        match self {
            Profile::Console => exact | inexact & 7,
            Profile::Cpp if bytes == 0 => exact,
            Profile::Cpp => exact.wrapping_sub(inexact & 7),
        }
    }
}

/// "One table of eight rows gives each kind's fields."
pub struct Fields {
    pub reliable: bool,
    pub sequence: bool,
    pub order: bool,
}

const fn row(reliable: bool, sequence: bool, order: bool) -> Fields {
    Fields { reliable, sequence, order }
}

const CONSOLE: [Fields; 8] = [
    row(false, false, false),
    row(false, true, true),
    row(true, false, false),
    row(true, false, true),
    row(true, true, false),
    row(false, false, false),
    row(false, false, false),
    row(true, false, true),
];

/// "It puts an order number and channel after kind 4's sequence number"
const CPP: [Fields; 8] = [
    row(false, false, false),
    row(false, true, true),
    row(true, false, false),
    row(true, false, true),
    row(true, true, true),
    row(false, false, false),
    row(false, false, false),
    row(true, false, true),
];

/// Kinds with a reliable number, the same under both profiles.
pub fn reliable(kind: u8) -> bool {
    CONSOLE[kind as usize].reliable
}

#[derive(Clone, Copy, PartialEq, Debug)]
pub struct Piece {
    pub count: u32,
    pub id: u16,
    pub index: u32,
}

#[derive(Clone, PartialEq, Debug)]
pub struct Frame {
    pub kind: u8,
    pub reliable: u32,
    pub sequence: u32,
    pub order: u32,
    pub channel: u8,
    pub piece: Option<Piece>,
    pub body: Vec<u8>,
}

/// The bytes of a slice from its beginning on; None once one is wanted that is not there.
struct Reader<'a>(&'a [u8]);

impl<'a> Reader<'a> {
    fn bytes(&mut self, n: usize) -> Option<&'a [u8]> {
        if self.0.len() < n {
            return None;
        }
        let (taken, rest) = self.0.split_at(n);
        self.0 = rest;
        Some(taken)
    }

    fn big(&mut self, n: usize) -> Option<u32> {
        Some(self.bytes(n)?.iter().fold(0, |sum, b| sum << 8 | *b as u32))
    }

    fn little(&mut self, n: usize) -> Option<u32> {
        Some(self.bytes(n)?.iter().rev().fold(0, |sum, b| sum << 8 | *b as u32))
    }

    fn little_if(&mut self, carried: bool, n: usize) -> Option<u32> {
        if carried {
            self.little(n)
        } else {
            Some(0)
        }
    }

    fn frame(&mut self, profile: Profile) -> Option<Frame> {
        let flags = self.big(1)?;
        let bits = self.big(2)?;
        let kind = (flags >> 5) as u8;
        let fields = profile.fields(kind);
        let reliable = self.little_if(fields.reliable, 3)?;
        let sequence = self.little_if(fields.sequence, 3)?;
        let order = self.little_if(fields.order, 3)?;
        let channel = self.little_if(fields.order, 1)? as u8;
        let piece = if flags & 0x10 != 0 { Some(Piece { count: self.big(4)?, id: self.big(2)? as u16, index: self.big(4)? }) } else { None };
        let body = self.bytes(profile.body_bytes(bits))?.to_vec();
        Some(Frame { kind, reliable, sequence, order, channel, piece, body })
    }
}

/// "reading ends before the first frame that doesn't fit; the bytes left are reported": the frames after a datagram's head, and how many bytes are left.
pub fn frames(profile: Profile, after_head: &[u8]) -> (Vec<Frame>, usize) {
    let mut all = Vec::new();
    let mut at = after_head;
    loop {
        let mut reader = Reader(at);
        match reader.frame(profile) {
            None => return (all, at.len()),
            Some(frame) => all.push(frame),
        }
        at = reader.0;
    }
}

pub fn little24(n: u32) -> [u8; 3] {
    [n as u8, (n >> 8) as u8, (n >> 16) as u8]
}

/// A datagram's number, where it has four bytes.
pub fn number_of(datagram: &[u8]) -> u32 {
    datagram[1] as u32 | (datagram[2] as u32) << 8 | (datagram[3] as u32) << 16
}

/// A frame's bytes, with flag bits and bits of length that reading does not see. Fields are not judged: the generator writes bad ones too.
pub fn frame_bytes(profile: Profile, f: &Frame, flag_bits: u8, length_bits: u16) -> Vec<u8> {
    let fields = profile.fields(f.kind);
    let mut out = vec![f.kind << 5 | if f.piece.is_some() { 0x10 } else { 0 } | flag_bits & 0x0F];
    out.extend(profile.bits(f.body.len(), length_bits).to_be_bytes());
    if fields.reliable {
        out.extend(little24(f.reliable));
    }
    if fields.sequence {
        out.extend(little24(f.sequence));
    }
    if fields.order {
        out.extend(little24(f.order));
        out.push(f.channel);
    }
    if let Some(p) = f.piece {
        out.extend(p.count.to_be_bytes());
        out.extend(p.id.to_be_bytes());
        out.extend(p.index.to_be_bytes());
    }
    out.extend(&f.body);
    out
}

/// "Write ACK or NACK" of a list into an output of `room` bytes: 13, 14, 12, or the bytes.
pub fn write_numbers(first: u8, numbers: &[u32], room: usize) -> Result<Vec<u8>, u8> {
    if numbers.len() > LIST || numbers.iter().any(|n| *n >= NUMBERS) {
        return Err(13);
    }
    if numbers.windows(2).any(|pair| pair[0] >= pair[1]) {
        return Err(14);
    }
    let mut out = vec![first, 0, 0];
    let mut records = 0u16;
    let mut rest = numbers;
    while let Some(&from) = rest.first() {
        let run = rest.iter().zip(from..).take_while(|(n, want)| **n == *want).count();
        let to = rest[run - 1];
        records += 1;
        if run == 1 {
            out.push(1);
            out.extend(little24(from));
        } else {
            out.push(0);
            out.extend(little24(from));
            out.extend(little24(to));
        }
        rest = &rest[run..];
    }
    out[1..3].copy_from_slice(&records.to_be_bytes());
    if out.len() > room {
        Err(12)
    } else {
        Ok(out)
    }
}
