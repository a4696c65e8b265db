//! A sender that keeps to the rules: numbers its messages, splits long ones, packs frames into datagrams.
use crate::model::{memory, ordered, MEMORIES};
use crate::rng::Rng;
use crate::wire::{frame_bytes, little24, reliable, Frame, Piece, Profile};

pub const MAX_DATAGRAM: usize = 1500;

/// What a sender's messages look like: kinds, channels and body lengths to pick from.
pub struct Style {
    pub kinds: &'static [u8],
    pub channels: &'static [u8],
    pub lengths: &'static [usize],
    /// How many messages of a hundred are split, into how many pieces at most, and the pieces' lengths.
    pub split: usize,
    pub pieces: usize,
    pub chunks: &'static [usize],
    /// Ids go round below this.
    pub ids: u16,
    /// Frames in a datagram at most.
    pub per_datagram: usize,
}

pub const PLAIN: Style = Style {
    kinds: &[0, 1, 2, 3, 3, 3, 3, 4, 5, 6, 7, 7],
    channels: &[0, 1, 1, 2, 31],
    lengths: &[0, 1, 2, 9, 40, 150, 600],
    split: 20,
    pieces: 5,
    chunks: &[0, 1, 3, 60, 300, 1400],
    ids: 6,
    per_datagram: 5,
};

pub const IN_PIECES: Style = Style {
    kinds: &[2, 3, 3, 7, 0, 4, 1],
    channels: &[0, 5],
    lengths: &[1, 30],
    split: 80,
    pieces: 40,
    chunks: &[0, 1, 20, 60, 1400],
    ids: 3,
    per_datagram: 8,
};

/// Scene previews above all: pieces without reliable numbers, of few ids.
pub const PREVIEWS: Style = Style {
    kinds: &[0, 0, 1, 5, 5, 6, 6, 2, 3],
    channels: &[0, 5],
    lengths: &[0, 1, 30],
    split: 75,
    pieces: 6,
    chunks: &[0, 1, 20, 300],
    ids: 5,
    per_datagram: 3,
};

/// Lever positions above all, on few channels, whole and in pieces.
pub const LEVERS: Style = Style {
    kinds: &[1, 1, 1, 4, 4, 3],
    channels: &[0, 0, 5, 31],
    lengths: &[0, 1, 2, 9],
    split: 35,
    pieces: 4,
    chunks: &[0, 1, 3, 60],
    ids: 5,
    per_datagram: 4,
};

/// Ordered messages alone, for channels that hold much.
pub const ORDERED: Style =
    Style { kinds: &[3, 7], channels: &[0, 0, 0, 31], lengths: &[0, 1, 5], split: 15, pieces: 3, chunks: &[1, 2], ids: 4, per_datagram: 4 };

pub struct Sender {
    pub profile: Profile,
    pub number: u32,
    pub reliable: u32,
    /// The next sequence number of each memory.
    pub sequences: [u32; MEMORIES],
    pub next: [u32; 32],
    pub id: u16,
}

impl Sender {
    pub fn new(profile: Profile) -> Sender {
        Sender { profile, number: 0, reliable: 0, sequences: [0; MEMORIES], next: [0; 32], id: 0 }
    }

    fn frame(&mut self, like: &Frame, piece: Option<Piece>, body: Vec<u8>) -> Frame {
        let mut f = Frame { piece, body, ..like.clone() };
        if reliable(f.kind) {
            f.reliable = self.reliable;
            self.reliable += 1;
        }
        f
    }

    /// A memory's next sequence number, or one beyond it; at times the last again or an older one, under which the message is late.
    fn sequence(&mut self, rng: &mut Rng, memory: usize) -> u32 {
        let next = &mut self.sequences[memory];
        let n = match rng.below(10) {
            0 => next.saturating_sub(1),
            1 => next.saturating_sub(rng.from_to(2, 4) as u32),
            2 => *next + rng.from_to(1, 3) as u32,
            _ => *next,
        };
        *next = (n + 1).max(*next);
        n
    }

    /// The frames of one more message.
    pub fn message(&mut self, rng: &mut Rng, style: &Style) -> Vec<Frame> {
        let kind = rng.pick(style.kinds);
        let fields = self.profile.fields(kind);
        let mut like = Frame { kind, reliable: 0, sequence: 0, order: 0, channel: 0, piece: None, body: Vec::new() };
        if fields.order {
            like.channel = rng.pick(style.channels);
            let next = &mut self.next[like.channel as usize];
            like.order = *next;
            // kinds 1 and 4 pass their channel by: a number of their own would leave a gap
            *next += ordered(kind) as u32;
        }
        if let Some(m) = memory(self.profile, kind, like.channel) {
            like.sequence = self.sequence(rng, m);
        }
        if !rng.percent(style.split) {
            let n = rng.pick(style.lengths);
            return vec![self.frame(&like, None, rng.bytes(n))];
        }
        let count = rng.from_to(1, style.pieces) as u32;
        let chunk = rng.pick(style.chunks);
        let id = self.id;
        self.id = (self.id + 1) % style.ids;
        (0..count).map(|index| self.frame(&like, Some(Piece { count, id, index }), rng.bytes(chunk))).collect()
    }

    pub fn messages(&mut self, rng: &mut Rng, style: &Style, how_many: usize) -> Vec<Frame> {
        (0..how_many).flat_map(|_| self.message(rng, style)).collect()
    }

    /// A datagram of the next number.
    pub fn datagram(&mut self, frames: &[Vec<u8>]) -> Vec<u8> {
        self.number += 1;
        datagram(0x84, self.number - 1, frames)
    }

    /// Packs frames into datagrams, each of some frames and within the limit. Some hosts' lengths are no multiples of 8.
    pub fn pack(&mut self, rng: &mut Rng, style: &Style, frames: &[Frame]) -> Vec<Vec<u8>> {
        let mut all = Vec::new();
        let mut together: Vec<Vec<u8>> = Vec::new();
        let mut most = rng.from_to(1, style.per_datagram);
        let inexact = rng.percent(25);
        for f in frames {
            let bytes = frame_bytes(self.profile, f, 0, if inexact { rng.next() as u16 } else { 0 });
            let size: usize = together.iter().map(|b| b.len()).sum();
            if together.len() >= most || 4 + size + bytes.len() > MAX_DATAGRAM {
                all.push(self.datagram(&together));
                together.clear();
                most = rng.from_to(1, style.per_datagram);
            }
            together.push(bytes);
        }
        all.push(self.datagram(&together));
        all
    }
}

pub fn datagram(first: u8, number: u32, frames: &[Vec<u8>]) -> Vec<u8> {
    [vec![first], little24(number).to_vec(), frames.concat()].concat()
}
