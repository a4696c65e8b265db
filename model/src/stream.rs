//! Datagrams by mode: what a sender, a network and a vandal make. The receiver as it stands is looked at, so that numbers fall on its edges.
use crate::model::{memory, Cell, Receiver, MAX_FRAGS};
use crate::rng::Rng;
use crate::sender::{datagram, Sender, Style, IN_PIECES, LEVERS, MAX_DATAGRAM, ORDERED, PLAIN, PREVIEWS};
use crate::window::{Window, NUMBERS, REACH};
use crate::wire::{frame_bytes, reliable, Frame, Piece, Profile};
use std::collections::VecDeque;

#[derive(Clone, Copy, PartialEq, Debug)]
pub enum Mode {
    Valid,
    Reordered,
    Duplicated,
    Lossy,
    Damaged,
    Wild,
    Pieces,
    Edges,
    Crowded,
    Levers,
    Previews,
    Full,
    Mixed,
}

pub const MODES: [Mode; 13] = [
    Mode::Valid,
    Mode::Reordered,
    Mode::Duplicated,
    Mode::Lossy,
    Mode::Damaged,
    Mode::Wild,
    Mode::Pieces,
    Mode::Edges,
    Mode::Crowded,
    Mode::Levers,
    Mode::Previews,
    Mode::Full,
    Mode::Mixed,
];

pub struct Stream {
    pub mode: Mode,
    /// The senders' profile; a receiver may have been made for the other.
    profile: Profile,
    planned: VecDeque<Vec<u8>>,
    sent: Vec<Vec<u8>>,
}

/// A number at, near or far above a window's low.
fn near(rng: &mut Rng, window: &Window, beyond: usize) -> u32 {
    if rng.percent(beyond) {
        let far = [window.low + REACH + 1, window.low + REACH + 2, NUMBERS / 2, NUMBERS - 2, NUMBERS - 1];
        return rng.pick(&far).min(NUMBERS - 1);
    }
    let step = match rng.below(12) {
        0 => REACH,
        1 => REACH - 1,
        2 => rng.below(REACH as usize + 1) as u32,
        3 | 4 => return window.low.saturating_sub(rng.from_to(1, 4) as u32),
        5 | 6 => rng.from_to(1, 4) as u32,
        _ => 0,
    };
    (window.low + step).min(NUMBERS - 1)
}

fn wild_piece(rng: &mut Rng) -> Piece {
    let common = rng.percent(80);
    let count = if common { rng.from_to(1, 4) as u32 } else { rng.pick(&[0, 1, 5, 1023, 1024, 1025, 65536, u32::MAX]) };
    let index = if common { rng.below(4) as u32 } else { rng.pick(&[0, 1, 4, 5, 1022, 1023, 1024, 65536, u32::MAX]) };
    Piece { count, id: rng.pick(&[0, 0, 0, 1, 2, 256, 65535]), index }
}

/// A sequence number about the newest of its memory; seldom one of the last, after which all of that memory are late.
fn wild_sequence(rng: &mut Rng, newest: Option<u32>) -> u32 {
    let next = newest.map_or(0, |n| n + 1);
    match rng.below(24) {
        0 => rng.pick(&[255, 256, 65535, 65536]),
        1 if rng.percent(20) => rng.pick(&[NUMBERS - 1, NUMBERS - 2]),
        2..=5 => next.saturating_sub(1),
        6..=8 => next.saturating_sub(2),
        9..=11 => (next + rng.from_to(1, 3) as u32).min(NUMBERS - 1),
        _ => next.min(NUMBERS - 1),
    }
}

fn wild_frame(rng: &mut Rng, profile: Profile, live: &Receiver, reliable: u32, pieces: usize) -> Vec<u8> {
    let kind = rng.pick(&[0, 1, 2, 2, 3, 3, 3, 4, 4, 5, 6, 7, 7]);
    let channel = if rng.percent(10) { rng.pick(&[30, 31, 32, 33, 255]) } else { rng.pick(&[0, 0, 1]) };
    let next = live.next[channel.min(31) as usize];
    let order = match rng.below(10) {
        0 => next.saturating_sub(1),
        1 | 2 => next + 1,
        3 => next + 2,
        4 => rng.pick(&[NUMBERS - 1, NUMBERS - 2, NUMBERS / 2, 256, 65536]),
        _ => next,
    };
    let newest = memory(profile, kind, channel.min(31)).and_then(|m| live.newest[m]);
    let sequence = wild_sequence(rng, newest);
    let piece = if rng.percent(pieces) { Some(wild_piece(rng)) } else { None };
    let length = rng.pick(&[0, 0, 1, 1, 2, 7, 33, 100, 400]);
    let f = Frame { kind, reliable, sequence, order, channel, piece, body: rng.bytes(length) };
    let (flag_bits, length_bits) = if rng.percent(20) { (rng.next() as u8, rng.next() as u16) } else { (0, 0) };
    frame_bytes(profile, &f, flag_bits, length_bits)
}

/// A frame that meets an open message: one more of its pieces, perhaps with another order number or channel; or a whole message with its
/// channel, order and sequence number (or the sequence number after it), which makes it late.
fn follow(rng: &mut Rng, profile: Profile, live: &Receiver, reliable: u32) -> Option<Vec<u8>> {
    let open: Vec<&Cell> = live.open().collect();
    if open.is_empty() {
        return None;
    }
    let c = open[rng.below(open.len())];
    let lacking = (0..c.count).find(|i| !open.iter().any(|d| d.id == c.id && d.index == *i))?;
    let piece = if rng.percent(60) { Some(Piece { count: c.count, id: c.id, index: lacking }) } else { None };
    let later = (piece.is_none() && rng.percent(50)) as u32;
    let sequence = (c.sequence + later).min(NUMBERS - 1);
    let (order, channel) = match rng.below(16) {
        0 => (c.order ^ 1, c.channel),
        1 => (c.order, c.channel ^ 1),
        _ => (c.order, c.channel),
    };
    // in C++ the channel's other sequenced kind goes by the same memory
    let kind = if piece.is_none() && (c.kind == 1 || c.kind == 4) { rng.pick(&[1, 4]) } else { c.kind };
    let f = Frame { kind, reliable, sequence, order, channel, piece, body: rng.bytes(1) };
    Some(frame_bytes(profile, &f, 0, 0))
}

/// Any fields, most of them near where they matter.
fn wild(rng: &mut Rng, profile: Profile, live: &Receiver) -> Vec<u8> {
    if rng.percent(3) {
        let length = rng.pick(&[0, 1, 2, 3, 4, 5, 100, 1500, 1501, 4000]);
        return rng.bytes(length);
    }
    let beyond = rng.pick(&[1, 1, 1, 10]);
    let how_many = rng.pick(&[0, 1, 1, 2, 3, 4, 6, 9]);
    let pieces = rng.pick(&[10, 30, 90]);
    let mut seen = live.reliables.clone();
    let mut frames = Vec::new();
    for _ in 0..how_many {
        let reliable = near(rng, &seen, beyond);
        if rng.percent(90) {
            let _ = seen.insert(reliable);
        }
        let following = if rng.percent(30) { follow(rng, profile, live, reliable) } else { None };
        frames.push(following.unwrap_or_else(|| wild_frame(rng, profile, live, reliable, pieces)));
    }
    let first = if rng.percent(5) { rng.pick(&[0x7F, 0x80, 0x8D, 0x8E, 0xC0, 0xA0, 0]) } else { 0x84 };
    datagram(first, near(rng, &live.datagrams, beyond), &frames)
}

/// Many reliable numbers at once, spent by frames of channel 32, so that the windows' edges move fast; and jumps to the last places.
fn edge(rng: &mut Rng, profile: Profile, live: &Receiver) -> Vec<u8> {
    let window = &live.reliables;
    let from = match rng.below(5) {
        0 => window.low + REACH - rng.below(150) as u32,
        1 => window.above.last().map_or(window.low, |n| n + 1),
        2 => window.low + rng.below(REACH as usize) as u32,
        _ => window.low,
    };
    // kind 4 has a channel in C++ alone; its frames are longer
    let kind = if profile == Profile::Cpp && rng.percent(50) { 4 } else { 3 };
    let how_many = if kind == 4 { rng.pick(&[1, 2, 20, 114, 115]) } else { rng.pick(&[1, 2, 20, 148, 149]) };
    let step = rng.pick(&[1, 1, 1, 2]);
    let spent = |reliable| Frame { kind, reliable, sequence: 0, order: 0, channel: 32, piece: None, body: Vec::new() };
    let frames: Vec<Vec<u8>> = (0..how_many).map(|i| frame_bytes(profile, &spent((from + i * step).min(NUMBERS - 1)), 0, 0)).collect();
    datagram(0x84, near(rng, &live.datagrams, 10), &frames)
}

/// Cuts, tails, flipped bits, other first bytes.
fn damage(rng: &mut Rng, d: &[u8]) -> Vec<u8> {
    let mut d = d.to_vec();
    match rng.below(6) {
        0 => d.truncate(rng.below(d.len() + 1)),
        1 => {
            let n = rng.from_to(1, 12);
            d.extend(rng.bytes(n));
        }
        2 if !d.is_empty() => d[0] = rng.pick(&[0x7F, 0x80, 0x81, 0x8D, 0x8E, 0xC0, 0xA0]),
        3 => d.resize(rng.pick(&[MAX_DATAGRAM, MAX_DATAGRAM + 1]), 0),
        _ => {
            for _ in 0..rng.from_to(1, 3) {
                if !d.is_empty() {
                    let at = rng.below(d.len());
                    d[at] ^= 1 << rng.below(8);
                }
            }
        }
    }
    d
}

fn style(rng: &mut Rng, mode: Mode) -> Style {
    match mode {
        Mode::Pieces => Style { pieces: rng.pick(&[2, 4, 12, 40]), ..IN_PIECES },
        Mode::Crowded => ORDERED,
        Mode::Levers => LEVERS,
        Mode::Previews => PREVIEWS,
        Mode::Mixed if rng.percent(30) => PREVIEWS,
        _ => PLAIN,
    }
}

/// Sends some datagrams once more, later, and some frames again under new numbers.
fn again(rng: &mut Rng, sender: &mut Sender, style: &Style, frames: &[Frame], all: &mut Vec<Vec<u8>>) {
    for _ in 0..rng.from_to(1, all.len() / 2 + 1) {
        let d = all[rng.below(all.len())].clone();
        let at = rng.below(all.len() + 1);
        all.insert(at, d);
    }
    let resent: Vec<Frame> = frames.iter().filter(|_| rng.percent(30)).cloned().collect();
    let at = rng.below(all.len() + 1);
    let more = sender.pack(rng, style, &resent);
    all.splice(at..at, more);
}

/// Puts whole frames between the pieces, with the pieces' channel, order and sequence number (or one just above), so that messages are
/// joined too late.
fn overtake(rng: &mut Rng, sender: &mut Sender, frames: &mut Vec<Frame>) {
    for _ in 0..rng.below(frames.len()) / 4 {
        let at = rng.below(frames.len());
        let fields = sender.profile.fields(frames[at].kind);
        if frames[at].piece.is_some() && (fields.order || fields.sequence) {
            let reliable = sender.reliable;
            sender.reliable += 1;
            let sequence = frames[at].sequence + rng.below(2) as u32;
            let kind = if fields.sequence && fields.order { rng.pick(&[1, 4]) } else { frames[at].kind };
            let whole = Frame { kind, reliable, sequence, piece: None, body: rng.bytes(1), ..frames[at].clone() };
            frames.insert(at, whole);
        }
    }
}

/// Pieces without reliable numbers that get lost: nobody sends them again.
fn lost(rng: &mut Rng, frames: &mut Vec<Frame>) {
    let loss = rng.pick(&[10, 30, 60]);
    frames.retain(|f| reliable(f.kind) || f.piece.is_none() || !rng.percent(loss));
}

/// Puts pieces among the others that do not agree with them: another count, sequence number, order number or channel.
fn stray(rng: &mut Rng, sender: &mut Sender, frames: &mut Vec<Frame>) {
    for _ in 0..rng.below(frames.len()) / 6 {
        let at = rng.below(frames.len());
        let Some(piece) = frames[at].piece else { continue };
        let reliable = sender.reliable;
        sender.reliable += 1;
        let mut f = Frame { reliable, body: rng.bytes(2), ..frames[at].clone() };
        match rng.below(4) {
            0 => f.piece = Some(Piece { count: piece.count + 1, ..piece }),
            1 => f.sequence += 1,
            2 => f.order += 1,
            _ => f.channel ^= 1,
        }
        frames.insert(at, f);
    }
}

fn planned(rng: &mut Rng, profile: Profile, mode: Mode, messages: usize) -> Vec<Vec<u8>> {
    let mut sender = Sender::new(profile);
    let style = &style(rng, mode);
    let mut frames = sender.messages(rng, style, messages);
    let span = rng.pick(&[2, 4, 16, 64]);
    match mode {
        Mode::Pieces => {
            rng.shuffle(&mut frames, span);
            overtake(rng, &mut sender, &mut frames);
            stray(rng, &mut sender, &mut frames);
        }
        Mode::Levers => {
            let near = rng.pick(&[1, 2, 4, 8]);
            rng.shuffle(&mut frames, near);
            overtake(rng, &mut sender, &mut frames);
            stray(rng, &mut sender, &mut frames);
        }
        Mode::Previews => {
            rng.shuffle(&mut frames, span);
            lost(rng, &mut frames);
            stray(rng, &mut sender, &mut frames);
        }
        Mode::Crowded => frames.reverse(),
        _ => {}
    }
    let mut all = sender.pack(rng, style, &frames);
    match mode {
        Mode::Reordered => rng.shuffle(&mut all, span),
        Mode::Levers | Mode::Previews if rng.percent(30) => again(rng, &mut sender, style, &frames, &mut all),
        Mode::Duplicated => again(rng, &mut sender, style, &frames, &mut all),
        Mode::Lossy | Mode::Mixed => {
            let loss = rng.from_to(5, 40);
            all.retain(|_| !rng.percent(loss));
            let resent = sender.pack(rng, style, &frames);
            all.extend(resent.into_iter().filter(|_| !rng.percent(loss)).collect::<Vec<_>>());
            rng.shuffle(&mut all, span);
        }
        Mode::Damaged => {
            for d in all.iter_mut() {
                if rng.percent(30) {
                    *d = damage(rng, d);
                }
            }
        }
        _ => {}
    }
    all
}

/// Bare numbers until the unsent list is full: in a row, every second one, or any. The first ones and few others carry a piece, which may
/// grow old.
fn full(rng: &mut Rng, profile: Profile) -> Vec<Vec<u8>> {
    let mut numbers: Vec<u32> = match rng.below(3) {
        0 => (0..1030).collect(),
        1 => (0..1030).map(|i| 2 * i + 2).collect(),
        _ => (0..=REACH).collect(),
    };
    let span = rng.pick(&[1, 8, 2048]);
    rng.shuffle(&mut numbers, span);
    numbers.truncate(1030);
    let first = rng.pick(&[0, 1, 3]);
    let mut all = Vec::new();
    for (i, n) in numbers.into_iter().enumerate() {
        let piece = (i < first || rng.below(500) == 0).then(|| long_piece(rng, profile, n));
        all.push(datagram(0x84, n, piece.as_slice()));
    }
    all
}

/// A piece of a message of many, so that it stays unfinished.
fn long_piece(rng: &mut Rng, profile: Profile, reliable: u32) -> Vec<u8> {
    let piece = Piece { count: MAX_FRAGS, id: rng.below(3) as u16, index: rng.below(MAX_FRAGS as usize) as u32 };
    let kind = [0, 6, 2][piece.id as usize];
    frame_bytes(profile, &Frame { kind, reliable, sequence: 0, order: 0, channel: 0, piece: Some(piece), body: Vec::new() }, 0, 0)
}

impl Stream {
    pub fn new(rng: &mut Rng, profile: Profile, mode: Mode, messages: usize) -> Stream {
        let planned = match mode {
            Mode::Wild | Mode::Edges => Vec::new(),
            Mode::Full => full(rng, profile),
            _ => planned(rng, profile, mode, messages),
        };
        Stream { mode, profile, planned: planned.into(), sent: Vec::new() }
    }

    /// The next datagram; a planned stream ends.
    pub fn next(&mut self, rng: &mut Rng, live: &Receiver) -> Option<Vec<u8>> {
        let profile = self.profile;
        let d = match self.mode {
            Mode::Wild => wild(rng, profile, live),
            Mode::Edges if rng.percent(70) => edge(rng, profile, live),
            Mode::Edges => wild(rng, profile, live),
            Mode::Mixed => match rng.below(10) {
                0 => edge(rng, profile, live),
                1 | 2 => wild(rng, profile, live),
                3 if !self.sent.is_empty() => self.sent[rng.below(self.sent.len())].clone(),
                4 if !self.sent.is_empty() => {
                    let old = rng.below(self.sent.len());
                    damage(rng, &self.sent[old])
                }
                _ => self.planned.pop_front()?,
            },
            _ => self.planned.pop_front()?,
        };
        self.sent.push(d.clone());
        Some(d)
    }
}
