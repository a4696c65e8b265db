//! Document 01's 'References': where the original's `RecvQueue` is the reference. Nothing gets 2 or 6 to 8 or is dropped in step 2, kinds 3 and 7 come
//! whole and in order from 0, the pieces of an id agree. An order number that came with kind 7 doesn't come again under a fresh reliable number:
//! the original delivers it twice. What a refused datagram or a frame with a reliable number accepted before holds doesn't matter.
//!
//! Document 02, request 1: "Runs against the Rust keep to rising sequence numbers." The original makes kinds 1 and 4 ready on acceptance.
//! So on each channel the messages of kind 1, and all messages of kind 4, bear rising sequence numbers in the order in which they become
//! whole: they are numbered by arrival.
use crate::datagrams::{has_order, has_reliable, has_sequence, Fields};
use crate::receivers::Step;
use std::collections::{BTreeMap, BTreeSet};

pub const REACH: u32 = 2048;
pub const MAX_DATAGRAM: usize = 1500;
const MAX_UNSENT: usize = 1024;
const MAX_PIECES: u32 = 1024;
const CHANNELS: usize = 32;

/// The sequence numbers that a message may bear are below this.
pub const NUMBERS: u32 = 1 << 24;

/// Where the newest sequence number of a kind and channel is remembered: each channel's for kind 1, then one for kind 4.
fn memory(kind: u8, channel: u8) -> usize {
    if kind == 1 { channel as usize } else { CHANNELS }
}

/// The numbers that a window has accepted.
#[derive(Default)]
pub struct Numbers {
    pub low: u32,
    pub above: BTreeSet<u32>,
}

impl Numbers {
    pub fn has(&self, n: u32) -> bool {
        n < self.low || self.above.contains(&n)
    }

    fn accept(&mut self, n: u32) {
        self.above.insert(n);
        while self.above.remove(&self.low) {
            self.low += 1;
        }
    }
}

/// An id that is open: its first piece, and the indices that came.
pub struct Open {
    pub first: Fields,
    pub came: Vec<u32>,
}

impl Open {
    pub fn count(&self) -> u32 {
        self.first.piece.unwrap().0
    }

    fn agrees(&self, f: &Fields) -> bool {
        let key = |f: &Fields| (f.kind, f.piece.unwrap().0, f.sequence, f.order, f.channel);
        key(&self.first) == key(f)
    }
}

/// What has come so far, all of it within 'References'.
pub struct Session {
    pub cells: usize,
    pub datagrams: Numbers,
    pub reliables: Numbers,
    pub next: [u32; CHANNELS],
    /// one above the highest order number that came with kind 3
    pub next_3: [u32; CHANNELS],
    pub open: BTreeMap<u16, Open>,
    /// one above the newest sequence number that became whole, by memory
    newest: [u32; CHANNELS + 1],
    unsent: usize,
}

impl Session {
    pub fn new(cells: usize) -> Session {
        Session {
            cells,
            datagrams: Numbers::default(),
            reliables: Numbers::default(),
            next: [0; CHANNELS],
            next_3: [0; CHANNELS],
            open: BTreeMap::new(),
            newest: [0; CHANNELS + 1],
            unsent: 0,
        }
    }

    pub fn used(&self) -> usize {
        self.open.values().map(|o| o.came.len()).sum()
    }

    /// The sequence numbers that a whole message may bear now, so that it and the open messages of its memory can all become whole with
    /// rising numbers: from the newest on, up to the first of an open message, which is not among them.
    pub fn rising(&self, kind: u8, channel: u8) -> std::ops::Range<u32> {
        let m = memory(kind, channel);
        let alike = self.open.values().map(|o| &o.first).filter(|f| has_sequence(f.kind) && memory(f.kind, f.channel) == m);
        self.newest[m]..alike.map(|f| f.sequence).min().unwrap_or(NUMBERS)
    }

    /// Is a message of this memory open?
    pub fn is_open(&self, kind: u8, channel: u8) -> bool {
        self.rising(kind, channel).end < NUMBERS
    }

    /// A message is whole. If its kind is sequenced, its number must be newer than its memory's.
    fn rises(&mut self, f: &Fields) -> bool {
        if !has_sequence(f.kind) {
            return true;
        }
        let newest = &mut self.newest[memory(f.kind, f.channel)];
        let newer = *newest <= f.sequence;
        *newest = f.sequence + 1;
        newer
    }

    /// Takes note of the step; false where it is outside.
    pub fn takes(&mut self, step: &Step) -> bool {
        let d = &step.datagram;
        if d.bytes().len() > MAX_DATAGRAM {
            return false;
        }
        if !self.datagrams.has(d.number) && d.number <= self.datagrams.low + REACH {
            if self.unsent == MAX_UNSENT {
                return false;
            }
            self.unsent += 1;
            self.datagrams.accept(d.number);
            let mut left = self.cells - self.used();
            if !d.frames.iter().all(|f| self.takes_frame(f, &mut left)) {
                return false;
            }
        }
        if step.unsent {
            self.unsent = 0;
        }
        true
    }

    /// Its reliable number, piece or order number came before.
    pub fn dropped(&self, f: &Fields) -> bool {
        if has_reliable(f.kind) && self.reliables.has(f.reliable) {
            return true;
        }
        match f.piece {
            Some((_, id, index)) => self.open.get(&id).is_some_and(|o| o.came.contains(&index)),
            None => f.kind == 3 && f.order < self.next_3.get(f.channel as usize).copied().unwrap_or(0),
        }
    }

    /// One frame of an accepted datagram; `left` bodies may still be kept.
    pub fn takes_frame(&mut self, f: &Fields, left: &mut usize) -> bool {
        let dropped = self.dropped(f);
        if has_reliable(f.kind) && !self.reliables.has(f.reliable) {
            if f.reliable > self.reliables.low + REACH {
                return false;
            }
            self.reliables.accept(f.reliable);
        } else if dropped && has_reliable(f.kind) {
            return true;
        }
        if has_order(f.kind) && f.channel as usize >= CHANNELS {
            return false;
        }
        if !dropped {
            if *left == 0 {
                return false;
            }
            *left -= 1;
        }
        if f.piece.is_some() { self.takes_piece(f, dropped) } else { dropped || self.takes_whole(f) }
    }

    fn takes_whole(&mut self, f: &Fields) -> bool {
        if f.kind == 3 || f.kind == 7 {
            let c = f.channel as usize;
            if f.order != self.next[c] {
                return false;
            }
            self.next[c] += 1;
            if f.kind == 3 {
                self.next_3[c] = self.next[c];
            }
        }
        self.rises(f)
    }

    fn takes_piece(&mut self, f: &Fields, dropped: bool) -> bool {
        let (count, id, index) = f.piece.unwrap();
        if f.kind == 3 || f.kind == 7 || index >= count || count > MAX_PIECES {
            return false;
        }
        let open = self.open.entry(id).or_insert(Open { first: f.clone(), came: Vec::new() });
        if !open.agrees(f) {
            return false;
        }
        if !dropped {
            open.came.push(index);
        }
        if open.came.len() == count as usize {
            self.open.remove(&id);
            return self.rises(f);
        }
        true
    }
}

pub fn within(cells: usize, steps: &[Step]) -> bool {
    let mut session = Session::new(cells);
    steps.iter().all(|step| session.takes(step))
}
