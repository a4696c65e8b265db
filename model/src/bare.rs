//! Document 01's bare receiver, without cells, and its line. The model with cells is held against it in every comparison.
use crate::image::{Image, MessageEntry};
use crate::model::{ordered, over_limit, Message, CHANNELS, OLDEST};
use crate::window::REACH;
use crate::wire::{self, Frame, Profile};
use std::collections::{BTreeMap, BTreeSet, HashMap, HashSet};

/// What the pieces of one id agree on: count, kind, sequence number, order number, channel.
type Agreed = (u32, u8, u32, u32, u8);

/// Whose newest sequence number it is: a channel's, or kind 4's own.
#[derive(Clone, PartialEq, Eq, Hash)]
enum Memory {
    Channel(u8),
    KindFour,
}

/// A piece as it is kept: its body, and at which count of accepted datagrams that was.
#[derive(Clone)]
struct Kept {
    at: u64,
    body: Vec<u8>,
}

#[derive(Clone)]
pub struct Bare {
    /// "The bare receiver has its list's profile."
    profile: Profile,
    /// "it counts the accepted datagrams"
    fed: u64,
    /// The reliable numbers accepted: those below one, and others.
    below: u32,
    reliables: HashSet<u32>,
    open: HashMap<u16, (Agreed, BTreeMap<u32, Kept>)>,
    next: HashMap<u8, u32>,
    held: HashMap<(u8, u32), Message>,
    /// "Document 01's bare receiver remembers the same": newest sequence numbers.
    newest: HashMap<Memory, u32>,
    pub line: Vec<Message>,
}

impl Bare {
    pub fn new(profile: Profile) -> Bare {
        let (reliables, open, next, held, newest) = Default::default();
        Bare { profile, fed: 0, below: 0, reliables, open, next, held, newest, line: Vec::new() }
    }

    /// What is held where an image was restored whose list is not known: its ready messages begin the line. The image is one that restores.
    pub fn of_image(image: &Image) -> Bare {
        let mut bare = Bare::new(Profile::of(image.profile[0] as u32).expect("a profile"));
        bare.fed = 2 * OLDEST;
        let (low, places) = &image.windows[1];
        bare.below = *low as u32;
        bare.reliables = (0..REACH).filter(|p| places[*p as usize / 8] >> (p % 8) & 1 == 1).map(|p| bare.below + 1 + p).collect();
        for p in &image.pieces {
            let agreed = (p.count as u32, p.kind as u8, p.sequence as u32, p.order as u32, p.channel as u8);
            let (_, pieces) = bare.open.entry(p.id as u16).or_insert_with(|| (agreed, BTreeMap::new()));
            pieces.insert(p.index as u32, Kept { at: bare.fed - p.age, body: p.body.clone() });
        }
        for (c, (next, memory)) in image.channels.iter().enumerate() {
            let c = c as u8;
            bare.next.insert(c, *next as u32);
            if *memory > 0 {
                bare.newest.insert(if c < CHANNELS { Memory::Channel(c) } else { Memory::KindFour }, *memory as u32 - 1);
            }
        }
        bare.held = image.held.iter().map(|m| ((m.channel as u8, m.order as u32), joined(m))).collect();
        bare.line = image.ready.iter().map(joined).collect();
        bare
    }

    /// An accepted datagram: how many messages it made ready and how many frames it dropped.
    pub fn feed(&mut self, datagram: &[u8]) -> (u32, u32) {
        self.fed += 1;
        let before = self.line.len();
        let (frames, _) = wire::frames(self.profile, &datagram[4..]);
        let dropped = frames.into_iter().map(|f| self.frame(f)).filter(|kept| !kept).count();
        ((self.line.len() - before) as u32, dropped as u32)
    }

    /// "document 01's bare receiver drops the same unfinished messages at it, counting back over the accepted datagrams": how many pieces
    /// go.
    pub fn drop_unfinished(&mut self, n: u32) -> u32 {
        let mut gone = 0;
        let (fed, profile) = (self.fed, self.profile);
        self.open.retain(|_, ((_, kind, ..), pieces)| {
            let recent = pieces.values().any(|piece| fed - piece.at <= n as u64);
            let stays = profile.fields(*kind).reliable || recent;
            gone += if stays { 0 } else { pieces.len() as u32 };
            stays
        });
        gone
    }

    /// The ids and indices of the open ids' pieces.
    pub fn open_pieces(&self) -> BTreeSet<(u16, u32)> {
        self.open.iter().flat_map(|(id, (_, pieces))| pieces.keys().map(|index| (*id, *index))).collect()
    }

    /// The four steps; false where the frame or the message that it completed is dropped.
    fn frame(&mut self, f: Frame) -> bool {
        if wire::reliable(f.kind) && (f.reliable < self.below || !self.reliables.insert(f.reliable)) {
            return false;
        }
        if over_limit(&f) {
            return false;
        }
        let sequence = f.sequence;
        let message = |body| Message { kind: f.kind, channel: f.channel, order: f.order, body };
        let Some(p) = f.piece else {
            return self.put(message(f.body), sequence);
        };
        let agreed = (p.count, f.kind, f.sequence, f.order, f.channel);
        let (known, pieces) = self.open.entry(p.id).or_insert_with(|| (agreed, BTreeMap::new()));
        if *known != agreed || pieces.contains_key(&p.index) {
            return false;
        }
        pieces.insert(p.index, Kept { at: self.fed, body: f.body });
        if pieces.len() < p.count as usize {
            return true;
        }
        let (_, pieces) = self.open.remove(&p.id).unwrap();
        self.put(message(pieces.into_values().flat_map(|piece| piece.body).collect()), sequence)
    }

    /// Step 4, on a message and its sequence number.
    fn put(&mut self, m: Message, sequence: u32) -> bool {
        if m.kind == 1 || m.kind == 4 {
            return self.put_sequenced(m, sequence);
        }
        if !ordered(m.kind) {
            self.line.push(m);
            return true;
        }
        let (channel, order) = (m.channel, m.order);
        let next = self.next.entry(channel).or_insert(0);
        if order < *next || self.held.contains_key(&(channel, order)) {
            return false;
        }
        self.held.insert((channel, order), m);
        while let Some(m) = self.held.remove(&(channel, *next)) {
            self.line.push(m);
            *next += 1;
        }
        true
    }

    /// Only a message above the highest that its memory has goes into the line. A kind without a channel has a memory of its own.
    fn put_sequenced(&mut self, m: Message, sequence: u32) -> bool {
        let memory = if self.profile.fields(m.kind).order { Memory::Channel(m.channel) } else { Memory::KindFour };
        let newer = match self.newest.get(&memory) {
            Some(highest) => sequence > *highest,
            None => true,
        };
        if newer {
            self.newest.insert(memory, sequence);
            self.line.push(m);
        }
        newer
    }
}

fn joined(m: &MessageEntry) -> Message {
    Message { kind: m.kind as u8, channel: m.channel as u8, order: m.order as u32, body: m.bodies.concat() }
}
