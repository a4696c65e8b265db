//! Document 02's request 5: a receiver's image, as it is written and read; from its sentences and their readings alone.
use crate::model::{Cell, Receiver, Use, CHANNELS, MEMORIES};
use crate::window::Window;
use std::collections::BTreeMap;

/// "256 bytes, the place above low in the first's lowest bit"
const WINDOW_BYTES: usize = 256;

/// "id, index, count, kind, sequence number, order number, channel, accepted datagrams since the id's last kept piece, body"
#[derive(Clone, PartialEq, Debug, Default)]
pub struct PieceEntry {
    pub id: u64,
    pub index: u64,
    pub count: u64,
    pub kind: u64,
    pub sequence: u64,
    pub order: u64,
    pub channel: u64,
    pub age: u64,
    pub body: Vec<u8>,
}

/// "channel, order number, kind, piece count, 1 if whole, then the bodies by index": as many as the count says.
#[derive(Clone, PartialEq, Debug, Default)]
pub struct MessageEntry {
    pub channel: u64,
    pub order: u64,
    pub kind: u64,
    pub bodies: Vec<Vec<u8>>,
}

/// The sections in their order; a window is its low and its bytes, a channel its next and its memory plus 1.
#[derive(Clone, PartialEq, Debug, Default)]
pub struct Image {
    pub profile: Vec<u64>,
    pub windows: Vec<(u64, Vec<u8>)>,
    pub channels: Vec<(u64, u64)>,
    pub unsent: Vec<u64>,
    pub pieces: Vec<PieceEntry>,
    pub held: Vec<MessageEntry>,
    pub ready: Vec<MessageEntry>,
}

// ---- written

/// A section: its 32-bit count, then its entries.
fn section<T>(out: &mut Vec<u8>, entries: &[T], one: impl Fn(&mut Vec<u8>, &T)) {
    out.extend((entries.len() as u32).to_be_bytes());
    entries.iter().for_each(|e| one(out, e));
}

fn number(out: &mut Vec<u8>, n: u64) {
    out.extend(n.to_be_bytes());
}

/// "a body is its length, then its bytes"
fn body(out: &mut Vec<u8>, bytes: &[u8]) {
    number(out, bytes.len() as u64);
    out.extend(bytes);
}

fn piece(out: &mut Vec<u8>, p: &PieceEntry) {
    [p.id, p.index, p.count, p.kind, p.sequence, p.order, p.channel, p.age].iter().for_each(|n| number(out, *n));
    body(out, &p.body);
}

fn message(out: &mut Vec<u8>, m: &MessageEntry) {
    [m.channel, m.order, m.kind, m.bodies.len() as u64].iter().for_each(|n| number(out, *n));
    m.bodies.iter().for_each(|b| body(out, b));
}

impl Image {
    pub fn bytes(&self) -> Vec<u8> {
        let mut out = Vec::new();
        section(&mut out, &self.profile, |out, n| number(out, *n));
        section(&mut out, &self.windows, |out, (low, places)| {
            number(out, *low);
            out.extend(places);
        });
        section(&mut out, &self.channels, |out, (next, memory)| {
            number(out, *next);
            number(out, *memory);
        });
        section(&mut out, &self.unsent, |out, n| number(out, *n));
        section(&mut out, &self.pieces, piece);
        section(&mut out, &self.held, message);
        section(&mut out, &self.ready, message);
        out
    }

    /// The cells that it needs.
    pub fn cells(&self) -> usize {
        let bodies = |messages: &[MessageEntry]| messages.iter().map(|m| m.bodies.len()).sum::<usize>();
        self.pieces.len() + bodies(&self.held) + bodies(&self.ready)
    }
}

// ---- a receiver's

fn window_entry(w: &Window) -> (u64, Vec<u8>) {
    let mut places = vec![0; WINDOW_BYTES];
    for n in &w.above {
        let place = (n - w.low - 1) as usize;
        places[place / 8] |= 1 << (place % 8);
    }
    (w.low as u64, places)
}

/// The messages of one use, by what names them, with their bodies by index.
fn messages<K: Ord>(r: &Receiver, used: Use, key: impl Fn(&Cell) -> K) -> Vec<MessageEntry> {
    let mut found: BTreeMap<K, Vec<&Cell>> = BTreeMap::new();
    for c in r.cells.iter().filter(|c| c.used == used) {
        found.entry(key(c)).or_default().push(c);
    }
    let entry = |mut cells: Vec<&Cell>| {
        cells.sort_by_key(|c| c.index);
        let Cell { channel, order, kind, .. } = cells[0];
        let bodies = cells.iter().map(|c| c.body.clone()).collect();
        MessageEntry { channel: *channel as u64, order: *order as u64, kind: *kind as u64, bodies }
    };
    found.into_values().map(entry).collect()
}

/// "Ready ones stand earliest first; unsent, pieces and held rise by their fields in turn."
pub fn image_of(r: &Receiver) -> Image {
    let memory = |m: usize| r.newest[m].map_or(0, |n| n as u64 + 1);
    let mut channels: Vec<(u64, u64)> = (0..CHANNELS as usize).map(|c| (r.next[c] as u64, memory(c))).collect();
    channels.push((0, memory(MEMORIES - 1)));
    let mut unsent: Vec<u64> = r.unsent.iter().map(|n| *n as u64).collect();
    unsent.sort();
    let mut pieces: Vec<PieceEntry> = r.open().map(|c| piece_entry(r, c)).collect();
    pieces.sort_by_key(|p| (p.id, p.index));
    Image {
        profile: vec![r.profile as u64],
        windows: vec![window_entry(&r.datagrams), window_entry(&r.reliables)],
        channels,
        unsent,
        pieces,
        held: messages(r, Use::Held, |c| (c.channel, c.order)),
        ready: messages(r, Use::Ready, |c| c.turn),
    }
}

fn piece_entry(r: &Receiver, c: &Cell) -> PieceEntry {
    PieceEntry {
        id: c.id as u64,
        index: c.index as u64,
        count: c.count as u64,
        kind: c.kind as u64,
        sequence: c.sequence as u64,
        order: c.order as u64,
        channel: c.channel as u64,
        age: r.age(c.id),
        body: c.body.clone(),
    }
}

// ---- read: "21 for an image cut or with bytes after its last section". Counts and lengths are followed as they stand.

struct Reader<'a>(&'a [u8]);

impl<'a> Reader<'a> {
    fn bytes(&mut self, n: u64) -> Option<Vec<u8>> {
        if n > self.0.len() as u64 {
            return None;
        }
        let (taken, rest) = self.0.split_at(n as usize);
        self.0 = rest;
        Some(taken.to_vec())
    }

    fn big(&mut self, size: u64) -> Option<u64> {
        Some(self.bytes(size)?.iter().fold(0, |sum, b| sum << 8 | *b as u64))
    }

    fn number(&mut self) -> Option<u64> {
        self.big(8)
    }

    /// So many entries: each has bytes, so a cut image ends it early.
    fn entries<T>(&mut self, count: u64, one: impl Fn(&mut Self) -> Option<T>) -> Option<Vec<T>> {
        let mut entries = Vec::new();
        for _ in 0..count {
            entries.push(one(self)?);
        }
        Some(entries)
    }

    fn section<T>(&mut self, one: impl Fn(&mut Self) -> Option<T>) -> Option<Vec<T>> {
        let count = self.big(4)?;
        self.entries(count, one)
    }

    fn body(&mut self) -> Option<Vec<u8>> {
        let length = self.number()?;
        self.bytes(length)
    }

    fn window(&mut self) -> Option<(u64, Vec<u8>)> {
        Some((self.number()?, self.bytes(WINDOW_BYTES as u64)?))
    }

    fn channel(&mut self) -> Option<(u64, u64)> {
        Some((self.number()?, self.number()?))
    }

    fn piece(&mut self) -> Option<PieceEntry> {
        let (id, index, count, kind) = (self.number()?, self.number()?, self.number()?, self.number()?);
        let (sequence, order, channel, age) = (self.number()?, self.number()?, self.number()?, self.number()?);
        Some(PieceEntry { id, index, count, kind, sequence, order, channel, age, body: self.body()? })
    }

    fn message(&mut self) -> Option<MessageEntry> {
        let (channel, order, kind, count) = (self.number()?, self.number()?, self.number()?, self.number()?);
        Some(MessageEntry { channel, order, kind, bodies: self.entries(count, Reader::body)? })
    }
}

pub fn read(bytes: &[u8]) -> Option<Image> {
    let mut r = Reader(bytes);
    let image = Image {
        profile: r.section(Reader::number)?,
        windows: r.section(Reader::window)?,
        channels: r.section(Reader::channel)?,
        unsent: r.section(Reader::number)?,
        pieces: r.section(Reader::piece)?,
        held: r.section(Reader::message)?,
        ready: r.section(Reader::message)?,
    };
    r.0.is_empty().then_some(image)
}
