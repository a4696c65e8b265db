//! The receiver of document 01 with its cells, and document 02's requests 1, 2, 4 and 5 (its images: image.rs); written from their sentences
//! alone, nothing here comes from crates/. It keeps no ages: each piece remembers which accepted datagram carried it.
use crate::window::Window;
use crate::wire::{self, Frame, Profile};

pub const CHANNELS: u8 = 32;
pub const MAX_FRAGS: u32 = 1024;
pub const UNSENT: usize = 1024;
pub const CELL_BYTES: usize = 1500;

/// "the age kept for an id stops at 2^32"
pub const OLDEST: u64 = 1 << 32;

/// A memory for each channel, and the last for the whole receiver.
pub const MEMORIES: usize = CHANNELS as usize + 1;

/// What a cell is used for. `Released` only stands within a datagram: a joined message that step 4 dropped, whose cells are unused after it.
#[derive(Clone, Copy, PartialEq, Eq, Debug, Default)]
pub enum Use {
    #[default]
    Unused,
    Open,
    Held,
    Ready,
    Released,
}

/// One cell with its record and the body in it.
#[derive(Clone, PartialEq, Debug, Default)]
pub struct Cell {
    pub used: Use,
    pub id: u16,
    pub kind: u8,
    pub channel: u8,
    pub sequence: u32,
    pub order: u32,
    pub count: u32,
    pub index: u32,
    pub turn: u32,
    /// Which of the accepted datagrams carried it, the first being 1.
    pub carried_by: u64,
    pub body: Vec<u8>,
}

#[derive(Clone, PartialEq, Debug)]
pub struct Message {
    pub kind: u8,
    pub channel: u8,
    pub order: u32,
    pub body: Vec<u8>,
}

#[derive(Clone, Copy, PartialEq, Debug)]
pub struct Report {
    pub ready: u32,
    pub dropped: u32,
    pub left: usize,
}

/// What became of a frame, for the counts of a comparison.
#[derive(Clone, Copy, PartialEq, Debug)]
pub enum Fate {
    AcceptedBefore,
    OverLimit,
    PieceRefused,
    Late,
    PieceKept,
    Held,
    Ready,
    JoinedDropped,
    JoinedHeld,
    JoinedReady,
}

pub const FATES: usize = 10;

/// Frames by kind and fate, for each profile.
pub type Fates = [[[u64; FATES]; 8]; 2];

#[derive(Clone)]
pub struct Receiver {
    /// The profile's number: "keep the profile as a number whose other values are unsound".
    pub profile: u32,
    pub datagrams: Window,
    pub reliables: Window,
    pub next: [u32; CHANNELS as usize],
    /// The highest sequence numbers made ready: by kind 1 (in C++ by kind 4 too) on each channel, then by kind 4 of a console.
    pub newest: [Option<u32>; MEMORIES],
    pub unsent: Vec<u32>,
    /// How many datagrams were accepted.
    pub accepted: u64,
    pub cells: Vec<Cell>,
    /// Over the accepted datagrams.
    pub fates: Fates,
}

/// "Kinds 3 and 7" go through a channel.
pub fn ordered(kind: u8) -> bool {
    kind == 3 || kind == 7
}

/// "each channel remembers the highest sequence number it made ready by kind 1 .. Kind 4 has no channel and gets one such memory for the
/// whole receiver"; in C++ "Kind 4 then uses its channel's memory": which memory a frame's message goes by.
pub fn memory(profile: Profile, kind: u8, channel: u8) -> Option<usize> {
    match (kind, profile) {
        (1, _) | (4, Profile::Cpp) => Some(channel as usize),
        (4, Profile::Console) => Some(MEMORIES - 1),
        _ => None,
    }
}

/// "Channel, count or index over its limit"
pub fn over_limit(f: &Frame) -> bool {
    let bad_piece = |p: &wire::Piece| p.count < 1 || p.count > MAX_FRAGS || p.index >= p.count;
    f.channel >= CHANNELS || f.piece.as_ref().is_some_and(bad_piece)
}

impl Receiver {
    pub fn new(cells: usize, profile: Profile) -> Receiver {
        Receiver {
            profile: profile.number(),
            datagrams: Window::default(),
            reliables: Window::default(),
            next: [0; CHANNELS as usize],
            newest: [None; MEMORIES],
            unsent: Vec::new(),
            accepted: 0,
            cells: vec![Cell::default(); cells],
            fates: [[[0; FATES]; 8]; 2],
        }
    }

    /// The profile that it was made for.
    pub fn made_for(&self) -> Profile {
        Profile::of(self.profile).expect("a sound receiver")
    }

    /// "Receive": a refusal's number, or what the answer reports. A refusal leaves the receiver as it was.
    pub fn receive(&mut self, datagram: &[u8]) -> Result<Report, u8> {
        if datagram.len() < 4 {
            return Err(1);
        }
        if datagram.len() > CELL_BYTES {
            return Err(2);
        }
        if !(0x80..=0x8D).contains(&datagram[0]) {
            return Err(3);
        }
        let number = wire::number_of(datagram);
        let mut datagrams = self.datagrams.clone();
        datagrams.insert(number)?;
        if self.unsent.len() >= UNSENT {
            return Err(6);
        }
        let (frames, left) = wire::frames(self.made_for(), &datagram[4..]);
        self.all_within_reach(&frames)?;
        let mut pass = Pass::over(self.clone());
        for f in &frames {
            pass.frame(f)?;
        }
        let (ready, dropped) = (pass.ready, pass.dropped);
        *self = pass.end();
        self.datagrams = datagrams;
        let place = self.unsent.partition_point(|n| *n < number);
        self.unsent.insert(place, number);
        Ok(Report { ready, dropped, left })
    }

    /// "7 a reliable number, at its frame's turn, above low + 2,048": the window alone decides it, before 8.
    fn all_within_reach(&self, frames: &[Frame]) -> Result<(), u8> {
        let mut window = self.reliables.clone();
        for f in frames.iter().filter(|f| wire::reliable(f.kind)) {
            if window.insert(f.reliable) == Err(5) {
                return Err(7);
            }
        }
        Ok(())
    }

    /// The cells of a message, by index.
    fn message(&self, belongs: impl Fn(&Cell) -> bool) -> Vec<usize> {
        let mut cells: Vec<usize> = (0..self.cells.len()).filter(|i| belongs(&self.cells[*i])).collect();
        cells.sort_by_key(|i| self.cells[*i].index);
        cells
    }

    fn held(&self, channel: u8, order: u32) -> Vec<usize> {
        self.message(|c| c.used == Use::Held && c.channel == channel && c.order == order)
    }

    /// The cells of the earliest ready message, by index.
    pub fn earliest(&self) -> Option<Vec<usize>> {
        let turn = self.cells.iter().filter(|c| c.used == Use::Ready).map(|c| c.turn).min()?;
        Some(self.message(|c| c.used == Use::Ready && c.turn == turn))
    }

    /// "Take, earliest ready first", with a joining buffer of `room` bytes.
    pub fn take(&mut self, room: usize) -> Result<Message, u8> {
        let cells = self.earliest().ok_or(20)?;
        let body: Vec<u8> = cells.iter().flat_map(|i| self.cells[*i].body.clone()).collect();
        if cells.len() > 1 && room < body.len() {
            return Err(12);
        }
        let first = &self.cells[cells[0]];
        let message = Message { kind: first.kind, channel: first.channel, order: first.order, body };
        self.free(&cells);
        Ok(message)
    }

    fn free(&mut self, cells: &[usize]) {
        for i in cells {
            self.cells[*i] = Cell::default();
        }
    }

    /// The pieces of unfinished messages.
    pub fn open(&self) -> impl Iterator<Item = &Cell> {
        self.cells.iter().filter(|c| c.used == Use::Open)
    }

    /// How many further datagrams were accepted since an open id's last kept piece, counted back from the last one; it stops at 2^32.
    pub fn age(&self, id: u16) -> u64 {
        let last = self.open().filter(|c| c.id == id).map(|c| c.carried_by).max().expect("an open id");
        (self.accepted - last).min(OLDEST)
    }

    /// The age that each cell's record has where records keep ages: an open one its id's, another 0.
    pub fn ages(&self) -> Vec<u64> {
        self.cells.iter().map(|c| if c.used == Use::Open { self.age(c.id) } else { 0 }).collect()
    }

    /// "every unfinished message whose kind carries no reliable number, and since whose last kept piece more than n further datagrams were
    /// accepted, is dropped, and the call returns how many cells it freed. It refuses by 9 alone", which no receiver here gives.
    pub fn drop_unfinished(&mut self, n: u32) -> u32 {
        let goes = |c: &Cell| c.used == Use::Open && !wire::reliable(c.kind) && self.age(c.id) > n as u64;
        let cells: Vec<usize> = (0..self.cells.len()).filter(|i| goes(&self.cells[*i])).collect();
        self.free(&cells);
        cells.len() as u32
    }

    /// "Sending the unsent empties them."
    pub fn write_unsent(&mut self, room: usize) -> Result<Vec<u8>, u8> {
        let bytes = wire::write_numbers(0xC0, &self.unsent, room)?;
        self.unsent.clear();
        Ok(bytes)
    }

    pub fn write_missing(&self, room: usize) -> Result<Vec<u8>, u8> {
        wire::write_numbers(0xA0, &self.datagrams.missing(), room)
    }
}

/// "A datagram's frames, in order": a receiver on its way through them.
struct Pass {
    receiver: Receiver,
    profile: Profile,
    /// The cells unused before the datagram and not taken in it; the lowest is the last.
    unused: Vec<usize>,
    turn: u32,
    ready: u32,
    dropped: u32,
}

enum Channel {
    Drop,
    Hold,
    Ready,
}

impl Pass {
    /// One more datagram is accepted, unless the frames refuse it: then nothing of this is kept.
    fn over(mut receiver: Receiver) -> Pass {
        receiver.accepted += 1;
        let unused = (0..receiver.cells.len()).rev().filter(|i| receiver.cells[*i].used == Use::Unused).collect();
        let turn = receiver.cells.iter().map(|c| c.turn + 1).max().unwrap_or(0);
        Pass { profile: receiver.made_for(), receiver, unused, turn, ready: 0, dropped: 0 }
    }

    /// The four steps on one frame. 8 is the only refusal left.
    fn frame(&mut self, f: &Frame) -> Result<(), u8> {
        let fate = self.steps(f)?;
        let dropped = [Fate::AcceptedBefore, Fate::OverLimit, Fate::PieceRefused, Fate::Late, Fate::JoinedDropped];
        self.dropped += dropped.contains(&fate) as u32;
        self.receiver.fates[self.profile as usize][f.kind as usize][fate as usize] += 1;
        Ok(())
    }

    fn steps(&mut self, f: &Frame) -> Result<Fate, u8> {
        if wire::reliable(f.kind) && self.receiver.reliables.insert(f.reliable).is_err() {
            return Ok(Fate::AcceptedBefore);
        }
        if over_limit(f) {
            return Ok(Fate::OverLimit);
        }
        match f.piece {
            None => self.whole(f),
            Some(p) => self.piece(f, p),
        }
    }

    /// Step 4's rule for the message of this frame.
    fn channel(&self, f: &Frame) -> Channel {
        if ordered(f.kind) {
            return self.ordered(f);
        }
        // "a frame or joined message of kind 1 at or below it is dropped in step 4 .. The first is always made ready."
        let newest = memory(self.profile, f.kind, f.channel).and_then(|m| self.receiver.newest[m]);
        if newest.is_some_and(|n| f.sequence <= n) {
            Channel::Drop
        } else {
            Channel::Ready
        }
    }

    /// "order number below the channel's next, or held: drop. Above: hold. Equal: ready"
    fn ordered(&self, f: &Frame) -> Channel {
        let next = self.receiver.next[f.channel as usize];
        if f.order < next || !self.receiver.held(f.channel, f.order).is_empty() {
            return Channel::Drop;
        }
        if f.order > next {
            Channel::Hold
        } else {
            Channel::Ready
        }
    }

    /// The frame's message is made ready: its sequence number, if its kind is sequenced, is remembered.
    fn remember(&mut self, f: &Frame) {
        if let Some(m) = memory(self.profile, f.kind, f.channel) {
            self.receiver.newest[m] = Some(f.sequence);
        }
    }

    fn whole(&mut self, f: &Frame) -> Result<Fate, u8> {
        let rule = self.channel(f);
        if let Channel::Drop = rule {
            return Ok(Fate::Late);
        }
        let cell = self.keep(f, wire::Piece { count: 1, id: 0, index: 0 })?;
        if let Channel::Hold = rule {
            self.receiver.cells[cell].used = Use::Held;
            return Ok(Fate::Held);
        }
        self.remember(f);
        self.make_ready(vec![cell]);
        Ok(Fate::Ready)
    }

    fn piece(&mut self, f: &Frame, p: wire::Piece) -> Result<Fate, u8> {
        let open = |c: &Cell| c.used == Use::Open && c.id == p.id;
        let agrees = |c: &Cell| {
            c.count == p.count && c.kind == f.kind && c.sequence == f.sequence && c.order == f.order && c.channel == f.channel && c.index != p.index
        };
        if !self.receiver.cells.iter().filter(|c| open(c)).all(agrees) {
            return Ok(Fate::PieceRefused);
        }
        self.keep(f, p)?;
        let cells = self.receiver.message(open);
        if (cells.len() as u32) < p.count {
            return Ok(Fate::PieceKept);
        }
        match self.channel(f) {
            Channel::Drop => {
                self.mark(&cells, Use::Released);
                Ok(Fate::JoinedDropped)
            }
            Channel::Hold => {
                self.mark(&cells, Use::Held);
                Ok(Fate::JoinedHeld)
            }
            Channel::Ready => {
                self.remember(f);
                self.make_ready(cells);
                Ok(Fate::JoinedReady)
            }
        }
    }

    /// Puts a frame's body into the lowest unused cell, as a piece of an open message.
    fn keep(&mut self, f: &Frame, p: wire::Piece) -> Result<usize, u8> {
        let cell = self.unused.pop().ok_or(8)?;
        self.receiver.cells[cell] = Cell {
            used: Use::Open,
            id: p.id,
            kind: f.kind,
            channel: f.channel,
            sequence: f.sequence,
            order: f.order,
            count: p.count,
            index: p.index,
            turn: 0,
            carried_by: self.receiver.accepted,
            body: f.body.clone(),
        };
        Ok(cell)
    }

    fn mark(&mut self, cells: &[usize], used: Use) {
        for i in cells {
            self.receiver.cells[*i].used = used;
        }
    }

    /// "For kinds 3 and 7 the channel's next then rises by one, and a held message of that number follows in the same way": whatever kind an
    /// image gave it ("a held message of kind 0 is released like any other").
    fn make_ready(&mut self, message: Vec<usize>) {
        let Cell { kind, channel, .. } = self.receiver.cells[message[0]];
        let mut cells = message;
        while !cells.is_empty() {
            self.mark(&cells, Use::Ready);
            for i in &cells {
                self.receiver.cells[*i].turn = self.turn;
            }
            self.turn += 1;
            self.ready += 1;
            if !ordered(kind) {
                return;
            }
            self.receiver.next[channel as usize] += 1;
            cells = self.receiver.held(channel, self.receiver.next[channel as usize]);
        }
    }

    /// Released cells become unused, and the ready messages bear the turns 0, 1, 2, .. in their order.
    fn end(mut self) -> Receiver {
        let cells = &mut self.receiver.cells;
        let mut turns: Vec<u32> = cells.iter().filter(|c| c.used == Use::Ready).map(|c| c.turn).collect();
        turns.sort();
        turns.dedup();
        for c in cells.iter_mut() {
            match c.used {
                Use::Released => *c = Cell::default(),
                Use::Ready => c.turn = turns.partition_point(|t| *t < c.turn) as u32,
                _ => {}
            }
        }
        self.receiver
    }
}
