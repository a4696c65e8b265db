//! What an image restores to, or why it does not; from request 5's sentences and their readings alone.
use crate::image::{Image, MessageEntry, PieceEntry};
use crate::model::{Cell, Receiver, Use, CELL_BYTES, CHANNELS, MAX_FRAGS, MEMORIES, OLDEST, UNSENT};
use crate::window::{Window, NUMBERS, REACH};
use crate::wire::Profile;

/// What is wrong with an image of good form: the sentences that 22 goes by.
#[derive(Clone, Copy, PartialEq, Eq, PartialOrd, Ord, Debug)]
pub enum Flaw {
    OneProfile,
    TwoWindows,
    ThirtyThreeChannels,
    ProfileOver,
    LowOver,
    PlaceBeyondNumbers,
    NextOver,
    MemoryOver,
    OwnNextNot0,
    UnsentTooMany,
    UnsentDoNotRise,
    UnsentNotAccepted,
    PieceFieldOver,
    PieceAgeOver,
    PiecesDoNotRise,
    PiecesDisagree,
    PiecesAgesDiffer,
    PiecesLackNone,
    HeldFieldOver,
    HeldDoNotRise,
    HeldNotAboveNext,
    ReadyFieldOver,
    BodyOver,
    TooManyCells,
}

const TOP: u64 = NUMBERS as u64;

fn rises<K: PartialOrd>(keys: &[K]) -> bool {
    keys.windows(2).all(|pair| pair[0] < pair[1])
}

/// Is a number below low or has its place, in an entry whose low is within the limits?
fn accepted((low, places): &(u64, Vec<u8>), n: u64) -> bool {
    if n <= *low {
        return n < *low;
    }
    let place = (n - low - 1) as usize;
    place < REACH as usize && places[place / 8] >> (place % 8) & 1 == 1
}

fn window_flaw(w: &(u64, Vec<u8>)) -> Option<Flaw> {
    let (low, _) = w;
    if *low > TOP {
        return Some(Flaw::LowOver);
    }
    (TOP..=low + REACH as u64).any(|n| accepted(w, n)).then_some(Flaw::PlaceBeyondNumbers)
}

fn message_flaw(m: &MessageEntry, over: Flaw) -> Option<Flaw> {
    let count = m.bodies.len() as u64;
    if m.channel >= CHANNELS as u64 || m.order >= TOP || m.kind > 7 || !(1..=MAX_FRAGS as u64).contains(&count) {
        return Some(over);
    }
    m.bodies.iter().any(|b| b.len() > CELL_BYTES).then_some(Flaw::BodyOver)
}

impl Image {
    /// Why no sound receiver with so many cells saves this.
    pub fn flaw(&self, cells: usize) -> Option<Flaw> {
        self.sections_flaw()
            .or_else(|| self.unsent_flaw())
            .or_else(|| self.pieces_flaw())
            .or_else(|| self.held_flaw())
            .or_else(|| self.ready.iter().find_map(|m| message_flaw(m, Flaw::ReadyFieldOver)))
            .or_else(|| (self.cells() > cells).then_some(Flaw::TooManyCells))
    }

    fn sections_flaw(&self) -> Option<Flaw> {
        let counts = [
            (self.profile.len() == 1, Flaw::OneProfile),
            (self.windows.len() == 2, Flaw::TwoWindows),
            (self.channels.len() == MEMORIES, Flaw::ThirtyThreeChannels),
        ];
        if let Some((_, flaw)) = counts.iter().find(|(good, _)| !good) {
            return Some(*flaw);
        }
        let values = [
            (self.profile[0] <= 1, Flaw::ProfileOver),
            (self.channels.iter().all(|(next, _)| *next <= TOP), Flaw::NextOver),
            (self.channels.iter().all(|(_, memory)| *memory <= TOP), Flaw::MemoryOver),
            (self.channels[MEMORIES - 1].0 == 0, Flaw::OwnNextNot0),
        ];
        let flaw = values.iter().find(|(good, _)| !good).map(|(_, flaw)| *flaw);
        flaw.or_else(|| self.windows.iter().find_map(window_flaw))
    }

    fn unsent_flaw(&self) -> Option<Flaw> {
        if self.unsent.len() > UNSENT {
            return Some(Flaw::UnsentTooMany);
        }
        if !rises(&self.unsent) {
            return Some(Flaw::UnsentDoNotRise);
        }
        (!self.unsent.iter().all(|n| *n < TOP && accepted(&self.windows[0], *n))).then_some(Flaw::UnsentNotAccepted)
    }

    fn pieces_flaw(&self) -> Option<Flaw> {
        let keys: Vec<(u64, u64)> = self.pieces.iter().map(|p| (p.id, p.index)).collect();
        self.pieces.iter().find_map(|p| self.piece_flaw(p)).or_else(|| (!rises(&keys)).then_some(Flaw::PiecesDoNotRise))
    }

    fn piece_flaw(&self, p: &PieceEntry) -> Option<Flaw> {
        let numbers = p.id < 1 << 16 && p.kind <= 7 && p.channel < CHANNELS as u64 && p.sequence < TOP && p.order < TOP;
        if !(numbers && (1..=MAX_FRAGS as u64).contains(&p.count) && p.index < p.count) {
            return Some(Flaw::PieceFieldOver);
        }
        let all: Vec<&PieceEntry> = self.pieces.iter().filter(|other| other.id == p.id).collect();
        let agreed = |e: &PieceEntry| (e.count, e.kind, e.sequence, e.order, e.channel);
        let lacks_none = (0..p.count).all(|i| all.iter().any(|e| e.index == i));
        let rules = [
            (p.body.len() <= CELL_BYTES, Flaw::BodyOver),
            (p.age <= OLDEST, Flaw::PieceAgeOver),
            (all.iter().all(|e| agreed(e) == agreed(p)), Flaw::PiecesDisagree),
            (all.iter().all(|e| e.age == p.age), Flaw::PiecesAgesDiffer),
            (!lacks_none, Flaw::PiecesLackNone),
        ];
        rules.iter().find(|(good, _)| !good).map(|(_, flaw)| *flaw)
    }

    fn held_flaw(&self) -> Option<Flaw> {
        let keys: Vec<(u64, u64)> = self.held.iter().map(|m| (m.channel, m.order)).collect();
        let due = |m: &MessageEntry| m.order <= self.channels[m.channel as usize].0;
        self.held
            .iter()
            .find_map(|m| message_flaw(m, Flaw::HeldFieldOver))
            .or_else(|| (!rises(&keys)).then_some(Flaw::HeldDoNotRise))
            .or_else(|| self.held.iter().any(due).then_some(Flaw::HeldNotAboveNext))
    }
}

// ---- restored

fn window_from((low, places): &(u64, Vec<u8>)) -> Option<Window> {
    let low = u32::try_from(*low).ok()?;
    let set = (0..REACH).filter(|p| places[*p as usize / 8] >> (p % 8) & 1 == 1);
    let above: Option<_> = set.map(|p| low.checked_add(1 + p)).collect();
    Some(Window { low, above: above? })
}

fn piece_cell(p: &PieceEntry) -> Option<Cell> {
    Some(Cell {
        used: Use::Open,
        id: p.id.try_into().ok()?,
        kind: p.kind.try_into().ok()?,
        channel: p.channel.try_into().ok()?,
        sequence: p.sequence.try_into().ok()?,
        order: p.order.try_into().ok()?,
        count: p.count.try_into().ok()?,
        index: p.index.try_into().ok()?,
        turn: 0,
        carried_by: ACCEPTED.checked_sub(p.age)?,
        body: p.body.clone(),
    })
}

fn message_cells(m: &MessageEntry, used: Use, turn: usize, cells: &mut Vec<Cell>) -> Option<()> {
    for (index, body) in m.bodies.iter().enumerate() {
        cells.push(Cell {
            used,
            id: 0,
            kind: m.kind.try_into().ok()?,
            channel: m.channel.try_into().ok()?,
            sequence: 0,
            order: m.order.try_into().ok()?,
            count: m.bodies.len().try_into().ok()?,
            index: index as u32,
            turn: turn as u32,
            carried_by: 1,
            body: body.clone(),
        });
    }
    Some(())
}

/// A restored receiver counts its datagrams from here on, so that the oldest pieces have one that carried them.
pub const ACCEPTED: u64 = OLDEST + 1;

impl Image {
    /// The receiver that it restores to, as far as its values can be those of one: of an image with a flaw, it is not sound or saves
    /// another.
    pub fn restored(&self, cells: usize) -> Option<Receiver> {
        let (profile, windows) = (self.profile.first()?, self.windows.get(..2)?);
        let channels = self.channels.get(..MEMORIES)?;
        let mut r = Receiver::new(0, Profile::Console);
        r.profile = u32::try_from(*profile).ok()?;
        r.datagrams = window_from(&windows[0])?;
        r.reliables = window_from(&windows[1])?;
        for (c, next) in r.next.iter_mut().enumerate() {
            *next = channels[c].0.try_into().ok()?;
        }
        for (m, newest) in r.newest.iter_mut().enumerate() {
            *newest = channels[m].1.checked_sub(1).map(u32::try_from).transpose().ok()?;
        }
        r.unsent = self.unsent.iter().map(|n| u32::try_from(*n).ok()).collect::<Option<_>>()?;
        r.accepted = ACCEPTED;
        r.cells = self.pieces.iter().map(piece_cell).collect::<Option<_>>()?;
        self.held.iter().try_for_each(|m| message_cells(m, Use::Held, 0, &mut r.cells).ok_or(())).ok()?;
        self.ready.iter().enumerate().try_for_each(|(turn, m)| message_cells(m, Use::Ready, turn, &mut r.cells).ok_or(())).ok()?;
        if r.cells.len() > cells {
            return None;
        }
        r.cells.resize(cells, Cell::default());
        Some(r)
    }
}
