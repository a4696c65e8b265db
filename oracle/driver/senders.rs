//! Random datagrams within document 01's 'References', with rising sequence numbers (references.rs).
use crate::datagrams::{has_order, has_reliable, has_sequence, Datagram, Fields};
use crate::random::Random;
use crate::receivers::Step;
use crate::references::{Numbers, Session, NUMBERS, REACH};

fn fresh_number(numbers: &Numbers, r: &mut Random) -> u32 {
    let ahead = match r.below(40) {
        0 => r.below(REACH + 1),
        1 => r.between(REACH - 1, REACH),
        2..=11 => r.below(12),
        _ => 0,
    };
    let mut n = numbers.low + ahead;
    while numbers.has(n) {
        n = if n == numbers.low + REACH { numbers.low } else { n + 1 };
    }
    n
}

/// A number accepted before, where there is one.
fn old_number(numbers: &Numbers, r: &mut Random) -> u32 {
    if !numbers.above.is_empty() && r.one_in(2) {
        let listed: Vec<u32> = numbers.above.iter().copied().collect();
        return *r.pick(&listed);
    }
    numbers.low.saturating_sub(1 + r.below(30))
}

/// A frame that holds anything, some of it over the limits.
fn anything(r: &mut Random) -> Fields {
    let mut number = || if r.one_in(3) { r.below(1 << 24) } else { r.below(40) };
    let (reliable, sequence, order) = (number(), number(), number());
    let piece = r.one_in(3).then(|| (r.below(5), r.below(40) as u16, r.below(5)));
    let len = r.below(30) as usize;
    Fields { kind: r.below(8) as u8, reliable, sequence, order, channel: r.below(40) as u8, piece, body: r.bytes(len) }
}

pub struct Sender {
    session: Session,
    longest: usize,
    since: usize,
}

impl Sender {
    /// For a receiver of so many cells, datagrams of up to so many bytes.
    pub fn new(cells: usize, longest: usize) -> Sender {
        Sender { session: Session::new(cells), longest, since: 0 }
    }

    pub fn step(&mut self, r: &mut Random) -> Step {
        let datagram = if r.one_in(12) { self.refused(r) } else { self.accepted(r) };
        self.since += 1;
        let unsent = self.since >= 1000 || r.one_in(16);
        if unsent {
            self.since = 0;
        }
        Step { datagram, unsent, missing: r.one_in(16) }
    }

    /// A number accepted before or beyond the reach, and frames that hold anything.
    fn refused(&self, r: &mut Random) -> Datagram {
        let numbers = &self.session.datagrams;
        let mut number = old_number(numbers, r);
        if !numbers.has(number) || r.one_in(3) {
            number = numbers.low + REACH + 1 + if r.one_in(2) { 0 } else { r.below(10_000) };
        }
        Datagram { number, frames: (0..r.below(3)).map(|_| anything(r)).collect() }
    }

    fn accepted(&mut self, r: &mut Random) -> Datagram {
        let number = fresh_number(&self.session.datagrams, r);
        self.session.takes(&Step { datagram: Datagram { number, frames: Vec::new() }, unsent: true, missing: false });
        let mut left = self.session.cells - self.session.used();
        let mut room = self.longest - 4;
        let mut frames = Vec::new();
        for _ in 0..*r.pick(&[0, 1, 1, 1, 2, 3, 8]) {
            let frame = if r.one_in(10) { self.repeated(r) } else { self.fresh(r, room) };
            if frame.size() > room || (left == 0 && !self.session.dropped(&frame)) {
                break;
            }
            assert!(self.session.takes_frame(&frame, &mut left));
            room -= frame.size();
            frames.push(frame);
        }
        Datagram { number, frames }
    }

    /// A frame whose reliable number was accepted before; a fresh one where there is no such number yet.
    fn repeated(&self, r: &mut Random) -> Fields {
        let reliable = old_number(&self.session.reliables, r);
        if !self.session.reliables.has(reliable) {
            return self.fresh(r, 100);
        }
        Fields { kind: *r.pick(&[2, 3, 4, 7]), reliable, ..anything(r) }
    }

    /// A piece or a whole message under a fresh reliable number.
    fn fresh(&self, r: &mut Random, room: usize) -> Fields {
        let piece = if r.one_in(3) { self.piece(r) } else { None };
        let mut f = piece.unwrap_or_else(|| self.whole(r));
        f.reliable = if has_reliable(f.kind) { fresh_number(&self.session.reliables, r) } else { 0 };
        let most = room.saturating_sub(f.size());
        let len = if r.one_in(12) { most } else { r.below(most.min(40) as u32 + 1) as usize };
        f.body = r.bytes(len);
        f
    }

    /// A sequence number for a whole message of this kind and channel: rising, and below those of open messages.
    fn sequence(&self, kind: u8, channel: u8, r: &mut Random) -> Option<u32> {
        let rising = self.session.rising(kind, channel);
        let places = rising.end.checked_sub(rising.start).filter(|&n| n > 0)?;
        let ahead = match r.below(16) {
            0 if rising.start == 0 => r.below(places),
            0 => r.below(places.min(3_000)),
            1..=5 => r.below(places.min(4)),
            _ => 0,
        };
        Some(rising.start + ahead)
    }

    /// A whole message; kinds 3 and 7 in order, kind 3 at times again. Where no sequence number is left, one of kind 0.
    fn whole(&self, r: &mut Random) -> Fields {
        let kind = r.below(8) as u8;
        let channel = *r.pick(&[0, 0, 0, 1, 5, 31]);
        let c = channel as usize;
        let order = match kind {
            3 if self.session.next_3[c] > 0 && r.one_in(10) => r.below(self.session.next_3[c]),
            3 | 7 => self.session.next[c],
            _ => r.below(1 << 24),
        };
        let mut sequence = 0;
        if has_sequence(kind) {
            let Some(n) = self.sequence(kind, channel, r) else { return Fields::default() };
            sequence = n;
        }
        if has_order(kind) {
            return Fields { kind, sequence, order, channel, ..Fields::default() };
        }
        Fields { kind, sequence, ..Fields::default() }
    }

    /// The kind, channel and sequence number of a message that is to come in pieces. No two of one memory are open at once, so they become
    /// whole one after the other. Its number leaves some room for whole ones that overtake it.
    fn to_split(&self, r: &mut Random) -> (u8, u8, u32) {
        let kind = *r.pick(&[0, 1, 2, 4, 5, 6]);
        let any = r.below(32) as u8;
        let channel = if has_order(kind) { *r.pick(&[0, 1, 5, 31, any, any]) } else { 0 };
        if !has_sequence(kind) {
            return (kind, channel, 0);
        }
        if self.session.is_open(kind, channel) {
            return (0, 0, 0);
        }
        let least = self.session.rising(kind, channel).start;
        let room = *r.pick(&[1, 30, 5_000]);
        let sequence = (least + r.below(room)).min(NUMBERS - 1);
        if sequence < least { (0, 0, 0) } else { (kind, channel, sequence) }
    }

    /// A piece of an open id, or of a new one where the cells are sure to suffice until it is whole.
    fn piece(&self, r: &mut Random) -> Option<Fields> {
        let open = &self.session.open;
        let ids: Vec<u16> = open.keys().copied().collect();
        let promised: u32 = open.values().map(|o| o.count()).sum();
        let room = (self.session.cells as u32 / 2).saturating_sub(promised);
        let id = r.below(40) as u16;
        if room > 0 && !open.contains_key(&id) && (ids.is_empty() || r.one_in(4)) {
            let (kind, channel, sequence) = self.to_split(r);
            let most = room.min(*r.pick(&[3, 3, 10, 60, 1024]));
            let count = r.between(1, most);
            let order = if has_order(kind) { r.below(1 << 24) } else { 0 };
            let piece = Some((count, id, r.below(count)));
            return Some(Fields { kind, sequence, order, channel, piece, ..Fields::default() });
        }
        if ids.is_empty() {
            return None;
        }
        let id = *r.pick(&ids);
        let o = &open[&id];
        let mut index = r.below(o.count());
        if !r.one_in(6) {
            index = (0..o.count()).find(|i| !o.came.contains(i)).unwrap();
        }
        Some(Fields { piece: Some((o.count(), id, index)), ..o.first.clone() })
    }
}
