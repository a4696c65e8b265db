//! A receiver in use: its calls, counted, and held against the bare receiver and soundness where the checks are on.
use crate::bare::Bare;
use crate::image::{image_of, read, Image};
use crate::model::{Message, Receiver, Report};
use crate::restore::Flaw;
use crate::sound::sound;
use crate::wire::{self, Profile};
use std::collections::{BTreeMap, BTreeSet};

/// A joining buffer that no message outgrows.
const PLENTY: usize = 1 << 20;

/// The bare receiver fed with the accepted datagrams and the drops, and what the takes handed out.
#[derive(Clone)]
struct Checks {
    bare: Bare,
    handed: Vec<Message>,
    /// The receiver as it would be without the drops, since one that freed something; until one of the two alone accepts a datagram.
    undropped: Option<Receiver>,
}

impl Checks {
    fn new(profile: Profile) -> Checks {
        Checks { bare: Bare::new(profile), handed: Vec::new(), undropped: None }
    }

    /// For an image whose list is not known.
    fn of_image(image: &Image) -> Checks {
        Checks { bare: Bare::of_image(image), handed: Vec::new(), undropped: None }
    }

    /// Was a datagram accepted that without the drops would have been refused with 8?
    fn made_room(&mut self, datagram: &[u8], answer: &Result<Report, u8>) -> bool {
        let without = self.undropped.as_mut().map(|r| r.receive(datagram));
        if without.is_some_and(|w| w.is_err() != answer.is_err()) {
            self.undropped = None;
        }
        answer.is_ok() && without == Some(Err(8))
    }
}

/// Drops by what they did, and how many datagrams were accepted after one that would have been refused with 8 without it.
#[derive(Clone, Copy, Default)]
pub struct Drops {
    pub freed: u64,
    pub freed_none_of_open: u64,
    pub left_unreliable: u64,
    pub left_old_reliable: u64,
    pub made_room: u64,
}

impl Drops {
    pub fn add(&mut self, more: &Drops) {
        self.freed += more.freed;
        self.freed_none_of_open += more.freed_none_of_open;
        self.left_unreliable += more.left_unreliable;
        self.left_old_reliable += more.left_old_reliable;
        self.made_room += more.made_room;
    }

    fn count(&mut self, before: &Receiver, after: &Receiver, n: u32) {
        let ids = |r: &Receiver| r.open().map(|c| c.id).collect::<BTreeSet<u16>>().len();
        let freed = ids(after) < ids(before);
        let left_unreliable = after.open().any(|c| !wire::reliable(c.kind));
        let left_old_reliable = after.open().any(|c| wire::reliable(c.kind) && after.age(c.id) > n as u64);
        self.freed += freed as u64;
        self.freed_none_of_open += (!freed && ids(before) > 0) as u64;
        self.left_unreliable += (freed && left_unreliable) as u64;
        self.left_old_reliable += left_old_reliable as u64;
    }
}

/// "the image written is kept", and with it the list that led to it.
#[derive(Default)]
struct Saved {
    image: Vec<u8>,
    checks: Option<Checks>,
}

/// Restored images by how the cells lent compare with those of the receiver before, or used to the last; and refused ones by their flaws.
#[derive(Default)]
pub struct Restores {
    pub done: BTreeMap<&'static str, u64>,
    pub flaws: BTreeMap<Flaw, u64>,
}

impl Restores {
    fn count(&mut self, before: usize, lent: usize, needed: usize) {
        let fit = match lent.cmp(&before) {
            std::cmp::Ordering::Less => "fewer cells",
            std::cmp::Ordering::Equal => "as many cells",
            std::cmp::Ordering::Greater => "more cells",
        };
        *self.done.entry(fit).or_default() += 1;
        if lent == needed {
            *self.done.entry("all of them in use").or_default() += 1;
        }
    }
}

pub struct Session {
    pub receiver: Receiver,
    checks: Option<Checks>,
    saved: Saved,
    pub restores: Restores,
    /// How often each call gave each number.
    pub answers: BTreeMap<(char, u8), u64>,
    pub drops: Drops,
    pub longest_missing: usize,
    pub longest_unsent: usize,
    pub longest_message: usize,
}

impl Session {
    /// With a console receiver.
    pub fn new(cells: usize, checked: bool) -> Session {
        Session {
            receiver: Receiver::new(cells, Profile::Console),
            checks: checked.then(|| Checks::new(Profile::Console)),
            saved: Saved::default(),
            restores: Restores::default(),
            answers: BTreeMap::new(),
            drops: Drops::default(),
            longest_missing: 0,
            longest_unsent: 0,
            longest_message: 0,
        }
    }

    /// A new receiver over the same cells: another list begins, and the one before it ends.
    pub fn renew(&mut self, profile: Profile) {
        self.end();
        let cells = self.receiver.cells.len();
        self.receiver = Receiver { fates: self.receiver.fates, ..Receiver::new(cells, profile) };
        if let Some(checks) = &mut self.checks {
            *checks = Checks::new(profile);
            assert!(sound(&self.receiver), "the model's receiver is not sound");
        }
        self.count('n', None);
    }

    pub fn count(&mut self, letter: char, number: Option<u8>) {
        *self.answers.entry((letter, number.unwrap_or(0))).or_default() += 1;
    }

    pub fn receive(&mut self, datagram: &[u8]) -> Result<Report, u8> {
        let answer = self.receiver.receive(datagram);
        if let Some(checks) = &mut self.checks {
            if let Ok(report) = answer {
                assert_eq!(checks.bare.feed(datagram), (report.ready, report.dropped), "the model's counts are not the line's");
            }
            self.drops.made_room += checks.made_room(datagram, &answer) as u64;
            assert!(sound(&self.receiver), "the model's receiver is not sound");
        }
        self.longest_unsent = self.longest_unsent.max(self.receiver.unsent.len());
        self.count('r', answer.err());
        answer
    }

    pub fn take(&mut self, room: usize) -> Result<Message, u8> {
        let answer = self.receiver.take(room);
        if let Ok(message) = &answer {
            self.longest_message = self.longest_message.max(message.body.len());
            if let Some(checks) = &mut self.checks {
                checks.handed.push(message.clone());
                checks.undropped.as_mut().map(|r| r.take(room));
                assert!(sound(&self.receiver), "the model's receiver is not sound");
            }
        }
        self.count('t', answer.as_ref().err().copied());
        answer
    }

    /// The call with a number n: how many cells it freed.
    pub fn drop_unfinished(&mut self, n: u32) -> u32 {
        let before = self.receiver.clone();
        let freed = self.receiver.drop_unfinished(n);
        self.drops.count(&before, &self.receiver, n);
        self.count('x', None);
        let Some(checks) = &mut self.checks else { return freed };
        let line = checks.bare.line.len();
        assert_eq!(checks.bare.drop_unfinished(n), freed, "the model frees more or fewer cells than pieces are dropped");
        assert_eq!(checks.bare.line.len(), line, "a drop changes the line");
        let open: BTreeSet<(u16, u32)> = self.receiver.open().map(|c| (c.id, c.index)).collect();
        assert!(open == checks.bare.open_pieces(), "the model frees other cells than those of the pieces dropped");
        assert!(sound(&self.receiver), "the model's receiver is not sound");
        if freed > 0 {
            checks.undropped.get_or_insert(before);
        }
        freed
    }

    pub fn write_unsent(&mut self, room: usize) -> Result<Vec<u8>, u8> {
        let answer = self.receiver.write_unsent(room);
        if let Some(r) = self.checks.as_mut().and_then(|checks| checks.undropped.as_mut()) {
            let _ = r.write_unsent(room);
        }
        self.count('u', answer.as_ref().err().copied());
        answer
    }

    pub fn write_missing(&mut self, room: usize) -> Result<Vec<u8>, u8> {
        self.longest_missing = self.longest_missing.max(self.receiver.datagrams.missing().len());
        let answer = self.receiver.write_missing(room);
        self.count('m', answer.as_ref().err().copied());
        answer
    }

    /// The image, which is kept.
    pub fn save(&mut self, room: usize) -> Result<Vec<u8>, u8> {
        let image = image_of(&self.receiver).bytes();
        let fits = image.len() <= room;
        self.count('s', if fits { None } else { Some(12) });
        if !fits {
            return Err(12);
        }
        self.saved = Saved { image: image.clone(), checks: self.checks.clone() };
        Ok(image)
    }

    /// The image kept; empty where none is.
    pub fn kept(&self) -> &[u8] {
        &self.saved.image
    }

    /// "A restored receiver's list of calls is the one up to its save, then the calls after the restore": the image kept, into so many cells.
    pub fn resume(&mut self, cells: usize, most: usize) -> Result<(), u8> {
        let image = self.saved.image.clone();
        let list = self.saved.checks.clone();
        self.restore_with(cells, most, &image, |_| list.unwrap())
    }

    /// An image whose list is not known, into so many cells.
    pub fn restore(&mut self, cells: usize, most: usize, image: &[u8]) -> Result<(), u8> {
        self.restore_with(cells, most, image, Checks::of_image)
    }

    fn restore_with<F: FnOnce(&Image) -> Checks>(&mut self, cells: usize, most: usize, bytes: &[u8], list: F) -> Result<(), u8> {
        let answer = self.restored(cells, most, bytes);
        self.count('i', answer.as_ref().err().copied());
        let (image, receiver) = answer?;
        self.end();
        self.restores.count(self.receiver.cells.len(), cells, image.cells());
        self.receiver = Receiver { fates: self.receiver.fates, ..receiver };
        if let Some(checks) = &mut self.checks {
            *checks = Checks { undropped: None, ..list(&image) };
        }
        Ok(())
    }

    /// "restoring by 9, on lengths only, then 21 for an image cut or with bytes after its last section, then 22 for one that no sound
    /// receiver's save writes or that needs more cells than lent": with the checks on, that sentence is held to the flaws.
    fn restored(&mut self, cells: usize, most: usize, bytes: &[u8]) -> Result<(Image, Receiver), u8> {
        if cells < 1 || cells > most {
            return Err(9);
        }
        let image = read(bytes).ok_or(21)?;
        assert!(image.bytes() == bytes, "an image is not written as it was read");
        let restored = image.restored(cells);
        let flaw = image.flaw(cells);
        if self.checks.is_some() {
            let saved = restored.as_ref().is_some_and(|r| sound(r) && image_of(r).bytes() == bytes);
            assert_eq!(saved, flaw.is_none(), "{flaw:?}, but is it what a sound receiver's save writes? {saved}");
        }
        match flaw {
            None => Ok((image, restored.expect("a receiver"))),
            Some(flaw) => {
                *self.restores.flaws.entry(flaw).or_default() += 1;
                Err(22)
            }
        }
    }

    /// "The bodies that a list's takes handed out, then those that takes .. would hand out until 20, are the line's, in its order."
    pub fn end(&mut self) {
        let mut rest = self.receiver.clone();
        if let Some(checks) = &mut self.checks {
            while let Ok(message) = rest.take(PLENTY) {
                checks.handed.push(message);
            }
            assert!(checks.handed == checks.bare.line, "what the model hands out is not the line");
        }
    }
}
