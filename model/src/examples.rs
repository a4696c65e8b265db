//! Random examples for the definitions, as a file of proofs by computation: what every call is told and the state after it, from the model.
use crate::bare::Bare;
use crate::gen::about_an_age;
use crate::image::{image_of, read, Image};
use crate::images;
use crate::model::{Cell, Message, Receiver, Use, CHANNELS, MEMORIES, OLDEST};
use crate::rng::Rng;
use crate::sender::datagram;
use crate::sound::{sound_cells, sound_values};
use crate::window::{NUMBERS, REACH};
use crate::wire::{frame_bytes, frames, reliable, Frame, Piece, Profile, PROFILES};
use std::fmt::Display;

fn list<T: Display>(items: impl IntoIterator<Item = T>) -> String {
    let mut text: String = items.into_iter().map(|item| format!("{item} ∷ ")).collect();
    text += "[]";
    text
}

/// A list as an argument.
fn arg<T: Display>(items: impl IntoIterator<Item = T>) -> String {
    match list(items) {
        empty if empty == "[]" => empty,
        text => format!("({text})"),
    }
}

/// Bytes as document 01 writes them.
fn hex(bytes: &[u8]) -> String {
    arg(bytes.iter().map(|b| format!("0x{b:02X}")))
}

fn use_number(used: Use) -> u8 {
    match used {
        Use::Unused => 0,
        Use::Open => 1,
        Use::Held => 2,
        Use::Ready => 3,
        Use::Released => 4,
    }
}

/// A cell and its record, which keeps an age.
fn slot((c, age): (&Cell, &u64)) -> String {
    if *c == Cell::default() && *age == 0 {
        return "empty_slot".to_string();
    }
    let Cell { id, index, kind, channel, count, sequence, order, turn, .. } = c;
    format!("slot {} {id} {index} {kind} {channel} {count} {sequence} {order} {turn} {age} {}", use_number(c.used), arg(&c.body))
}

fn slots(cells: &[Cell], ages: &[u64]) -> String {
    arg(cells.iter().zip(ages).map(slot))
}

fn frame(f: &Frame) -> String {
    let numbers = format!("{} {} {} {} {}", f.kind, f.reliable, f.sequence, f.order, f.channel);
    match f.piece {
        None => format!("whole {numbers} {}", arg(&f.body)),
        Some(p) => format!("part {numbers} {} {} {} {}", p.count, p.id, p.index, arg(&f.body)),
    }
}

fn message(m: &Message) -> String {
    format!("msg {} {} {} {}", m.kind, m.channel, m.order, arg(&m.body))
}

/// A sender of small frames: reliable numbers mostly new, and pieces that wait for their turn.
struct Small {
    profile: Profile,
    kinds: &'static [u8],
    channels: &'static [u8],
    /// How many frames of twenty are pieces.
    pieces: usize,
    /// How many of the other pieces, of a hundred, get lost.
    lost: usize,
    reliable: u32,
    waiting: Vec<Frame>,
}

impl Small {
    /// All kinds; or lever positions above all, on two channels; or previews: pieces above all, most without reliable numbers, many lost.
    fn new(rng: &mut Rng, profile: Profile) -> Small {
        let (kinds, channels, pieces, lost): (&[u8], &[u8], usize, usize) = match rng.below(10) {
            0..=2 => (&[1, 1, 1, 4, 4, 3], &[0, 0, 0, 1], 7, 0),
            3..=6 => (&[0, 0, 1, 5, 6, 6, 3], &[0, 0, 1], 13, 60),
            _ => (&[0, 1, 1, 2, 3, 3, 3, 3, 4, 4, 5, 6, 7, 7], &[0, 0, 0, 0, 0, 1, 1, 31, 32], 7, 0),
        };
        Small { profile, kinds, channels, pieces, lost, reliable: 0, waiting: Vec::new() }
    }

    fn reliable(&mut self, rng: &mut Rng) -> u32 {
        self.reliable += 1;
        if rng.percent(90) {
            self.reliable - 1
        } else {
            rng.below(12) as u32
        }
    }

    /// A frame whose kind's uncarried fields are 0.
    fn frame(&mut self, rng: &mut Rng) -> Frame {
        if !self.waiting.is_empty() && rng.percent(70) {
            let at = rng.below(self.waiting.len());
            let mut f = self.waiting.remove(at);
            f.reliable = if reliable(f.kind) { self.reliable(rng) } else { 0 };
            if self.profile.fields(f.kind).order && rng.percent(10) {
                // a piece that does not agree
                f.order += rng.below(2) as u32;
                f.channel ^= rng.below(2) as u8;
            }
            return f;
        }
        let kind = rng.pick(self.kinds);
        let fields = self.profile.fields(kind);
        let reliable = if fields.reliable { self.reliable(rng) } else { 0 };
        let sequence = if fields.sequence { rng.pick(&[0, 1, 1, 2, 2, 3]) } else { 0 };
        let order = if fields.order { rng.pick(&[0, 0, 1, 1, 2, 3]) } else { 0 };
        let channel = if fields.order { rng.pick(self.channels) } else { 0 };
        let mut f = Frame { kind, reliable, sequence, order, channel, piece: None, body: body(rng) };
        match rng.below(20) {
            0 => f.piece = Some(Piece { count: rng.pick(&[0, 1023, 1024, 1025]), id: 7, index: rng.pick(&[0, 1023, 1024]) }),
            n if n <= self.pieces => self.split(rng, &mut f),
            _ => {}
        }
        f
    }

    /// The frame becomes one piece; the others wait or get lost.
    fn split(&mut self, rng: &mut Rng, f: &mut Frame) {
        let count = rng.pick(&[1, 2, 2, 2, 3]);
        let id = rng.pick(&[0, 7, 7, 300]);
        let first = rng.below(count as usize) as u32;
        f.piece = Some(Piece { count, id, index: first });
        for index in (0..count).filter(|i| *i != first) {
            if !rng.percent(self.lost) {
                self.waiting.push(Frame { piece: Some(Piece { count, id, index }), body: body(rng), ..f.clone() });
            }
        }
    }

    fn frames(&mut self, rng: &mut Rng, most: usize) -> Vec<Frame> {
        (0..rng.from_to(1, most)).map(|_| self.frame(rng)).collect()
    }
}

fn body(rng: &mut Rng) -> Vec<u8> {
    let length = rng.below(3);
    (0..length).map(|_| rng.below(100) as u8).collect()
}

/// The frames' bytes, with lengths that are so many bits off a multiple of 8: reading them gives the very frames back.
fn bytes_of(profile: Profile, number: u32, all: &[Frame], inexact: u16) -> Vec<u8> {
    let bytes: Vec<Vec<u8>> = all.iter().map(|f| frame_bytes(profile, f, 0, inexact)).collect();
    let d = datagram(0x84, number, &bytes);
    assert!(frames(profile, &d[4..]).0 == all);
    d
}

/// Frames as values on a receiver with cells, and the line of the accepted ones.
fn cells_example(rng: &mut Rng, name: &str) -> String {
    let cells = rng.from_to(1, 6);
    let profile = rng.pick(&PROFILES);
    let mut r = Receiver::new(cells, profile);
    let mut bare = Bare::new(profile);
    let mut small = Small::new(rng, profile);
    let (mut calls, mut seen, mut fed, mut counts) = (Vec::new(), Vec::new(), Vec::new(), Vec::new());
    for number in 0..rng.from_to(2, 6) as u32 {
        let told = if rng.percent(70) {
            let all = small.frames(rng, 4);
            let bytes = bytes_of(profile, number, &all, 0);
            let text = arg(all.iter().map(frame));
            calls.push(format!("receive {text}"));
            match r.receive(&bytes) {
                Err(n) => format!("(refused {n})"),
                Ok(report) => {
                    let (ready, dropped) = bare.feed(&bytes);
                    fed.push(text);
                    counts.push(format!("line.gave {ready} {dropped}"));
                    format!("(gave {} {})", report.ready, report.dropped)
                }
            }
        } else {
            calls.push("take".to_string());
            match r.take(usize::MAX) {
                Err(n) => format!("(refused {n})"),
                Ok(m) => format!("(took ({}))", message(&m)),
            }
        };
        seen.push(format!("saw {told} {}", slots(&r.cells, &r.ages())));
    }
    let line = format!("line.seen {} {}", arg(&counts), arg(bare.line.iter().map(message)));
    format!(
        "pub {name} :\n    (run_as {profile:?} {cells} ({})\n    ≡ {})\n    × (line.run_as {profile:?} ({})\n    ≡ {line})\n\
         unfolding run run_as line.run_as\n{name} = (refl, refl)\n",
        lines(&calls),
        lines(&seen),
        lines(&fed)
    )
}

/// A memory as it is kept: the newest number plus 1, 0 for none.
fn stored(memory: Option<u32>) -> u32 {
    memory.map_or(0, |n| n + 1)
}

/// A list with one item to a line.
fn lines(items: &[String]) -> String {
    let mut text: String = items.iter().map(|item| format!("{item}\n    ∷ ")).collect();
    text += "[]";
    text
}

/// A datagram's bytes: small frames, now and then cut, with a tail, of another first byte, an old number or one beyond.
fn small_datagram(rng: &mut Rng, small: &mut Small, r: &Receiver) -> Vec<u8> {
    let low = r.datagrams.low;
    let number = match rng.below(12) {
        0 => low + REACH,
        1 => low + REACH + 1,
        2 => low.saturating_sub(1),
        3 | 4 => low + 2,
        5 => low + 1,
        _ => low,
    };
    let mut all = small.frames(rng, 3);
    if let Some(f) = all.iter_mut().find(|f| reliable(f.kind)).filter(|_| rng.percent(10)) {
        f.reliable = r.reliables.low + REACH + rng.below(2) as u32;
    }
    let inexact = rng.pick(&[0, 0, 1, 4, 7]);
    let mut d = bytes_of(small.profile, number, &all, inexact);
    match rng.below(16) {
        0 => d.truncate(rng.below(d.len())),
        1 => d.extend([0x60, 0, 8]),
        2 => d[0] = rng.pick(&[0x7F, 0x80, 0x8D, 0x8E]),
        3 => d[4] |= 0x0F,
        4 => d[6] |= 7,
        _ => {}
    }
    d
}

fn told(letter: &str, answer: Result<String, u8>) -> String {
    match answer {
        Err(number) => format!("(no {number})"),
        Ok(text) => format!("({letter} {text})"),
    }
}

/// The missing are written only where they are no more than so many: the checker's steps are limited, and a list of thousands takes too many.
const MISSING: usize = 64;

/// Calls by their byte in `calls`, each as often as it stands here: on a receiver of all kinds of frames, and on one of previews.
const CALLS: [u8; 10] = [0, 0, 0, 0, 0, 1, 1, 1, 2, 3];
const PREVIEW_CALLS: [u8; 12] = [0, 0, 0, 0, 0, 0, 1, 2, 5, 5, 5, 5];

/// One call: its text, and what it is told.
fn bytes_call(rng: &mut Rng, small: &mut Small, r: &mut Receiver) -> (String, String) {
    let room = rng.pick(&[0, 2, 3, 6, 7, 10, 14]);
    let zeros = format!("(replicate {room} 0)");
    match rng.pick(if small.lost > 0 { &PREVIEW_CALLS } else { &CALLS[..] }) {
        1 => {
            let answer = r.take(room).map(|m| format!("{} {} {} {}", m.kind, m.channel, m.order, arg(&m.body)));
            (format!("take_with {zeros}"), told("took", answer))
        }
        2 => (format!("write_unsent {zeros}"), told("wrote", r.write_unsent(room).map(|b| hex(&b)))),
        3 if r.datagrams.missing().len() <= MISSING => (format!("write_missing {zeros}"), told("wrote", r.write_missing(room).map(|b| hex(&b)))),
        5 => {
            let n = about_an_age(rng, r);
            (format!("drop_unfinished {n}"), told("freed", Ok(r.drop_unfinished(n).to_string())))
        }
        _ => {
            let d = small_datagram(rng, small, r);
            let answer = r.receive(&d).map(|report| format!("{} {} {}", report.ready, report.dropped, report.left));
            (format!("receive {}", hex(&d)), told("gave", answer))
        }
    }
}

/// What is told, and the state after it.
fn saw(told: &str, r: &Receiver) -> String {
    let lows = arg([r.datagrams.low, r.reliables.low]);
    let nexts = arg([r.next[0], r.next[1]]);
    let memories = arg([0, 1, MEMORIES - 1].map(|m| stored(r.newest[m])));
    format!("saw {told} {lows} {} {nexts} {memories} {}", arg(&r.unsent), slots(&r.cells, &r.ages()))
}

/// Bytes on a receiver: every call's answer and the whole state after it.
fn bytes_example(rng: &mut Rng, name: &str) -> String {
    let profile = rng.pick(&PROFILES);
    let mut small = Small::new(rng, profile);
    let (cells, most) = if small.lost > 0 { (rng.from_to(3, 6), 10) } else { (rng.from_to(1, 4), 6) };
    let mut r = Receiver::new(cells, profile);
    let (mut calls, mut seen) = (Vec::new(), Vec::new());
    for _ in 0..rng.from_to(most / 2, most) {
        let (call, told) = bytes_call(rng, &mut small, &mut r);
        seen.push(saw(&told, &r));
        calls.push(call);
    }
    format!("pub {name} :\n    run {profile:?} {cells} ({})\n    ≡ {}\nunfolding run\n{name} = refl\n", lines(&calls), lines(&seen))
}

/// Bytes, of which many in a row are alike.
fn runs(bytes: &[u8]) -> String {
    let mut parts = Vec::new();
    let mut single: Vec<u8> = Vec::new();
    for run in bytes.chunk_by(|a, b| a == b) {
        if run.len() < 4 {
            single.extend(run);
            continue;
        }
        if !single.is_empty() {
            parts.push(hex(&single));
            single.clear();
        }
        parts.push(format!("replicate {} 0x{:02X}", run.len(), run[0]));
    }
    if !single.is_empty() || parts.is_empty() {
        parts.push(hex(&single));
    }
    format!("({})", parts.join(" ++ "))
}

/// Images in examples have no more bytes.
const IMAGE: usize = 1400;

/// A restore over a receiver just made, of so many cells.
fn restoring(profile: Profile, cells: usize, bytes: &[u8]) -> String {
    let image = read(bytes);
    let restored = match &image {
        None => Err(21),
        Some(image) if image.flaw(cells).is_some() => Err(22),
        Some(image) => Ok(image.restored(cells).expect("a receiver")),
    };
    let seen = match restored {
        Err(number) => saw(&format!("(no {number})"), &Receiver::new(cells, profile)),
        Ok(r) => saw("(wrote [])", &r),
    };
    format!("(restoring {profile:?} {cells} {}\n    ≡ {seen})", runs(bytes))
}

/// Calls on a receiver, which is saved; its image restored, and images that differ from it in one thing.
fn images_example(rng: &mut Rng, name: &str) -> String {
    let profile = rng.pick(&PROFILES);
    let mut small = Small::new(rng, profile);
    let cells = rng.from_to(2, 6);
    let mut r = Receiver::new(cells, profile);
    let (mut calls, mut seen) = (Vec::new(), Vec::new());
    for _ in 0..rng.from_to(3, 6) {
        let d = small_datagram(rng, &mut small, &r);
        let answer = r.receive(&d).map(|report| format!("{} {} {}", report.ready, report.dropped, report.left));
        seen.push(saw(&told("gave", answer), &r));
        calls.push(format!("receive {}", hex(&d)));
    }
    let image = image_of(&r);
    let bytes = image.bytes();
    for room in [bytes.len() - 1, bytes.len()] {
        let answer = if room < bytes.len() { "(no 12)".to_string() } else { format!("(wrote {})", runs(&bytes)) };
        seen.push(saw(&answer, &r));
        calls.push(format!("save (replicate {room} 0)"));
    }
    let mut facts = vec![format!("(run {profile:?} {cells} ({})\n    ≡ {})", lines(&calls), lines(&seen))];
    let over = rng.pick(&PROFILES);
    let needed = image.cells();
    facts.push(restoring(over, needed.max(1), &bytes));
    facts.push(restoring(over, rng.pick(&[needed.saturating_sub(1).max(1), needed + 1]), &bytes));
    while facts.len() < 6 {
        let mut other = image.clone();
        let damaged = if rng.percent(25) { images::damaged(rng, &image) } else { changed(rng, &mut other) };
        if damaged != bytes && damaged.len() <= IMAGE {
            facts.push(restoring(over, needed + 2, &damaged));
        }
    }
    facts.push(made_up(rng));
    let proofs = vec!["refl"; facts.len()].join(", ");
    format!("pub {name} :\n    {}\nunfolding run restoring\n{name} = ({proofs})\n", facts.join("\n    × "))
}

/// A restore of an image that no calls led to, as it is or with one thing changed.
fn made_up(rng: &mut Rng) -> String {
    loop {
        let mut image = images::made_up(rng);
        if rng.percent(40) {
            images::changed(rng, &mut image);
        }
        let bytes = image.bytes();
        if image.cells() > 0 && runs(&bytes).len() <= 4000 {
            return restoring(Profile::Console, image.cells().min(7), &bytes);
        }
    }
}

fn changed(rng: &mut Rng, image: &mut Image) -> Vec<u8> {
    images::changed(rng, image);
    image.bytes()
}

/// A random field of a random cell is changed, or its record's age, or an open record's, or that of all open records of an id.
fn spoil(rng: &mut Rng, cells: &mut [Cell], ages: &mut [u64]) {
    let at = rng.below(cells.len());
    let small = rng.below(4) as u32;
    let age = rng.pick(&[0, 1, 2, OLDEST - 1, OLDEST, OLDEST + 1]);
    let open: Vec<usize> = (0..cells.len()).filter(|i| cells[*i].used == Use::Open).collect();
    let id = if open.is_empty() { 0 } else { cells[rng.pick(&open)].id };
    let c = &mut cells[at];
    match rng.below(15) {
        0 => c.used = rng.pick(&[Use::Unused, Use::Open, Use::Held, Use::Ready, Use::Released]),
        1 => c.id = rng.pick(&[0, 7]),
        2 => c.index = small,
        3 => c.kind = rng.pick(&[0, 1, 3, 4, 7, 8]),
        4 => c.channel = rng.pick(&[0, 1, 31, 32]),
        5 => c.count = rng.pick(&[0, 1, 2, 3, 1024, 1025]),
        6 => c.sequence = rng.pick(&[0, 1, (1 << 24) - 1, 1 << 24]),
        7 => c.order = rng.pick(&[0, 1, 2, 3, (1 << 24) - 1, 1 << 24]),
        8 => c.turn = small,
        9 => ages[at] = age,
        10..=12 if !open.is_empty() => ages[rng.pick(&open)] = age,
        13 => open.iter().filter(|i| cells[**i].id == id).for_each(|i| ages[*i] = age),
        _ => {
            let from = rng.below(cells.len());
            cells[at] = cells[from].clone();
            ages[at] = ages[from];
        }
    }
}

/// A state that calls lead to, and what becomes of it where fields are changed: sound or not.
fn sound_example(rng: &mut Rng, name: &str) -> String {
    let profile = rng.pick(&PROFILES);
    let mut r = Receiver::new(rng.from_to(2, 6), profile);
    let mut small = Small::new(rng, profile);
    small.lost = small.lost.min(30);
    for number in 0..rng.from_to(3, 8) as u32 {
        let all = small.frames(rng, 4);
        let _ = r.receive(&bytes_of(profile, number, &all, 0));
    }
    let mut states = Vec::new();
    let next = rng.pick(&[0, 0, 1]);
    for changes in [0, 1, 1, 1, 2] {
        let (mut cells, mut ages) = (r.cells.clone(), r.ages());
        for _ in 0..changes {
            spoil(rng, &mut cells, &mut ages);
        }
        let verdict = if sound_cells(&[next; 256], &cells, &ages) { "true" } else { "false" };
        states.push(format!("(sound_at {next} {} ≡ {verdict})", slots(&cells, &ages)));
    }
    let proofs = vec!["refl"; states.len()].join(", ");
    format!("pub {name} :\n    {}\nunfolding run sound_at\n{name} = ({proofs})\n", states.join("\n    × "))
}

/// A new receiver's own values with some of them changed: sound or not.
fn values_example(rng: &mut Rng, name: &str) -> String {
    let mut states = Vec::new();
    for _ in 0..4 {
        let mut r = Receiver::new(1, Profile::Console);
        let channel = rng.pick(&[0, 1, 30, CHANNELS as usize - 1]);
        let near_top = [0, 1, NUMBERS - 1, NUMBERS];
        let beyond = NUMBERS + 1;
        let limit = |rng: &mut Rng, bad: usize| if rng.percent(bad) { beyond } else { rng.pick(&near_top) };
        r.datagrams.low = if rng.percent(5) { beyond } else { rng.pick(&[0, 3, 3, NUMBERS - 3000]) };
        r.reliables.low = if rng.percent(5) { beyond } else { rng.pick(&[0, 0, NUMBERS - 3000]) };
        r.next[channel] = limit(rng, 8);
        // kept as the number plus 1
        r.newest[channel] = limit(rng, 15).checked_sub(1);
        r.newest[MEMORIES - 1] = limit(rng, 15).checked_sub(1);
        r.profile = if rng.percent(12) { rng.pick(&[2, 3, 256, u32::MAX]) } else { rng.below(2) as u32 };
        r.unsent = (0..rng.below(3)).map(|_| rng.pick(&[0, 1, 2, 2, NUMBERS - 1])).collect();
        let verdict = if sound_values(&r) { "true" } else { "false" };
        let lows = format!("{} {}", r.datagrams.low, r.reliables.low);
        let at = format!("{channel} {} {}", r.next[channel], stored(r.newest[channel]));
        let own = format!("{} {}", stored(r.newest[MEMORIES - 1]), r.profile);
        states.push(format!("(sound_values {lows} {at} {own} {} ≡ {verdict})", arg(&r.unsent)));
    }
    let proofs = vec!["refl"; states.len()].join(", ");
    format!("pub {name} :\n    {}\nunfolding run sound_values\n{name} = ({proofs})\n", states.join("\n    × "))
}

const CELLS_HEAD: &str = "use mathlib.Core.Path.{◌≡◌, refl}
use mathlib.Core.List.{[], ◌∷◌}
use Rattle.reliability.specs.declared.Profile.TheVariants.{Console, Cpp}
use Rattle.bare.proofs.Shown as line
use Rattle.bare.proofs.Shown.{msg}
use Rattle.cells.specs.Cell.{empty_slot}
use Rattle.cells.proofs.Shown.{receive, take, gave, took, refused, saw, run, run_as}
use Rattle.examples.proofs.Shown.{whole, part, slot}
";

const BYTES_HEAD: &str = "use mathlib.Core.Path.{◌≡◌, refl}
use mathlib.Core.List.{[], ◌∷◌}
use lib.ListN.{replicate}
use Rattle.reliability.specs.declared.Profile.TheVariants.{Console, Cpp}
use Rattle.cells.specs.Cell.{empty_slot}
use Rattle.receiver.specs.Calls.{receive, take_with, write_unsent, write_missing, drop_unfinished}
use Rattle.examples.proofs.Shown.{slot, run, saw, gave, took, wrote, freed, no}
";

const SOUND_HEAD: &str = "use mathlib.Core.Path.{◌≡◌, refl}
use mathlib.Core.Bool.{true, false}
use mathlib.Core.List.{[], ◌∷◌}
use Rattle.cells.specs.Cell.{empty_slot}
use Rattle.cells.proofs.Shown.{run, sound_at}
use Rattle.examples.proofs.Shown.{slot}
";

const VALUES_HEAD: &str = "use mathlib.Core.Path.{◌≡◌, refl}
use mathlib.Core.Bool.{true, false}
use mathlib.Core.List.{[], ◌∷◌}
use Rattle.examples.proofs.Shown.{run, sound_values}
";

const IMAGES_HEAD: &str = "use mathlib.Core.Path.{◌≡◌, refl}
use mathlib.Core.List.{[], ◌∷◌, ◌++◌}
use lib.ListN.{replicate}
use Rattle.reliability.specs.declared.Profile.TheVariants.{Console, Cpp}
use Rattle.cells.specs.Cell.{empty_slot}
use Rattle.receiver.specs.Calls.{receive, save}
use Rattle.examples.proofs.Shown.{slot, run, restoring, saw, gave, wrote, no}
";

/// A file of n examples: `cells`, `bytes`, `sound`, `values` or `images`.
pub fn file(what: &str, seed: u64, n: u64) -> Option<String> {
    type Maker = fn(&mut Rng, &str) -> String;
    let (about, head, one): (&str, &str, Maker) = match what {
        "cells" => (
            "frames as values on a receiver with cells, with the slots after every call; and the line of the accepted ones",
            CELLS_HEAD,
            cells_example,
        ),
        "bytes" => ("bytes on a receiver, with what it keeps after every call", BYTES_HEAD, bytes_example),
        "sound" => ("states that calls lead to, and the same with fields changed: sound or not", SOUND_HEAD, sound_example),
        "values" => (
            "a receiver's own values, sound or not: lows, a next, memories, profile and unsent numbers",
            VALUES_HEAD,
            values_example,
        ),
        "images" => (
            "a receiver's image, restored as it is and with one thing changed or damaged; and one that is made up",
            IMAGES_HEAD,
            images_example,
        ),
        _ => return None,
    };
    let mut text = format!("-- Random examples: {about}.\n-- Made by `model examples {what} {seed} {n}` (folder model/), an independent model of document 01; here they are computed.\n-- Assumes nothing.\n{head}");
    for i in 0..n {
        text += "\n";
        text += &one(&mut Rng::new(seed * 1000 + i), &format!("{what}-{seed}-{i}"));
    }
    Some(text.lines().map(folded).collect())
}

/// A line of a file has no more columns than this.
const COLUMNS: usize = 140;

/// A line, broken before a ∷ or ++ where it is too long.
fn folded(line: &str) -> String {
    let columns = |text: &str| text.chars().count();
    let mut out = String::new();
    let mut rest = line.to_string();
    while columns(&rest) > COLUMNS {
        let fits = |at: &usize| columns(&rest[..*at]) <= COLUMNS;
        let mut places: Vec<usize> = [" ∷ ", " ++ "].iter().flat_map(|text| rest.match_indices(text)).map(|(at, _)| at).filter(fits).collect();
        places.sort();
        let Some(&at) = places.last().filter(|at| !rest[..**at].trim().is_empty()) else { break };
        out += &format!("{}\n", &rest[..at]);
        rest = format!("    {}", &rest[at + 1..]);
    }
    out + &rest + "\n"
}
