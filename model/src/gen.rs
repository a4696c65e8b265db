//! A recording for `trace` and a list of calls for `calls`, from a seed.
use crate::image::{image_of, read};
use crate::images;
use crate::model::Receiver;
use crate::programs::{call_line, drop_item, new_item, other_item, receive_item, restore_item, trace_lines, with_length};
use crate::programs::{Input, Program, CALLS_CELLS, TRACE_CELLS, UNIT};
use crate::rng::Rng;
use crate::sender::datagram;
use crate::session::Session;
use crate::stream::{Mode, Stream, MODES};
use crate::wire::{Profile, PROFILES};

/// Long lists of bare numbers are rare: one seed of so many.
const FULL_EVERY: u64 = 40;

/// A seed's mode: all modes in turn, but the long one seldom.
pub fn mode_of(seed: u64) -> Mode {
    if seed % FULL_EVERY == 0 {
        return Mode::Full;
    }
    match MODES[(seed % MODES.len() as u64) as usize] {
        Mode::Full => Mode::Mixed,
        mode => mode,
    }
}

/// At most so many datagrams.
fn datagrams(rng: &mut Rng, mode: Mode) -> usize {
    match mode {
        Mode::Full => 1030,
        Mode::Previews => rng.from_to(30, 120),
        _ => rng.from_to(5, 60),
    }
}

/// A sender's messages.
fn messages(rng: &mut Rng, mode: Mode) -> usize {
    if mode == Mode::Previews {
        rng.from_to(20, 80)
    } else {
        rng.from_to(3, 40)
    }
}

pub fn trace(seed: u64) -> Input {
    let rng = &mut Rng::new(2 * seed);
    let mode = mode_of(seed);
    let messages = messages(rng, mode);
    let most = datagrams(rng, mode);
    let mut stream = Stream::new(rng, Profile::Console, mode, messages);
    let mut live = Session::new(TRACE_CELLS, false);
    let mut items = Vec::new();
    while items.len() < most {
        let Some(d) = stream.next(rng, &live.receiver) else { break };
        trace_lines(&mut live, &d);
        items.push(with_length(&d));
    }
    // a cut length, a cut datagram
    let tail = match rng.below(6) {
        0 => vec![0],
        1 => vec![0, 5, 0x84, 0, 0, 0],
        _ => Vec::new(),
    };
    Input { program: Program::Trace, head: Vec::new(), items, tail }
}

/// A length about the one that a call needs.
fn about(rng: &mut Rng, needed: usize) -> usize {
    let n = match rng.below(8) {
        0 => needed.saturating_sub(1),
        1 => needed + 1,
        2 => rng.pick(&[0, 1, 2, 3, 4, 7, 10, 14]),
        3 => rng.below(3000),
        4 => 65535,
        _ => needed,
    };
    n.min(65535)
}

/// A number for a drop: about an open id's age, small, an end, or the age with its bytes at other places.
pub fn about_an_age(rng: &mut Rng, live: &Receiver) -> u32 {
    let open: Vec<u16> = live.open().map(|c| c.id).collect();
    let age = if open.is_empty() { 0 } else { live.age(rng.pick(&open)).min(u32::MAX as u64) as u32 };
    match rng.below(20) {
        0..=2 => 0,
        3 | 4 => 1,
        5 | 6 => 2,
        7 => u32::MAX,
        8 => rng.pick(&[255, 256, 65535, 65536, u32::MAX - 1, 1 << 31]),
        9 => rng.pick(&[age << 8, age << 16, age.swap_bytes()]),
        10 => rng.next() as u32,
        11..=14 => age.saturating_sub(1),
        15 | 16 => age.saturating_add(1),
        _ => age,
    }
}

/// A number of cells about one that an image needs, or another.
fn cells_about(rng: &mut Rng, needed: usize) -> usize {
    match rng.below(12) {
        0 => needed.saturating_sub(1),
        1..=3 => needed.clamp(1, CALLS_CELLS),
        4 => needed + 1,
        5 => rng.pick(&[0, 257, 4096, 65535]),
        6 => rng.from_to(1, 40),
        _ => (needed + rng.from_to(0, 60)).clamp(1, CALLS_CELLS),
    }
}

/// A save, seldom into too little; a restore of the image kept; or of one given.
fn image_call(rng: &mut Rng, session: &Session) -> Vec<u8> {
    match rng.below(10) {
        0..=3 => {
            let units = image_of(&session.receiver).bytes().len().div_ceil(UNIT);
            let n = match rng.below(8) {
                0 | 1 => units - 1,
                2 => rng.pick(&[0, 1, 16384, 16385, 65535]),
                3 => units + 1,
                _ => units,
            };
            other_item(6, n)
        }
        4..=6 => {
            let needed = read(session.kept()).map_or(0, |image| image.cells());
            other_item(7, cells_about(rng, needed))
        }
        _ => {
            let image = images::any(rng, &session.receiver);
            let needed = read(&image).map_or(0, |image| image.cells());
            restore_item(cells_about(rng, needed), &image)
        }
    }
}

/// A take or a writing, with a length about the one that it needs; or a drop.
pub fn other_call(rng: &mut Rng, live: &Receiver, what: u8) -> Vec<u8> {
    let needed = match what {
        5 => return drop_item(about_an_age(rng, live)),
        1 => live.earliest().map_or(0, |cells| cells.iter().map(|i| live.cells[*i].body.len()).sum()),
        2 => live.clone().write_unsent(usize::MAX).map_or(0, |b| b.len()),
        _ => live.write_missing(usize::MAX).map_or(0, |b| b.len()),
    };
    other_item(what, about(rng, needed))
}

/// A list of calls as it grows, and the receiver that it has led to.
struct List {
    live: Session,
    items: Vec<Vec<u8>>,
}

impl List {
    fn put(&mut self, item: Vec<u8>) {
        call_line(&mut self.live, &item);
        self.items.push(item);
    }

    fn other(&mut self, rng: &mut Rng, what: u8) {
        self.put(other_call(rng, &self.live.receiver, what));
    }

    fn image(&mut self, rng: &mut Rng) {
        self.put(image_call(rng, &self.live));
    }
}

/// How often a list takes, writes the unsent, writes the missing, drops the unfinished, and saves or restores after a datagram, of a
/// hundred.
struct Habits {
    take: usize,
    unsent: usize,
    missing: usize,
    drop: usize,
    image: usize,
}

fn habits(rng: &mut Rng, mode: Mode) -> Habits {
    if mode == Mode::Full {
        return Habits { take: 0, unsent: 0, missing: 1, drop: rng.pick(&[0, 0, 1]), image: rng.pick(&[0, 0, 1]) };
    }
    let drop = if mode == Mode::Previews { rng.pick(&[30, 60]) } else { rng.pick(&[0, 3, 15]) };
    let image = rng.pick(&[0, 3, 10, 40]);
    Habits { take: rng.pick(&[5, 40, 60, 75]), unsent: rng.pick(&[2, 20]), missing: rng.pick(&[5, 25]), drop, image }
}

/// The end of a full list: the unsent sent, then room again.
fn full_end(rng: &mut Rng, list: &mut List) {
    for what in [3, 5, 5, 2, 2, 0, 2, 3, 5] {
        if what == 0 {
            list.put(receive_item(&datagram(0x84, list.live.receiver.datagrams.low, &[])));
        } else {
            list.other(rng, what);
        }
    }
}

/// The calls on one receiver: at most so many datagrams, with the other calls among them.
fn receiver_calls(rng: &mut Rng, list: &mut List, stream: &mut Stream, habits: &Habits, most: usize) {
    for _ in 0..most {
        let Some(d) = stream.next(rng, &list.live.receiver) else { return };
        list.put(receive_item(&d));
        while rng.percent(habits.take) && (list.live.receiver.earliest().is_some() || rng.percent(30)) {
            list.other(rng, 1);
        }
        if rng.percent(habits.unsent) {
            list.other(rng, 2);
        }
        if rng.percent(habits.missing) {
            list.other(rng, 3);
        }
        while rng.percent(habits.drop) {
            list.other(rng, 5);
        }
        while rng.percent(habits.image) {
            list.image(rng);
        }
    }
}

/// A cut call or drop, a cut datagram, a cut image or one too long, a byte that is no call's, a number that is no profile's.
fn calls_tail(rng: &mut Rng) -> Vec<u8> {
    match rng.below(20) {
        0 => vec![1, 0],
        1 => vec![0, 0, 5, 0x84, 0, 0, 0],
        2 => vec![rng.pick(&[9, 10, 255]), 0, 0, 2, 0, 3],
        18 => [8, 0, 1, 0, 0, 0, 9, 0, 0, 0][..rng.from_to(1, 10)].to_vec(),
        19 => [vec![8, 0, 1], rng.pick(&[[0, 16, 0, 1], [1, 0, 0, 0], [255; 4]]).to_vec(), vec![7, 0, 1]].concat(),
        3 => vec![4, 0],
        4..=6 => [vec![4], rng.pick(&[[0, 2], [0, 3], [1, 0], [1, 1], [255, 255]]).to_vec(), vec![2, 0, 3]].concat(),
        7 | 8 => [5, 0, 0, 0][..rng.from_to(1, 4)].to_vec(),
        _ => Vec::new(),
    }
}

/// The first receiver is a console's. Then, where there are more, each is made over the same cells, and few are fed by senders of the other
/// profile.
pub fn calls(seed: u64) -> Input {
    let rng = &mut Rng::new(2 * seed + 1);
    let mode = mode_of(seed);
    let few = [1, 2, 3, 4, 5, 8, 16, 32, 32, 64, 100, 255, 256];
    let cells: usize = if rng.percent(1) { rng.pick(&[0, 257, 4096, 65535]) } else { rng.pick(&few) };
    let most = datagrams(rng, mode);
    let mut list = List { live: Session::new(cells.min(CALLS_CELLS), false), items: Vec::new() };
    let receivers = if mode == Mode::Full { 1 } else { rng.pick(&[1, 1, 2, 3]) };
    for i in 0..receivers {
        if i > 0 || rng.percent(60) {
            let profile = if rng.percent(65) { Profile::Cpp } else { Profile::Console };
            list.put(new_item(profile));
        }
        let made_for = list.live.receiver.made_for();
        let senders = if rng.percent(7) { rng.pick(&PROFILES) } else { made_for };
        let messages = messages(rng, mode);
        let habits = habits(rng, mode);
        let mut stream = Stream::new(rng, senders, mode, messages);
        receiver_calls(rng, &mut list, &mut stream, &habits, most / receivers + 1);
    }
    if mode == Mode::Full {
        full_end(rng, &mut list);
    }
    Input { program: Program::Calls, head: (cells as u16).to_be_bytes().to_vec(), items: list.items, tail: calls_tail(rng) }
}
