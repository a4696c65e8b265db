//! Images to restore: a receiver's own, made up, with values changed to the limits and over them, with entries exchanged, cut and damaged.
use crate::image::{image_of, Image, MessageEntry, PieceEntry};
use crate::model::{Receiver, CELL_BYTES, CHANNELS, MAX_FRAGS, MEMORIES, OLDEST, UNSENT};
use crate::rng::Rng;
use crate::window::{NUMBERS, REACH};

const TOP: u64 = NUMBERS as u64;

/// A window about the edges of its bytes and of the numbers, with none, few, half or all of its places.
fn window(rng: &mut Rng) -> (u64, Vec<u8>) {
    let low = rng.pick(&[0, 0, 1, 3, 255, 256, 2047, 2048, 5000, TOP / 2, TOP - 2049, TOP - 2048, TOP - 9, TOP - 2, TOP - 1, TOP]);
    let density = rng.pick(&[0, 1, 3, 50, 100]);
    let mut places = vec![0; REACH as usize / 8];
    for place in 0..REACH as usize {
        if low + 1 + (place as u64) < TOP && (rng.percent(density) || density > 0 && place == REACH as usize - 1) {
            places[place / 8] |= 1 << (place % 8);
        }
    }
    (low, places)
}

/// Some of the numbers that a window has accepted, ascending.
fn unsent(rng: &mut Rng, (low, places): &(u64, Vec<u8>)) -> Vec<u64> {
    let most = rng.pick(&[0, 0, 1, 4, 40, UNSENT]);
    let set = (0..REACH as u64).filter(|p| places[*p as usize / 8] >> (p % 8) & 1 == 1).map(|p| low + 1 + p);
    let every = rng.from_to(1, 4) as u64;
    let mut all: Vec<u64> = (low.saturating_sub(700 * every)..*low).step_by(every as usize).chain(set).collect();
    while all.len() > most {
        all.remove(rng.below(all.len()));
    }
    all
}

fn body(rng: &mut Rng) -> Vec<u8> {
    let length = match rng.below(20) {
        0 => rng.pick(&[CELL_BYTES - 1, CELL_BYTES]),
        1 => rng.below(300),
        _ => rng.pick(&[0, 0, 1, 2, 3, 30]),
    };
    rng.bytes(length)
}

fn order_number(rng: &mut Rng) -> u64 {
    rng.pick(&[0, 1, 2, 3, 255, 256, TOP / 2, TOP - 2, TOP - 1])
}

/// Pieces of a few ids, each of which lacks some.
fn pieces(rng: &mut Rng, most: usize) -> Vec<PieceEntry> {
    let mut all = Vec::new();
    let mut ids: Vec<u64> = (0..rng.below(5)).map(|_| rng.pick(&[0, 1, 2, 255, 256, 300, 65534, 65535])).collect();
    ids.sort();
    ids.dedup();
    for id in ids {
        let count = rng.pick(&[2, 2, 3, 4, 9, MAX_FRAGS as u64]);
        let [sequence, order] = [order_number(rng), order_number(rng)];
        let (kind, channel) = (rng.below(8) as u64, rng.pick(&[0, 0, 1, 31]));
        let age = rng.pick(&[0, 1, 2, 300, OLDEST - 1, OLDEST]);
        let mut indices: Vec<u64> = (0..rng.from_to(1, 4)).map(|_| rng.below(count as usize) as u64).collect();
        indices.push(count - 1);
        indices.sort();
        indices.dedup();
        indices.truncate(most.saturating_sub(all.len()).min(count as usize - 1));
        all.extend(indices.into_iter().map(|index| PieceEntry { id, index, count, kind, sequence, order, channel, age, body: body(rng) }));
    }
    all
}

/// A message of any kind, whole, in two or three parts, seldom in many.
fn message(rng: &mut Rng, channel: u64, order: u64) -> MessageEntry {
    let kind = rng.pick(&[3, 3, 7, 0, 1, 2, 4, 5, 6]);
    let parts = if rng.percent(3) { rng.pick(&[200, MAX_FRAGS as usize]) } else { rng.pick(&[1, 1, 2, 3]) };
    let bodies = (0..parts).map(|_| if parts > 9 { rng.bytes(1) } else { body(rng) }).collect();
    MessageEntry { channel, order, kind, bodies }
}

/// Held ones a little above their channels' nexts.
fn held(rng: &mut Rng, channels: &[(u64, u64)]) -> Vec<MessageEntry> {
    let mut keys: Vec<(u64, u64)> = (0..rng.below(5)).map(|_| (rng.pick(&[0, 0, 1, 30, 31]), rng.from_to(1, 4) as u64)).collect();
    keys.sort();
    keys.dedup();
    let above = |(c, n): (u64, u64)| (c, channels[c as usize].0 + n);
    keys.into_iter().map(above).filter(|(_, order)| *order < TOP).map(|(c, order)| message(rng, c, order)).collect()
}

/// An image that restores, where the cells are enough.
pub fn made_up(rng: &mut Rng) -> Image {
    let near = [0, 0, 0, 1, 2, 255, 256, 65536, TOP - 3, TOP - 1, TOP];
    let mut channels: Vec<(u64, u64)> = (0..CHANNELS).map(|_| (rng.pick(&near), rng.pick(&near))).collect();
    channels.push((0, rng.pick(&near)));
    let windows = vec![window(rng), window(rng)];
    let ready = (0..rng.below(4)).map(|_| {
        let (channel, order) = (rng.pick(&[0, 1, 31]), order_number(rng));
        message(rng, channel, order)
    });
    let ready = ready.collect();
    Image {
        profile: vec![rng.below(2) as u64],
        unsent: unsent(rng, &windows[0]),
        windows,
        pieces: pieces(rng, 9),
        held: held(rng, &channels),
        channels,
        ready,
    }
}

/// A number at, over or far over the limits, or a little off.
fn other_number(rng: &mut Rng, n: u64) -> u64 {
    let limits = [
        0, 1, 2, 7, 8, 31, 32, 1023, 1024, 1025, 65535, 65536, TOP - 2049, TOP - 1, TOP, TOP + 1, OLDEST - 1, OLDEST, OLDEST + 1,
    ];
    match rng.below(10) {
        0 | 1 => n.wrapping_add(1),
        2 | 3 => n.wrapping_sub(1),
        4 => rng.pick(&[u64::MAX, u64::MAX - 1, 1 << 63, 1 << 31]),
        // the lower half as it was
        5 => n | 1 << rng.pick(&[16, 32, 40, 63]),
        _ => rng.pick(&limits),
    }
}

fn change(rng: &mut Rng, n: &mut u64) {
    *n = other_number(rng, *n);
}

/// An entry lost, doubled, moved or exchanged; or one more of another's values.
fn exchange<T: Clone>(rng: &mut Rng, entries: &mut Vec<T>) {
    if entries.is_empty() {
        return;
    }
    let (at, to) = (rng.below(entries.len()), rng.below(entries.len()));
    match rng.below(4) {
        0 => drop(entries.remove(at)),
        1 => entries.insert(at, entries[at].clone()),
        2 => entries.insert(to, entries[at].clone()),
        _ => entries.swap(at, to),
    }
}

fn change_bodies(rng: &mut Rng, bodies: &mut Vec<Vec<u8>>) {
    match rng.below(4) {
        0 => bodies.clear(),
        1 => bodies.resize(rng.pick(&[1, 2, 3, MAX_FRAGS as usize, MAX_FRAGS as usize + 1]), Vec::new()),
        2 => exchange(rng, bodies),
        _ if !bodies.is_empty() => {
            let at = rng.below(bodies.len());
            bodies[at].resize(rng.pick(&[0, CELL_BYTES, CELL_BYTES + 1]), 1);
        }
        _ => {}
    }
}

fn change_piece(rng: &mut Rng, pieces: &mut [PieceEntry]) {
    if pieces.is_empty() {
        return;
    }
    let at = rng.below(pieces.len());
    let p = &mut pieces[at];
    match rng.below(9) {
        0 => change(rng, &mut p.id),
        1 => change(rng, &mut p.index),
        2 => change(rng, &mut p.count),
        3 => change(rng, &mut p.kind),
        4 => change(rng, &mut p.sequence),
        5 => change(rng, &mut p.order),
        6 => change(rng, &mut p.channel),
        7 => change(rng, &mut p.age),
        _ => p.body.resize(rng.pick(&[0, CELL_BYTES, CELL_BYTES + 1, 70000]), 1),
    }
    // all pieces of the id alike, as its pieces must be
    if rng.percent(40) {
        let like = p.clone();
        for p in pieces.iter_mut().filter(|p| p.id == like.id) {
            *p = PieceEntry { index: p.index, body: std::mem::take(&mut p.body), ..like.clone() };
        }
    }
}

fn change_message(rng: &mut Rng, messages: &mut [MessageEntry]) {
    if messages.is_empty() {
        return;
    }
    let at = rng.below(messages.len());
    let m = &mut messages[at];
    match rng.below(5) {
        0 => change(rng, &mut m.channel),
        1 => change(rng, &mut m.order),
        2 => change(rng, &mut m.kind),
        _ => change_bodies(rng, &mut m.bodies),
    }
}

/// All indices of an id are there.
fn complete(rng: &mut Rng, image: &mut Image) {
    if !image.pieces.is_empty() {
        let at = rng.below(image.pieces.len());
        let like = image.pieces[at].clone();
        image.pieces.retain(|p| p.id != like.id);
        let count = like.count.min(40);
        image.pieces.extend((0..count).map(|index| PieceEntry { index, count, ..like.clone() }));
        image.pieces.sort_by_key(|p| (p.id, p.index));
    }
}

/// One thing changed, after which some images restore still.
pub fn changed(rng: &mut Rng, image: &mut Image) {
    match rng.below(26) {
        0 => change(rng, &mut image.profile[0]),
        1 => image.profile = vec![0; rng.pick(&[0, 2])],
        2 => exchange(rng, &mut image.windows),
        3 | 4 => {
            let w = rng.below(2);
            change(rng, &mut image.windows[w].0);
        }
        5 | 6 => {
            let (w, at) = (rng.below(2), rng.pick(&[0, 1, 100, 254, 255]));
            image.windows[w].1[at] ^= 1 << rng.below(8);
        }
        7 => exchange(rng, &mut image.channels),
        8 | 9 => {
            let c = rng.pick(&[0, 1, 30, 31, MEMORIES - 1]);
            change(rng, &mut image.channels[c].0);
        }
        10 | 11 => {
            let c = rng.pick(&[0, 1, 31, MEMORIES - 1, MEMORIES - 1]);
            change(rng, &mut image.channels[c].1);
        }
        12 => exchange(rng, &mut image.unsent),
        13 if !image.unsent.is_empty() => {
            let at = rng.below(image.unsent.len());
            change(rng, &mut image.unsent[at]);
        }
        13 => image.unsent.push(0),
        14 => {
            let (low, most) = (image.windows[0].0, rng.pick(&[UNSENT as u64, UNSENT as u64 + 1]));
            image.unsent = (low.saturating_sub(most)..low).collect();
        }
        15 => exchange(rng, &mut image.pieces),
        16..=18 => change_piece(rng, &mut image.pieces),
        19 => complete(rng, image),
        20 => exchange(rng, &mut image.held),
        21 | 22 => change_message(rng, &mut image.held),
        23 => exchange(rng, &mut image.ready),
        24 => change_message(rng, &mut image.ready),
        // a held message of the very number that is due, or late
        _ => {
            let (c, n) = (rng.pick(&[0u64, 31]), rng.below(2) as u64);
            let late = message(rng, c, image.channels.get(c as usize).map_or(0, |c| c.0.saturating_sub(n)));
            image.held.push(late);
            image.held.sort_by_key(|m| (m.channel, m.order));
        }
    }
}

/// Where each section's count stands.
fn counts(image: &Image) -> Vec<usize> {
    let until = |keep: usize| {
        let mut front = image.clone();
        let sections: [&mut dyn FnMut(&mut Image); 7] = [
            &mut |i| i.profile.clear(),
            &mut |i| i.windows.clear(),
            &mut |i| i.channels.clear(),
            &mut |i| i.unsent.clear(),
            &mut |i| i.pieces.clear(),
            &mut |i| i.held.clear(),
            &mut |i| i.ready.clear(),
        ];
        sections.into_iter().skip(keep).for_each(|clear| clear(&mut front));
        front.bytes().len() - 4 * (7 - keep)
    };
    (0..7).map(until).collect()
}

/// Bytes cut off or added, a count or any eight bytes made another number, bits changed.
pub fn damaged(rng: &mut Rng, image: &Image) -> Vec<u8> {
    let mut bytes = image.bytes();
    match rng.below(10) {
        0 | 1 => bytes.truncate(rng.below(bytes.len())),
        2 => bytes.truncate(bytes.len() - rng.from_to(1, 9)),
        3 => {
            let n = rng.pick(&[1, 4, 8, 64]);
            bytes.extend(vec![0; n]);
        }
        4 | 5 => {
            let at = rng.pick(&counts(image));
            let count = u32::from_be_bytes(bytes[at..at + 4].try_into().unwrap());
            let other = rng.pick(&[0, count.wrapping_sub(1), count + 1, 1 << 16, 1 << 31, u32::MAX]);
            bytes[at..at + 4].copy_from_slice(&other.to_be_bytes());
        }
        6..=8 => {
            // the fields stand at multiples of 8 after their section's count
            let from = rng.pick(&counts(image)) + 4;
            let fields = (bytes.len() - from) / 8;
            if fields > 0 {
                let at = from + 8 * rng.below(fields.min(40));
                let n = u64::from_be_bytes(bytes[at..at + 8].try_into().unwrap());
                bytes[at..at + 8].copy_from_slice(&other_number(rng, n).to_be_bytes());
            }
        }
        _ => {
            let at = rng.below(bytes.len());
            bytes[at] ^= 1 << rng.below(8);
        }
    }
    bytes
}

/// An image to restore: of the receiver as it stands or made up, sometimes changed once or twice or damaged.
pub fn any(rng: &mut Rng, live: &Receiver) -> Vec<u8> {
    let mut image = if rng.percent(35) { image_of(live) } else { made_up(rng) };
    match rng.below(10) {
        0..=2 => image.bytes(),
        3..=5 => damaged(rng, &image),
        n => {
            for _ in 0..(n - 5).min(2) {
                // (a change takes for granted what another may have taken away)
                if image.profile.len() == 1 && image.windows.len() == 2 && image.channels.len() == MEMORIES {
                    changed(rng, &mut image);
                }
            }
            image.bytes()
        }
    }
}
