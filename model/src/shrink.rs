//! A smaller input on which a program and the model still differ.
use crate::compare::differs;
use crate::image::{read, Image};
use crate::programs::{drop_item, made_by, restore_item, Input, Program};
use crate::wire::{frame_bytes, frames, Profile};

/// Where in an item its datagram begins, if it has one.
fn datagram_at(input: &Input, item: &[u8]) -> Option<usize> {
    match input.program {
        Program::Trace => Some(2),
        Program::Calls if item[0] == 0 => Some(3),
        Program::Calls => None,
    }
}

/// The profile of the receiver that item i is a call on.
fn profile_at(input: &Input, i: usize) -> Profile {
    let made = |item: &Vec<u8>| if input.program == Program::Calls { made_by(item) } else { None };
    input.items[..i].iter().rev().find_map(made).unwrap_or(Profile::Console)
}

/// Leaves out runs of items, long ones first, while the difference stays.
fn fewer_items(command: &str, input: &mut Input) {
    let mut run = input.items.len().max(1);
    loop {
        let mut at = 0;
        while at < input.items.len() {
            let mut tried = input.clone();
            tried.items.drain(at..(at + run).min(input.items.len()));
            if differs(command, &tried) {
                *input = tried;
            } else {
                at += run;
            }
        }
        if run == 1 {
            return;
        }
        run /= 2;
    }
}

/// The datagram with frame k left out, or with its body left out.
fn without(profile: Profile, datagram: &[u8], k: usize, body_only: bool) -> Vec<u8> {
    let (all, left) = frames(profile, &datagram[4..]);
    let mut out = datagram[..4].to_vec();
    for (i, f) in all.iter().enumerate() {
        let mut f = f.clone();
        if i == k {
            if !body_only {
                continue;
            }
            f.body.clear();
        }
        out.extend(frame_bytes(profile, &f, 0, 0));
    }
    out.extend(&datagram[datagram.len() - left..]);
    out
}

/// Leaves out frames and bodies, one by one.
fn fewer_frames(command: &str, input: &mut Input) {
    for i in 0..input.items.len() {
        let Some(at) = datagram_at(input, &input.items[i]) else { continue };
        let profile = profile_at(input, i);
        for body_only in [false, true] {
            let mut k = 0;
            loop {
                let datagram = input.items[i][at..].to_vec();
                if datagram.len() < 4 || k >= frames(profile, &datagram[4..]).0.len() {
                    break;
                }
                let shorter = without(profile, &datagram, k, body_only);
                let mut tried = input.clone();
                let length = (shorter.len() as u16).to_be_bytes();
                tried.items[i] = [&input.items[i][..at - 2], &length, &shorter].concat();
                if shorter != datagram && differs(command, &tried) {
                    *input = tried;
                    k += body_only as usize;
                } else {
                    k += 1;
                }
            }
        }
    }
}

/// Lowers the numbers of drops.
fn lower_drops(command: &str, input: &mut Input) {
    for i in 0..input.items.len() {
        for n in 0..8 {
            let mut tried = input.clone();
            tried.items[i] = drop_item(n);
            let is_drop = input.program == Program::Calls && input.items[i][0] == 5;
            if is_drop && tried.items[i] < input.items[i] && differs(command, &tried) {
                *input = tried;
                break;
            }
        }
    }
}

/// The image without its k-th unsent number, piece, held or ready message, counted on from one section to the next.
fn without_entry(image: &Image, k: usize) -> Option<Image> {
    let mut image = image.clone();
    let [unsent, pieces, held] = [image.unsent.len(), image.pieces.len(), image.held.len()];
    match k {
        _ if k < unsent => drop(image.unsent.remove(k)),
        _ if k < unsent + pieces => drop(image.pieces.remove(k - unsent)),
        _ if k < unsent + pieces + held => drop(image.held.remove(k - unsent - pieces)),
        _ if k < unsent + pieces + held + image.ready.len() => drop(image.ready.remove(k - unsent - pieces - held)),
        _ => return None,
    }
    Some(image)
}

/// Leaves out entries of images that are given to restore.
fn smaller_images(command: &str, input: &mut Input) {
    for i in 0..input.items.len() {
        let mut k = 0;
        loop {
            let item = &input.items[i];
            if input.program != Program::Calls || item[0] != 8 {
                break;
            }
            let Some(shorter) = read(&item[7..]).and_then(|image| without_entry(&image, k)) else { break };
            let mut tried = input.clone();
            tried.items[i] = restore_item((item[1] as usize) << 8 | item[2] as usize, &shorter.bytes());
            if differs(command, &tried) {
                *input = tried;
            } else {
                k += 1;
            }
        }
    }
}

fn fewer_cells(command: &str, input: &mut Input) {
    for cells in 1..16u16 {
        let mut tried = input.clone();
        tried.head = cells.to_be_bytes().to_vec();
        if input.program == Program::Calls && tried.head < input.head && differs(command, &tried) {
            *input = tried;
            return;
        }
    }
}

pub fn smallest(command: &str, from: &Input) -> Input {
    let mut input = from.clone();
    let mut without_tail = input.clone();
    without_tail.tail.clear();
    if differs(command, &without_tail) {
        input = without_tail;
    }
    loop {
        let before = input.bytes();
        fewer_items(command, &mut input);
        fewer_frames(command, &mut input);
        fewer_cells(command, &mut input);
        lower_drops(command, &mut input);
        smaller_images(command, &mut input);
        if input.bytes() == before {
            return input;
        }
    }
}
