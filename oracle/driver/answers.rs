//! The original's answers as the stored input of program `replay_original` (its format stands in that program's source).
use crate::lists;
use crate::random::Random;
use rak_rs::oracle::{FragmentQueue, ReliableWindow};

const LOW: u8 = 2;

pub fn item(out: &mut Vec<u8>, tag: u8, payload: &[u8]) {
    out.push(tag);
    out.extend_from_slice(&(payload.len() as u16).to_be_bytes());
    out.extend_from_slice(payload);
}

fn answer(payload: &mut Vec<u8>, n: u32, told: u8) {
    payload.extend_from_slice(&n.to_le_bytes()[..3]);
    payload.push(told);
}

/// A new window's answers to the numbers, and its low after the last.
fn window(out: &mut Vec<u8>, numbers: &mut dyn FnMut(u32) -> Option<u32>) -> u64 {
    let mut original = ReliableWindow::new();
    let mut payload = Vec::new();
    while let Some(n) = numbers(original.range().0) {
        answer(&mut payload, n, original.insert(n) as u8);
    }
    answer(&mut payload, original.range().0, LOW);
    item(out, b'W', &payload);
    payload.len() as u64 / 4
}

fn windows(out: &mut Vec<u8>, r: &mut Random) -> u64 {
    let around = [0, 1, 2, 2047, 2048, 2049, 2050, 2051];
    let mut done = 0;
    for code in 0..8usize.pow(3) {
        let mut numbers = (0..3).map(|i| around[code / 8usize.pow(i) % 8]);
        done += window(out, &mut |_| numbers.next());
    }
    for _ in 0..20 {
        let mut left = r.between(20, 100);
        done += window(out, &mut |low| {
            left = left.checked_sub(1)?;
            Some(match r.below(6) {
                0 => low + r.between(2040, 2052),
                1 => low.saturating_sub(r.below(5)),
                2..=3 => low + r.below(6),
                _ => low,
            })
        });
    }
    done
}

fn list(out: &mut Vec<u8>, numbers: &[u32]) -> u64 {
    if !lists::referred(numbers) {
        return 0;
    }
    let mut payload = (numbers.len() as u16).to_be_bytes().to_vec();
    for n in numbers {
        payload.extend_from_slice(&n.to_le_bytes()[..3]);
    }
    payload.extend_from_slice(&lists::original(numbers, false));
    item(out, b'A', &payload);
    1
}

fn lists(out: &mut Vec<u8>, r: &mut Random) -> u64 {
    let mut done = 0;
    for set in 0..1u32 << 7 {
        let numbers: Vec<u32> = (0..7).filter(|i| set >> i & 1 == 1).collect();
        done += list(out, &numbers);
    }
    for _ in 0..150 {
        done += list(out, &lists::ascending(r, 30));
    }
    done + list(out, &(1000..3048).collect::<Vec<u32>>())
}

fn split(out: &mut Vec<u8>, len: u32, mtu: u16) -> u64 {
    let frames = FragmentQueue::split(&vec![0; len as usize], 0, mtu).unwrap_or_default();
    let length = |i: Option<usize>| i.and_then(|i| frames.get(i)).map_or(0, |f| f.body.len() as u16);
    let mut payload = len.to_be_bytes().to_vec();
    for x in [mtu, frames.len() as u16, length(Some(0)), length(frames.len().checked_sub(1))] {
        payload.extend_from_slice(&x.to_be_bytes());
    }
    item(out, b'S', &payload);
    1
}

fn splits(out: &mut Vec<u8>, r: &mut Random) -> u64 {
    let mut done = 0;
    for mtu in [61, 62, 100, 576, 1400, 1500] {
        let chunk = mtu as u32 - 60;
        for len in [0, 1, chunk - 1, chunk, chunk + 1, 2 * chunk, 2 * chunk + 1, 3 * chunk - 1, 45 * chunk] {
            done += split(out, len, mtu);
        }
    }
    for _ in 0..250 {
        let mtu = r.between(61, 1500);
        done += split(out, r.below((20 * (mtu - 60)).min(60_000)), mtu as u16);
    }
    done + split(out, 1024, 61)
}

/// The input, and how many answers it has.
pub fn input(seed: u64) -> (Vec<u8>, [u64; 3]) {
    let mut r = Random::new(seed);
    let mut out = Vec::new();
    let note = format!(
        "Answers of NetrexMC/RakNet 799a339d53, window.rs, ack.rs and queue/mod.rs unchanged. \
         Made by: oracle/build.sh SOURCES; target/oracle/compare answers {seed} > crates/replay_original/stdin\n"
    );
    item(&mut out, b'#', note.as_bytes());
    let done = [windows(&mut out, &mut r), lists(&mut out, &mut r), splits(&mut out, &mut r)];
    (out, done)
}
