//! The original's answers of whole receivers as the stored input of program `replay_receivers` (its format stands in that program's source).
use crate::answers::item;
use crate::calls::{Call, Expected};
use crate::random::Random;
use crate::receivers::{Original, Step};
use crate::references::within;
use crate::senders::Sender;

/// Cells, the longest datagram and how many datagrams. The program holds 256 records and joins up to 65,536 bytes.
const RECEIVERS: [(usize, usize, usize); 7] = [(1, 1500, 100), (2, 1500, 100), (8, 200, 300), (32, 1500, 150), (32, 200, 550), (33, 200, 300), (256, 400, 500)];

/// From 1 on, for each byte h = (31 h + byte) mod 65521.
fn sum(body: &[u8]) -> u16 {
    body.iter().fold(1u64, |h, &b| (31 * h + b as u64) % 65521) as u16
}

fn received(out: &mut Vec<u8>, number: u32, ready: usize, datagram: &[u8]) {
    let mut payload = vec![number as u8];
    payload.extend_from_slice(&(ready as u16).to_be_bytes());
    payload.extend_from_slice(datagram);
    item(out, b'R', &payload);
}

fn taken(out: &mut Vec<u8>, body: &[u8]) {
    let mut payload = (body.len() as u32).to_be_bytes().to_vec();
    payload.extend_from_slice(&sum(body).to_be_bytes());
    item(out, b'T', &payload);
}

/// One call with its answer, and which of the counts it belongs to. A take that finds none ready is left out.
fn call(out: &mut Vec<u8>, call: &Call, expected: &Expected) -> Option<usize> {
    match (call, expected) {
        (Call::Receive(d), Expected::Received { ready }) => received(out, 0, *ready, d),
        (Call::Receive(d), Expected::Refused(number)) => received(out, *number, 0, d),
        (Call::Take, Expected::Bytes(body)) => taken(out, body),
        (Call::Unsent, Expected::Bytes(list)) => item(out, b'U', list),
        (Call::Missing, Expected::Bytes(list)) => item(out, b'M', list),
        _ => return None,
    }
    Some(match call {
        Call::Receive(_) => 0,
        Call::Take => 1,
        Call::Unsent => 2,
        Call::Missing => 3,
    })
}

/// The input, and how many datagrams, messages, unsent and missing lists it has.
pub fn input(seed: u64) -> (Vec<u8>, [u64; 4]) {
    let mut r = Random::new(seed);
    let mut out = Vec::new();
    let mut counts = [0; 4];
    let note = format!(
        "Answers of NetrexMC/RakNet 799a339d53, queue/recv.rs unchanged, on random datagrams within document 01's 'References'. \
         Made by: oracle/build.sh SOURCES; target/oracle/compare stored {seed} > crates/replay_receivers/stdin\n"
    );
    item(&mut out, b'#', note.as_bytes());
    for (cells, longest, datagrams) in RECEIVERS {
        let mut sender = Sender::new(cells, longest);
        let steps: Vec<Step> = (0..datagrams).map(|_| sender.step(&mut r)).collect();
        assert!(within(cells, &steps));
        item(&mut out, b'N', &(cells as u16).to_be_bytes());
        let mut original = Original::new();
        let mut calls = Vec::new();
        steps.iter().for_each(|step| original.step(step, &mut calls));
        for (c, expected) in &calls {
            if let Some(which) = call(&mut out, c, expected) {
                counts[which] += 1;
            }
        }
    }
    (out, counts)
}
