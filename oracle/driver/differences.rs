//! The intended differences, each on its smallest input: what the original does, run here, and what ours does.
use crate::datagrams::{Datagram, Fields};
use crate::lists;
use crate::ours;
use rak_rs::oracle::{FragmentQueue, RecvQueue, ReliableWindow};
use std::panic::catch_unwind;

fn say(input: &str, original: String, ours: String) {
    println!("{input}\n    the original: {original}\n    ours: {ours}");
}

fn windows() {
    let mut original = ReliableWindow::new();
    let mut w = ours::Window::new();
    let told = |a: bool, n: u32| (if a { "accepted" } else { "refused" }.to_string(), n.to_string());
    let (a, b) = told(original.insert(2049), w.insert(2049));
    say("window: new, insert 2049", a, b);
    original.insert(2);
    w.insert(2);
    let missing = original.missing();
    say("window: new, insert 2; the missing list", format!("{} numbers, {:?} ..", missing.len(), &missing[..4]), format!("{:?}", w.missing()));
    let mut original = ReliableWindow::new();
    let mut w = ours::Window::new();
    for n in 0..(1 << 24) - 2048 {
        original.insert(n);
        w.insert(n);
    }
    let (a, b) = told(original.insert(1 << 24), w.insert(1 << 24));
    say("window: 0 to 16775167, then insert 16777216", a, b);
}

fn list(numbers: &[u32]) {
    let original = lists::original(numbers, false);
    let ours = match ours::write_list(20_000, false, numbers) {
        Ok(bytes) => hex(&bytes),
        Err(number) => number.to_string(),
    };
    let name = if numbers.len() > 3 { format!("{} numbers, one apart", numbers.len()) } else { format!("{numbers:?}") };
    say(&format!("ACK of {name}"), hex(&original), ours);
}

fn hex(bytes: &[u8]) -> String {
    let told: Vec<String> = bytes.iter().take(24).map(|b| format!("{b:02x}")).collect();
    told.join(" ") + if bytes.len() > 24 { " .." } else { "" }
}

fn split(len: usize, mtu: u16) {
    let original = match catch_unwind(|| FragmentQueue::split(&vec![0; len], 0, mtu).map(|f| f.len())) {
        Ok(Ok(pieces)) => format!("{pieces} pieces"),
        Ok(Err(e)) => format!("{e:?}"),
        Err(_) => "panics".to_string(),
    };
    let number = ours::write_piece(&vec![0; len], mtu, 0, 0, 0, 0, 0, &mut [0; ours::MAX_DATAGRAM]).err().unwrap_or(0);
    say(&format!("split of {len} bytes at mtu {mtu}"), original, number.to_string());
}

/// The last piece of two bytes.
fn last_piece() {
    let data = [0x41, 0x42];
    let original = &FragmentQueue::split(&data, 7, 61).unwrap()[1];
    let mut out = [0; ours::MAX_DATAGRAM];
    let n = ours::write_piece(&data, 61, 7, 1, 2, 3, 4, &mut out).unwrap();
    say("split of 41 42 at mtu 61, id 7; piece 1 on channel 2, order number 3, reliable number 4", format!("{original:?}"), hex(&out[..n]));
}

/// One frame of kind 3 on channel 0, its body one byte.
fn ordered(kind: u8, reliable: u32, order: u32) -> Fields {
    Fields { kind, reliable, order, body: vec![0x40 + order as u8], ..Fields::default() }
}

/// One frame of kind 1 on channel 0 or of kind 4, its body one byte.
fn sequenced(kind: u8, reliable: u32, sequence: u32) -> Fields {
    Fields { kind, reliable, sequence, body: vec![0x40 + sequence as u8], ..Fields::default() }
}

fn piece(kind: u8, reliable: u32, count: u32, index: u32) -> Fields {
    Fields { kind, reliable, piece: Some((count, 0, index)), body: vec![0x40 + index as u8], ..Fields::default() }
}

/// What both do with the datagrams, taking all ready after each.
fn receiver(what: &str, datagrams: &[Datagram]) {
    let mut original = RecvQueue::new();
    let mut receiver = ours::Receiver::new(32, 65535);
    let (mut told, mut answered) = (Vec::new(), Vec::new());
    for d in datagrams {
        let accepted = original.insert(d.original()).is_ok();
        let bodies: Vec<String> = original.flush().iter().map(|b| hex(b)).collect();
        told.push(format!("{}[{}]", if accepted { "" } else { "refused " }, bodies.join(", ")));
        let report = receiver.receive(&d.bytes());
        let mut bodies = Vec::new();
        while let Ok(body) = receiver.take() {
            bodies.push(hex(body));
        }
        answered.push(match report {
            Ok(r) => format!("[{}], dropped {}", bodies.join(", "), r.dropped),
            Err(number) => number.to_string(),
        });
    }
    let mut acks = original.ack_flush();
    acks.sort_unstable();
    let mut nacks = original.nack_queue();
    nacks.sort_unstable();
    let last = told.len().saturating_sub(3);
    let ours = format!("{}; missing {}", answered[last..].join("; "), hex(receiver.write_missing().unwrap_or(&[])));
    say(what, format!("{}; acknowledged {}, missing {nacks:?}", told[last..].join("; "), acks.len()), ours);
}

fn receivers() {
    let d = |number: u32, frames: Vec<Fields>| Datagram { number, frames };
    let on = |channel: u8, f: Fields| Fields { channel, ..f };
    let cases: Vec<(&str, Vec<Datagram>)> = vec![
        ("kind 3, order 1 before 0", vec![d(0, vec![ordered(3, 0, 1)]), d(1, vec![ordered(3, 1, 0)])]),
        ("kind 7, order 1 alone", vec![d(0, vec![ordered(7, 0, 1)])]),
        ("kind 7, order 0 again under a fresh reliable number", vec![d(0, vec![ordered(7, 0, 0)]), d(1, vec![ordered(7, 1, 0)])]),
        ("kind 3, order 1 as one piece of count 1", vec![d(0, vec![Fields { order: 1, ..piece(3, 0, 1, 0) }])]),
        ("kind 3, order 0 on channel 32", vec![d(0, vec![on(32, ordered(3, 0, 0))])]),
        ("first piece of an id: index 2 of count 2", vec![d(0, vec![piece(2, 0, 2, 2)]), d(1, vec![piece(2, 1, 2, 0)])]),
        ("first piece of count 0, then a piece of count 1 with its id", vec![d(0, vec![piece(2, 0, 0, 0)]), d(1, vec![piece(2, 1, 1, 0)])]),
        ("pieces of one id with counts 2 and 3", vec![d(0, vec![piece(2, 0, 2, 0)]), d(1, vec![piece(2, 1, 3, 1)])]),
        ("pieces of one id with kinds 2 and 0", vec![d(0, vec![piece(2, 0, 2, 0)]), d(1, vec![piece(0, 0, 2, 1)])]),
        ("reliable number 2049 on a new receiver", vec![d(0, vec![Fields { kind: 2, reliable: 2049, ..Fields::default() }])]),
        ("kind 1, sequence number 1 before 0", vec![d(0, vec![sequenced(1, 0, 1)]), d(1, vec![sequenced(1, 0, 0)])]),
        ("kind 4, sequence number 0 twice, reliable numbers 0 and 1", vec![d(0, vec![sequenced(4, 0, 0)]), d(1, vec![sequenced(4, 1, 0)])]),
        ("kind 1, sequence number 0 as one piece of count 1, twice", vec![d(0, vec![piece(1, 0, 1, 0)]), d(1, vec![piece(1, 0, 1, 0)])]),
        ("datagrams 2 and 1: the missing", vec![d(2, vec![]), d(1, vec![])]),
        ("33 frames of kind 0 on 32 cells", vec![d(0, vec![Fields::default(); 33])]),
        ("1,025 datagrams and no acknowledgement sent", (0..1025).map(|n| d(n, vec![])).collect()),
        ("datagram of 1,501 bytes", vec![d(0, vec![Fields { body: vec![1; 1494], ..Fields::default() }])]),
    ];
    for (what, datagrams) in &cases {
        receiver(what, datagrams);
    }
}

pub fn all() {
    windows();
    list(&[0]);
    list(&[0, 1]);
    list(&[2, 1]);
    list(&[1, 1]);
    list(&(0..2049).map(|i| 2 * i + 2).collect::<Vec<u32>>());
    std::panic::set_hook(Box::new(|_| {}));
    for (len, mtu) in [(0, 60), (1, 60), (0, 59), (1, 59), (1442, 1501), (1025, 61), (1440, 1500)] {
        split(len, mtu);
    }
    let _ = std::panic::take_hook();
    last_piece();
    receivers();
}
