//! A receiver saved and restored, beside a plain copy of its image: empty, half full and full, with short and with long bodies. The pieces lie
//! in the cells in no order, so that a save has to sort. And held messages that came in falling order, and an image that is refused for its
//! last piece.
use crate::clock;
use crate::datagrams::{Datagram, Fields};
use crate::ours::{image_room, Receiver};
use crate::Figure;
use std::hint::black_box;

const CELLS: [usize; 2] = [32, 4096];
const LENGTHS: [usize; 2] = [10, 1400];

/// Piece i of messages that never become whole; an odd factor, so that all differ, and come in no order.
fn open(i: usize) -> Fields {
    let j = i * 1597 % 4096;
    Fields { kind: 0, piece: Some((1024, (j / 1000) as u16, (j % 1000) as u32)), ..Fields::default() }
}

/// A message that waits for order number 0 and comes before those of lower numbers.
fn held(i: usize) -> Fields {
    Fields { kind: 3, reliable: i as u32, order: 4096 - i as u32, ..Fields::default() }
}

/// As many cells in use, each with a body of so many bytes.
fn filled(cells: usize, used: usize, len: usize, of: fn(usize) -> Fields) -> Receiver {
    let mut receiver = Receiver::new(cells, 0);
    let frame = |i: usize| Fields { body: vec![i as u8; len], ..of(i) };
    let a_datagram = 1400 / (len + 13);
    for (number, first) in (0..used).step_by(a_datagram.max(1)).enumerate() {
        let frames = (first..used.min(first + a_datagram.max(1))).map(frame).collect();
        receiver.receive(&Datagram { number: number as u32, frames }.bytes()).expect("the cells suffice");
        receiver.write_unsent().expect("the unsent are sent");
    }
    receiver
}

/// Nanoseconds a call.
fn time(calls: usize, mut call: impl FnMut()) -> f64 {
    let start = clock::nanoseconds();
    for _ in 0..calls {
        call();
    }
    (clock::nanoseconds() - start) / calls as f64
}

/// Medians of copy, save and restore, and the image's length.
struct Row {
    figures: [Figure; 3],
    bytes: usize,
}

/// A round times each once.
fn row(rounds: usize, from: &Receiver, cells: usize) -> Row {
    let mut to = Receiver::new(cells, 0);
    let (mut image, mut other) = (vec![0; image_room(cells)], vec![0; image_room(cells)]);
    let bytes = from.save(&mut image).expect("there is room").len();
    let calls = (20_000_000 / (bytes + 100 * cells)).clamp(5, 2000);
    let mut times = [const { Vec::new() }; 3];
    for _ in 0..rounds {
        times[0].push(time(calls, || other[..bytes].copy_from_slice(black_box(&image[..bytes]))));
        times[1].push(time(calls, || assert_eq!(from.save(&mut other).map(|s| s.len()), Ok(bytes))));
        times[2].push(time(calls, || assert_eq!(to.restore(black_box(&image[..bytes])), Ok(()))));
    }
    assert_eq!(to.save(&mut other), Ok(&image[..bytes]));
    Row { figures: times.map(Figure::of), bytes }
}

/// What an image costs more than the empty receiver's, for each used cell; and what longer bodies cost, for each byte.
fn slopes(cells: usize, rows: &[(usize, usize, Row)]) {
    let used_by = |len: usize, used: usize| rows.iter().find(|r| r.0 == len && r.1 == used).map(|r| &r.2).expect("it was timed");
    let [short, long] = LENGTHS;
    for (place, name) in [(0, "copy"), (1, "save"), (2, "restore")] {
        let at = |len, used| used_by(len, used).figures[place].median;
        let cell = |used: usize| (at(short, used) - at(short, 0)) / used as f64;
        let byte = (at(long, cells) - at(short, cells)) / (cells * (long - short)) as f64;
        println!("    {name}: a used cell {:.1} half full, {:.1} full; a body's byte {byte:.3}", cell(cells / 2), cell(cells));
    }
}

/// A restore of the full receiver's image with kind 8 in its last piece, which gets 22; no body is empty.
fn refused(rounds: usize, cells: usize, len: usize) -> Figure {
    let (from, mut to) = (filled(cells, cells, len, open), Receiver::new(cells, 0));
    let mut image = vec![0; image_room(cells)];
    let bytes = from.save(&mut image).expect("there is room").len();
    image[bytes - 8 - len - 72 + 31] = 8;
    Figure::of((0..rounds).map(|_| time(5, || assert_eq!(to.restore(black_box(&image[..bytes])), Err(22)))).collect())
}

fn told(name: &str, r: &Row) {
    let [copy, save, restore] = &r.figures;
    println!("    {name}: an image of {} bytes, copied in {}", r.bytes, copy.told());
    println!("        save {:28} ratio {:.2}", save.told(), save.median / copy.median);
    println!("        restore {:25} ratio {:.2}", restore.told(), restore.median / copy.median);
}

/// Nanoseconds, and the ratio to a copy of as many bytes.
pub fn all(rounds: usize) {
    for cells in CELLS {
        let mut rows = Vec::new();
        println!("images of {cells} cells");
        for len in LENGTHS {
            for used in [0, cells / 2, cells] {
                let r = row(rounds, &filled(cells, used, len, open), cells);
                told(&format!("{used} in use, bodies of {len} bytes"), &r);
                rows.push((len, used, r));
            }
        }
        slopes(cells, &rows);
        told(&format!("{cells} held messages of 10 bytes"), &row(rounds, &filled(cells, cells, 10, held), cells));
        println!("    a restore refused by 22 for its last of {cells} pieces: {}", refused(rounds, cells, 10).told());
    }
}
