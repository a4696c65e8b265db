//! Replays a recording as the program `trace` does, and prints what `trace` prints, over the module `poghduka`.
//!
//! Standard input has datagrams, each after a 16-bit big-endian length; a cut last one is skipped. After each datagram all ready messages
//! are taken and the acknowledgements written. Per datagram one line: its number ('-' for 9, 1, 2, 3), refusal or 0, ready, dropped; then
//! per message '+' and its length.
mod poghduka;

use poghduka::{make_new, receive, take, write_unsent, CellRecord, Profile, Received, RecvQueue, Refused, CELL_BYTES, UNSENT_BYTES};
use std::io::{Read, Result, Write};

const CELLS: usize = 32;
const STORE: usize = CELLS * CELL_BYTES;

fn main() -> Result<()> {
    let mut queue = RecvQueue::BLANK;
    let mut records = [CellRecord::UNUSED; CELLS];
    let mut store = [0; STORE];
    let mut joined = [0; STORE];
    let mut out = [0; UNSENT_BYTES];
    let mut input = [0; 65535];
    let mut from = std::io::stdin().lock();
    let mut to = std::io::BufWriter::new(std::io::stdout().lock());
    make_new(&mut queue, &mut records, &store, Profile::Console).expect("32 cells are within the limits");

    let mut head = [0; 2];
    while from.read_exact(&mut head).is_ok() {
        let len = u16::from_be_bytes(head) as usize;
        if from.read_exact(&mut input[..len]).is_err() {
            break;
        }
        let datagram = &input[..len];
        let (number, Received { ready, dropped, .. }) = match receive(&mut queue, &mut records, &mut store, datagram) {
            Ok(report) => (0, report),
            Err(Refused(number)) => (number, Received::default()),
        };
        match number {
            9 | 1 | 2 | 3 => write!(to, "-")?,
            _ => write!(to, "{}", u32::from_le_bytes([datagram[1], datagram[2], datagram[3], 0]))?,
        }
        writeln!(to, " {number} {ready} {dropped}")?;
        while let Ok(message) = take(&queue, &mut records, &store, &mut joined) {
            writeln!(to, "+ {}", message.body.len())?;
        }
        let _ = write_unsent(&mut queue, &mut out);
    }
    to.flush()
}
