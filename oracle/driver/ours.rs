//! Our calls, over bindings/poghduka.rs and the static libraries, with vectors where a comparison wants them. A number is document 01's
//! refusal. "The Rust is the yardstick for the console profile only": all is of that profile.
#[path = "../../bindings/poghduka.rs"]
mod poghduka;

pub use poghduka::{FramesRead, Received as Report, ReliableWindow, HEAD_BYTES, MAX_DATAGRAM};
/// (For speed/.)
#[allow(unused_imports)]
pub use poghduka::PIECE_HEADER;
use poghduka::{CellRecord, Profile, RecvQueue, Refused, CELL_BYTES, IMAGE_BYTES, IMAGE_CELL_BYTES, LIST_BYTES, MAX_MISSING};

fn number(Refused(number): Refused) -> u32 {
    number
}

/// How many frames a datagram has, and the bytes left. (For speed/.)
#[allow(dead_code)]
pub fn read_frames(datagram: &[u8]) -> FramesRead {
    poghduka::read_frames(Profile::Console, datagram, HEAD_BYTES)
}

pub struct Window(pub ReliableWindow);

impl Window {
    pub fn new() -> Window {
        Window(ReliableWindow::new())
    }

    pub fn low(&self) -> u32 {
        self.0.low
    }

    /// The refusal, or 0.
    pub fn insert(&mut self, n: u32) -> u32 {
        self.0.insert(n).map_or_else(number, |()| 0)
    }

    pub fn missing(&self) -> Vec<u32> {
        let mut list = vec![0; MAX_MISSING];
        let n = self.0.missing(&mut list).len();
        list.truncate(n);
        list
    }
}

/// The bytes of the numbers as an ACK or NACK, in an output of `room` bytes, or the refusal.
pub fn write_list(room: usize, nack: bool, numbers: &[u32]) -> Result<Vec<u8>, u32> {
    poghduka::write_list(&mut vec![0; room], nack, numbers).map(|s| s.to_vec()).map_err(number)
}

/// How many bytes were written; 0 on a refusal. (For speed/.)
#[allow(dead_code)]
pub fn write_list_into(out: &mut [u8], nack: bool, numbers: &[u32]) -> usize {
    poghduka::write_list(out, nack, numbers).map_or(0, |s| s.len())
}

/// How many bytes of the output the frame of piece k takes.
pub fn write_piece(data: &[u8], mtu: u16, id: u16, k: u32, channel: u8, order: u32, reliable: u32, out: &mut [u8]) -> Result<usize, u32> {
    poghduka::write_piece(data, mtu, id, k, channel, order, reliable, out).map_err(number)
}

/// How long an image of so many cells may be. (For speed/.)
#[allow(dead_code)]
pub fn image_room(cells: usize) -> usize {
    IMAGE_BYTES + cells * IMAGE_CELL_BYTES
}

/// A receiver with what it is lent: records, store, a joining buffer and an output.
pub struct Receiver {
    queue: Box<RecvQueue>,
    records: Vec<CellRecord>,
    store: Vec<u8>,
    joined: Vec<u8>,
    out: Vec<u8>,
}

impl Receiver {
    /// A new receiver of so many cells, with room to join so many bytes.
    pub fn new(cells: usize, room: usize) -> Receiver {
        let mut records = vec![CellRecord::UNUSED; cells];
        let store = vec![0; CELL_BYTES * cells];
        let mut queue = Box::new(RecvQueue::BLANK);
        poghduka::make_new(&mut queue, &mut records, &store, Profile::Console).expect("a receiver is made");
        Receiver { queue, records, store, joined: vec![0; room], out: vec![0; LIST_BYTES] }
    }

    pub fn receive(&mut self, datagram: &[u8]) -> Result<Report, u32> {
        poghduka::receive(&mut self.queue, &mut self.records, &mut self.store, datagram).map_err(number)
    }

    /// The body of the earliest ready message.
    pub fn take(&mut self) -> Result<&[u8], u32> {
        poghduka::take(&self.queue, &mut self.records, &self.store, &mut self.joined).map(|m| m.body).map_err(number)
    }

    /// The unsent numbers as ACK, which empties them.
    pub fn write_unsent(&mut self) -> Result<&[u8], u32> {
        poghduka::write_unsent(&mut self.queue, &mut self.out).map_err(number)
    }

    /// The missing numbers as NACK.
    pub fn write_missing(&mut self) -> Result<&[u8], u32> {
        poghduka::write_missing(&self.queue, &mut self.out).map_err(number)
    }
    /// Its image. (For speed/.)
    #[allow(dead_code)]
    pub fn save<'a>(&self, out: &'a mut [u8]) -> Result<&'a [u8], u32> {
        poghduka::save(&self.queue, &self.records, &self.store, out).map_err(number)
    }

    /// Restored from an image, over the same cells. (For speed/.)
    #[allow(dead_code)]
    pub fn restore(&mut self, image: &[u8]) -> Result<(), u32> {
        poghduka::restore(&mut self.queue, &mut self.records, &mut self.store, image).map_err(number)
    }
}
