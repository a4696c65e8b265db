//! Poghduka's calls for Rust on x86-64: the receiving end of RakNet, proved. Safe functions over the static libraries `exports_queue`,
//! `exports_frames` and `exports`; slices in and out, no heap, no `std`. Take this file into a program as `mod poghduka;` and link:
//!
//! ```text
//! bindings/libraries.sh
//! rustc main.rs -L native=target/staticlib -l static=exports_queue -l static=exports_frames -l static=exports
//! ```
//!
//! The caller owns receiver, records, store and buffers; a call borrows them and keeps nothing. A refusal changes nothing that was lent.
//! include/poghduka.h tells more of the numbers and sizes.
#![allow(dead_code)] // a program may make only some of the calls

/// A receiver has 1 to so many cells,
pub const MAX_CELLS: usize = 4096;
/// and exactly so many bytes of store for each.
pub const CELL_BYTES: usize = 1500;
pub const MAX_DATAGRAM: usize = 1500;
/// The longest body of a frame that is written.
pub const MAX_BODY: usize = 8191;
/// A datagram's head; its frames begin here.
pub const HEAD_BYTES: usize = 4;
/// The header of a frame that `write_piece` writes; at most mtu - 60 bytes follow.
pub const PIECE_HEADER: usize = 20;
/// How many numbers a window can lack.
pub const MAX_MISSING: usize = 2048;
/// Outputs that always have room: for the unsent, for the missing, for any list,
pub const UNSENT_BYTES: usize = 4099;
pub const MISSING_BYTES: usize = 4784;
pub const LIST_BYTES: usize = 8195;
/// and for an image: so many, and so many more for each cell in use.
pub const IMAGE_BYTES: usize = 9284;
pub const IMAGE_CELL_BYTES: usize = 1572;

/// The number of a refusal, 1 to 22.
#[derive(Clone, Copy, Debug, PartialEq, Eq)]
pub struct Refused(pub u32);

fn refused<T>(number: u32, value: T) -> Result<T, Refused> {
    if number == 0 { Ok(value) } else { Err(Refused(number)) }
}

/// Who sends. A receiver is made for one and keeps it; frames are read and written under one.
#[repr(u32)]
#[derive(Clone, Copy, Debug, PartialEq, Eq)]
pub enum Profile {
    /// Kind 4 has neither order number nor channel; a length in bits is rounded down to whole bytes.
    Console = 0,
    /// Hosts on RakNet's own C++ library: kind 4 has both, and a length in bits is rounded up.
    Cpp = 1,
}

// ---- the receiver

/// The numbers accepted: all below `low`, and of the 2,048 above `low` those whose bit is set.
#[repr(C)]
#[derive(Clone, Copy)]
pub struct ReliableWindow {
    pub low: u32,
    pub bits: [u8; 256],
}

/// A channel. `newest` is at most 2^24, and 0 where no message that it goes by has been ready.
#[repr(C)]
#[derive(Clone, Copy)]
pub struct Channel {
    /// The order number that is made ready next.
    pub next: u32,
    /// One more than the newest sequence number made ready by kind 1, and by kind 4 in the C++ profile; a number below it is late, and
    /// dropped.
    pub newest: u32,
}

/// A receiver. The first `pending` of `unsent` are the datagram numbers not yet acknowledged.
#[repr(C)]
#[derive(Clone, Copy)]
pub struct RecvQueue {
    pub datagrams: ReliableWindow,
    pub reliables: ReliableWindow,
    pub channels: [Channel; 32],
    pub unsent: [u32; 1024],
    pub pending: u32,
    /// For kind 4 in the console profile what a channel's is for kind 1.
    pub newest: u32,
    /// The number of a `Profile`; any other is unsound.
    pub profile: u32,
}

/// One record stands beside each cell; `used` is 0 where the cell is free.
#[repr(C)]
#[derive(Clone, Copy)]
pub struct CellRecord {
    pub used: u32,
    pub kind: u32,
    pub channel: u32,
    pub id: u32,
    pub index: u32,
    pub count: u32,
    pub length: u32,
    pub sequence: u32,
    pub order: u32,
    pub turn: u32,
    /// Of an unfinished message: datagrams accepted since the last that a piece of it was kept from; at most 2^32.
    pub age: u64,
}

// The libraries lay them out so.
const _: () = assert!(core::mem::size_of::<Channel>() == 8 && core::mem::size_of::<RecvQueue>() == 4884);
const _: () = assert!(core::mem::size_of::<CellRecord>() == 48);

impl ReliableWindow {
    /// A window that has accepted nothing.
    pub const NEW: ReliableWindow = ReliableWindow { low: 0, bits: [0; 256] };
}

impl RecvQueue {
    /// Something to lend to `make_new`, which fills it in.
    pub const BLANK: RecvQueue = RecvQueue {
        datagrams: ReliableWindow::NEW,
        reliables: ReliableWindow::NEW,
        channels: [Channel { next: 0, newest: 0 }; 32],
        unsent: [0; 1024],
        pending: 0,
        newest: 0,
        profile: Profile::Console as u32,
    };
}

impl CellRecord {
    pub const UNUSED: CellRecord =
        CellRecord { used: 0, kind: 0, channel: 0, id: 0, index: 0, count: 0, length: 0, sequence: 0, order: 0, turn: 0, age: 0 };
}

/// Messages made ready, frames dropped, and bytes after the last frame that fits.
#[derive(Clone, Copy, Debug, Default, PartialEq, Eq)]
pub struct Received {
    pub ready: u32,
    pub dropped: u32,
    pub left: usize,
}

/// A message. Its body is part of the store or of the joining buffer.
#[derive(Clone, Copy, Debug, PartialEq, Eq)]
pub struct Message<'a> {
    pub kind: u8,
    pub channel: u8,
    pub order: u32,
    pub body: &'a [u8],
}

/// A new receiver for a profile with a cell for each record; the store is exactly `CELL_BYTES` for each, also in every later call.
/// Refusals: 9.
pub fn make_new(queue: &mut RecvQueue, records: &mut [CellRecord], store: &[u8], profile: Profile) -> Result<(), Refused> {
    let (cells, bytes) = (records.len(), store.len());
    let number = unsafe { linked::poghduka_make_new(queue, records.as_mut_ptr(), cells, store.as_ptr(), bytes, profile as u32) };
    refused(number, ())
}

/// Takes in one datagram. Refusals: 9, 1 to 8.
pub fn receive(queue: &mut RecvQueue, records: &mut [CellRecord], store: &mut [u8], datagram: &[u8]) -> Result<Received, Refused> {
    let (cells, bytes) = (records.len(), store.len());
    let r = unsafe {
        linked::poghduka_receive(queue, records.as_mut_ptr(), cells, store.as_mut_ptr(), bytes, datagram.as_ptr(), datagram.len())
    };
    refused(r.number, Received { ready: r.ready, dropped: r.dropped, left: r.left })
}

/// Hands out the message that became ready first, and frees its cells. A joining buffer as long as the store is always long enough.
/// Refusals: 9, 20, 12.
pub fn take<'a>(queue: &RecvQueue, records: &mut [CellRecord], store: &'a [u8], joined: &'a mut [u8]) -> Result<Message<'a>, Refused> {
    let (cells, bytes, room) = (records.len(), store.len(), joined.len());
    let t = unsafe { linked::poghduka_take(queue, records.as_mut_ptr(), cells, store.as_ptr(), bytes, joined.as_mut_ptr(), room) };
    let from = if t.joined { &*joined } else { store };
    refused(t.number, Message { kind: t.kind, channel: t.channel, order: t.order, body: &from[t.start..t.start + t.len] })
}

/// Drops every unfinished message whose kind carries no reliable number, and since whose last kept piece more than n further datagrams were
/// accepted; how many cells it freed. Refusals: 9.
pub fn drop_unfinished(queue: &RecvQueue, records: &mut [CellRecord], store: &[u8], n: u32) -> Result<u32, Refused> {
    let (cells, bytes) = (records.len(), store.len());
    let d = unsafe { linked::poghduka_drop_unfinished(queue, records.as_mut_ptr(), cells, store.as_ptr(), bytes, n) };
    refused(d.number, d.freed)
}

/// The unsent acknowledgements as an ACK; none is unsent afterwards. Refusals: 9, 12.
pub fn write_unsent<'a>(queue: &mut RecvQueue, out: &'a mut [u8]) -> Result<&'a [u8], Refused> {
    let w = unsafe { linked::poghduka_write_unsent(queue, out.as_mut_ptr(), out.len()) };
    refused(w.number, &out[..w.len])
}

/// The datagram numbers missing, as a NACK. Refusals: 9, 12.
pub fn write_missing<'a>(queue: &RecvQueue, out: &'a mut [u8]) -> Result<&'a [u8], Refused> {
    let w = unsafe { linked::poghduka_write_missing(queue, out.as_mut_ptr(), out.len()) };
    refused(w.number, &out[..w.len])
}

/// An image of the receiver, with all that its cells hold. Receivers that hold the same have the same image, wherever their cells lie.
/// Refusals: 9, 12.
pub fn save<'a>(queue: &RecvQueue, records: &[CellRecord], store: &[u8], out: &'a mut [u8]) -> Result<&'a [u8], Refused> {
    let (cells, bytes, room) = (records.len(), store.len(), out.len());
    let s = unsafe { linked::poghduka_save(queue, records.as_ptr(), cells, store.as_ptr(), bytes, out.as_mut_ptr(), room) };
    refused(s.number, &out[..s.len])
}

/// Restores the receiver of an image, whatever receiver and records held before; there may be more or fewer cells than the saved receiver
/// had. Of the store only the bodies are written. Refusals: 9 (for the lengths alone), 21, 22.
pub fn restore(queue: &mut RecvQueue, records: &mut [CellRecord], store: &mut [u8], image: &[u8]) -> Result<(), Refused> {
    let (cells, bytes) = (records.len(), store.len());
    let number = unsafe {
        linked::poghduka_restore(queue, records.as_mut_ptr(), cells, store.as_mut_ptr(), bytes, image.as_ptr(), image.len())
    };
    refused(number, ())
}

// ---- frames, a datagram's head and a split's pieces

/// Where a piece stands in its message.
#[repr(C)]
#[derive(Clone, Copy, Debug, Default, PartialEq, Eq)]
pub struct FragmentMeta {
    pub count: u32,
    pub id: u16,
    pub index: u32,
}

/// What a frame's header says. A field that the kind lacks in its profile is 0, and so is `meta` where the frame is no piece.
#[repr(C)]
#[derive(Clone, Copy, Debug, Default, PartialEq, Eq)]
pub struct Frame {
    pub kind: u8,
    pub reliable: u32,
    pub sequence: u32,
    pub order: u32,
    pub channel: u8,
    pub piece: bool,
    pub meta: FragmentMeta,
}

/// How many frames stand one after the other, and the bytes left from the first that doesn't fit.
#[derive(Clone, Copy, Debug, PartialEq, Eq)]
pub struct FramesRead {
    pub count: usize,
    pub left: usize,
}

/// A frame, its body, and the place after it.
#[derive(Clone, Copy, Debug, PartialEq, Eq)]
pub struct FrameFound<'a> {
    pub frame: Frame,
    pub body: &'a [u8],
    pub next: usize,
}

/// The frames from place `at` on; a datagram's first is at `HEAD_BYTES`. Nothing is refused.
pub fn read_frames(profile: Profile, s: &[u8], at: usize) -> FramesRead {
    let r = unsafe { linked::poghduka_read_frames(profile as u32, s.as_ptr(), s.len(), at) };
    FramesRead { count: r.count, left: r.left }
}

/// The frame at place `at`. Refusals: 1.
pub fn read_frame(profile: Profile, s: &[u8], at: usize) -> Result<FrameFound<'_>, Refused> {
    let r = unsafe { linked::poghduka_read_frame(profile as u32, s.as_ptr(), s.len(), at) };
    let p = r.placed;
    refused(r.number, FrameFound { frame: p.frame, body: &s[p.start..p.start + p.len], next: r.next })
}

/// Writes a frame from place `at` on; the place after it. Refusals: 15, 12.
pub fn write_frame(profile: Profile, out: &mut [u8], at: usize, frame: Frame, body: &[u8]) -> Result<usize, Refused> {
    let (room, len) = (out.len(), body.len());
    let w = unsafe { linked::poghduka_write_frame(profile as u32, out.as_mut_ptr(), room, at, frame, body.as_ptr(), len) };
    refused(w.number, w.next)
}

/// Writes 84 and the number, `HEAD_BYTES` in all. Refusals: 13, 12.
pub fn write_head(out: &mut [u8], number: u32) -> Result<(), Refused> {
    refused(unsafe { linked::poghduka_write_head(out.as_mut_ptr(), out.len(), number) }, ())
}

/// Writes piece k, from 0, of the data split for this mtu as a frame of kind 3 at the output's start: `PIECE_HEADER` bytes, then mtu - 60
/// bytes of the data, or for the last piece what is left of them; how many bytes were written. The frame is the same under both profiles.
///
/// To send a message: data of at most mtu - 60 bytes is not split (17); `write_frame` writes it whole, as kind 3. Else call with k = 0, 1,
/// 2 and so on as long as nothing is refused. 19 then says that every piece was written (16, 17 and 18 come for every k). At 12 call with
/// the same k and another output. To put several pieces into one datagram, lend the rest of the output. A datagram of
/// `HEAD_BYTES + PIECE_HEADER` and mtu - 60 bytes has room for one.
///
/// All pieces of a message have one id, which no other message has that may still be unfinished, one channel, and the channel's next order
/// number. Each piece has a reliable number of its own. Refusals: 16 to 19, 15, 12.
pub fn write_piece(
    data: &[u8],
    mtu: u16,
    id: u16,
    k: u32,
    channel: u8,
    order: u32,
    reliable: u32,
    out: &mut [u8],
) -> Result<usize, Refused> {
    let (bytes, len, room) = (data.as_ptr(), data.len(), out.len());
    let w = unsafe { linked::poghduka_write_piece(bytes, len, mtu, id, k, channel, order, reliable, out.as_mut_ptr(), room) };
    refused(w.number, w.next)
}

// ---- windows and ACKs

/// Where the next record of an ACK or NACK stands, and how many are left.
#[repr(C)]
#[derive(Clone, Copy, Debug, Default, PartialEq, Eq)]
pub struct AckCursor {
    pub at: usize,
    pub left: u32,
}

/// Both ends of a Range are included.
#[derive(Clone, Copy, Debug, PartialEq, Eq)]
pub enum Record {
    Single(u32),
    Range(u32, u32),
}

impl ReliableWindow {
    pub fn new() -> ReliableWindow {
        unsafe { linked::poghduka_window_new() }
    }

    /// Accepts a number. Refusals: 13, 4, 5.
    pub fn insert(&mut self, n: u32) -> Result<(), Refused> {
        let r = unsafe { linked::poghduka_window_insert(*self, n) };
        *self = r.window;
        refused(r.number, ())
    }

    /// The numbers never accepted below the highest accepted, ascending, as far as the list goes.
    pub fn missing<'a>(&self, list: &'a mut [u32]) -> &'a [u32] {
        let n = unsafe { linked::poghduka_window_missing(*self, list.as_mut_ptr(), list.len()) };
        &list[..n]
    }
}

/// Writes a strictly ascending list as an ACK or a NACK. Refusals: 13, 14, 12.
pub fn write_list<'a>(out: &'a mut [u8], nack: bool, numbers: &[u32]) -> Result<&'a [u8], Refused> {
    let w = unsafe { linked::poghduka_write_list(out.as_mut_ptr(), out.len(), nack, numbers.as_ptr(), numbers.len()) };
    refused(w.number, &out[..w.len])
}

/// Whether it is a NACK, and the cursor at the first record. Refusals: 1, 3.
pub fn read_ack_header(s: &[u8]) -> Result<(bool, AckCursor), Refused> {
    let r = unsafe { linked::poghduka_read_ack_header(s.as_ptr(), s.len()) };
    refused(r.number, (r.nack, r.records))
}

/// The record that the cursor stands at, and the cursor after it; `None` where no record is left. Refusals: 1, 10, 11.
pub fn read_ack_record(s: &[u8], records: AckCursor) -> Result<Option<(Record, AckCursor)>, Refused> {
    let r = unsafe { linked::poghduka_read_ack_record(s.as_ptr(), s.len(), records) };
    let record = if r.range { Record::Range(r.first, r.last) } else { Record::Single(r.first) };
    refused(r.number, if r.found { Some((record, r.records)) } else { None })
}

// ---- what the libraries have: a slice is a pointer and a length

mod linked {
    use super::*;

    #[repr(C)]
    pub struct QueueReceived {
        pub number: u32,
        pub ready: u32,
        pub dropped: u32,
        pub left: usize,
    }

    #[repr(C)]
    pub struct QueueTaken {
        pub number: u32,
        pub kind: u8,
        pub channel: u8,
        pub order: u32,
        pub joined: bool,
        pub start: usize,
        pub len: usize,
    }

    #[repr(C)]
    pub struct QueueDropped {
        pub number: u32,
        pub freed: u32,
    }

    #[repr(C)]
    pub struct AckWritten {
        pub number: u32,
        pub len: usize,
    }

    #[repr(C)]
    pub struct QueueSaved {
        pub number: u32,
        pub len: usize,
    }

    #[repr(C)]
    #[derive(Clone, Copy)]
    pub struct Placed {
        pub frame: Frame,
        pub start: usize,
        pub len: usize,
    }

    #[repr(C)]
    pub struct FrameFound {
        pub number: u32,
        pub placed: Placed,
        pub next: usize,
    }

    #[repr(C)]
    pub struct FramesFound {
        pub number: u32,
        pub count: usize,
        pub left: usize,
    }

    #[repr(C)]
    pub struct FrameWritten {
        pub number: u32,
        pub next: usize,
    }

    #[repr(C)]
    pub struct WindowInsert {
        pub number: u32,
        pub window: ReliableWindow,
    }

    #[repr(C)]
    pub struct AckHeaderFound {
        pub number: u32,
        pub nack: bool,
        pub records: AckCursor,
    }

    #[repr(C)]
    pub struct AckRecordFound {
        pub number: u32,
        pub found: bool,
        pub range: bool,
        pub first: u32,
        pub last: u32,
        pub records: AckCursor,
    }

    extern "C" {
        pub fn poghduka_make_new(
            queue: *mut RecvQueue,
            records: *mut CellRecord,
            cells: usize,
            store: *const u8,
            store_len: usize,
            profile: u32,
        ) -> u32;
        pub fn poghduka_receive(
            queue: *mut RecvQueue,
            records: *mut CellRecord,
            cells: usize,
            store: *mut u8,
            store_len: usize,
            datagram: *const u8,
            datagram_len: usize,
        ) -> QueueReceived;
        pub fn poghduka_take(
            queue: *const RecvQueue,
            records: *mut CellRecord,
            cells: usize,
            store: *const u8,
            store_len: usize,
            joined: *mut u8,
            joined_len: usize,
        ) -> QueueTaken;
        pub fn poghduka_drop_unfinished(
            queue: *const RecvQueue,
            records: *mut CellRecord,
            cells: usize,
            store: *const u8,
            store_len: usize,
            n: u32,
        ) -> QueueDropped;
        pub fn poghduka_write_unsent(queue: *mut RecvQueue, out: *mut u8, out_len: usize) -> AckWritten;
        pub fn poghduka_write_missing(queue: *const RecvQueue, out: *mut u8, out_len: usize) -> AckWritten;
        pub fn poghduka_save(
            queue: *const RecvQueue,
            records: *const CellRecord,
            cells: usize,
            store: *const u8,
            store_len: usize,
            out: *mut u8,
            out_len: usize,
        ) -> QueueSaved;
        pub fn poghduka_restore(
            queue: *mut RecvQueue,
            records: *mut CellRecord,
            cells: usize,
            store: *mut u8,
            store_len: usize,
            image: *const u8,
            image_len: usize,
        ) -> u32;

        pub fn poghduka_read_frames(profile: u32, s: *const u8, len: usize, at: usize) -> FramesFound;
        pub fn poghduka_read_frame(profile: u32, s: *const u8, len: usize, at: usize) -> FrameFound;
        pub fn poghduka_write_frame(
            profile: u32,
            out: *mut u8,
            room: usize,
            at: usize,
            frame: Frame,
            body: *const u8,
            len: usize,
        ) -> FrameWritten;
        pub fn poghduka_write_head(out: *mut u8, out_len: usize, number: u32) -> u32;
        pub fn poghduka_write_piece(
            data: *const u8,
            data_len: usize,
            mtu: u16,
            id: u16,
            k: u32,
            channel: u8,
            order: u32,
            reliable: u32,
            out: *mut u8,
            out_len: usize,
        ) -> FrameWritten;

        pub fn poghduka_window_new() -> ReliableWindow;
        pub fn poghduka_window_insert(window: ReliableWindow, n: u32) -> WindowInsert;
        pub fn poghduka_window_missing(window: ReliableWindow, list: *mut u32, list_len: usize) -> usize;
        pub fn poghduka_write_list(out: *mut u8, out_len: usize, nack: bool, numbers: *const u32, numbers_len: usize) -> AckWritten;
        pub fn poghduka_read_ack_header(s: *const u8, len: usize) -> AckHeaderFound;
        pub fn poghduka_read_ack_record(s: *const u8, len: usize, records: AckCursor) -> AckRecordFound;
    }
}
