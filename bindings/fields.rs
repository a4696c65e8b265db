//! Makes every call of the module `poghduka` and prints every field of every answer: what fields.c prints, and what fields.txt has.
mod poghduka;

use poghduka::Profile::*;
use poghduka::*;

const CELLS: usize = 3;
const STORE: usize = CELLS * CELL_BYTES;

/// Where an image has its unsent acknowledgements, and how long it is in `images`.
const UNSENT_AT: usize = 1076;
const WHOLE: usize = 1273;

fn hex(s: &[u8]) -> String {
    s.iter().map(|b| format!("{b:02x}")).collect()
}

/// One line: the refusal, or what is said of the value.
fn line<T>(what: &str, answer: Result<T, Refused>, said: impl Fn(T) -> String) {
    match answer {
        Ok(value) => println!("{what} {}", said(value)),
        Err(Refused(number)) => println!("{what} refused {number}"),
    }
}

// ---- frames, a datagram's head and a split's pieces

fn head(out: &mut [u8], number: u32) {
    let answer = write_head(out, number);
    line("head", answer, |()| hex(&out[..HEAD_BYTES]));
}

fn written(profile: Profile, out: &mut [u8], at: usize, frame: Frame, body: &[u8]) {
    line("write", write_frame(profile, out, at, frame, body), |next| format!("next {next}"));
}

fn frame(profile: Profile, s: &[u8], at: usize) {
    line("frame", read_frame(profile, s, at), |FrameFound { frame: f, body, next }| {
        let fields = format!("kind {} reliable {} sequence {} order {} channel {}", f.kind, f.reliable, f.sequence, f.order, f.channel);
        let piece = format!("piece {} count {} id {} index {}", f.piece as u8, f.meta.count, f.meta.id, f.meta.index);
        let start = body.as_ptr() as usize - s.as_ptr() as usize;
        format!("{fields} {piece} start {start} next {next} {}", hex(body))
    });
}

fn frames(profile: Profile, s: &[u8]) {
    let r = read_frames(profile, s, HEAD_BYTES);
    println!("frames {} left {}", r.count, r.left);
}

fn all_frames(out: &mut [u8]) {
    let meta = FragmentMeta { count: 9, id: 0x0a0b, index: 8 };
    let piece = Frame { kind: 3, reliable: 0x010203, order: 0x040506, channel: 7, piece: true, meta, ..Frame::default() };
    head(&mut out[..64], 0x123456);
    written(Console, &mut out[..64], 4, piece, b"hello");
    written(Console, &mut out[..64], 29, Frame { kind: 1, sequence: 0x070809, order: 0x0a0b0c, channel: 31, ..Frame::default() }, b"hi");
    written(Console, &mut out[..64], 41, Frame { kind: 4, reliable: 1, sequence: 2, ..Frame::default() }, b"");
    println!("{}", hex(&out[..50]));
    frames(Console, &out[..50]);
    frames(Console, &out[..49]);
    frame(Console, &out[..50], 4);
    frame(Console, &out[..50], 29);
    frame(Console, &out[..50], 41);
    frame(Console, &out[..50], 50);
    written(Console, &mut out[..64], 4, Frame { kind: 8, ..Frame::default() }, b"");
    written(Console, &mut out[..49], 41, Frame { kind: 4, ..Frame::default() }, b"");
    head(&mut out[..64], 1 << 24);
    head(&mut out[..3], 0);
}

/// Kind 4 and a length of 12 bits, under both profiles.
fn both_profiles(out: &mut [u8]) {
    let lever = Frame { kind: 4, reliable: 1, sequence: 2, order: 0x0a0b0c, channel: 31, ..Frame::default() };
    out[..9].copy_from_slice(b"\x84\0\0\0\0\0\x0cAB");
    for profile in [Cpp, Console] {
        written(profile, &mut out[..64], 9, lever, b"on");
    }
    println!("{}", hex(&out[..24]));
    for profile in [Cpp, Console] {
        frames(profile, &out[..24]);
        frame(profile, &out[..24], 4);
        frame(profile, &out[..24], 9);
    }
}

/// Writes piece k of the data, with f's id, channel, order and reliable number.
fn piece(out: &mut [u8], data: &[u8], mtu: u16, k: u32, f: Frame) -> usize {
    let answer = write_piece(data, mtu, f.meta.id, k, f.channel, f.order, f.reliable, out);
    line("piece", answer, |next| format!("next {next} {}", hex(&out[..next.min(24)])));
    answer.unwrap_or(0)
}

/// Three pieces in one datagram; the longest piece; refusals, where others that come after them are due too; the largest numbers.
fn all_pieces(out: &mut [u8]) {
    let data: Vec<u8> = (b'A'..=b'Z').cycle().take(1441).collect();
    let meta = FragmentMeta { id: 0x0708, ..FragmentMeta::default() };
    let mut f = Frame { reliable: 0x0d0e0f, order: 0x0a0b0c, channel: 9, meta, ..Frame::default() };
    let mut at = HEAD_BYTES;
    head(&mut out[..67], 0);
    for k in 0..4 {
        at += piece(&mut out[at..67], &data[..3], 61, k, f);
        f.reliable += 1;
    }
    println!("{}", hex(&out[..at]));
    frames(Console, &out[..at]);
    frames(Cpp, &out[..at]);
    frame(Cpp, &out[..at], at - PIECE_HEADER - 1);
    piece(out, &data[..1441], 1500, 0, f);
    piece(out, &data[..1441], 1500, 1, f);
    piece(&mut out[..20], &data[..3], 61, 2, f);
    f.channel = 32;
    piece(&mut out[..20], &data[..3], 61, 2, f);
    piece(&mut out[..20], &data[..3], 61, 3, f);
    piece(&mut out[..20], &data[..1024], 61, 1024, f);
    piece(&mut out[..20], &data[..1025], 61, 1025, f);
    piece(&mut out[..20], &data[..1440], 1500, 1, f);
    piece(&mut out[..20], &data[..1025], 60, 1025, f);
    piece(&mut out[..20], &data[..1], 1501, 1, f);
    (f.channel, f.order) = (31, 1 << 24);
    piece(&mut out[..21], &data[..3], 61, 2, f);
    (f.order, f.reliable) = (f.order - 1, 1 << 24);
    piece(&mut out[..21], &data[..3], 61, 2, f);
    println!("{}", hex(&out[..24]));
    f.reliable -= 1;
    piece(&mut out[..21], &data[..3], 61, 2, f);
}

// ---- windows and ACKs

fn window() {
    let mut w = ReliableWindow::new();
    for n in [0, 0, 2, 2049, 2050, 1 << 24] {
        let answer = w.insert(n);
        let bits: String = w.bits.iter().enumerate().filter(|(_, &b)| b != 0).map(|(i, b)| format!(" {i}:{b}")).collect();
        line("insert", answer, |()| format!("low {} bits{bits}", w.low));
    }
    let mut list = [0; MAX_MISSING];
    let missing = w.missing(&mut list);
    println!("missing {}: {} {} .. {}", missing.len(), missing[0], missing[1], missing[missing.len() - 1]);
}

fn list(out: &mut [u8], nack: bool, numbers: &[u32]) {
    line("list", write_list(out, nack, numbers), hex);
}

fn ack(s: &[u8]) {
    let header = read_ack_header(s);
    line("header", header, |(nack, c)| format!("nack {} at {} left {}", nack as u8, c.at, c.left));
    let Ok((_, mut records)) = header else { return };
    loop {
        let step = read_ack_record(s, records);
        line("record", step, |found| match found {
            Some((Record::Single(n), c)) => format!("range 0 first {n} last {n} at {} left {}", c.at, c.left),
            Some((Record::Range(first, last), c)) => format!("range 1 first {first} last {last} at {} left {}", c.at, c.left),
            None => "none left".into(),
        });
        let Ok(Some((_, after))) = step else { return };
        records = after;
    }
}

fn all_acks(out: &mut [u8]) {
    list(&mut out[..64], false, &[3, 5, 6, 7]);
    list(&mut out[..64], true, &[3, 5, 6, 7]);
    ack(&out[..14]);
    ack(&out[..13]);
    ack(&out[..2]);
    ack(&[0x84, 0, 0, 0]);
    ack(&[0xc0, 0, 1, 2]);
    ack(&[0xc0, 0, 1, 0, 7, 0, 0, 5, 0, 0]);
    list(&mut out[..64], false, &[5, 3]);
    list(&mut out[..64], false, &[1 << 24]);
    list(&mut out[..13], false, &[3, 5, 6, 7]);
    let longest: Vec<u32> = (0..2048).map(|i| 2 * i).collect();
    for room in [LIST_BYTES - 1, LIST_BYTES] {
        line("list", write_list(&mut out[..room], true, &longest), |s| format!("of {}", s.len()));
    }
}

// ---- the receiver

struct Receiver {
    queue: RecvQueue,
    records: [CellRecord; CELLS],
    store: [u8; STORE],
    joined: [u8; STORE],
}

impl Receiver {
    fn made(&mut self, store_len: usize, profile: Profile) {
        line("make", make_new(&mut self.queue, &mut self.records, &self.store[..store_len], profile), |()| "ok".into());
    }

    fn received(&mut self, datagram: &[u8]) {
        line("receive", receive(&mut self.queue, &mut self.records, &mut self.store, datagram), |r| {
            format!("ready {} dropped {} left {}", r.ready, r.dropped, r.left)
        });
    }

    fn taken(&mut self, room: usize) {
        let joined = &mut self.joined[..room];
        let ends = joined.as_ptr_range();
        line("take", take(&self.queue, &mut self.records, &self.store, joined), |m| {
            let joined = ends.contains(&m.body.as_ptr()) as u8;
            format!("kind {} channel {} order {} joined {joined} {}", m.kind, m.channel, m.order, hex(m.body))
        });
    }

    fn dropped(&mut self, store_len: usize, n: u32) {
        let answer = drop_unfinished(&self.queue, &mut self.records, &self.store[..store_len], n);
        line("drop", answer, |freed| format!("freed {freed}"));
    }

    fn unsent(&mut self, out: &mut [u8]) {
        line("unsent", write_unsent(&mut self.queue, out), |s| format!("{}\nof {}", hex(&s[..s.len().min(64)]), s.len()));
    }

    fn missing(&self, out: &mut [u8]) {
        line("missing", write_missing(&self.queue, out), |s| format!("{}\nof {}", hex(&s[..s.len().min(64)]), s.len()));
    }

    fn saved(&self, store_len: usize, image: &mut [u8]) {
        line("save", save(&self.queue, &self.records, &self.store[..store_len], image), |s| {
            let lines: String = s[UNSENT_AT..].chunks(64).map(|part| format!("\n{}", hex(part))).collect();
            format!("of {}{lines}", s.len())
        });
    }

    fn restored(&mut self, cells: usize, image: &[u8]) {
        let (records, store) = (&mut self.records[..cells], &mut self.store[..cells * CELL_BYTES]);
        line("restore", restore(&mut self.queue, records, store, image), |()| "ok".into());
    }

    fn state(&self) {
        let q = &self.queue;
        let next: String = q.channels.iter().map(|c| format!(" {}", c.next)).collect();
        let newest: String = q.channels.iter().map(|c| format!(" {}", c.newest)).collect();
        let unsent: String = q.unsent[..q.pending as usize].iter().map(|n| format!(" {n}")).collect();
        println!("profile {} lows {} {} next{next}", q.profile, q.datagrams.low, q.reliables.low);
        println!("newest{newest} {} unsent{unsent}", q.newest);
        for r in self.records.iter().filter(|r| r.used != 0) {
            print!("cell used {} kind {} channel {} id {} index {} ", r.used, r.kind, r.channel, r.id, r.index);
            print!("count {} length {} sequence {} order {} ", r.count, r.length, r.sequence, r.order);
            println!("turn {} age {}", r.turn, r.age);
        }
    }

    fn numbers(&mut self, out: &mut [u8], first: u32, step: u32, count: u32) {
        self.made(STORE, Console);
        for i in 0..count {
            write_head(out, first + i * step).expect("a head is written");
            receive(&mut self.queue, &mut self.records, &mut self.store, &out[..HEAD_BYTES]).expect("a datagram is received");
        }
    }
}

fn add(profile: Profile, out: &mut [u8], at: usize, frame: Frame, body: &[u8]) -> usize {
    write_frame(profile, out, at, frame, body).expect("a frame is written")
}

fn all_receiving(receiver: &mut Receiver, out: &mut [u8]) {
    let meta = FragmentMeta { count: 2, id: 0x0a0b, index: 1 };
    let last = Frame { kind: 3, channel: 5, piece: true, meta, ..Frame::default() };
    let first = Frame { reliable: 1, meta: FragmentMeta { index: 0, ..meta }, ..last };
    let whole = Frame { kind: 1, sequence: 9, order: 8, channel: 6, ..Frame::default() };
    let again = Frame { kind: 2, reliable: 1, ..Frame::default() };
    receiver.made(STORE - 1, Console);
    receiver.made(STORE, Console);
    receiver.state();

    write_head(out, 0).expect("a head is written");
    let at = add(Console, out, 4, last, b"lo!");
    let end = add(Console, out, at, whole, b"hi");
    out[end..end + 2].fill(0xff);
    receiver.received(&out[..end + 2]);
    receiver.state();
    receiver.taken(STORE);
    receiver.received(&out[..end + 2]);
    receiver.received(&out[..3]);
    out[0] = 0x8e;
    receiver.received(&out[..end]);

    write_head(out, 2).expect("a head is written");
    let at = add(Console, out, 4, first, b"hel");
    let end = add(Console, out, at, again, b"again");
    receiver.received(&out[..end]);
    receiver.state();
    receiver.taken(5);
    receiver.taken(6);
    receiver.taken(6);

    // late on channel 6 and in kind 4, not on channel 7
    write_head(out, 3).expect("a head is written");
    let other = Frame { kind: 1, sequence: 3, channel: 7, ..Frame::default() };
    let stop = Frame { kind: 4, reliable: 2, sequence: 0xffffff, ..Frame::default() };
    let at = add(Console, out, 4, whole, b"late");
    let at = add(Console, out, at, other, b"new");
    let at = add(Console, out, at, stop, b"stop");
    let end = add(Console, out, at, Frame { reliable: 3, ..stop }, b"late");
    receiver.received(&out[..end]);
    receiver.state();
    receiver.taken(STORE);
    receiver.taken(STORE);
    receiver.missing(out);
    receiver.unsent(out);
    receiver.unsent(out);
    receiver.unsent(&mut out[..2]);
    receiver.queue.newest = 0x1000001;
    receiver.unsent(out);
    receiver.queue.newest = 0x1000000;
    receiver.queue.channels[31].newest = 0x1000001;
    receiver.missing(out);
    receiver.received(&out[..4]);
    receiver.queue.channels[31].newest = 0x1000000;
    receiver.unsent(out);
    receiver.queue.pending = 1025;
    receiver.unsent(out);

    // the longest outputs
    receiver.numbers(out, 2, 3, 683);
    receiver.missing(&mut out[..MISSING_BYTES - 1]);
    receiver.missing(&mut out[..MISSING_BYTES]);
    receiver.numbers(out, 1, 2, 1024);
    receiver.unsent(&mut out[..UNSENT_BYTES - 1]);
    receiver.unsent(&mut out[..UNSENT_BYTES]);
}

/// A C++ receiver: kinds 1 and 4 of a channel go by one memory.
fn cpp_receiving(receiver: &mut Receiver, out: &mut [u8]) {
    let one = Frame { kind: 1, sequence: 9, channel: 6, ..Frame::default() };
    let late = Frame { kind: 4, sequence: 9, order: 5, channel: 6, ..Frame::default() };
    let four = Frame { reliable: 1, sequence: 10, order: 4, ..late };
    receiver.made(STORE, Cpp);
    write_head(out, 0).expect("a head is written");
    let at = add(Cpp, out, 4, one, b"one");
    let at = add(Cpp, out, at, late, b"late");
    let at = add(Cpp, out, at, four, b"four");
    let end = at + 5;
    out[at..end].copy_from_slice(b"\0\0\x0cAB");
    receiver.received(&out[..end]);
    receiver.state();
    receiver.taken(STORE);
    receiver.queue.profile = 2;
    receiver.received(&out[..end]);
    receiver.taken(STORE);
    receiver.unsent(out);
    receiver.missing(out);
    receiver.queue.profile = Cpp as u32;
    receiver.taken(STORE);
    receiver.taken(STORE);
    receiver.taken(STORE);
    receiver.unsent(out);
}

/// Two pieces of a message without reliable numbers and one of a message with one: the two go where more than n datagrams were accepted
/// after the second. The age of a free cell is not looked at; that of an unfinished message is at most 2^32.
fn unfinished(receiver: &mut Receiver, profile: Profile, out: &mut [u8]) {
    let meta = FragmentMeta { count: 3, id: 0x0a0b, index: 0 };
    let preview = Frame { kind: 0, piece: true, meta, ..Frame::default() };
    let sure = Frame { kind: 2, piece: true, meta: FragmentMeta { count: 2, id: 0x0c0d, index: 0 }, ..Frame::default() };
    receiver.made(STORE, profile);
    write_head(out, 0).expect("a head is written");
    let at = add(profile, out, 4, preview, b"one");
    let end = add(profile, out, at, sure, b"sure");
    receiver.received(&out[..end]);
    write_head(out, 1).expect("a head is written");
    let end = add(profile, out, 4, Frame { meta: FragmentMeta { index: 2, ..meta }, ..preview }, b"three");
    receiver.received(&out[..end]);
    for i in 2..5 {
        write_head(out, i).expect("a head is written");
        receiver.received(&out[..4]);
    }
    receiver.state();
    receiver.dropped(STORE - 1, 2);
    receiver.dropped(STORE, u32::MAX);
    receiver.dropped(STORE, 3);
    receiver.dropped(STORE, 2);
    receiver.state();
    receiver.dropped(STORE, 0);
    receiver.records[0].age = 5;
    receiver.dropped(STORE, 0);
    receiver.records.iter_mut().filter(|r| r.used != 0).for_each(|r| r.age = 1 << 32);
    receiver.dropped(STORE, 0);
    receiver.records.iter_mut().filter(|r| r.used != 0).for_each(|r| r.age += 1);
    receiver.dropped(STORE, 0);
}

/// An open piece, a held message and a ready one. The receiver is saved, made anew and restored; refused restores change nothing.
fn images(receiver: &mut Receiver, profile: Profile, out: &mut [u8]) {
    let meta = FragmentMeta { count: 3, id: 0x0a0b, index: 1 };
    let open = Frame { kind: 0, piece: true, meta, ..Frame::default() };
    let held = Frame { kind: 3, order: 0x010203, channel: 5, ..Frame::default() };
    let ready = Frame { kind: 1, sequence: 7, order: 6, channel: 31, ..Frame::default() };
    let mut image = [0; IMAGE_BYTES + CELLS * IMAGE_CELL_BYTES];
    receiver.made(STORE, profile);
    write_head(out, 0).expect("a head is written");
    let at = add(profile, out, 4, open, b"open");
    let end = add(profile, out, at, held, b"held");
    receiver.received(&out[..end]);
    write_head(out, 2).expect("a head is written");
    let end = add(profile, out, 4, ready, b"ready");
    receiver.received(&out[..end]);
    receiver.saved(STORE - 1, &mut image);
    receiver.saved(STORE, &mut image[..WHOLE - 1]);
    receiver.saved(STORE, &mut image);
    receiver.made(STORE, Console);
    receiver.store.fill(0);
    receiver.restored(0, &image[..WHOLE]);
    receiver.restored(CELLS, &image[..WHOLE - 1]);
    receiver.restored(CELLS, &image[..WHOLE + 1]);
    receiver.restored(CELLS - 1, &image[..WHOLE]);
    image[11] += 2;
    receiver.restored(CELLS, &image[..WHOLE]);
    image[11] -= 2;
    receiver.state();
    receiver.restored(CELLS, &image[..WHOLE]);
    receiver.state();
    receiver.taken(STORE);
    receiver.taken(STORE);
    receiver.missing(out);
    receiver.unsent(out);
    receiver.saved(STORE, &mut image);
}

fn main() {
    let mut out = [0xee; LIST_BYTES];
    let mut receiver = Receiver { queue: RecvQueue::BLANK, records: [CellRecord::UNUSED; CELLS], store: [0; STORE], joined: [0; STORE] };
    all_frames(&mut out);
    both_profiles(&mut out);
    all_pieces(&mut out);
    window();
    all_acks(&mut out);
    all_receiving(&mut receiver, &mut out);
    cpp_receiving(&mut receiver, &mut out);
    unfinished(&mut receiver, Console, &mut out);
    unfinished(&mut receiver, Cpp, &mut out);
    images(&mut receiver, Console, &mut out);
    images(&mut receiver, Cpp, &mut out);
}
