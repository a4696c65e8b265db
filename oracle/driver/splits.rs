//! `FragmentQueue::split` beside ours, frame by frame and byte by byte, at mtu 61 to 1,500 and up to 1,024 pieces. The original's split
//! leaves the numbers to its sender (send.rs, which isn't run): they are set here in the fields that it sets. The frames are written as
//! `Fields` writes them, since the original's own writer leans on a crate that is not at hand.
use crate::datagrams::Fields;
use crate::ours;
use crate::random::Random;
use crate::report::Report;
use rak_rs::oracle::{Frame, FragmentQueue, FragmentQueueError};

const MIN_MTU: u16 = 61;
const MAX_MTU: u16 = 1500;
const OVERHEAD: usize = 60;
const MAX_PIECES: usize = 1024;
const UNWRITTEN: u8 = 0xEE;

/// What a sender puts into the frames of one message; each piece has the reliable number after that of the piece before it.
struct Sender {
    id: u16,
    channel: u8,
    order: u32,
    reliable: u32,
}

impl Sender {
    /// Others for each length and mtu.
    fn of(len: usize, mtu: u16) -> Sender {
        let mut r = Random::new((len as u64) << 16 | mtu as u64);
        let (id, channel) = (r.below(1 << 16) as u16, r.below(32) as u8);
        Sender { id, channel, order: r.below(1 << 24), reliable: r.below((1 << 24) - MAX_PIECES as u32) }
    }

    /// The original's frame of piece k, sent.
    fn original(&self, mut f: Frame, k: u32) -> Fields {
        f.order_channel = Some(self.channel);
        f.order_index = Some(self.order);
        f.reliable_index = Some(self.reliable + k);
        Fields::of(&f)
    }

    /// Ours of piece k, with all of an output of `room` bytes.
    fn ours(&self, data: &[u8], mtu: u16, k: u32, room: usize) -> (Result<usize, u32>, Vec<u8>) {
        let mut out = vec![UNWRITTEN; room];
        (ours::write_piece(data, mtu, self.id, k, self.channel, self.order, self.reliable + k, &mut out), out)
    }

    /// Does ours refuse piece k with this number, and leave the output as it was?
    fn refused(&self, data: &[u8], mtu: u16, k: u32, number: u32) -> Result<(), String> {
        let (p, out) = self.ours(data, mtu, k, mtu as usize);
        match p {
            Err(n) if n != number => Err(format!("ours {n}")),
            Err(_) if out.iter().any(|b| *b != UNWRITTEN) => Err(format!("ours {number}, its output {out:02x?}")),
            Err(_) => Ok(()),
            Ok(n) => Err(format!("ours {n} bytes")),
        }
    }
}

/// How many pieces were compared.
fn compare(data: &[u8], mtu: u16) -> Result<u64, String> {
    let sender = Sender::of(data.len(), mtu);
    let frames = match FragmentQueue::split(data, sender.id, mtu) {
        Ok(frames) => frames,
        Err(FragmentQueueError::DoesNotNeedSplit) => {
            let refused = sender.refused(data, mtu, 0, 17);
            return refused.map(|()| 0).map_err(|ours| format!("not split by the original, {ours}"));
        }
        Err(e) => return Err(format!("{e:?} by the original")),
    };
    let pieces = frames.len() as u32;
    for (k, f) in (0..).zip(frames) {
        if f.size as usize != f.body.len() {
            return Err(format!("piece {k}: its size {} by the original, its body {} bytes", f.size, f.body.len()));
        }
        let mut bytes = Vec::new();
        sender.original(f, k).write(&mut bytes);
        let size = bytes.len();
        bytes.push(UNWRITTEN);
        let ours = sender.ours(data, mtu, k, size + 1);
        if ours != (Ok(size), bytes) {
            return Err(format!("piece {k}: {size} bytes by the original, ours {:?}: {:02x?}", ours.0, ours.1));
        }
    }
    let refused = sender.refused(data, mtu, pieces, 19);
    refused.map(|()| pieces as u64).map_err(|ours| format!("{pieces} pieces by the original, after them {ours}"))
}

/// The smallest length at this mtu that differs too.
fn fails(data: &[u8], mtu: u16) -> String {
    let mut n = 0;
    while compare(&data[..n], mtu).is_ok() {
        n += 1;
    }
    format!("{n} bytes at mtu {mtu}: {}", compare(&data[..n], mtu).unwrap_err())
}

fn run(data: &[u8], n: usize, mtu: u16, done: &mut (u64, u64)) -> Result<(), String> {
    if n > (mtu as usize - OVERHEAD) * MAX_PIECES {
        return Ok(());
    }
    done.1 += compare(&data[..n], mtu).map_err(|_| fails(&data[..n], mtu))?;
    done.0 += 1;
    Ok(())
}

pub fn exhaustive(report: &mut Report, r: &mut Random) -> Result<(), String> {
    let data = r.bytes(80_000);
    let mut done = (0, 0);
    for mtu in MIN_MTU..=80 {
        for n in 0..=300 {
            run(&data, n, mtu, &mut done)?;
        }
    }
    for mtu in MIN_MTU..=MAX_MTU {
        let chunk = mtu as usize - OVERHEAD;
        for m in [1, 2, 3, 10, MAX_PIECES] {
            for n in [m * chunk - 1, m * chunk, m * chunk + 1] {
                if n <= data.len() {
                    run(&data, n, mtu, &mut done)?;
                }
            }
        }
    }
    report.say("splits: 0 to 300 bytes at mtu 61 to 80; at every mtu around 1, 2, 3, 10, 1,024 chunks", &[(done.0, "splits"), (done.1, "pieces")]);
    Ok(())
}

pub fn random(report: &mut Report, r: &mut Random, splits: u64) -> Result<(), String> {
    let data = r.bytes((MAX_MTU as usize - OVERHEAD) * MAX_PIECES);
    let mut done = (0, 0);
    while done.0 < splits {
        let mtu = r.between(MIN_MTU as u32, MAX_MTU as u32);
        let chunk = mtu - OVERHEAD as u32;
        let most = if r.one_in(50) { chunk * MAX_PIECES as u32 } else { chunk * 20 };
        run(&data, r.below(most + 1) as usize, mtu as u16, &mut done)?;
    }
    report.say("splits: random", &[(done.0, "splits"), (done.1, "pieces")]);
    Ok(())
}
