//! The original's time for a stream, from frames as values.
use crate::clock;
use crate::streams::Stream;
use rak_rs::oracle::{FramePacket, RecvQueue};

/// Nanoseconds a datagram, of insert, flush and, at times, ack_flush. The packets are made before.
pub fn time(stream: &Stream) -> f64 {
    let mut queue = RecvQueue::new();
    let packets: Vec<FramePacket> = stream.datagrams.iter().map(|d| d.original()).collect();
    let mut bytes = 0;
    let start = clock::nanoseconds();
    for (i, packet) in packets.into_iter().enumerate() {
        let _ = queue.insert(packet);
        for message in queue.flush() {
            bytes += message.len();
        }
        if (i + 1) % stream.acks_after == 0 {
            assert!(!queue.ack_flush().is_empty());
        }
    }
    let taken = clock::nanoseconds() - start;
    // Of ordered messages out of order it hands out a part only: docs/DIFFERENCES.md, 'order'.
    assert!(0 < bytes && bytes <= stream.bytes());
    taken / stream.datagrams.len() as f64
}
