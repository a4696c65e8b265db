//! Our time for a stream, from bytes.
use crate::clock;
use crate::datagrams::Datagram;
use crate::ours::Receiver;
use crate::streams::Stream;

const JOINING_ROOM: usize = 10 * 1500;

/// Nanoseconds a datagram, of receive, as many takes as it made ready and, at times, writing the unsent.
pub fn time(stream: &Stream, cells: usize, before: &[Datagram]) -> f64 {
    let mut receiver = Receiver::new(cells, JOINING_ROOM);
    for d in before {
        receiver.receive(&d.bytes()).expect("the cells are filled");
        receiver.write_unsent().expect("the unsent are sent");
    }
    let datagrams: Vec<Vec<u8>> = stream.datagrams.iter().map(|d| d.later(before.len() as u32).bytes()).collect();
    let mut bytes = 0;
    let start = clock::nanoseconds();
    for (i, d) in datagrams.iter().enumerate() {
        let report = receiver.receive(d).expect("the datagram is accepted");
        for _ in 0..report.ready {
            bytes += receiver.take().expect("a message is ready").len();
        }
        if (i + 1) % stream.acks_after == 0 {
            assert!(!receiver.write_unsent().expect("the unsent are sent").is_empty());
        }
    }
    let taken = clock::nanoseconds() - start;
    assert_eq!(bytes, stream.bytes(), "all bytes are handed out");
    assert_eq!(receiver.take(), Err(20), "none is left");
    taken / datagrams.len() as f64
}
