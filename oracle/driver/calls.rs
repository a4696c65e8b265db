//! Our receiver's answers to a list of calls, and what the original lets expect of them.
use crate::ours::{Receiver, Report};

/// A message of 1,024 pieces has room in it.
pub const JOINING_ROOM: usize = 1024 * 1500;

#[derive(Clone, Debug)]
pub enum Call {
    Receive(Vec<u8>),
    Take,
    Unsent,
    Missing,
}

#[derive(Debug)]
pub enum Answer {
    Report(Report),
    Bytes(Vec<u8>),
    Refused(u32),
}

/// What an answer must be. Ours tells more than the original does: that is free.
#[derive(Clone, Debug, PartialEq)]
pub enum Expected {
    /// messages made ready; no byte is left
    Received { ready: usize },
    /// messages made ready, and frames dropped
    Counted { ready: usize, dropped: usize },
    /// the bytes taken or written
    Bytes(Vec<u8>),
    Refused(u32),
}

impl Expected {
    fn holds(&self, answer: &Answer) -> bool {
        match (self, answer) {
            (Expected::Received { ready }, Answer::Report(r)) => (*ready as u32, 0) == (r.ready, r.left),
            (Expected::Counted { ready, dropped }, Answer::Report(r)) => (*ready as u32, *dropped as u32, 0) == (r.ready, r.dropped, r.left),
            (Expected::Bytes(bytes), Answer::Bytes(found)) => bytes == found,
            (Expected::Refused(number), Answer::Refused(found)) => number == found,
            _ => false,
        }
    }
}

impl Call {
    pub fn answer(&self, receiver: &mut Receiver) -> Answer {
        let bytes = match self {
            Call::Receive(datagram) => return receiver.receive(datagram).map_or_else(Answer::Refused, Answer::Report),
            Call::Take => receiver.take().map(|b| b.to_vec()),
            Call::Unsent => receiver.write_unsent().map(|b| b.to_vec()),
            Call::Missing => receiver.write_missing().map(|b| b.to_vec()),
        };
        bytes.map_or_else(Answer::Refused, Answer::Bytes)
    }
}

/// The first call on a new receiver whose answer isn't as expected: its place and the answer.
pub fn first_difference(cells: usize, calls: &[(Call, Expected)]) -> Option<(usize, Answer)> {
    let mut receiver = Receiver::new(cells, JOINING_ROOM);
    for (i, (call, expected)) in calls.iter().enumerate() {
        let answer = call.answer(&mut receiver);
        if !expected.holds(&answer) {
            return Some((i, answer));
        }
    }
    None
}
