//! Frames and datagrams as values: in document 01's bytes for ours, and as the original's own structs.
use rak_rs::oracle::{meta_of, FragmentMeta, Frame, FramePacket, Reliability};

#[derive(Clone, Debug, Default, PartialEq)]
pub struct Fields {
    pub kind: u8,
    pub reliable: u32,
    pub sequence: u32,
    pub order: u32,
    pub channel: u8,
    /// count, id and index of a piece
    pub piece: Option<(u32, u16, u32)>,
    pub body: Vec<u8>,
}

#[derive(Clone, Debug, Default)]
pub struct Datagram {
    pub number: u32,
    pub frames: Vec<Fields>,
}

// Document 01: "Reliable number: 2, 3, 4, 7. Sequence number: 1, 4. Order number and channel: 1, 3, 7."
pub fn has_reliable(kind: u8) -> bool {
    matches!(kind, 2 | 3 | 4 | 7)
}

pub fn has_sequence(kind: u8) -> bool {
    matches!(kind, 1 | 4)
}

pub fn has_order(kind: u8) -> bool {
    matches!(kind, 1 | 3 | 7)
}

fn number(out: &mut Vec<u8>, n: u32) {
    out.extend_from_slice(&n.to_le_bytes()[..3]);
}

impl Fields {
    pub fn write(&self, out: &mut Vec<u8>) {
        out.push(self.kind << 5 | if self.piece.is_some() { 0x10 } else { 0 });
        out.extend_from_slice(&(self.body.len() as u16 * 8).to_be_bytes());
        if has_reliable(self.kind) {
            number(out, self.reliable);
        }
        if has_sequence(self.kind) {
            number(out, self.sequence);
        }
        if has_order(self.kind) {
            number(out, self.order);
            out.push(self.channel);
        }
        if let Some((count, id, index)) = self.piece {
            out.extend_from_slice(&count.to_be_bytes());
            out.extend_from_slice(&id.to_be_bytes());
            out.extend_from_slice(&index.to_be_bytes());
        }
        out.extend_from_slice(&self.body);
    }

    /// What the original's frame carries, by its own table of kinds.
    pub fn of(f: &Frame) -> Fields {
        let r = f.reliability;
        let carried = |has: bool, n: Option<u32>| if has { n.unwrap_or(0) } else { 0 };
        Fields {
            kind: r.to_flags() >> 5,
            reliable: carried(r.is_reliable(), f.reliable_index),
            sequence: carried(r.is_sequenced(), f.sequence_index),
            order: carried(r.is_ordered(), f.order_index),
            channel: if r.is_ordered() { f.order_channel.unwrap_or(0) } else { 0 },
            piece: meta_of(f),
            body: f.body.clone(),
        }
    }

    pub fn size(&self) -> usize {
        let mut out = Vec::new();
        self.write(&mut out);
        out.len()
    }

    /// The fields that the original's own table gives the kind.
    fn original(&self) -> Frame {
        let reliability = Reliability::from_flags(self.kind << 5);
        let mut f = Frame::new(reliability, Some(&self.body));
        f.reliable_index = reliability.is_reliable().then_some(self.reliable);
        f.sequence_index = reliability.is_sequenced().then_some(self.sequence);
        f.order_index = reliability.is_ordered().then_some(self.order);
        f.order_channel = reliability.is_ordered().then_some(self.channel);
        f.fragment_meta = self.piece.map(|(count, id, index)| FragmentMeta::new(count, id, index));
        f
    }
}

impl Datagram {
    pub fn bytes(&self) -> Vec<u8> {
        let mut out = vec![0x84];
        number(&mut out, self.number);
        for f in &self.frames {
            f.write(&mut out);
        }
        out
    }

    /// The same frames under a later number. (For speed/.)
    #[allow(dead_code)]
    pub fn later(&self, by: u32) -> Datagram {
        Datagram { number: self.number + by, frames: self.frames.clone() }
    }

    pub fn original(&self) -> FramePacket {
        let mut packet = FramePacket::new();
        packet.sequence = self.number;
        packet.frames = self.frames.iter().map(|f| f.original()).collect();
        packet
    }
}

/// The original's table of kinds is document 01's.
pub fn kinds() -> Result<(), String> {
    for kind in 0..8 {
        let r = Reliability::from_flags(kind << 5);
        let original = (r.is_reliable(), r.is_sequenced(), r.is_ordered(), r.to_flags());
        let expected = (has_reliable(kind), has_sequence(kind), has_order(kind), kind << 5);
        if original != expected {
            return Err(format!("kind {kind}: {original:?} in the original, {expected:?} in document 01"));
        }
    }
    Ok(())
}

/// A set of numbers as ACK (C0) or NACK (A0), as document 01's 'Bytes' has it.
pub fn set_bytes(id: u8, numbers: &[u32]) -> Vec<u8> {
    let mut records: Vec<(u32, u32)> = Vec::new();
    for &n in numbers {
        match records.last_mut() {
            Some(last) if last.1 + 1 == n => last.1 = n,
            _ => records.push((n, n)),
        }
    }
    let mut out = vec![id];
    out.extend_from_slice(&(records.len() as u16).to_be_bytes());
    for (first, last) in records {
        out.push((first == last) as u8);
        number(&mut out, first);
        if first != last {
            number(&mut out, last);
        }
    }
    out
}
