//! `Ack::from_records` beside ours, on strictly ascending lists but {0} and those with both 0 and 1. The original's byte layer isn't at hand, so
//! its records are written down here as document 01's 'Bytes' has them, and compared with the bytes that ours wrote.
use crate::ours;
use crate::random::Random;
use crate::report::Report;
use crate::shrink::smallest;
use crate::windows::NUMBERS;
use rak_rs::oracle::{Ack, Record};

fn number(out: &mut Vec<u8>, n: u32) {
    out.extend_from_slice(&n.to_le_bytes()[..3]);
}

/// The original's records of the list, in bytes.
pub fn original(numbers: &[u32], nack: bool) -> Vec<u8> {
    let ack = Ack::from_records(numbers.to_vec(), nack);
    let mut out = vec![ack.id];
    out.extend_from_slice(&ack.count.to_be_bytes());
    for record in &ack.records {
        match record {
            Record::Single(r) => {
                out.push(1);
                number(&mut out, r.sequence.0);
            }
            Record::Range(r) => {
                out.push(0);
                number(&mut out, r.start.0);
                number(&mut out, r.end.0);
            }
        }
    }
    out
}

/// Document 01's 'References' leave out {0} and lists with both 0 and 1.
pub fn referred(numbers: &[u32]) -> bool {
    numbers.first() != Some(&0) || (numbers.len() > 1 && numbers[1] != 1)
}

fn compare(numbers: &[u32], nack: bool) -> Result<(), String> {
    let expected = original(numbers, nack);
    match ours::write_list(expected.len(), nack, numbers) {
        Ok(found) if found == expected => {}
        other => return Err(format!("{expected:02x?} by the original, ours {other:02x?}")),
    }
    match ours::write_list(expected.len() - 1, nack, numbers) {
        Err(12) => Ok(()),
        other => Err(format!("{} bytes by the original, into one less ours gives {other:02x?}", expected.len())),
    }
}

fn fails(numbers: &[u32], nack: bool) -> String {
    let fewest = smallest(numbers, &|l| referred(l) && compare(l, nack).is_err());
    format!("list {fewest:?}: {}", compare(&fewest, nack).unwrap_err())
}

fn both_kinds(numbers: &[u32]) -> Result<(), String> {
    for nack in [false, true] {
        compare(numbers, nack).map_err(|_| fails(numbers, nack))?;
    }
    Ok(())
}

/// All sets of twelve numbers: the lowest, and the highest of 24 bits.
pub fn exhaustive(report: &mut Report) -> Result<(), String> {
    let mut done = 0;
    for first in [0, 1, NUMBERS - 12] {
        for set in 0..1u32 << 12 {
            let numbers: Vec<u32> = (0..12).filter(|i| set >> i & 1 == 1).map(|i| first + i).collect();
            if referred(&numbers) {
                both_kinds(&numbers)?;
                done += 2;
            }
        }
    }
    report.say("lists: all sets of 0 .. 11, of 1 .. 12 and of the last twelve, as ACK and as NACK", &[(done, "lists")]);
    Ok(())
}

/// An ascending list: runs and gaps, by chance short or long.
pub fn ascending(r: &mut Random, most: u32) -> Vec<u32> {
    let mut numbers = Vec::new();
    let n = r.below(most + 1);
    let apart = r.between(1, 200);
    let mut x = if r.one_in(4) { r.below(3) } else { r.below(NUMBERS) };
    while numbers.len() < n as usize && x < NUMBERS {
        numbers.push(x);
        x += if r.one_in(apart) { r.between(2, 50) } else { 1 };
    }
    numbers
}

pub fn random(report: &mut Report, r: &mut Random, lists: u64) -> Result<(), String> {
    let mut done = 0;
    while done < lists {
        let most = *r.pick(&[3, 40, 300, 2048]);
        let numbers = ascending(r, most);
        if referred(&numbers) {
            both_kinds(&numbers)?;
            done += 2;
        }
    }
    report.say("lists: random, up to 2,048 numbers", &[(done, "lists")]);
    Ok(())
}
