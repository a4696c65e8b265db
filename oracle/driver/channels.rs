//! `OrderedQueue::insert` with `flush_old_impl` beside step 4 of our receiver, for any order of arrival: each order number comes in a datagram
//! of its own, under a fresh reliable number.
use crate::calls::{first_difference, Call, Expected};
use crate::datagrams::{Datagram, Fields};
use crate::random::Random;
use crate::report::Report;
use crate::shrink::smallest;
use rak_rs::oracle::OrderedQueue;

const CELLS: usize = 32;
const CHANNELS: usize = 32;

/// One frame: kind 3 or 7, its channel and its order number.
#[derive(Clone, Copy, Debug)]
struct Arrival {
    kind: u8,
    channel: u8,
    order: u32,
}

/// The calls for the arrivals, with what the original's queues hand out.
fn expected(arrivals: &[Arrival]) -> Vec<(Call, Expected)> {
    let mut queues: Vec<OrderedQueue<Vec<u8>>> = (0..CHANNELS).map(|_| OrderedQueue::new()).collect();
    let mut calls = Vec::new();
    for (i, a) in arrivals.iter().enumerate() {
        let i = i as u32;
        let body = [&i.to_be_bytes()[..], &[a.channel], &a.order.to_be_bytes()[..]].concat();
        let frame = Fields { kind: a.kind, reliable: i, order: a.order, channel: a.channel, body: body.clone(), ..Fields::default() };
        let queue = &mut queues[a.channel as usize];
        let kept = queue.insert(a.order, body);
        let ready = queue.flush_old_impl();
        let received = Expected::Counted { ready: ready.len(), dropped: !kept as usize };
        calls.push((Call::Receive(Datagram { number: i, frames: vec![frame] }.bytes()), received));
        calls.extend(ready.into_iter().map(|body| (Call::Take, Expected::Bytes(body))));
        calls.push((Call::Take, Expected::Refused(20)));
        if i % 512 == 511 {
            let numbers: Vec<u32> = (i - 511..=i).collect();
            let bytes = crate::datagrams::set_bytes(0xc0, &numbers);
            calls.push((Call::Unsent, Expected::Bytes(bytes)));
        }
    }
    calls
}

fn compare(arrivals: &[Arrival]) -> Result<(), String> {
    if first_difference(CELLS, &expected(arrivals)).is_none() {
        return Ok(());
    }
    let fewest = smallest(arrivals, &|l| first_difference(CELLS, &expected(l)).is_some());
    let calls = expected(&fewest);
    let (i, answer) = first_difference(CELLS, &calls).unwrap();
    Err(format!("channels, arrivals {fewest:?}: {:?} by the original, ours {answer:?}", calls[i].1))
}

/// All arrivals of six order numbers, repeated ones too. Each sequence goes on where the channel stands, and ends with the numbers it lacked.
pub fn exhaustive(report: &mut Report) -> Result<(), String> {
    let sequences = 6usize.pow(6);
    let mut done = 0;
    for first in (0..sequences).step_by(2048) {
        let mut next = [0u32; CHANNELS];
        let mut arrivals = Vec::new();
        for code in first..(first + 2048).min(sequences) {
            let channel = code % CHANNELS;
            let kind = if code % 5 < 3 { 3 } else { 7 };
            let mut orders: Vec<u32> = (0..6).map(|i| (code / 6usize.pow(i) % 6) as u32).collect();
            orders.extend((0..6).filter(|n| !orders.contains(n)).collect::<Vec<u32>>());
            arrivals.extend(orders.iter().map(|n| Arrival { kind, channel: channel as u8, order: next[channel] + n }));
            next[channel] += 6;
        }
        compare(&arrivals)?;
        done += arrivals.len() as u64;
    }
    report.say("channels: all 46,656 arrivals of six order numbers", &[(done, "channel inserts")]);
    Ok(())
}

pub fn random(report: &mut Report, r: &mut Random, inserts: u64) -> Result<(), String> {
    let mut done = 0;
    while done < inserts {
        let used = r.between(1, 2);
        let mut next = [0u32; CHANNELS];
        let mut seen: Vec<Vec<u32>> = vec![Vec::new(); CHANNELS];
        let mut arrivals = Vec::new();
        for _ in 0..r.between(1, 4000) {
            let channel = (r.below(used) * 9) as u8;
            let c = channel as usize;
            let ahead = r.between(0, 14);
            let order = match r.below(8) {
                0 => next[c].saturating_sub(r.below(20)),
                1..=3 => next[c],
                _ => next[c] + ahead,
            };
            arrivals.push(Arrival { kind: *r.pick(&[3, 7]), channel, order });
            seen[c].push(order);
            while seen[c].contains(&next[c]) {
                next[c] += 1;
            }
            let floor = next[c];
            seen[c].retain(|&n| n >= floor);
        }
        compare(&arrivals)?;
        done += arrivals.len() as u64;
    }
    report.say("channels: random arrivals, kinds 3 and 7 mixed", &[(done, "channel inserts")]);
    Ok(())
}
