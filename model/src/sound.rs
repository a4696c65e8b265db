//! Document 01's sentence "Sound means no more than this", clause by clause, over the model's receiver. A memory of a newest sequence
//! number is a value too: it obeys the limit on numbers, under either profile. So is the profile: 0 or 1. Records that are lent keep an age
//! beside: of open ones it is "one value of the id", at most 2^32; "no rule looks at it" elsewhere.
use crate::model::{Cell, Receiver, Use, CELL_BYTES, CHANNELS, MAX_FRAGS, OLDEST, UNSENT};
use crate::window::{Window, NUMBERS, REACH};
use crate::wire::Profile;

/// The key that makes cells one message: an open one's id, a held one's channel and order number, a ready one's turn.
fn key(c: &Cell) -> (u8, u32, u32) {
    match c.used {
        Use::Open => (1, c.id as u32, 0),
        Use::Held => (2, c.channel as u32, c.order),
        _ => (3, c.turn, 0),
    }
}

fn within_limits(c: &Cell) -> bool {
    c.used != Use::Released
        && c.kind <= 7
        && c.channel < CHANNELS
        && c.sequence < NUMBERS
        && c.order < NUMBERS
        && (1..=MAX_FRAGS).contains(&c.count)
        && c.index < c.count
        && c.body.len() <= CELL_BYTES
}

/// "the pieces of a message agree as in step 3"
fn agree(a: &Cell, b: &Cell) -> bool {
    a.count == b.count && a.kind == b.kind && a.sequence == b.sequence && a.order == b.order && a.channel == b.channel
}

fn sound_window(w: &Window) -> bool {
    w.low <= NUMBERS && w.above.iter().all(|n| *n > w.low && *n <= w.low + REACH && *n < NUMBERS)
}

/// Cells, each with its record's age.
pub fn sound_cells(next: &[u32], cells: &[Cell], ages: &[u64]) -> bool {
    let used: Vec<(&Cell, u64)> = cells.iter().zip(ages.iter().copied()).filter(|(c, _)| c.used != Use::Unused).collect();
    used.iter().all(|(c, age)| {
        let message: Vec<&(&Cell, u64)> = used.iter().filter(|(d, _)| key(d) == key(c)).collect();
        let bears = |index: u32| message.iter().filter(|(d, _)| d.index == index).count();
        let lacks_none = message.len() as u32 >= c.count && (0..c.count).all(|index| bears(index) > 0);
        within_limits(c)
            && message.iter().all(|(d, _)| agree(c, d))
            && (c.used != Use::Open || *age <= OLDEST && message.iter().all(|(_, other)| other == age))
            && bears(c.index) == 1
            && (c.used == Use::Open) != lacks_none
            && (c.used != Use::Held || c.order > next[c.channel as usize])
    })
}

/// "only the rules on values and unsent numbers"
pub fn sound_values(r: &Receiver) -> bool {
    let differ = r.unsent.iter().enumerate().all(|(i, n)| !r.unsent[..i].contains(n));
    Profile::of(r.profile).is_some()
        && sound_window(&r.datagrams)
        && sound_window(&r.reliables)
        && r.next.iter().all(|n| *n <= NUMBERS)
        && r.newest.iter().flatten().all(|n| *n < NUMBERS)
        && r.unsent.len() <= UNSENT
        && differ
        && r.unsent.iter().all(|n| *n < NUMBERS && r.datagrams.accepted(*n))
}

/// Instead of ages the model's cells have the datagrams that carried them: those were accepted.
pub fn sound(r: &Receiver) -> bool {
    let carried = |c: &Cell| c.used == Use::Unused || (1..=r.accepted).contains(&c.carried_by);
    sound_values(r) && r.cells.iter().all(carried) && sound_cells(&r.next, &r.cells, &r.ages())
}
