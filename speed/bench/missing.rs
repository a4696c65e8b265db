//! The missing list of four windows: number by number (crate missing_plain), by words, and the original's; and the NACK that a receiver
//! writes of it.
use crate::clock;
use crate::datagrams::Datagram;
use crate::ours::{Receiver, ReliableWindow, Window};
use crate::Figure;
use rak_rs::oracle;
use std::hint::black_box;

extern "C" {
    fn poghduka_missing_plain(w: ReliableWindow, list: *mut u32, len: usize) -> usize;
}

/// Low stands in the middle of a word, and the places go round.
const LOW: u32 = 1000;
const REACH: u32 = 2048;
const FORMS: [&str; 4] = ["plain", "words", "original", "nack"];

/// Each window's name, and the numbers accepted above low.
fn windows() -> [(&'static str, Vec<u32>); 4] {
    [
        ("low alone missing below 2,048 accepted numbers", (LOW + 1..=LOW + REACH).collect()),
        ("every second number missing", (LOW + 2..=LOW + REACH).step_by(2).collect()),
        ("nothing missing", vec![]),
        ("one far number", vec![LOW + REACH]),
    ]
}

/// All below low, and these.
fn numbers(accepted: &[u32]) -> impl Iterator<Item = u32> + '_ {
    (0..LOW).chain(accepted.iter().copied())
}

fn window(accepted: &[u32]) -> ReliableWindow {
    let mut w = Window::new();
    assert!(numbers(accepted).all(|n| w.insert(n) == 0) && w.low() == LOW);
    w.0
}

fn original(accepted: &[u32]) -> oracle::ReliableWindow {
    let mut w = oracle::ReliableWindow::new();
    assert!(numbers(accepted).all(|n| w.insert(n)));
    w
}

fn receiver(accepted: &[u32]) -> Receiver {
    let mut r = Receiver::new(32, 0);
    for number in numbers(accepted) {
        r.receive(&Datagram { number, frames: vec![] }.bytes()).expect("a datagram without frames is accepted");
        r.write_unsent().expect("the unsent are sent");
    }
    r
}

/// A call of a form on a window: how many numbers it named, or bytes it wrote.
fn call(form: &str, accepted: &[u32]) -> Box<dyn FnMut() -> usize> {
    let mut list = vec![0; REACH as usize];
    match form {
        "plain" => {
            let w = window(accepted);
            Box::new(move || unsafe { poghduka_missing_plain(w, list.as_mut_ptr(), list.len()) })
        }
        "words" => {
            let w = window(accepted);
            Box::new(move || w.missing(&mut list).len())
        }
        "original" => {
            let w = original(accepted);
            Box::new(move || w.missing().len())
        }
        "nack" => {
            let mut r = receiver(accepted);
            Box::new(move || r.write_missing().expect("the missing are written").len())
        }
        _ => panic!("a form is one of {FORMS:?}"),
    }
}

fn repeat(call: &mut dyn FnMut() -> usize, calls: u32) {
    for _ in 0..calls {
        black_box(call());
    }
}

fn time(call: &mut dyn FnMut() -> usize, calls: u32) -> f64 {
    let start = clock::nanoseconds();
    repeat(call, calls);
    (clock::nanoseconds() - start) / calls as f64
}

/// Nanoseconds a call of each form, a round times each once.
pub fn all(rounds: usize) {
    for (name, accepted) in windows() {
        let mut calls = FORMS.map(|form| call(form, &accepted));
        let mut times = FORMS.map(|_| Vec::new());
        for _ in 0..rounds {
            for (call, times) in calls.iter_mut().zip(&mut times) {
                times.push(time(call, 2000));
            }
        }
        let [plain, words, original, nack] = times.map(Figure::of);
        println!("missing list, {name}\n    number by number {}", plain.told());
        println!("    by words {:28} ratio {:.3}", words.told(), words.median / plain.median);
        println!("    the original {:24} by words to it {:.4}", original.told(), words.median / original.median);
        println!("    as a receiver's NACK {}", nack.told());
    }
}

/// For speed/instructions, which counts them: calls of one form on one window, by its place.
pub fn count(which: &str, form: &str, calls: &str) {
    let (_, accepted) = &windows()[which.parse::<usize>().expect("a window's place")];
    repeat(&mut call(form, accepted), calls.parse().expect("CALLS is a number"));
}
