//! Nanoseconds a datagram: the original from frames as values, ours from bytes through the static library, in one run. It is the thread's processor
//! time, which other work on the machine disturbs less than the time on the wall.
//!
//! usage: bench ROUNDS DATAGRAMS PICTURE, or bench count WINDOW FORM CALLS (speed/instructions)
mod clock;
mod images;
mod missing;
#[path = "../../oracle/driver/datagrams.rs"]
#[allow(dead_code)]
mod datagrams;
mod original;
#[path = "../../oracle/driver/ours.rs"]
#[allow(dead_code)]
mod ours;
mod picture;
mod pieces;
#[path = "../../oracle/driver/random.rs"]
#[allow(dead_code)]
mod random;
mod receivers;
mod single;
mod streams;

/// The median of the rounds, and how far the others lie from it.
pub struct Figure {
    pub median: f64,
    pub least: f64,
    pub most: f64,
}

impl Figure {
    pub fn of(mut rounds: Vec<f64>) -> Figure {
        rounds.sort_by(|a, b| a.total_cmp(b));
        Figure { median: rounds[rounds.len() / 2], least: rounds[0], most: rounds[rounds.len() - 1] }
    }

    pub fn told(&self) -> String {
        format!("{:.0} ({:.0} to {:.0})", self.median, self.least, self.most)
    }
}

fn machine() -> String {
    let info = std::fs::read_to_string("/proc/cpuinfo").unwrap_or_default();
    let model = info.lines().find(|l| l.starts_with("model name")).and_then(|l| l.split(": ").nth(1)).unwrap_or("unknown");
    let processors = info.lines().filter(|l| l.starts_with("processor")).count();
    format!("{model}, {processors} processors")
}

/// Cells, and how many of them are free where they are nearly full: a stream needs sixteen.
const CELLS: [usize; 3] = [32, 256, 4096];
const FREE: usize = 20;

/// One stream: the original, and ours at each number of cells, empty and nearly full. A round times each of them once.
fn row(stream: &streams::Stream, rounds: usize) -> picture::Row {
    let fillings: Vec<Vec<datagrams::Datagram>> = CELLS.iter().map(|&c| streams::filling(c, FREE)).collect();
    let mut figures = vec![Vec::new(); 1 + 2 * CELLS.len()];
    for _ in 0..rounds {
        figures[0].push(original::time(stream));
        for (i, &cells) in CELLS.iter().enumerate() {
            figures[1 + 2 * i].push(receivers::time(stream, cells, &[]));
            figures[2 + 2 * i].push(receivers::time(stream, cells, &fillings[i]));
        }
    }
    let mut figures = figures.into_iter().map(Figure::of);
    let original = figures.next().unwrap();
    println!("{}\n    {:24} {}", stream.name, "the original", original.told());
    let mut ours = Vec::new();
    for (i, figure) in figures.enumerate() {
        let free = if i % 2 == 0 { "all free".to_string() } else { format!("{FREE} free") };
        let label = format!("{} cells, {free}", CELLS[i / 2]);
        println!("    {label:24} {:28} ratio {:.2}", figure.told(), figure.median / original.median);
        ours.push((label, figure));
    }
    picture::Row { stream: stream.name.to_string(), original, ours }
}

/// How our time grows with the cells.
fn growth(rows: &[picture::Row]) {
    for row in rows {
        let times: Vec<String> = row.ours.iter().skip(1).map(|(label, t)| format!("{label} {:.1}", t.median / row.ours[0].1.median)).collect();
        println!("{}, times the cost at {}: {}", row.stream, row.ours[0].0, times.join("; "));
    }
}

fn main() {
    let words: Vec<String> = std::env::args().skip(1).collect();
    if let [count, window, form, calls] = &words[..] {
        assert_eq!(count, "count");
        return missing::count(window, form, calls);
    }
    let [rounds, datagrams, path] = &words[..] else { panic!("usage: bench ROUNDS DATAGRAMS PICTURE") };
    let (rounds, datagrams) = (rounds.parse().expect("ROUNDS is a number"), datagrams.parse().expect("DATAGRAMS is a number"));
    println!("{}; {rounds} rounds of {datagrams} datagrams; nanoseconds a datagram, median (least to most)", machine());
    let rows: Vec<picture::Row> = streams::all(datagrams).iter().map(|s| row(s, rounds)).collect();
    growth(&rows);
    single::all(rounds);
    missing::all(rounds);
    images::all(rounds);
    pieces::all(rounds);
    let date = std::env::var("SPEED_DATE").unwrap_or_default();
    let run = format!("{date}, {}, {rounds} rounds of {datagrams} datagrams", machine());
    std::fs::write(path, picture::svg(&run, &rows)).expect("the picture is written");
}
