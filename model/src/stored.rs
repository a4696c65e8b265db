//! What the program `replay_images` prints for its stored items: a second opinion beside tools/images.py, which made them.
use crate::image::{image_of, read};
use crate::model::{Receiver, CELL_BYTES};
use crate::programs::big16;
use crate::wire::Profile;

/// The program has no more records, nor a longer store.
const CELLS: usize = 1040;

fn big32(b: &[u8]) -> usize {
    big16(b) << 16 | big16(&b[2..])
}

struct Images {
    receiver: Receiver,
    image: Vec<u8>,
    printed: String,
}

/// The answer to an image in so many cells and so long a store.
fn outcome(image: &[u8], cells: usize, store: usize) -> Result<Receiver, u8> {
    let records = cells.min(CELLS);
    if records < 1 || store.min(CELL_BYTES * CELLS) != CELL_BYTES * records {
        return Err(9);
    }
    let image = read(image).ok_or(21)?;
    match image.flaw(records) {
        None => Ok(image.restored(records).expect("a receiver")),
        Some(_) => Err(22),
    }
}

/// The line of many images: how many gave 0, 9, 21 and 22, and a sum of the answers.
fn trials(word: &str, p: &[u8], images: impl Iterator<Item = Vec<u8>>) -> String {
    let answers: Vec<u8> = images.map(|i| outcome(&i, big16(p), big32(&p[2..])).err().unwrap_or(0)).collect();
    let counts = [0, 9, 21, 22].map(|n| answers.iter().filter(|a| **a == n).count().to_string());
    let sum = answers.iter().fold(1u64, |h, a| (31 * h + *a as u64) % 65521);
    format!("{word} {} {sum} 0\n", counts.join(" "))
}

/// The image with `gone` bytes at a place replaced.
fn replaced(image: &[u8], place: usize, gone: usize, new: &[u8]) -> Vec<u8> {
    let rest = image.get(place + gone..).unwrap_or(&[]);
    [&image[..place], new, rest].concat()
}

fn changes(image: &[u8], p: &[u8]) -> Vec<Vec<u8>> {
    let (mut all, mut at) = (Vec::new(), 6);
    while at < p.len() {
        let (place, gone, come) = (big32(&p[at..]), big16(&p[at + 4..]), big16(&p[at + 6..]));
        at += 8 + come;
        all.push(replaced(image, place, gone, &p[at - come..at]));
    }
    all
}

impl Images {
    fn line<T>(&mut self, word: &str, answer: Result<T, u8>, values: impl Fn(T) -> String) {
        self.printed += &match answer {
            Ok(x) => format!("{word} 0{}\n", values(x)),
            Err(number) => format!("{word} {number}\n"),
        };
    }

    fn item(&mut self, tag: u8, p: &[u8]) {
        match tag {
            b'N' => {
                self.receiver = Receiver::new(big16(p), Profile::of(big16(&p[2..]) as u32).expect("a profile"));
                self.printed += "new 0\n";
            }
            b'D' => {
                let answer = self.receiver.receive(p);
                self.line("receive", answer, |r| format!(" {} {} {}", r.ready, r.dropped, r.left));
            }
            b'T' => {
                let answer = self.receiver.take(usize::MAX);
                self.line("take", answer, |m| format!(" {}", m.body.len()));
            }
            b'U' => {
                let answer = self.receiver.write_unsent(usize::MAX);
                self.line("unsent", answer, |_| String::new());
            }
            b'X' => {
                let freed = self.receiver.drop_unfinished(big32(p) as u32);
                self.line("drop", Ok(freed), |freed| format!(" {freed}"));
            }
            b'S' => {
                self.image = image_of(&self.receiver).bytes();
                let wrong = (self.image != p) as u8;
                self.printed += &format!("save 0 {} {wrong}\n", p.len());
            }
            b'R' => self.restore(p),
            b'C' => self.printed += &trials("cuts", p, (0..self.image.len()).map(|n| self.image[..n].to_vec())),
            b'W' => {
                let places = || 0..self.image.len();
                let swept = p[6..].chunks(8).flat_map(|n| places().map(|place| replaced(&self.image, place, 8, n)));
                self.printed += &trials("sweep", p, swept);
            }
            _ => self.printed += &trials("changes", p, changes(&self.image, p).into_iter()),
        }
    }

    fn restore(&mut self, p: &[u8]) {
        if p.len() > 6 {
            self.image = p[6..].to_vec();
        }
        let answer = outcome(&self.image, big16(p), big32(&p[2..]));
        self.printed += &format!("restore {} 0\n", answer.as_ref().err().unwrap_or(&0));
        if let Ok(r) = answer {
            assert!(image_of(&r).bytes() == self.image, "what restores is not what is saved");
            self.receiver = r;
        }
    }
}

/// What is printed for items.
pub fn images(input: &[u8]) -> String {
    let mut images = Images { receiver: Receiver::new(0, Profile::Console), image: Vec::new(), printed: String::new() };
    let mut at = 0;
    while at < input.len() {
        let end = at + 3 + big16(&input[at + 1..]);
        images.item(input[at], &input[at + 3..end]);
        at = end;
    }
    images.printed
}
