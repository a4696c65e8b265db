//! What was compared, and how many.

pub struct Report {
    totals: Vec<(String, u64)>,
}

impl Report {
    pub fn new() -> Report {
        Report { totals: Vec::new() }
    }

    /// One line for one comparison, and the counts into the totals.
    pub fn say(&mut self, what: &str, counts: &[(u64, &str)]) {
        let told: Vec<String> = counts.iter().map(|(n, of)| format!("{} {of}", grouped(*n))).collect();
        println!("equal  {what}: {}", told.join(", "));
        for (n, of) in counts {
            match self.totals.iter_mut().find(|t| t.0 == *of) {
                Some(t) => t.1 += n,
                None => self.totals.push((of.to_string(), *n)),
            }
        }
    }

    pub fn totals(&self) {
        let told: Vec<String> = self.totals.iter().map(|(of, n)| format!("{} {of}", grouped(*n))).collect();
        println!("in all {}", told.join(", "));
    }
}

fn grouped(n: u64) -> String {
    let s = n.to_string();
    let mut out = String::new();
    for (i, c) in s.chars().enumerate() {
        if i > 0 && (s.len() - i) % 3 == 0 {
            out.push(',');
        }
        out.push(c);
    }
    out
}
