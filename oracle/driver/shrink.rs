//! A smaller input that still differs.

/// The list with parts taken out, as long as what is left still differs: first halves, in the end single items.
pub fn smallest<T: Clone>(list: &[T], differs: &dyn Fn(&[T]) -> bool) -> Vec<T> {
    let mut best = list.to_vec();
    let mut part = best.len().max(1);
    loop {
        let mut at = 0;
        let mut shrunk = false;
        while at < best.len() {
            let mut fewer = best.clone();
            fewer.drain(at..(at + part).min(best.len()));
            if differs(&fewer) {
                best = fewer;
                shrunk = true;
            } else {
                at += part;
            }
        }
        if part > 1 {
            part /= 2;
        } else if !shrunk {
            return best;
        }
    }
}
