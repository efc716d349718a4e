//! Uploads, drawn and damaged, and what the rules say of one, written apart from the library.
use crate::oz::Entry;
use crate::rng::Rng;

/// The bytes of four sections of pairs.
pub fn bytes(sections: &[Vec<(u64, u64)>]) -> Vec<u8> {
    let mut out = Vec::new();
    for (k, pairs) in sections.iter().enumerate() {
        out.push(k as u8 + 1);
        out.extend((pairs.len() as u16).to_le_bytes());
        for (hash, key) in pairs {
            out.extend(hash.to_le_bytes());
            out.extend(key.to_le_bytes());
        }
    }
    out
}

/// A drawn upload over few pairs; some are cut short, made longer, or have a byte changed.
pub fn draw(rng: &mut Rng) -> Vec<u8> {
    let sections: Vec<Vec<(u64, u64)>> =
        (0..4).map(|_| (0..rng.below(4)).map(|_| (rng.below(3), rng.below(9))).collect()).collect();
    let mut out = bytes(&sections);
    match rng.below(8) {
        0 => out.truncate(rng.below(out.len() as u64 + 1) as usize),
        1 => out.extend((0..1 + rng.below(4)).map(|_| rng.next() as u8)),
        2 => {
            let at = rng.below(out.len() as u64) as usize;
            out[at] = out[at].wrapping_add(1 + rng.below(3) as u8);
        }
        _ => (),
    }
    out
}

/// What the end call of an upload is to answer by its number, and the entries that it enters until then, where the index has these entries,
/// so many slots and so many lines left.
pub fn told(bytes: &[u8], held: &[Entry], slots: usize, lines: usize) -> (u32, Vec<Entry>) {
    let mut entered: Vec<Entry> = Vec::new();
    let mut at = 0;
    for kind in 1..=4 {
        let Some(&first) = bytes.get(at) else { return (12, entered) };
        if first != kind {
            return (18, entered);
        }
        let Some(count) = bytes.get(at + 1..at + 3) else { return (12, entered) };
        at += 3;
        for _ in 0..u16::from_le_bytes(count.try_into().unwrap()) {
            let Some(pair) = bytes.get(at..at + 16) else { return (12, entered) };
            let hash = u64::from_le_bytes(pair[..8].try_into().unwrap());
            let key = u64::from_le_bytes(pair[8..].try_into().unwrap());
            if held.iter().chain(&entered).any(|e| (e.0, e.1) == (hash, key)) {
                return (3, entered);
            }
            if held.len() + entered.len() == slots {
                return (5, entered);
            }
            if entered.len() == lines {
                return (6, entered);
            }
            entered.push((hash, key, at as u32));
            at += 16;
        }
    }
    (if at == bytes.len() { 0 } else { 13 }, entered)
}
