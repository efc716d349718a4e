//! Slices between guard words, so that a write outside of what was lent shows.
use crate::oz::Set;

pub const GUARD: usize = 8;

/// The guard words of slices of 64, of 32 and of 8 bits.
pub const G64: u64 = 0xA5A5_5A5A_C3C3_3C3C;
pub const G32: u32 = 0x5AA5_3CC3;
pub const G8: u8 = 0xC5;

/// A slice with guard words on both sides.
#[derive(Clone, PartialEq)]
pub struct Lent<T> {
    pub all: Vec<T>,
    pub len: usize,
}

impl<T: Copy + PartialEq> Lent<T> {
    pub fn new(words: &[T], guard: T) -> Self {
        let mut all = vec![guard; GUARD];
        all.extend_from_slice(words);
        all.extend(std::iter::repeat(guard).take(GUARD));
        Lent { all, len: words.len() }
    }

    pub fn get(&self) -> &[T] {
        &self.all[GUARD..GUARD + self.len]
    }

    pub fn lend(&mut self) -> &mut [T] {
        &mut self.all[GUARD..GUARD + self.len]
    }

    pub fn guarded(&self, guard: T) -> bool {
        let end = GUARD + self.len;
        self.all[..GUARD].iter().chain(&self.all[end..]).all(|w| *w == guard)
    }
}

/// A set's slices, each between guard words.
#[derive(Clone, PartialEq)]
pub struct LentSet {
    pub lengths: Lent<u32>,
    pub bins: Lent<u32>,
    pub heads: Lent<u32>,
    pub names: Lent<u64>,
    pub cells: Lent<u32>,
}

impl LentSet {
    pub fn new(s: &Set) -> Self {
        let narrow = |words: &[u32]| Lent::new(words, G32);
        LentSet {
            lengths: narrow(&s.lengths),
            bins: narrow(&s.bins),
            heads: narrow(&s.heads),
            names: Lent::new(&s.names, G64),
            cells: narrow(&s.cells),
        }
    }

    pub fn guarded(&self) -> bool {
        self.names.guarded(G64) && [&self.lengths, &self.bins, &self.heads, &self.cells].iter().all(|lent| lent.guarded(G32))
    }

    pub fn set(&self) -> Set {
        Set {
            lengths: self.lengths.get().to_vec(),
            bins: self.bins.get().to_vec(),
            heads: self.heads.get().to_vec(),
            names: self.names.get().to_vec(),
            cells: self.cells.get().to_vec(),
        }
    }

    /// Whether the slices are this set's, and no guard word is another.
    pub fn is(&self, s: &Set) -> bool {
        let narrow = [(&self.lengths, &s.lengths), (&self.bins, &s.bins), (&self.heads, &s.heads), (&self.cells, &s.cells)];
        self.guarded() && self.names.get() == s.names && narrow.iter().all(|(lent, words)| lent.get() == **words)
    }
}
