//! Figures over many sets.
use crate::raw;

/// Figures over many sets: [`Frozen::tally`](crate::Frozen::tally) adds a set. They begin as zeros.
///
/// ```
/// use oz::{Frozen, Refusal, Totals};
/// let mut totals = Totals::default();
/// let empty = Frozen::from_parts(vec![1], vec![0], vec![], vec![], vec![]);
/// assert!(empty.tally(&mut totals)?);
/// assert!(!Frozen::default().tally(&mut totals)?);
/// assert_eq!((totals.sets(), totals.refused(), totals.entries()), (1, 1, 0));
/// # Ok::<(), Refusal>(())
/// ```
#[derive(Clone, PartialEq, Eq, Debug)]
pub struct Totals {
    pub(crate) words: [u64; raw::TOTALS_WORDS],
}

impl Default for Totals {
    fn default() -> Totals {
        Totals { words: [0; raw::TOTALS_WORDS] }
    }
}

impl Totals {
    /// Totals of these words, whatever they are; docs/RULES.md, section 18, has their ranges.
    pub fn from_words(words: [u64; 39]) -> Totals {
        Totals { words }
    }

    /// The words: sets, refused, entries, lists, trees, looks, then the rows of 1 to 32 looks, and of more.
    pub fn words(&self) -> &[u64; 39] {
        &self.words
    }

    /// The sets that were counted as accepted.
    pub fn sets(&self) -> u64 {
        self.words[0]
    }

    /// The sets that were counted as refused.
    pub fn refused(&self) -> u64 {
        self.words[1]
    }

    /// The entries of the accepted sets.
    pub fn entries(&self) -> u64 {
        self.words[2]
    }

    /// Their bins that are a list.
    pub fn lists(&self) -> u64 {
        self.words[3]
    }

    /// Their bins that are a tree.
    pub fn trees(&self) -> u64 {
        self.words[4]
    }

    /// The looks of all their entries; divided by the entries, the mean.
    pub fn looks(&self) -> u64 {
        self.words[5]
    }

    /// The entries that a lookup from table 0 finds at so many looks, 1 to 32; None for another number.
    pub fn row(&self, looks: usize) -> Option<u64> {
        (1..=32).contains(&looks).then(|| self.words[5 + looks])
    }

    /// The entries found at more than 32 looks.
    pub fn more(&self) -> u64 {
        self.words[38]
    }
}
