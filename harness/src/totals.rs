//! The tally of a set, by the words of section 18 alone, written apart from the library.
use crate::accepted::{accepted, fits};
use crate::lent::{Lent, G64};
use crate::oz::{self, Answer, Set, NEXT, NULL, PARENT, STATE};

pub const WORDS: usize = 39;
pub const MOST_SETS: u64 = 1_000_000;

/// The looks at which each entry of an accepted set is found from table 0: in a list how far it stands from the front, in a tree how far
/// below the top.
pub fn looks(s: &Set) -> Vec<u64> {
    let mut all = Vec::new();
    for word in &s.bins {
        match *word {
            0 | 1 => (),
            w @ 2..=4097 => {
                let (mut x, mut at) = (w - 2, 0);
                while x != NULL {
                    at += 1;
                    all.push(at);
                    x = s.cells[7 * x as usize + NEXT];
                }
            }
            w => {
                let mut x = s.heads[3 * (w as usize - 4098) + 1];
                while x != NULL {
                    let (mut above, mut steps) = (x, 0);
                    while above != NULL {
                        steps += 1;
                        above = s.cells[7 * above as usize + PARENT];
                    }
                    all.push(steps);
                    x = s.cells[7 * x as usize + NEXT];
                }
            }
        }
    }
    all
}

/// What a set adds to the totals: where it is not accepted, one refused.
pub fn added(s: &Set) -> [u64; WORDS] {
    let mut words = [0; WORDS];
    if !fits(s) || !accepted(s) {
        words[1] = 1;
        return words;
    }
    words[0] = 1;
    words[2] = s.cells.chunks(7).filter(|cell| cell[STATE] != 0).count() as u64;
    words[3] = s.bins.iter().filter(|w| (2..4098).contains(*w)).count() as u64;
    words[4] = s.bins.iter().filter(|w| **w >= 4098).count() as u64;
    for k in looks(s) {
        words[5] += k;
        words[if k <= 32 { 5 + k as usize } else { 38 }] += 1;
    }
    words
}

/// Whether the totals are 39 words, each in its range.
pub fn in_range(totals: &[u64]) -> bool {
    totals.len() == WORDS && totals[0] as u128 + totals[1] as u128 <= MOST_SETS as u128 && {
        let most = |j: usize| if j == 5 { 4096 * 4096 } else { 4096 } * totals[0] as u128;
        (2..WORDS).all(|j| totals[j] as u128 <= most(j))
    }
}

/// What a tally is to answer, and the totals that it is to leave.
pub fn tallied_as(s: &Set, totals: &[u64]) -> (Answer, Vec<u64>) {
    if !in_range(totals) {
        return (Answer::plain(1, 0), totals.to_vec());
    }
    if totals[0] + totals[1] == MOST_SETS {
        return (Answer::plain(17, 0), totals.to_vec());
    }
    let more = added(s);
    (Answer::plain(0, more[0] as u32), totals.iter().zip(more).map(|(total, more)| total + more).collect())
}

/// A tally held against the model, the totals between guard words: its answer, and the totals where they are as the model has them.
pub fn tally_beside(s: &Set, totals: &[u64]) -> (Answer, Result<Vec<u64>, String>) {
    let (before, mut lent) = (s.clone(), Lent::new(totals, G64));
    let answer = s.tally(lent.lend());
    let (wanted, left) = tallied_as(s, totals);
    if answer == wanted && lent.get() == left && lent.guarded(G64) && *s == before {
        return (answer, Ok(left));
    }
    (answer, Err(format!("{s:?} into {totals:?}: {answer:?}, wanted {wanted:?}; {:?}, wanted {left:?}", lent.get())))
}
