//! A move of one bin, by the words of section 17 alone, written apart from the library; the trees of its halves are grown by the source.
use crate::accepted::{accepted, fits};
use crate::lent::LentSet;
use crate::oz::{self, Answer, Index, Set, LEFT, NEXT, NULL, PARENT, PREV, RIGHT, STATE};
use crate::source::{By, Tree};

pub const MOVED: u32 = 1;

/// The slots of a bin of an accepted set in listing order: a list goes by next, a tree by its chain.
pub fn listed(s: &Set, word: u32) -> Vec<usize> {
    let mut x = match word {
        0 | MOVED => NULL,
        2..=4097 => word - 2,
        _ => s.heads[3 * (word as usize - 4098) + 1],
    };
    let mut all = Vec::new();
    while x != NULL {
        all.push(x as usize);
        x = s.cells[7 * x as usize + NEXT];
    }
    all
}

/// A half of more than six wants a header: the lowest that is free, which is then no longer.
fn header(free: &mut Vec<usize>, half: &[usize]) -> Result<Option<usize>, ()> {
    if half.len() <= 6 {
        return Ok(None);
    }
    if free.is_empty() {
        return Err(());
    }
    Ok(Some(free.remove(0)))
}

/// Lays the slots of a half in their order: the word of their bin.
fn lay(s: &mut Set, half: &[usize], header: Option<usize>) -> u32 {
    let link = |at: Option<&usize>| at.map_or(NULL, |x| *x as u32);
    for (i, x) in half.iter().enumerate() {
        let cell = &mut s.cells[7 * x..7 * x + 7];
        cell[STATE] = 1;
        cell[PARENT..].fill(NULL);
        cell[NEXT] = link(half.get(i + 1));
    }
    let Some(h) = header else {
        return half.first().map_or(0, |x| *x as u32 + 2);
    };
    let slots = s.names.len() / 2;
    let mut tree = Tree::new(slots, By::Bin);
    for x in half {
        tree.insert(s.names[2 * x], s.names[2 * x + 1], s.cells[7 * x], *x as u32);
    }
    let mut grown = Index::new(slots, 0);
    tree.write(&mut grown);
    for (i, x) in half.iter().enumerate() {
        for f in [STATE, PARENT, LEFT, RIGHT] {
            s.cells[7 * x + f] = grown.cells[7 * x + f];
        }
        s.cells[7 * x + PREV] = link(i.checked_sub(1).map(|before| &half[before]));
    }
    s.heads[3 * h..3 * h + 3].copy_from_slice(&[grown.head[0], half[0] as u32, half.len() as u32]);
    4098 + h as u32
}

/// Whether there is no next table, no such bin, it is already Moved, or its parent bin is not.
fn cannot(s: &Set, k: usize, i: usize) -> bool {
    let word = |k: usize, i: usize| s.bins[s.begin(k) + i];
    k + 1 >= s.lengths.len()
        || i >= s.lengths[k] as usize
        || word(k, i) == MOVED
        || (k > 0 && word(k - 1, i % s.lengths[k - 1] as usize) != MOVED)
}

/// What a move is to answer, and the set that it is to leave.
pub fn moved_as(s: &Set, table: u32, bin: u32) -> (Answer, Set) {
    let refused = |number: u32| (Answer::plain(number, 0), s.clone());
    let (k, i) = (table as usize, bin as usize);
    if !fits(s) {
        return refused(1);
    }
    if k >= s.lengths.len() {
        return refused(10);
    }
    if !accepted(s) {
        return refused(2);
    }
    if cannot(s, k, i) {
        return refused(16);
    }
    let (at, length, below) = (s.begin(k) + i, s.lengths[k] as usize, s.begin(k + 1));
    let all = listed(s, s.bins[at]);
    let (low, high): (Vec<usize>, Vec<usize>) = all.iter().partition(|x| s.names[2 * **x] % (2 * length as u64) == i as u64);
    let named = |h: &usize| s.bins.iter().enumerate().any(|(b, word)| b != at && *word as usize == 4098 + h);
    let mut free: Vec<usize> = (0..s.heads.len() / 3).filter(|h| !named(h)).collect();
    let (Ok(g), Ok(h)) = (header(&mut free, &low), header(&mut free, &high)) else {
        return refused(5);
    };
    let mut left = s.clone();
    if s.bins[at] >= 4098 {
        let own = s.bins[at] as usize - 4098;
        left.heads[3 * own..3 * own + 3].copy_from_slice(&[NULL, NULL, 0]);
    }
    left.bins[at] = MOVED;
    left.bins[below + i] = lay(&mut left, &low, g);
    left.bins[below + i + length] = lay(&mut left, &high, h);
    (Answer::plain(0, all.len() as u32), left)
}

/// A move held against the model, words and all: its answer, and the set where it is as the model has it.
pub fn move_beside(s: &Set, table: u32, bin: u32) -> (Answer, Result<Set, String>) {
    let mut lent = LentSet::new(s);
    let LentSet { lengths, bins, heads, names, cells } = &mut lent;
    let answer = oz::move_bin(lengths.get(), bins.lend(), heads.lend(), names.get(), cells.lend(), table, bin);
    let (wanted, left) = moved_as(s, table, bin);
    if answer == wanted && lent.is(&left) {
        return (answer, Ok(left));
    }
    let words = if lent.is(&left) { "the same words" } else { "other words" };
    (answer, Err(format!("{s:?} table {table} bin {bin}: {answer:?}, wanted {wanted:?}, {words} as {left:?}")))
}
