//! Whether a frozen set fits and is accepted, by the words of section 7 alone, written apart from the library.
use crate::oz::{Set, LEFT, NEXT, NULL, PARENT, PLACE, PREV, RIGHT, STATE};
use std::collections::BTreeSet;

/// Whether the lengths of the slices and the tables' lengths obey their rules.
pub fn fits(s: &Set) -> bool {
    let (n, h) = (s.names.len() / 2, s.heads.len() / 3);
    (1..=8).contains(&s.lengths.len())
        && s.lengths[0].is_power_of_two()
        && s.lengths.windows(2).all(|two| two[1] as u64 == 2 * two[0] as u64)
        && s.lengths.iter().all(|l| *l <= 4096)
        && s.bins.len() as u64 == s.lengths.iter().map(|l| *l as u64).sum::<u64>()
        && (s.names.len(), s.cells.len(), s.heads.len()) == (2 * n, 7 * n, 3 * h)
        && n <= 4096
        && h <= 4096
}

/// The slots of a tree in order, where T3 and T5 hold below `x` whose parent is `above`, with the black slots on every way down.
fn below(s: &Set, x: u32, above: u32, red_above: bool, left: &mut usize, order: &mut Vec<usize>) -> Option<u32> {
    if x == NULL {
        return Some(0);
    }
    let cell = |f: usize| s.cells[7 * x as usize + f];
    let red = cell(STATE) == 2;
    if cell(PARENT) != above || cell(STATE) == 0 || (red && red_above) {
        return None;
    }
    *left = left.checked_sub(1)?;
    let by_left = below(s, cell(LEFT), x, red, left, order)?;
    order.push(x as usize);
    let by_right = below(s, cell(RIGHT), x, red, left, order)?;
    (by_left == by_right).then_some(by_left + !red as u32)
}

/// The entries of a tree by its header, where T3 to T6 hold and the chain visits exactly them.
fn tree(s: &Set, head: &[u32]) -> Option<Vec<usize>> {
    let (root, first, n) = (head[0], head[1], s.names.len() / 2);
    let mut order = Vec::new();
    if root == NULL || first == NULL || s.cells[7 * root as usize + STATE] != 1 {
        return None;
    }
    below(s, root, NULL, false, &mut n.clone(), &mut order)?;
    let pair = |x: usize| (s.names[2 * x], s.names[2 * x + 1]);
    let (mut chain, mut x, mut before) = (BTreeSet::new(), first, NULL);
    while x != NULL {
        if s.cells[7 * x as usize + PREV] != before || !chain.insert(x as usize) {
            return None;
        }
        (before, x) = (x, s.cells[7 * x as usize + NEXT]);
    }
    let rising = order.windows(2).all(|two| pair(two[0]) < pair(two[1]));
    (rising && order.len() == head[2] as usize && order.iter().copied().collect::<BTreeSet<_>>() == chain && chain.len() == order.len())
        .then_some(order)
}

/// The entries of a list, where it ends, repeats no pair, and its slots have state 1 and their next link alone.
fn list(s: &Set, from: usize) -> Option<Vec<usize>> {
    let (mut all, mut pairs, mut x) = (Vec::new(), BTreeSet::new(), from as u32);
    while x != NULL {
        let i = x as usize;
        let cell = &s.cells[7 * i..7 * i + 7];
        let bare = cell[STATE] == 1 && [PARENT, LEFT, RIGHT, PREV].iter().all(|f| cell[*f] == NULL);
        if !bare || !pairs.insert((s.names[2 * i], s.names[2 * i + 1])) {
            return None;
        }
        all.push(i);
        x = cell[NEXT];
    }
    Some(all)
}

/// Whether a set that fits is accepted.
pub fn accepted(s: &Set) -> bool {
    let (n, h) = (s.names.len() / 2, s.heads.len() / 3);
    let link = |l: u32| l == NULL || (l as usize) < n;
    let states = s.cells.chunks(7).all(|cell| cell[STATE] <= 2 && cell[PARENT..].iter().all(|l| link(*l)));
    if !states || !s.heads.chunks(3).all(|head| link(head[0]) && link(head[1])) {
        return false;
    }
    let (mut used, mut named) = (vec![false; n], vec![false; h]);
    for (k, length) in s.lengths.iter().enumerate() {
        for i in 0..*length {
            let word = s.bins[s.begin(k) + i as usize];
            let open = k == 0 || s.bins[s.begin(k - 1) + (i % s.lengths[k - 1]) as usize] == 1;
            if word != 0 && !open {
                return false;
            }
            let entries = match word as usize {
                0 => Some(Vec::new()),
                1 => (k + 1 < s.lengths.len()).then(Vec::new),
                w @ 2..=4097 if w - 2 < n => list(s, w - 2),
                w @ 4098..=8193 if w - 4098 < h && !named[w - 4098] => {
                    named[w - 4098] = true;
                    tree(s, &s.heads[3 * (w - 4098)..][..3])
                }
                _ => None,
            };
            let Some(entries) = entries else { return false };
            for x in entries {
                if used[x] || s.names[2 * x] % *length as u64 != i as u64 {
                    return false;
                }
                used[x] = true;
            }
        }
    }
    let cleared = |x: usize| {
        let cell = &s.cells[7 * x..7 * x + 7];
        s.names[2 * x..2 * x + 2] == [0, 0] && (cell[PLACE], cell[STATE]) == (0, 0) && cell[PARENT..].iter().all(|l| *l == NULL)
    };
    (0..n).all(|x| used[x] || cleared(x)) && (0..h).all(|k| named[k] || s.heads[3 * k..3 * k + 3] == [NULL, NULL, 0])
}
