//! Accepted sets, drawn at random: which bins are Moved, what the others hold, where the slots stand.
use crate::oz::{self, Index, Set, NULL};
use crate::rng::Rng;
use std::collections::BTreeSet;

/// Tables of so many lengths from the first on; about so many entries.
pub fn draw(rng: &mut Rng, tables: usize, first: u32, entries: usize, spare: usize) -> Set {
    let lengths: Vec<u32> = (0..tables).map(|k| first << k).collect();
    let mut s =
        Set { bins: vec![0; lengths.iter().sum::<u32>() as usize], lengths, heads: Vec::new(), names: Vec::new(), cells: Vec::new() };
    let moved = rng.below(5);
    for k in 0..tables - 1 {
        for i in 0..s.lengths[k] {
            let open = k == 0 || s.bins[s.begin(k - 1) + (i % s.lengths[k - 1]) as usize] == 1;
            if open && rng.below(4) < moved {
                let at = s.begin(k) + i as usize;
                s.bins[at] = 1;
            }
        }
    }
    let hashes = [2, 16, 64, u64::MAX][rng.below(4) as usize];
    let mut pairs = BTreeSet::new();
    for _ in 0..entries {
        pairs.insert((rng.below(hashes), rng.below(4 * entries as u64 + 1)));
    }
    let mut pairs: Vec<(u64, u64)> = pairs.into_iter().collect();
    rng.shuffle(&mut pairs);
    let n = pairs.len() + spare;
    let mut order: Vec<u32> = (0..n as u32).collect();
    rng.shuffle(&mut order);
    s.names = vec![0; 2 * n];
    s.cells = Index::new(n, 0).cells;
    let mut held: Vec<Vec<(u64, u64)>> = vec![Vec::new(); s.bins.len()];
    for (hash, key) in pairs {
        let mut k = 0;
        let mut at = (hash & (s.lengths[0] as u64 - 1)) as usize;
        while s.bins[at] == 1 {
            k += 1;
            at = s.begin(k) + (hash & (s.lengths[k] as u64 - 1)) as usize;
        }
        held[at].push((hash, key));
    }
    let mut next = order.into_iter();
    for (b, held) in held.iter().enumerate() {
        if held.is_empty() {
            continue;
        }
        let slots: Vec<u32> = held.iter().map(|_| next.next().unwrap()).collect();
        let tree = rng.below(2) == 0;
        let mut ix = Index::new(held.len(), 1);
        for (hash, key) in held {
            ix.forget();
            ix.insert(*hash, *key, rng.next() as u32);
        }
        let to = |l: u32| if l == NULL { NULL } else { slots[l as usize] };
        for (i, at) in slots.iter().enumerate() {
            let at = *at as usize;
            s.names[2 * at..2 * at + 2].copy_from_slice(&ix.names[2 * i..2 * i + 2]);
            s.cells[7 * at] = ix.cells[7 * i];
            s.cells[7 * at + oz::STATE] = 1;
            s.cells[7 * at + oz::NEXT] = to(ix.cells[7 * i + oz::NEXT]);
            if tree {
                s.cells[7 * at + oz::STATE] = ix.cells[7 * i + oz::STATE];
                for f in [oz::PARENT, oz::LEFT, oz::RIGHT, oz::PREV] {
                    s.cells[7 * at + f] = to(ix.cells[7 * i + f]);
                }
            }
        }
        if tree {
            s.bins[b] = 4098 + s.heads.len() as u32 / 3;
            s.heads.extend([to(ix.head[0]), to(ix.head[1]), ix.head[2]]);
        } else {
            s.bins[b] = 2 + to(ix.head[1]);
        }
    }
    for _ in 0..rng.below(2) {
        s.heads.extend([NULL, NULL, 0]);
    }
    s
}

/// A set of one to four tables and up to forty entries; sometimes up to eight tables.
pub fn small(rng: &mut Rng) -> Set {
    let most = if rng.below(20) == 0 { 8 } else { 4 };
    let tables = 1 + rng.below(most) as usize;
    let first = 1 << rng.below(3);
    let most = if rng.below(4) == 0 { 41 } else { 9 };
    let entries = rng.below(most) as usize;
    let spare = rng.below(3) as usize;
    draw(rng, tables, first, entries, spare)
}

/// One to three words of a set changed, so that the source's types can still hold it.
pub fn damage(rng: &mut Rng, s: &mut Set) {
    let n = s.names.len() as u64 / 2;
    if n == 0 {
        return;
    }
    let link = |rng: &mut Rng| if rng.below(3) == 0 { NULL } else { rng.below(n) as u32 };
    for _ in 0..1 + rng.below(3) {
        let i = rng.below(n) as usize;
        match rng.below(11) {
            0 => s.names[2 * i] = rng.below(20),
            1 => s.names[2 * i + 1] = rng.below(20),
            2 => s.cells[7 * i + oz::STATE] = rng.below(3) as u32,
            3 if !s.heads.is_empty() => {
                let h = rng.below(s.heads.len() as u64) as usize;
                s.heads[h] = link(rng);
            }
            4 => {
                let b = rng.below(s.bins.len() as u64) as usize;
                s.bins[b] = [0, 1, 2 + i as u32, 4098][rng.below(4) as usize];
            }
            f => s.cells[7 * i + 2 + f as usize % 5] = link(rng),
        }
    }
}

/// One bin, whose list has n slots of one hash, in a drawn order.
pub fn one_list(rng: &mut Rng, n: usize) -> Set {
    let mut order: Vec<u32> = (0..n as u32).collect();
    rng.shuffle(&mut order);
    let cells = Index::new(n, 0).cells;
    let mut s = Set { lengths: vec![1], bins: vec![2 + order[0]], heads: Vec::new(), names: vec![0; 2 * n], cells };
    for (i, at) in order.iter().enumerate() {
        let at = *at as usize;
        s.names[2 * at + 1] = i as u64;
        s.cells[7 * at + oz::STATE] = 1;
        s.cells[7 * at + oz::NEXT] = order.get(i + 1).copied().unwrap_or(NULL);
    }
    s
}

/// One table of n bins, a power of two, each a tree of one slot; the slots stand in a drawn order.
pub fn lone_trees(rng: &mut Rng, n: usize) -> Set {
    let mut order: Vec<u32> = (0..n as u32).collect();
    rng.shuffle(&mut order);
    let cells = Index::new(n, 0).cells;
    let mut s = Set { lengths: vec![n as u32], bins: Vec::new(), heads: Vec::new(), names: vec![0; 2 * n], cells };
    for (i, at) in order.into_iter().enumerate() {
        s.bins.push(4098 + i as u32);
        s.heads.extend([at, at, 1]);
        s.names[2 * at as usize] = i as u64 + n as u64 * rng.below(1 << 20);
        s.names[2 * at as usize + 1] = rng.next();
        s.cells[7 * at as usize + oz::STATE] = 1;
    }
    s
}

/// So many more headers that nothing names, at drawn places: the words of the trees' bins follow them.
pub fn more_headers(rng: &mut Rng, s: &mut Set, many: u64) {
    for _ in 0..many {
        let at = rng.below(s.heads.len() as u64 / 3 + 1) as u32;
        s.heads.splice(3 * at as usize..3 * at as usize, [NULL, NULL, 0]);
        s.bins.iter_mut().filter(|w| **w >= 4098 + at).for_each(|w| *w += 1);
    }
}

/// Two tables, all entries in the one bin of the first, a list or a tree: so many go low and so many high, in a drawn listing order; so
/// many headers that nothing names. The hashes of a half are drawn, or all equal.
pub fn halves(rng: &mut Rng, low: usize, high: usize, tree: bool, spare: u64, equal: bool) -> Set {
    let n = low + high;
    let mut bits: Vec<u64> = (0..n).map(|i| (i >= low) as u64).collect();
    rng.shuffle(&mut bits);
    let mut ix = Index::new(n.max(1), 1);
    for bit in bits {
        ix.forget();
        ix.insert(bit + if equal { 0 } else { 2 * rng.below(1 << 20) }, rng.next(), rng.next() as u32);
    }
    let mut slots: Vec<u32> = (0..n as u32).collect();
    rng.shuffle(&mut slots);
    let mut s = Set { lengths: vec![1, 2], bins: vec![0; 3], heads: Vec::new(), names: vec![0; 2 * n], cells: vec![0; 7 * n] };
    let to = |l: u32| if l == NULL { NULL } else { slots[l as usize] };
    for (i, at) in slots.iter().enumerate() {
        let (at, old) = (*at as usize, &ix.cells[7 * i..7 * i + 7]);
        s.names[2 * at..2 * at + 2].copy_from_slice(&ix.names[2 * i..2 * i + 2]);
        let link = |f: usize| if tree || f == oz::NEXT { to(old[f]) } else { NULL };
        let cell = [old[0], if tree { old[oz::STATE] } else { 1 }, link(2), link(3), link(4), link(5), link(6)];
        s.cells[7 * at..7 * at + 7].copy_from_slice(&cell);
    }
    if n > 0 && tree {
        s.bins[0] = 4098;
        s.heads.extend([to(ix.head[0]), to(ix.head[1]), ix.head[2]]);
    } else if n > 0 {
        s.bins[0] = 2 + to(ix.head[1]);
    }
    more_headers(rng, &mut s, spare);
    s
}

/// The largest set that fits: eight tables, of which the last has 4,096 bins, each a tree of one slot; the bins of the others are Moved.
pub fn largest(rng: &mut Rng) -> Set {
    let mut s = lone_trees(rng, 4096);
    s.lengths = (0..8).map(|k| 32 << k).collect();
    s.bins.splice(0..0, std::iter::repeat(1).take(4064));
    s
}
