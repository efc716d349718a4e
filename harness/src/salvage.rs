//! Damaged trees, each salvaged into a cleared one and held against a model that is written apart: every word set to other values, every
//! two slots damaged together, drawn damages upon each other; and what is to be refused.
use harness::oz::{Index, LEFT, NEXT, NULL, PARENT, PLACE, PREV, RIGHT, STATE};
use harness::rng::Rng;
use harness::saved::{saved, Salvage};

/// What came of the damages of one kind: how many calls there were, how many of them were refused, and how many slots the report says to
/// be kept, free, of unknown state, and repeats.
#[derive(Clone, Copy, Default)]
struct Counts {
    tried: u64,
    refused: u64,
    told: [u64; 4],
    differences: u64,
}

#[derive(Default)]
struct Tally {
    kinds: Vec<(&'static str, Counts)>,
    /// The difference on the fewest slots, with the words.
    smallest: Option<(usize, String)>,
}

impl Tally {
    /// Makes a call, holds it against the model, and counts it under its kind.
    fn make(&mut self, kind: &'static str, mut lent: Salvage) {
        let before = lent.clone();
        let answer = lent.call();
        let wrong = lent.wrong(&before, answer);
        let at = self.kinds.iter().position(|(name, _)| *name == kind).unwrap_or_else(|| {
            self.kinds.push((kind, Counts::default()));
            self.kinds.len() - 1
        });
        let counts = &mut self.kinds[at].1;
        counts.tried += 1;
        if before.fits() {
            for told in saved(before.names.get(), before.cells.get()).report {
                counts.told[told.min(3) as usize] += 1;
            }
        } else {
            counts.refused += 1;
        }
        let Some(what) = wrong else { return };
        counts.differences += 1;
        let slots = before.names.len / 2;
        if self.smallest.as_ref().map_or(true, |(fewest, _)| slots < *fewest) {
            let (names, cells, second, report) = (before.names.get(), before.cells.get(), lent.second(), lent.report.get());
            let words = format!("names {names:?}, cells {cells:?}, {answer:?}, report {report:?}, second {second:?}");
            self.smallest = Some((slots, format!("{kind}: {what}: {words}")));
        }
    }

    /// Salvages a damaged tree into a cleared one, with a report of two words more than it has slots.
    fn ask(&mut self, kind: &'static str, ix: &Index) {
        let n = ix.slots();
        self.make(kind, Salvage::new(&ix.names, &ix.cells, &Index::new(n, 0), &vec![77; n + 2]));
    }
}

/// A tree of so many slots and pairs, which come in an order, so many to a hash; then every third goes again, where asked.
fn grown(rng: &mut Rng, slots: usize, used: usize, drawn: bool, per_hash: u64, removes: bool) -> Index {
    let mut keys: Vec<u64> = (0..used as u64).collect();
    if drawn {
        rng.shuffle(&mut keys);
    }
    let mut ix = Index::new(slots, 1);
    let pair = |k: u64| (k / per_hash * 3, 10 + 2 * (k % per_hash));
    for &k in &keys {
        ix.forget();
        assert_eq!(ix.insert(pair(k).0, pair(k).1, k as u32).number, 0);
    }
    for &k in keys.iter().filter(|k| removes && *k % 3 == 0) {
        ix.forget();
        assert_eq!(ix.remove(pair(k).0, pair(k).1).number, 0);
    }
    ix
}

/// Every word of names and cells set to each of several values; a name to that of every other slot too, a link to every slot.
fn words(tally: &mut Tally, ix: &Index) {
    let mut ix = ix.clone();
    let n = ix.slots() as u32;
    for k in 0..ix.names.len() {
        let old = ix.names[k];
        let others: Vec<u64> = ix.names.iter().skip(k % 2).step_by(2).copied().collect();
        let more = [0, 1, 2, n as u64, old.wrapping_add(1), old.wrapping_sub(1), 1 << 32, 1 << 63, u64::MAX];
        for v in others.into_iter().chain(more) {
            ix.names[k] = v;
            tally.ask("a name", &ix);
        }
        ix.names[k] = old;
    }
    for k in 0..ix.cells.len() {
        let old = ix.cells[k];
        let kind = ["a place", "a state", "a parent", "a left", "a right", "a prev", "a next"][k % 7];
        let slots = 0..if k % 7 >= PARENT { n } else { 0 };
        for v in [0, 1, 2, 3, 4, n - 1, n, old.wrapping_add(1), old.wrapping_sub(1), 1 << 31, NULL - 1, NULL].into_iter().chain(slots) {
            ix.cells[k] = v;
            tally.ask(kind, &ix);
        }
        ix.cells[k] = old;
    }
}

/// The damages of two slots, by name.
const TWOS: [&str; 14] = [
    "two places exchanged",
    "two states exchanged",
    "two parents exchanged",
    "two lefts exchanged",
    "two rights exchanged",
    "two prevs exchanged",
    "two nexts exchanged",
    "two pairs exchanged",
    "a pair repeated",
    "a slot repeated with all its words",
    "a pair repeated, and a state unknown",
    "a pair repeated, and a slot freed",
    "rings of two by every link",
    "rings of one by every link",
];

/// Damages slots i and j in a way.
fn twist(ix: &mut Index, way: usize, i: usize, j: usize) {
    let pair = [ix.names[2 * i], ix.names[2 * i + 1]];
    match way {
        PLACE..=NEXT => ix.cells.swap(7 * i + way, 7 * j + way),
        7 => (0..2).for_each(|part| ix.names.swap(2 * i + part, 2 * j + part)),
        8..=11 => ix.names[2 * j..2 * j + 2].copy_from_slice(&pair),
        _ => {
            for link in [PARENT, LEFT, RIGHT, PREV, NEXT] {
                ix.cells[7 * i + link] = if way == 12 { j } else { i } as u32;
                ix.cells[7 * j + link] = if way == 12 { i } else { j } as u32;
            }
        }
    }
    match way {
        9 => ix.cells.copy_within(7 * i..7 * i + 7, 7 * j),
        10 => ix.cells[7 * i + STATE] = 3,
        11 => ix.cells[7 * i + STATE] = 0,
        _ => {}
    }
}

/// Every two slots, in both orders, damaged in each way.
fn twos(tally: &mut Tally, ix: &Index) {
    let n = ix.slots();
    for (way, kind) in TWOS.iter().enumerate() {
        for i in 0..n {
            for j in (0..n).filter(|&j| j != i) {
                let mut damaged = ix.clone();
                twist(&mut damaged, way, i, j);
                tally.ask(kind, &damaged);
            }
        }
    }
}

/// Drawn damages of a tree upon each other.
fn drawn(rng: &mut Rng, tally: &mut Tally, ix: &Index) {
    let mut damaged = ix.clone();
    let n = ix.slots() as u64;
    for _ in 0..1 + rng.below(n.min(40)) {
        let (i, j) = (rng.below(n) as usize, rng.below(n) as usize);
        match rng.below(4) {
            0 => damaged.cells[7 * i + STATE] = [0, 1, 2, 3, NULL, rng.next() as u32][rng.below(6) as usize],
            1 => damaged.cells[7 * i + PARENT + rng.below(5) as usize] = rng.next() as u32,
            _ => twist(&mut damaged, rng.below(TWOS.len() as u64) as usize, i, j),
        }
    }
    tally.ask("drawn damages upon each other", &damaged);
}

/// Words that are no tree's: few pairs, states that are often used, and any links.
fn no_tree(rng: &mut Rng, tally: &mut Tally) {
    let n = 1 + rng.below(48) as usize;
    let pairs = 1 + rng.below(2 * n as u64);
    let mut ix = Index::new(n, 0);
    for i in 0..n {
        let number = rng.below(pairs);
        ix.names[2 * i..2 * i + 2].copy_from_slice(&[number % 5, if number % 7 == 0 { u64::MAX } else { number }]);
        for f in 0..7 {
            ix.cells[7 * i + f] = if f == STATE { [1, 2, 1, 2, 0, 3, NULL][rng.below(7) as usize] } else { rng.next() as u32 };
        }
    }
    tally.ask("words that are no tree's", &ix);
}

/// The second tree with one of its words set to another value, each word to several: it is cleared no longer.
fn uncleared(tally: &mut Tally, ix: &Index) {
    let n = ix.slots();
    let last = n as u32 - 1;
    let mut second = Index::new(n, 0);
    let report = vec![77; n + 2];
    for k in 0..2 * n {
        for v in [1, 2, 1 << 32, u64::MAX] {
            second.names[k] = v;
            tally.make("a name of the second tree", Salvage::new(&ix.names, &ix.cells, &second, &report));
        }
        second.names[k] = 0;
    }
    let values = [0, 1, 2, 3, last, n as u32, NULL - 1, NULL];
    for k in 0..7 * n {
        let old = second.cells[k];
        for v in values.into_iter().filter(|&v| v != old) {
            second.cells[k] = v;
            tally.make("a cell of the second tree", Salvage::new(&ix.names, &ix.cells, &second, &report));
        }
        second.cells[k] = old;
    }
    for k in 0..3 {
        let old = second.head[k];
        for v in values.into_iter().filter(|&v| v != old) {
            second.head[k] = v;
            tally.make("the second tree's header", Salvage::new(&ix.names, &ix.cells, &second, &report));
        }
        second.head[k] = old;
    }
    for k in 0..n {
        for v in values.into_iter().filter(|&v| v != 0) {
            second.sizes[k] = v;
            tally.make("a size of the second tree", Salvage::new(&ix.names, &ix.cells, &second, &report));
        }
        second.sizes[k] = 0;
    }
    let mut used = second.clone();
    used.lines = vec![0; 7];
    assert_eq!(used.insert(5, 6, 7).number, 0);
    tally.make("a second tree that is sound with one name", Salvage::new(&ix.names, &ix.cells, &used, &report));
    tally.make("the second tree is the first one's copy", Salvage::new(&ix.names, &ix.cells, ix, &report));
}

/// Each slice one word shorter and longer than it should be, a slot shorter and longer, and empty; second trees of other capacities;
/// reports of every length up to some words more than the slots.
fn lengths(tally: &mut Tally, ix: &Index) {
    let n = ix.slots();
    let cleared = Index::new(n, 0);
    for len in 0..n + 8 {
        let kind = if len < n { "a report that is too short" } else { "a report that is long enough" };
        tally.make(kind, Salvage::new(&ix.names, &ix.cells, &cleared, &vec![77; len]));
    }
    for other in (1..n + 4).chain([2 * n, 4096, 4097]).filter(|&other| other != n) {
        let longest = vec![77; n.max(other)];
        tally.make("another capacity", Salvage::new(&ix.names, &ix.cells, &Index::new(other, 0), &longest));
    }
    let beside = |wanted: usize, a_slot: usize| {
        let less = |by: usize| wanted.saturating_sub(by);
        [0, less(1), less(a_slot), wanted + 1, wanted + a_slot].into_iter().filter(move |&len| len != wanted)
    };
    let report = vec![77; n + 2];
    let mut one = |change: &dyn Fn(&mut Index, &mut Index)| {
        let (mut first, mut second) = (ix.clone(), cleared.clone());
        change(&mut first, &mut second);
        tally.make("another length", Salvage::new(&first.names, &first.cells, &second, &report));
    };
    for len in beside(2 * n, 2) {
        one(&|first, _| first.names.resize(len, 0));
        one(&|_, second| second.names.resize(len, 0));
        one(&|first, second| [first, second].into_iter().for_each(|tree| tree.names.resize(len, 0)));
    }
    for len in beside(7 * n, 7) {
        one(&|first, _| first.cells.resize(len, NULL));
        one(&|_, second| second.cells.resize(len, NULL));
        one(&|first, second| [first, second].into_iter().for_each(|tree| tree.cells.resize(len, NULL)));
    }
    for len in beside(3, 2) {
        one(&|_, second| second.head.resize(len, NULL));
    }
    for len in beside(n, 1) {
        one(&|_, second| second.sizes.resize(len, 0));
    }
}

/// No slot, 4,096 and one more.
fn limits(rng: &mut Rng, tally: &mut Tally) {
    tally.ask("no slot", &Index::new(0, 0));
    tally.ask("4,097 slots", &Index::new(4097, 0));
    let mut ix = Index::new(4096, 0);
    tally.ask("4,096 slots, all free", &ix);
    for i in 0..4096 {
        ix.names[2 * i + 1] = i as u64;
        ix.cells[7 * i + STATE] = 1 + i as u32 % 2;
    }
    tally.ask("4,096 slots, all kept", &ix);
    for i in 2048..4096 {
        ix.names[2 * i + 1] = i as u64 - 2048;
    }
    tally.ask("4,096 slots, half of them repeats", &ix);
    for i in 0..4096 {
        ix.names[2 * i + 1] = 9;
    }
    tally.ask("4,096 slots with one pair", &ix);
    for i in 0..4096 {
        ix.names[2 * i..2 * i + 2].copy_from_slice(&[rng.below(4), rng.below(600)]);
        ix.cells[7 * i + STATE] = rng.below(4) as u32;
    }
    tally.ask("4,096 slots of drawn pairs and states", &ix);
}

fn main() {
    let scale: usize = std::env::args().nth(1).map_or(100, |s| s.parse().expect("a scale in hundredths"));
    let many = |n: usize| (n * scale / 100).max(1);
    let mut rng = Rng::new(11);
    let mut tally = Tally::default();
    let mut trees = Vec::new();
    for (slots, used) in [(1, 0), (1, 1), (2, 1), (3, 2), (4, 4), (5, 5), (20, 0), (20, 13), (20, 20)] {
        trees.push(grown(&mut rng, slots, used, false, 4, false));
    }
    for _ in 0..many(2) {
        trees.push(grown(&mut rng, 24, 24, true, 1, false));
        trees.push(grown(&mut rng, 30, 22, true, 4, false));
        trees.push(grown(&mut rng, 40, 40, true, 100, true));
        trees.push(grown(&mut rng, 60, 57, true, 3, false));
    }
    for tree in &trees {
        tally.ask("as it is", tree);
        words(&mut tally, tree);
        twos(&mut tally, tree);
        uncleared(&mut tally, tree);
        lengths(&mut tally, tree);
    }
    let large = grown(&mut rng, 300, 280, true, 3, true);
    for _ in 0..many(100_000) {
        let at = rng.below(trees.len() as u64) as usize;
        drawn(&mut rng, &mut tally, &trees[at]);
        no_tree(&mut rng, &mut tally);
    }
    for _ in 0..many(5_000) {
        drawn(&mut rng, &mut tally, &large);
    }
    limits(&mut rng, &mut tally);
    println!("trees {}, and one of 300 slots", trees.len());
    let mut all = Counts::default();
    for (name, c) in &tally.kinds {
        let [kept, free, unknown, repeats] = c.told;
        println!(
            "  {name}: calls {}, refused {}; slots kept {kept}, free {free}, unknown {unknown}, repeats {repeats}; differences {}",
            c.tried, c.refused, c.differences
        );
        all.tried += c.tried;
        all.refused += c.refused;
        all.differences += c.differences;
        (0..4).for_each(|k| all.told[k] += c.told[k]);
    }
    let [kept, free, unknown, repeats] = all.told;
    println!("calls {}, refused {}; slots kept {kept}, free {free}, unknown {unknown}, repeats {repeats}", all.tried, all.refused);
    if let Some((slots, what)) = &tally.smallest {
        println!("smallest, {slots} slots: {what}");
    }
    println!("differences {}", all.differences);
    let none = [all.refused, kept, free, unknown, repeats].contains(&0);
    std::process::exit((all.differences != 0 || none) as i32);
}
