//! Damaged trees, each asked of oz_why and of the finder that is written apart: every word of sound and of lopsided trees set to other
//! values, every two slots of them damaged together, and drawn damages upon each other.
use harness::oz::{self, Index, LEFT, NEXT, NULL, PARENT, PREV, RIGHT, STATE};
use harness::reasons::Reason;
use harness::rng::Rng;
use std::time::Instant;

/// What came of the damages of one kind: how many trees were sound still, and how many times a slot or the header showed each rule first.
#[derive(Clone, Copy, Default)]
struct Counts {
    tried: u64,
    sound: u64,
    by_slot: [u64; 9],
    by_header: [u64; 9],
}

#[derive(Default)]
struct Tally {
    kinds: Vec<(&'static str, Counts)>,
    differences: u64,
    /// The difference on the fewest slots, with the tree's words.
    smallest: Option<(usize, String)>,
}

impl Tally {
    /// Asks both of a damaged tree, and counts it under its kind.
    fn ask(&mut self, kind: &'static str, ix: &Index) {
        let mut shown = [7; 8];
        let answer = ix.why(&mut shown);
        let ours = (answer, shown);
        let found = ix.reason();
        let wanted = found.map(|Reason { rule, shown }| (oz::Answer::plain(0, rule), shown));
        if wanted != Ok(ours) {
            self.differences += 1;
            if self.smallest.as_ref().map_or(true, |(slots, _)| ix.slots() < *slots) {
                self.smallest = Some((ix.slots(), format!("{kind}: ours {ours:?}, found {found:?}: {ix:?}")));
            }
        }
        let at = self.kinds.iter().position(|(name, _)| *name == kind).unwrap_or_else(|| {
            self.kinds.push((kind, Counts::default()));
            self.kinds.len() - 1
        });
        let counts = &mut self.kinds[at].1;
        counts.tried += 1;
        match found {
            Ok(Reason { rule: 0, .. }) => counts.sound += 1,
            Ok(Reason { rule, shown }) if shown[0] == NULL => counts.by_header[rule as usize] += 1,
            Ok(Reason { rule, .. }) => counts.by_slot[rule as usize] += 1,
            Err(_) => {}
        }
    }
}

/// A tree of so many slots and pairs, which come in an order, so many to a hash; then every third goes again, where asked.
fn grown(rng: &mut Rng, slots: usize, used: usize, order: &str, per_hash: u64, removes: bool) -> Index {
    let mut keys: Vec<u64> = (0..used as u64).collect();
    match order {
        "rising" => {}
        "falling" => keys.reverse(),
        _ => rng.shuffle(&mut keys),
    }
    let mut ix = Index::new(slots, 1);
    let pair = |k: u64| (k / per_hash * 3, 10 + 2 * (k % per_hash));
    for &k in &keys {
        ix.forget();
        assert_eq!(ix.insert(pair(k).0, pair(k).1, k as u32).number, 0);
    }
    for &k in keys.iter().filter(|k| removes && *k % 3 == 0) {
        ix.forget();
        assert_eq!(ix.remove(pair(k).0, pair(k).1).number, 0);
    }
    ix.forget();
    ix
}

/// A tree of any shape that has T1 to T5, T7 and T8, with drawn colours: black, or red below black. The k-th slot goes down from the root
/// by `side`, 0 left and 1 right at each slot, to a null link.
fn lopsided(rng: &mut Rng, slots: usize, used: usize, side: impl Fn(&mut Rng, u32) -> u32) -> Index {
    let mut ix = Index::new(slots, 1);
    let mut numbers: Vec<u32> = (0..slots as u32).collect();
    rng.shuffle(&mut numbers);
    let mut last = NULL;
    for (k, &i) in numbers[..used].iter().enumerate() {
        ix.cells[7 * i as usize + STATE] = 1;
        let (mut at, mut parent, mut field) = (ix.head[0], NULL, LEFT);
        while at != NULL {
            parent = at;
            field = if side(rng, k as u32) == 0 { LEFT } else { RIGHT };
            at = ix.cell(at, field);
        }
        hang(&mut ix, i, parent, field);
        if parent == NULL {
            ix.head = vec![i, i, used as u32];
        } else if ix.cell(parent, STATE) == 1 && rng.below(2) == 0 {
            ix.cells[7 * i as usize + STATE] = 2;
        }
        follow(&mut ix, last, i);
        last = i;
    }
    named(&mut ix);
    ix
}

/// Gives the slots of a tree rising pairs, read left, self, right, and their sizes.
fn named(ix: &mut Index) {
    let (mut row, mut waiting, mut at) = (Vec::new(), Vec::new(), ix.head[0]);
    while at != NULL || !waiting.is_empty() {
        while at != NULL {
            waiting.push(at);
            at = ix.cell(at, LEFT);
        }
        let i = waiting.pop().expect("a slot");
        row.push(i);
        at = ix.cell(i, RIGHT);
    }
    for (k, &i) in row.iter().enumerate() {
        ix.names[2 * i as usize] = k as u64 / 3 * 5;
        ix.names[2 * i as usize + 1] = 2 + k as u64 % 3 * 4;
    }
    ix.sizes = oz::climbed_sizes(&ix.cells);
}

/// Writes a field of a slot; null has none.
fn set(ix: &mut Index, i: u32, field: usize, v: u32) {
    if i != NULL {
        ix.cells[7 * i as usize + field] = v;
    }
}

/// Slot i becomes the child of p at a field.
fn hang(ix: &mut Index, i: u32, p: u32, field: usize) {
    set(ix, p, field, i);
    set(ix, i, PARENT, p);
}

/// Slot j comes behind slot i in the chain.
fn follow(ix: &mut Index, i: u32, j: u32) {
    set(ix, i, NEXT, j);
    set(ix, j, PREV, i);
}

/// Every word set to each of several values; a link, and each word of the header, to every slot too.
fn words(tally: &mut Tally, ix: &mut Index) {
    let n = ix.slots() as u32;
    for k in 0..ix.names.len() {
        let (old, near) = (ix.names[k], ix.names[(k + 2) % ix.names.len()]);
        for v in [0, 1, 2, 3, n as u64, old.wrapping_add(1), old.wrapping_sub(1), near, 1 << 32, 1 << 63, u64::MAX] {
            ix.names[k] = v;
            tally.ask("a name", ix);
        }
        ix.names[k] = old;
    }
    let more = |old: u32| [0, 1, 2, 3, n - 1, n, n + 1, old.wrapping_add(1), old.wrapping_sub(1), 1 << 31, NULL - 1, NULL];
    for k in 0..ix.cells.len() {
        let (old, link) = (ix.cells[k], k % 7 >= PARENT);
        let kind = ["a place", "a state", "a parent", "a left", "a right", "a prev", "a next"][k % 7];
        for v in more(old).into_iter().chain(0..if link { n } else { 0 }) {
            ix.cells[k] = v;
            tally.ask(kind, ix);
        }
        ix.cells[k] = old;
    }
    for k in 0..3 {
        let old = ix.head[k];
        for v in more(old).into_iter().chain(0..n) {
            ix.head[k] = v;
            tally.ask(["the root", "the first", "the count"][k], ix);
        }
        ix.head[k] = old;
    }
    for k in 0..ix.sizes.len() {
        let old = ix.sizes[k];
        for v in more(old) {
            ix.sizes[k] = v;
            tally.ask("a size", ix);
        }
        ix.sizes[k] = old;
    }
}

/// The damages of two slots, by name.
const TWOS: [&str; 22] = [
    "two parents exchanged",
    "two lefts exchanged",
    "two rights exchanged",
    "two prevs exchanged",
    "two nexts exchanged",
    "two pairs exchanged",
    "two states exchanged",
    "two colours turned",
    "two sizes exchanged",
    "a size more, a size less",
    "a second parent on the left",
    "a second parent on the right",
    "both children the same",
    "a ring of two apart from the tree",
    "a ring of two apart from the chain",
    "a second tree",
    "a second chain",
    "a slot hung elsewhere with all below it",
    "a slot moved in the chain",
    "a chain cut and joined",
    "a root moved",
    "a slot joined or freed",
];

/// Slot i, with all below it, is cut off its parent.
fn unhang(ix: &mut Index, i: u32) {
    let p = ix.cell(i, PARENT);
    for field in [LEFT, RIGHT] {
        if p != NULL && ix.cell(p, field) == i {
            set(ix, p, field, NULL);
        }
    }
}

/// Slot i leaves the chain, and its neighbours are joined.
fn unchain(ix: &mut Index, i: u32) {
    let (p, q) = (ix.cell(i, PREV), ix.cell(i, NEXT));
    follow(ix, p, q);
    if ix.head[1] == i {
        ix.head[1] = q;
    }
}

fn turned(state: u32) -> u32 {
    [0, 2, 1].get(state as usize).copied().unwrap_or(state)
}

/// Damages slots i and j of a tree in the way of a number.
fn twist(ix: &mut Index, way: usize, i: u32, j: u32) {
    let (x, y) = (i as usize, j as usize);
    match way {
        0..=4 => ix.cells.swap(7 * x + PARENT + way, 7 * y + PARENT + way),
        5 => {
            ix.names.swap(2 * x, 2 * y);
            ix.names.swap(2 * x + 1, 2 * y + 1);
        }
        6 => ix.cells.swap(7 * x + STATE, 7 * y + STATE),
        7 => {
            for k in [x, y] {
                ix.cells[7 * k + STATE] = turned(ix.cells[7 * k + STATE]);
            }
        }
        8 => ix.sizes.swap(x, y),
        9 => {
            ix.sizes[x] = ix.sizes[x].wrapping_add(1);
            ix.sizes[y] = ix.sizes[y].wrapping_sub(1);
        }
        10 => hang(ix, i, j, LEFT),
        11 => hang(ix, i, j, RIGHT),
        12 => {
            hang(ix, i, j, LEFT);
            hang(ix, i, j, RIGHT);
        }
        13 => {
            unhang(ix, i);
            unhang(ix, j);
            hang(ix, i, j, LEFT);
            hang(ix, j, i, LEFT);
        }
        14 => {
            unchain(ix, i);
            unchain(ix, j);
            follow(ix, i, j);
            follow(ix, j, i);
        }
        15 => {
            unhang(ix, i);
            unhang(ix, j);
            hang(ix, i, NULL, LEFT);
            hang(ix, j, i, RIGHT);
        }
        16 => {
            unchain(ix, i);
            unchain(ix, j);
            follow(ix, NULL, i);
            follow(ix, i, j);
            follow(ix, j, NULL);
        }
        17 => {
            unhang(ix, i);
            let field = if ix.cell(j, LEFT) == NULL { LEFT } else { RIGHT };
            hang(ix, i, j, field);
        }
        18 => {
            unchain(ix, i);
            let q = ix.cell(j, NEXT);
            follow(ix, j, i);
            follow(ix, i, q);
        }
        19 => follow(ix, i, j),
        20 => {
            ix.head[0] = i;
            set(ix, i, PARENT, NULL);
            set(ix, j, PARENT, i);
        }
        _ => {
            let used = ix.cell(i, STATE) != 0;
            ix.cells[7 * x..7 * x + 7].copy_from_slice(&[0, 0, NULL, NULL, NULL, NULL, NULL]);
            ix.names[2 * x..2 * x + 2].fill(0);
            if used {
                ix.head[2] -= 1;
                ix.sizes[x] = 0;
            } else {
                ix.head[2] += 1;
                ix.sizes[x] = 1;
                ix.cells[7 * x + STATE] = 1;
                set(ix, i, PARENT, j);
                set(ix, j, NEXT, i);
            }
        }
    }
}

/// Every two slots, in both orders, damaged in each way.
fn twos(tally: &mut Tally, ix: &Index) {
    let n = ix.slots() as u32;
    for (way, kind) in TWOS.iter().enumerate() {
        for i in 0..n {
            for j in (0..n).filter(|&j| j != i) {
                let mut damaged = ix.clone();
                twist(&mut damaged, way, i, j);
                tally.ask(kind, &damaged);
            }
        }
    }
}

/// Drawn damages of a tree upon each other.
fn drawn(rng: &mut Rng, tally: &mut Tally, ix: &Index) {
    let mut damaged = ix.clone();
    let n = ix.slots() as u64;
    for _ in 0..1 + rng.below(4) {
        let (i, j) = (rng.below(n) as u32, rng.below(n) as u32);
        match rng.below(3) {
            0 => {
                let link = if rng.below(4) == 0 { NULL } else { j };
                set(&mut damaged, i, PARENT + rng.below(5) as usize, link);
            }
            _ if i != j => twist(&mut damaged, rng.below(TWOS.len() as u64 - 1) as usize, i, j),
            _ => {}
        }
    }
    tally.ask("drawn damages upon each other", &damaged);
}

/// The colours of a sound tree drawn anew, with no red below red and a black root.
fn recoloured(rng: &mut Rng, tally: &mut Tally, ix: &Index) {
    let mut damaged = ix.clone();
    let mut waiting = vec![ix.head[0]];
    while let Some(i) = waiting.pop().filter(|&i| i != NULL) {
        let parent = ix.cell(i, PARENT);
        let may_be_red = parent != NULL && damaged.cell(parent, STATE) == 1;
        set(&mut damaged, i, STATE, if may_be_red && rng.below(3) == 0 { 2 } else { 1 });
        waiting.extend([ix.cell(i, LEFT), ix.cell(i, RIGHT)].into_iter().filter(|&c| c != NULL));
    }
    tally.ask("colours drawn anew", &damaged);
}

/// 4,096 black slots in one line by a field, the last but one of them slot 4,095. That slot alone shows T6, so that all slots are asked
/// T3 to T6, each along the rest of the line.
fn line(field: usize) -> Index {
    let n = 4096u32;
    let mut ix = Index::new(n as usize, 1);
    let numbers: Vec<u32> = (0..n - 2).chain([n - 1, n - 2]).collect();
    ix.head = vec![numbers[0], numbers[0], n];
    for (k, &i) in numbers.iter().enumerate() {
        set(&mut ix, i, STATE, 1);
        let above = if k == 0 { NULL } else { numbers[k - 1] };
        hang(&mut ix, i, above, field);
        follow(&mut ix, above, i);
    }
    named(&mut ix);
    ix
}

/// Prints how long why takes on a tree. It is to tell this rule and this slot.
fn timed(name: &str, ix: &Index, rule: u32, slot: u32) -> bool {
    let mut shown = [7; 8];
    let from = Instant::now();
    let answer = ix.why(&mut shown);
    println!("{name}: {} microseconds", from.elapsed().as_micros());
    (answer.value, shown[0]) == (rule, slot)
}

fn main() {
    let scale: usize = std::env::args().nth(1).map_or(100, |s| s.parse().expect("a scale in hundredths"));
    let many = |n: usize| (n * scale / 100).max(1);
    let mut rng = Rng::new(8);
    let mut tally = Tally::default();
    let mut trees = Vec::new();
    for (slots, used) in [(1, 0), (1, 1), (2, 1), (3, 2), (4, 3), (5, 5), (20, 0), (20, 13), (20, 20)] {
        trees.push(grown(&mut rng, slots, used, "rising", 4, false));
    }
    for _ in 0..many(2) {
        trees.push(grown(&mut rng, 24, 24, "falling", 1, false));
        trees.push(grown(&mut rng, 30, 22, "drawn", 4, false));
        trees.push(grown(&mut rng, 40, 40, "drawn", 100, true));
        trees.push(grown(&mut rng, 60, 57, "drawn", 3, false));
    }
    for tree in &trees {
        assert_eq!(tree.sound().value, 1);
    }
    let sound = trees.len();
    for _ in 0..many(2) {
        trees.push(lopsided(&mut rng, 20, 20, |_, _| 1));
        trees.push(lopsided(&mut rng, 20, 18, |_, k| k % 2));
        trees.push(lopsided(&mut rng, 32, 30, |rng, _| rng.below(2) as u32));
    }
    for tree in &trees {
        words(&mut tally, &mut tree.clone());
        twos(&mut tally, tree);
    }
    for _ in 0..many(300_000) {
        let at = rng.below(trees.len() as u64) as usize;
        drawn(&mut rng, &mut tally, &trees[at]);
    }
    for _ in 0..many(30_000) {
        let at = rng.below(sound as u64) as usize;
        recoloured(&mut rng, &mut tally, &trees[at]);
    }
    println!("trees {}, of these sound {sound}", trees.len());
    let mut all = Counts::default();
    for (name, c) in &tally.kinds {
        println!(
            "  {name}: tried {}, sound {}, T1 {} and by the header {}, T2 {}, T3 to T8 {:?}",
            c.tried,
            c.sound,
            c.by_slot[1],
            c.by_header[1],
            c.by_header[2],
            &c.by_slot[3..]
        );
        all.tried += c.tried;
        all.sound += c.sound;
        for rule in 0..9 {
            all.by_slot[rule] += c.by_slot[rule];
            all.by_header[rule] += c.by_header[rule];
        }
    }
    println!("damages tried {}, sound still {}", all.tried, all.sound);
    for rule in 1..9 {
        println!("T{rule} first: by a slot {}, by the header {}", all.by_slot[rule], all.by_header[rule]);
    }
    let mut last_size = grown(&mut rng, 4096, 4096, "rising", 4, false);
    last_size.sizes[4095] += 1;
    let told = timed("4,096 slots in one line by the right links", &line(RIGHT), 6, 4095)
        & timed("4,096 slots in one line by the left links", &line(LEFT), 6, 4095)
        & timed("4,096 slots, the last with another size", &last_size, 8, 4095);
    if let Some((slots, what)) = &tally.smallest {
        println!("smallest, {slots} slots: {what}");
    }
    let none = (1..9).any(|rule| all.by_slot[rule] + all.by_header[rule] == 0) || all.by_slot[1] * all.by_header[1] == 0;
    println!("another reason than the rules give: {}", tally.differences);
    std::process::exit((tally.differences != 0 || none || !told) as i32);
}
