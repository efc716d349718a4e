//! Writes a sample of the source's own answers as lines of decimal numbers, for a replay without Rust. Null is written as the number
//! of slots.
//!
//! 0 SLOTS                          a new tree
//! 1 HASH KEY PLACE NUMBER VALUE    insert: the answer's number and value
//! 2 HASH KEY NUMBER VALUE          remove
//! 3 HASH KEY NUMBER VALUE          find
//! 4 ROOT FIRST COUNT, then per slot HASH KEY PLACE STATE PARENT LEFT RIGHT PREV NEXT: the words after the call before it
//! 5 NUMBER VALUE                   the source's check
//! 6 as 4, but the words are to be taken over: a damaged tree
//!
//! sample FOLDER writes into it, instead, call scripts with the answers that the source gives, for crate `try_scripts`: NN.in and
//! NN.out.
use harness::oz::{self, Index, NULL};
use harness::rng::Rng;
use harness::source::{By, Tree};
use seize::trace;
use std::panic::{catch_unwind, AssertUnwindSafe};
use std::path::Path;

fn say(kind: u32, numbers: &[u64]) {
    let mut line = kind.to_string();
    for n in numbers {
        line.push(' ');
        line.push_str(&n.to_string());
    }
    println!("{line}");
}

fn link(l: u32, slots: usize) -> u64 {
    if l == NULL {
        slots as u64
    } else {
        l as u64
    }
}

fn words(kind: u32, ix: &Index) {
    let n = ix.slots();
    let mut all = vec![link(ix.head[0], n), link(ix.head[1], n), ix.head[2] as u64];
    for i in 0..n {
        all.extend([ix.names[2 * i], ix.names[2 * i + 1]]);
        all.extend([ix.cells[7 * i] as u64, ix.cells[7 * i + 1] as u64]);
        all.extend((2..7).map(|f| link(ix.cells[7 * i + f], n)));
    }
    say(kind, &all);
}

/// The words of a tree of the source.
fn of_source(tree: &Tree, slots: usize) -> Index {
    let mut ix = Index::new(slots, 0);
    tree.write(&mut ix);
    ix
}

/// What an insert answers by the source: the number of a refusal or 0, and the slot. The new one's is the lowest free slot, by
/// docs/RULES.md, section 4.
fn insert(tree: &mut Tree, slots: usize, hash: u64, key: u64, place: u32) -> (u32, u32) {
    let before = of_source(tree, slots);
    let there = tree.find(hash, key);
    let free = (0..slots as u32).find(|&i| before.cell(i, oz::STATE) == 0);
    match (there, free) {
        (NULL, None) => (5, 0),
        (NULL, Some(at)) => {
            tree.insert(hash, key, place, at);
            (0, at)
        }
        (at, _) => (3, tree.insert(hash, key, place, at)),
    }
}

fn remove(tree: &mut Tree, hash: u64, key: u64) -> (u32, u32) {
    match tree.remove(hash, key).0 {
        NULL => (4, 0),
        at => (0, at),
    }
}

fn script(rng: &mut Rng, slots: usize, ops: &[(bool, u64, u64)]) {
    say(0, &[slots as u64]);
    let mut tree = Tree::new(slots, By::Bin);
    for (joins, hash, key) in ops {
        if *joins {
            let place = rng.below(1000) as u32;
            let (number, value) = insert(&mut tree, slots, *hash, *key, place);
            say(1, &[*hash, *key, place as u64, number as u64, value as u64]);
        } else {
            let (number, value) = remove(&mut tree, *hash, *key);
            say(2, &[*hash, *key, number as u64, value as u64]);
        }
        words(4, &of_source(&tree, slots));
        let (hash, key) = (rng.below(3), rng.below(10));
        say(3, &[hash, key, 0, link(tree.find(hash, key), slots)]);
    }
    tree.check();
    say(5, &[0, 0]);
}

/// The source's check of words that are damaged, by the test that fails and its slot; and finds in them.
fn damaged(rng: &mut Rng, tests: &mut [u32; 9]) {
    let slots = 3 + rng.below(6) as usize;
    let mut ix = Index::new(slots, 1);
    for _ in 0..2 * slots {
        ix.forget();
        ix.insert(rng.below(3), rng.below(10), rng.below(1000) as u32);
    }
    for _ in 0..1 + rng.below(2) {
        let i = rng.below(slots as u64) as usize;
        let to = if rng.below(3) == 0 { NULL } else { rng.below(slots as u64) as u32 };
        match rng.below(8) {
            0 => ix.names[2 * i] = rng.below(4),
            1 | 2 => ix.cells[7 * i + oz::STATE] = 2,
            f => ix.cells[7 * i + 2 + f as usize % 5] = to,
        }
    }
    let tree = Tree::of_words(&ix);
    trace::start(64 * slots + 64);
    let outcome = catch_unwind(AssertUnwindSafe(|| tree.check()));
    let visits = tree.visits(&trace::stop());
    let (number, value) = match outcome {
        Ok(()) => (0, 0),
        Err(panic) => {
            let text = panic.downcast_ref::<String>().cloned().or_else(|| panic.downcast_ref::<&str>().map(|s| s.to_string())).unwrap();
            let Some(test) = harness::MESSAGES.iter().position(|m| text.contains(m)) else { return };
            (101 + test as u64, *visits.last().unwrap() as u64)
        }
    };
    let at = if number == 0 { 0 } else { number as usize - 100 };
    // A source that ends after more visits than there are slots is no sample of ours, which answers 9.
    if tests[at] == 6 || visits.len() > slots {
        return;
    }
    tests[at] += 1;
    say(0, &[slots as u64]);
    words(6, &ix);
    say(5, &[number, value]);
    for _ in 0..4 {
        let (hash, key) = (rng.below(4), rng.below(10));
        if let (Some(found), _) = tree.search(hash, key, 3 * slots + 3) {
            say(3, &[hash, key, 0, link(found, slots)]);
        }
    }
}

/// The slots, and the lines of the journal, that a script has.
const ROOM: usize = 512;

/// A call script and its answers, all of them the source's: inserts, removes and finds of a few pairs or many, and lists by its chain.
fn calls(rng: &mut Rng, pairs: u64, hashes: u64) -> (String, String) {
    let mut tree = Tree::new(ROOM, By::Bin);
    let (mut asked, mut answers, mut lines) = (String::new(), String::new(), 0);
    let told = |(number, value): (u32, u32), word: &str| if number == 0 { format!("{word} {value}\n") } else { format!("no {number}\n") };
    // A call that the journal has no line for is not asked, since the source has no journal.
    while lines < ROOM {
        let (hash, key) = (rng.below(hashes), rng.below(pairs));
        match rng.below(60) {
            0..=34 => {
                let place = rng.below(1 << 32) as u32;
                let answer = insert(&mut tree, ROOM, hash, key, place);
                lines += (answer.0 == 0) as usize;
                asked += &format!("+ {hash} {key} {place}\n");
                answers += &told(answer, "slot");
            }
            35..=49 => {
                let answer = remove(&mut tree, hash, key);
                lines += (answer.0 == 0) as usize;
                asked += &format!("- {hash} {key}\n");
                answers += &told(answer, "gone");
            }
            50..=58 => {
                asked += &format!("? {hash} {key}\n");
                let (found, looks) = tree.search(hash, key, 3 * ROOM);
                answers += &match found.expect("a sound tree") {
                    NULL => format!("none {looks}\n"),
                    at => format!("at {at} {looks}\n"),
                };
            }
            _ => {
                let ix = of_source(&tree, ROOM);
                asked += "l\n";
                answers += &format!("entries {}\n", ix.head[2]);
                let mut i = ix.head[1];
                while i != NULL {
                    answers += &format!("{} {} {}\n", ix.names[2 * i as usize], ix.names[2 * i as usize + 1], ix.cell(i, oz::PLACE));
                    i = ix.cell(i, oz::NEXT);
                }
            }
        }
    }
    (asked, answers)
}

fn write_scripts(folder: &Path) {
    let mut rng = Rng::new(7);
    for (number, pairs, hashes) in [(49, 12, 3), (50, 40, 7), (51, 100, 2), (52, 200, 1 << 40)] {
        let (asked, answers) = calls(&mut rng, pairs, hashes);
        std::fs::write(folder.join(format!("{number}.in")), asked).expect("the script");
        std::fs::write(folder.join(format!("{number}.out")), answers).expect("its answers");
    }
}

fn main() {
    std::panic::set_hook(Box::new(|_| {}));
    if let Some(folder) = std::env::args().nth(1) {
        return write_scripts(Path::new(&folder));
    }
    let mut rng = Rng::new(6);
    for slots in [1, 2, 3, 7, 7, 12, 12, 16] {
        let ops: Vec<(bool, u64, u64)> =
            (0..12 + 4 * slots).map(|k| (rng.below(8) < if k < 2 * slots { 6 } else { 3 }, rng.below(3), rng.below(10))).collect();
        script(&mut rng, slots, &ops);
    }
    let mut tests = [0; 9];
    for _ in 0..4000 {
        damaged(&mut rng, &mut tests);
    }
}
