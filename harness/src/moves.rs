//! Bins moved to the next table, each held against a model that is written apart, words and all, the trees of the halves grown by the
//! source; half-forwarded sets moved until nothing is left to move, with lookups and walks beside the source's before and after.
use harness::accepted::accepted;
use harness::moving::{listed, move_beside, MOVED};
use harness::oz::{Answer, Set};
use harness::reads::{asked, same_search, walk_beside, whole_walk};
use harness::rng::Rng;
use harness::sets;
use harness::source::Tables;
use std::collections::BTreeMap;

#[derive(Default)]
struct Tally {
    answered: BTreeMap<u32, u64>,
    /// How many halves had so many entries: none, one, up to six, seven, more; and how many had all of the bin's.
    halves: [u64; 5],
    whole: u64,
    entries: u64,
    finished: u64,
    lookups: u64,
    steps: u64,
    given: u64,
    differences: u64,
    /// The difference on the fewest slots.
    smallest: Option<(usize, String)>,
}

impl Tally {
    fn differs(&mut self, s: &Set, what: String) {
        self.differences += 1;
        let size = s.names.len() + s.bins.len();
        if self.smallest.as_ref().map_or(true, |(fewest, _)| size < *fewest) {
            self.smallest = Some((size, what));
        }
    }

    /// A move held against the model; the set that is left, where both have it.
    fn moves(&mut self, s: &Set, table: u32, bin: u32) -> Option<(Answer, Set)> {
        let (answer, left) = move_beside(s, table, bin);
        *self.answered.entry(answer.number).or_default() += 1;
        match left {
            Err(what) => {
                self.differs(s, what);
                None
            }
            Ok(left) => {
                if answer.number == 0 {
                    self.count(&left, table as usize, bin as usize, answer.value as usize);
                }
                Some((answer, left))
            }
        }
    }

    fn count(&mut self, left: &Set, k: usize, i: usize, all: usize) {
        self.entries += all as u64;
        for j in [i, i + left.lengths[k] as usize] {
            let half = listed(left, left.bins[left.begin(k + 1) + j]).len();
            self.halves[[0, 1, 2, 2, 2, 2, 2, 3].get(half).copied().unwrap_or(4)] += 1;
            self.whole += (half == all && all > 0) as u64;
        }
    }

    /// Lookups of entries and of other pairs from a table: ours on the set as it is, the source's over the words of another, whose answers
    /// are to be the same slots. Looks are held where the words are the same.
    fn looks_up(&mut self, rng: &mut Rng, s: &Set, tables: &Tables, from: usize, same_words: bool) {
        let n = s.names.len() / 2;
        for (hash, key) in asked(rng, s) {
            let (ours, theirs) = (s.lookup(from as u32, hash, key), tables.search(from, hash, key, 64 * (n + 1) + 64));
            self.lookups += 1;
            let same = if same_words { same_search(ours, theirs, n) } else { (ours.number, Some(ours.value)) == (0, theirs.0) };
            if !same {
                self.differs(s, format!("{s:?} lookup from {from} of {hash} {key}: ours {ours:?}, source {theirs:?}"));
            }
        }
    }

    /// The walk of what was moved, beside the source's over the same words, and a whole walk, which gives each entry once.
    fn walks(&mut self, s: &Set, tables: &Tables) {
        let walked = walk_beside(s, tables, 0);
        self.steps += walked.steps;
        if !walked.done || walked.wrong.is_some() {
            self.differs(s, format!("{s:?} walk: {:?}", walked.wrong));
        }
        match whole_walk(s, 0) {
            Ok(given) => self.given += given,
            Err(what) => self.differs(s, format!("{s:?} whole walk: {what}")),
        }
    }

    /// Every bin of every table, and one past the last of each, moved by itself; then moves until nothing is left to move, in the order of
    /// `finish`. Lookups from table 0 are the source's of the set as it was, and of the set as it is.
    fn finish(&mut self, rng: &mut Rng, s: &Set, singly: bool) {
        let tables = s.lengths.len();
        for k in 0..if singly { tables + 1 } else { 0 } {
            for i in 0..s.lengths.get(k).map_or(1, |l| l + 1) {
                self.moves(s, k as u32, i);
            }
        }
        let before = Tables::of_words(s).expect("an accepted set");
        self.looks_up(rng, s, &before, 0, true);
        let mut left = s.clone();
        for k in 0..tables - 1 {
            for i in 0..s.lengths[k] {
                let Some((answer, moved)) = self.moves(&left, k as u32, i) else { return };
                if answer.number == 5 {
                    return;
                }
                left = moved;
                if rng.below(8) == 0 {
                    self.looks_up(rng, &left, &before, 0, false);
                }
            }
        }
        self.finished += 1;
        let last = left.begin(tables - 1);
        if !accepted(&left) || left.bins[..last].iter().any(|w| *w != MOVED) {
            self.differs(s, format!("{s:?}, all bins moved: {left:?}"));
        }
        let after = Tables::of_words(&left).expect("an accepted set");
        self.looks_up(rng, &left, &before, 0, false);
        self.looks_up(rng, &left, &after, 0, true);
        self.walks(&left, &after);
    }
}

fn main() {
    let scale: usize = std::env::args().nth(1).map_or(100, |s| s.parse().expect("a scale in hundredths"));
    let many = |n: usize| (n * scale / 100).max(1);
    let mut rng = Rng::new(17);
    let mut tally = Tally::default();
    for _ in 0..many(20_000) {
        let mut s = sets::small(&mut rng);
        let spare = rng.below(6);
        sets::more_headers(&mut rng, &mut s, spare);
        tally.finish(&mut rng, &s, true);
        let mut damaged = s.clone();
        sets::damage(&mut rng, &mut damaged);
        let (table, bin) = (rng.below(4) as u32, rng.below(8) as u32);
        tally.moves(&damaged, table, bin);
        damaged.bins.push(0);
        tally.moves(&damaged, table, bin);
    }
    for low in [0, 1, 2, 5, 6, 7, 8, 20] {
        for high in [0, 1, 6, 7, 8, 19] {
            for (tree, spare) in [(false, 0), (false, 1), (false, 2), (false, 3), (true, 0), (true, 1), (true, 2)] {
                for equal in [false, true] {
                    for _ in 0..many(20) {
                        let s = sets::halves(&mut rng, low, high, tree, spare, equal);
                        tally.finish(&mut rng, &s, true);
                    }
                }
            }
        }
    }
    for (entries, spare) in [(300, 40), (1000, 60), (4096, 200)] {
        for _ in 0..many(40) {
            let tables = 2 + rng.below(4) as usize;
            let first = 1 << rng.below(4);
            let mut s = sets::draw(&mut rng, tables, first, entries - 96, 0);
            sets::more_headers(&mut rng, &mut s, spare);
            tally.finish(&mut rng, &s, false);
        }
    }
    for (low, high) in [(4096, 0), (0, 4096), (2048, 2048), (4090, 6), (7, 4089)] {
        for tree in [false, true] {
            let s = sets::halves(&mut rng, low, high, tree, 2, false);
            tally.finish(&mut rng, &s, false);
        }
    }
    let told: Vec<String> = tally.answered.iter().map(|(number, times)| format!("{number}: {times}")).collect();
    println!("moves by the number answered: {}", told.join(", "));
    let [none, one, few, seven, more] = tally.halves;
    println!("halves of 0: {none}, of 1: {one}, of 2 to 6: {few}, of 7: {seven}, larger: {more}; with all of the bin's: {}", tally.whole);
    println!("entries moved {}; sets moved to the end {}", tally.entries, tally.finished);
    println!(
        "lookups beside the source's before and after {}; walks of {} steps; whole walks give {} slots, each entry once",
        tally.lookups, tally.steps, tally.given
    );
    if let Some((_, what)) = &tally.smallest {
        println!("smallest: {what}");
    }
    println!("differences {}", tally.differences);
    let numbers: Vec<u32> = tally.answered.keys().copied().collect();
    let every = numbers == [0, 1, 2, 5, 10, 16] && tally.halves.iter().all(|times| *times > 0);
    std::process::exit((tally.differences != 0 || !every) as i32);
}
