//! What can be saved of a tree's words, by the words of section 14 alone: a map by pair, filled in the order of the slots.
use crate::lent::{Lent, G32, G64};
use crate::oz::{self, Answer, Entry, Index, NULL, PLACE, STATE};
use std::collections::btree_map::{BTreeMap, Entry as Place};

/// The cells of a slot that is free and cleared.
const CLEARED: [u32; 7] = [0, 0, NULL, NULL, NULL, NULL, NULL];

/// A word of the report for each slot, and the entries of the kept slots in their order.
pub struct Saved {
    pub report: Vec<u32>,
    pub kept: Vec<Entry>,
}

/// What salvage is to report of the first tree's words, and to keep.
pub fn saved(names: &[u64], cells: &[u32]) -> Saved {
    let mut slots = BTreeMap::new();
    let mut out = Saved { report: Vec::new(), kept: Vec::new() };
    for (i, (name, cell)) in names.chunks(2).zip(cells.chunks(7)).enumerate() {
        let told = match cell[STATE] {
            0 => 1,
            1 | 2 => match slots.entry((name[0], name[1])) {
                Place::Occupied(lower) => 3 + *lower.get(),
                Place::Vacant(none) => {
                    none.insert(i as u32);
                    out.kept.push((name[0], name[1], cell[PLACE]));
                    0
                }
            },
            _ => 2,
        };
        out.report.push(told);
    }
    out
}

/// The slices of a call of salvage.
#[derive(Clone, PartialEq)]
pub struct Salvage {
    pub names: Lent<u64>,
    pub cells: Lent<u32>,
    pub names2: Lent<u64>,
    pub cells2: Lent<u32>,
    pub head2: Lent<u32>,
    pub sizes2: Lent<u32>,
    pub report: Lent<u32>,
}

impl Salvage {
    pub fn new(names: &[u64], cells: &[u32], second: &Index, report: &[u32]) -> Self {
        Salvage {
            names: Lent::new(names, G64),
            cells: Lent::new(cells, G32),
            names2: Lent::new(&second.names, G64),
            cells2: Lent::new(&second.cells, G32),
            head2: Lent::new(&second.head, G32),
            sizes2: Lent::new(&second.sizes, G32),
            report: Lent::new(report, G32),
        }
    }

    pub fn call(&mut self) -> Answer {
        oz::salvage(
            self.names.get(),
            self.cells.get(),
            self.names2.lend(),
            self.cells2.lend(),
            self.head2.lend(),
            self.sizes2.lend(),
            self.report.lend(),
        )
    }

    fn guarded(&self) -> bool {
        let small = [&self.cells, &self.cells2, &self.head2, &self.sizes2, &self.report];
        self.names.guarded(G64) && self.names2.guarded(G64) && small.iter().all(|lent| lent.guarded(G32))
    }

    /// Whether the lengths fit and the second tree is cleared: else the call is to be refused.
    pub fn fits(&self) -> bool {
        let n = self.names.len / 2;
        let lengths = [self.names.len, self.cells.len, self.names2.len, self.cells2.len, self.head2.len, self.sizes2.len];
        (1..=4096).contains(&n)
            && lengths == [2 * n, 7 * n, 2 * n, 7 * n, 3, n]
            && self.report.len >= n
            && self.names2.get().iter().all(|w| *w == 0)
            && self.cells2.get().chunks(7).all(|cell| cell == CLEARED)
            && *self.head2.get() == [NULL, NULL, 0]
            && self.sizes2.get().iter().all(|w| *w == 0)
    }

    /// The second tree as an index.
    pub fn second(&self) -> Index {
        Index {
            names: self.names2.get().to_vec(),
            cells: self.cells2.get().to_vec(),
            head: self.head2.get().to_vec(),
            sizes: self.sizes2.get().to_vec(),
            lines: vec![0],
        }
    }

    /// What of the rules an answer and the words after it do not keep, from the words before; None where they keep all.
    pub fn wrong(&self, before: &Salvage, answer: Answer) -> Option<&'static str> {
        if !before.fits() {
            let tests = [(answer == Answer::plain(1, 0), "not refused"), (self == before, "a refused call has written")];
            return tests.iter().find(|(fine, _)| !fine).map(|(_, what)| *what);
        }
        let Saved { report, kept } = saved(before.names.get(), before.cells.get());
        let (n, second) = (report.len(), self.second());
        let rest = kept.len()..n;
        let in_slots = |k: usize| (second.names[2 * k], second.names[2 * k + 1], second.cells[7 * k + PLACE]);
        let used = |k: usize| matches!(second.cells[7 * k + STATE], 1 | 2);
        let tests: [(&str, &dyn Fn() -> bool); 11] = [
            ("a guard word", &|| self.guarded()),
            ("a word of the first tree", &|| self.names == before.names && self.cells == before.cells),
            ("answer", &|| answer == Answer::plain(0, kept.len() as u32)),
            ("report", &|| self.report.get()[..n] == report[..]),
            ("report past the slots", &|| self.report.get()[n..] == before.report.get()[n..]),
            ("the second tree is not sound", &|| second.sound() == Answer::plain(0, 1)),
            ("entries", &|| (0..kept.len()).all(|k| used(k) && in_slots(k) == kept[k])),
            ("a slot past those kept", &|| rest.clone().all(|k| in_slots(k) == (0, 0, 0) && second.cells[7 * k..7 * k + 7] == CLEARED)),
            ("listing", &|| second.listing().iter().eq(kept.iter().rev())),
            ("sizes", &|| second.sizes == oz::climbed_sizes(&second.cells)),
            ("another tree than the inserts leave", &|| n > 64 || second == inserted(n, &kept)),
        ];
        tests.iter().find(|(_, fine)| !fine()).map(|(what, _)| *what)
    }
}

/// An empty index of so many slots, and these entries inserted in their order; without its journal.
fn inserted(slots: usize, entries: &[Entry]) -> Index {
    let mut ix = Index::new(slots, slots);
    let calls: Vec<u64> = entries.iter().flat_map(|(hash, key, place)| [1, *hash, *key, *place as u64]).collect();
    let made = ix.batch(&calls, &mut vec![0; entries.len()]);
    assert_eq!(made, Answer::plain(0, entries.len() as u32));
    ix.lines = vec![0];
    ix
}
