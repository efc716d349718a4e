//! The exports, which stand once in the crate oz (rust/), and what the harness has of its own over them: an index and a set whose words
//! anybody may write, and what the rules say of both.
pub use ::oz::raw::*;

/// A pair with its place.
pub type Entry = (u64, u64, u32);

/// The entries along the chain of a sound tree, from first by next.
pub fn listing(names: &[u64], cells: &[u32], head: &[u32]) -> Vec<Entry> {
    let (mut all, mut i) = (Vec::new(), head[1]);
    while i != NULL {
        let x = i as usize;
        all.push((names[2 * x], names[2 * x + 1], cells[7 * x + PLACE]));
        i = cells[7 * x + NEXT];
    }
    all
}

/// The number of used slots in each slot's subtree, counted by the parent links alone: each used slot counts in itself and in every slot
/// above it. 0 in a free slot. The tree is sound.
pub fn climbed_sizes(cells: &[u32]) -> Vec<u32> {
    let mut sizes = vec![0; cells.len() / 7];
    for i in 0..sizes.len() {
        let mut at = i as u32;
        while cells[7 * i + STATE] != 0 && at != NULL {
            sizes[at as usize] += 1;
            at = cells[7 * at as usize + PARENT];
        }
    }
    sizes
}

/// The used slots in the order of their pairs, by sorting: no link is read.
pub fn in_order(names: &[u64], cells: &[u32]) -> Vec<u32> {
    let mut used: Vec<u32> = (0..cells.len() / 7).filter(|i| cells[7 * i + STATE] != 0).map(|i| i as u32).collect();
    used.sort_by_key(|&i| (names[2 * i as usize], names[2 * i as usize + 1]));
    used
}

/// What the k-th call is to answer on a sound tree whose used slots have this order.
pub fn kth_of(order: &[u32], k: u32) -> Answer {
    order.get(k as usize).map_or(Answer::plain(15, 0), |&slot| Answer::plain(0, slot))
}

/// What the position call is to answer there.
pub fn position_of(order: &[u32], names: &[u64], hash: u64, key: u64) -> Answer {
    let has = |&i: &u32| names[2 * i as usize..2 * i as usize + 2] == [hash, key];
    order.iter().position(has).map_or(Answer::plain(4, 0), |k| Answer::plain(0, k as u32))
}

/// What the rules say that the entries along the chain are once the lines from the mark on are undone; None where they do not fit.
pub fn undone(mut list: Vec<Entry>, slots: usize, lines: &[u64], mark: usize) -> Option<Vec<Entry>> {
    for k in (mark..lines[0] as usize).rev() {
        let line = &lines[1 + LINE_WORDS * k..][..LINE_WORDS];
        let seek = |list: &[Entry], hash, key| list.iter().position(|e| (e.0, e.1) == (hash, key));
        let (kind, hash, key, place) = (line[0], line[1], line[2], line[3]);
        let at = seek(&list, hash, key);
        match kind {
            1 => {
                list.remove(at.filter(|&i| list[i].2 as u64 == place)?);
            }
            2 | NOTED => {
                if at.is_some() || list.len() == slots || place >> 32 != 0 {
                    return None;
                }
                let i = if kind == 2 { 0 } else { seek(&list, line[4], line[5])? + 1 };
                list.insert(i, (hash, key, place as u32));
            }
            3 => {
                let i = at.filter(|&i| list[i].2 == place as u32)?;
                list[i].2 = (place >> 32) as u32;
            }
            _ => return None,
        }
    }
    Some(list)
}

/// A live tree with its journal.
#[derive(Clone, PartialEq, Eq, Debug)]
pub struct Index {
    pub names: Vec<u64>,
    pub cells: Vec<u32>,
    pub head: Vec<u32>,
    pub sizes: Vec<u32>,
    pub lines: Vec<u64>,
}

impl Index {
    /// An empty index of so many slots and lines, written by fresh over words that are none of it; by hand where no index has so many.
    pub fn new(slots: usize, lines: usize) -> Self {
        let mut ix = Index {
            names: vec![7; 2 * slots],
            cells: vec![7; 7 * slots],
            head: vec![7; 3],
            sizes: vec![7; slots],
            lines: vec![7; 1 + LINE_WORDS * lines],
        };
        let made = fresh(&mut ix.names, &mut ix.cells, &mut ix.head, &mut ix.sizes, &mut ix.lines);
        let fits = (1..=4096).contains(&slots) && lines <= 1024;
        assert_eq!(made, if fits { Answer::plain(0, 1) } else { Answer::plain(1, 0) }, "fresh of {slots} slots, {lines} lines");
        if !fits {
            let cells = (0..slots).flat_map(|_| [0, 0, NULL, NULL, NULL, NULL, NULL]).collect();
            ix = Index {
                names: vec![0; 2 * slots],
                cells,
                head: vec![NULL, NULL, 0],
                sizes: vec![0; slots],
                lines: vec![0; 1 + LINE_WORDS * lines],
            };
        }
        ix
    }

    pub fn slots(&self) -> usize {
        self.names.len() / 2
    }

    pub fn cell(&self, slot: u32, field: usize) -> u32 {
        self.cells[7 * slot as usize + field]
    }

    /// Forgets the journal's lines, so that a long script does not fill it.
    pub fn forget(&mut self) {
        self.lines[0] = 0;
    }

    pub fn find(&self, hash: u64, key: u64) -> Answer {
        find(&self.names, &self.cells, &self.head, hash, key)
    }

    pub fn insert(&mut self, hash: u64, key: u64, place: u32) -> Answer {
        insert(&mut self.names, &mut self.cells, &mut self.head, &mut self.sizes, &mut self.lines, hash, key, place)
    }

    pub fn remove(&mut self, hash: u64, key: u64) -> Answer {
        remove(&mut self.names, &mut self.cells, &mut self.head, &mut self.sizes, &mut self.lines, hash, key)
    }

    pub fn replace(&mut self, hash: u64, key: u64, place: u32) -> Answer {
        replace(&self.names, &mut self.cells, &self.head, &self.sizes, &mut self.lines, hash, key, place)
    }

    /// Whether, after a replace, nothing but the place of the pair and one line are others than before: no name, link, colour, chain
    /// word or size, nor the header. Where no slot has the pair, nothing at all.
    pub fn only_place(&self, before: &Index, hash: u64, key: u64, place: u32) -> bool {
        let has = |i: &usize| before.cells[7 * i + STATE] != 0 && before.names[2 * i..2 * i + 2] == [hash, key];
        let mut wanted = before.clone();
        if let Some(i) = (0..before.slots()).find(has) {
            let at = 1 + LINE_WORDS * before.lines[0] as usize;
            let places = place as u64 | (before.cells[7 * i + PLACE] as u64) << 32;
            wanted.cells[7 * i + PLACE] = place;
            wanted.lines[at..at + LINE_WORDS].copy_from_slice(&[3, hash, key, places, 0, 0]);
            wanted.lines[0] += 1;
        }
        *self == wanted
    }

    pub fn rollback(&mut self, mark: u32) -> Answer {
        rollback(&mut self.names, &mut self.cells, &mut self.head, &mut self.sizes, &mut self.lines, mark)
    }

    /// The calls of a slice, four words each, and a word for each answer.
    pub fn batch(&mut self, calls: &[u64], answers: &mut [u64]) -> Answer {
        batch(&mut self.names, &mut self.cells, &mut self.head, &mut self.sizes, &mut self.lines, calls, answers)
    }

    pub fn read_start(&self, reader: &mut [u64]) -> Answer {
        read_start(&self.names, &self.cells, &self.head, &self.sizes, &self.lines, reader)
    }

    pub fn read_chunk(&mut self, reader: &mut [u64], chunk: &[u8]) -> Answer {
        read_chunk(&mut self.names, &mut self.cells, &mut self.head, &mut self.sizes, &mut self.lines, reader, chunk)
    }

    pub fn read_end(&mut self, reader: &mut [u64]) -> Answer {
        read_end(&mut self.names, &mut self.cells, &mut self.head, &mut self.sizes, &mut self.lines, reader)
    }

    /// A whole upload in chunks of these lengths, the last of which takes what is left: the end call's answer.
    pub fn read(&mut self, bytes: &[u8], cuts: &[usize]) -> Answer {
        let mut reader = [0; 8];
        let started = self.read_start(&mut reader);
        if started.number != 0 {
            return started;
        }
        let mut rest = bytes;
        for cut in cuts {
            let (chunk, more) = rest.split_at(*cut);
            self.read_chunk(&mut reader, chunk);
            rest = more;
        }
        self.read_chunk(&mut reader, rest);
        self.read_end(&mut reader)
    }

    /// The same calls made singly: the word of each answer.
    pub fn singly(&mut self, calls: &[u64]) -> Vec<u64> {
        let make = |call: &[u64]| match call[0] {
            1 => self.insert(call[1], call[2], call[3] as u32),
            2 => self.remove(call[1], call[2]),
            _ => self.replace(call[1], call[2], call[3] as u32),
        };
        calls.chunks(4).map(make).map(|a| a.value as u64 + ((a.number as u64) << 32)).collect()
    }

    pub fn listing(&self) -> Vec<Entry> {
        listing(&self.names, &self.cells, &self.head)
    }

    pub fn check(&self) -> Answer {
        check(&self.names, &self.cells, &self.head)
    }

    pub fn sound(&self) -> Answer {
        sound(&self.names, &self.cells, &self.head, &self.sizes)
    }

    /// The number told, 0 where the tree is sound, and in eight words what shows it.
    pub fn why(&self, shown: &mut [u32]) -> Answer {
        why(&self.names, &self.cells, &self.head, &self.sizes, shown)
    }

    pub fn kth(&self, k: u32) -> Answer {
        kth(&self.names, &self.cells, &self.head, &self.sizes, k)
    }

    pub fn position(&self, hash: u64, key: u64) -> Answer {
        position(&self.names, &self.cells, &self.head, &self.sizes, hash, key)
    }
}

/// A frozen set.
#[derive(Clone, PartialEq, Eq, Debug)]
pub struct Set {
    pub lengths: Vec<u32>,
    pub bins: Vec<u32>,
    pub heads: Vec<u32>,
    pub names: Vec<u64>,
    pub cells: Vec<u32>,
}

impl Set {
    /// Where the bins of table k begin.
    pub fn begin(&self, k: usize) -> usize {
        self.lengths[..k].iter().map(|l| *l as usize).sum()
    }

    pub fn accept(&self) -> Answer {
        accept(&self.lengths, &self.bins, &self.heads, &self.names, &self.cells)
    }

    pub fn lookup(&self, table: u32, hash: u64, key: u64) -> Answer {
        lookup(&self.lengths, &self.bins, &self.heads, &self.names, &self.cells, table, hash, key)
    }

    pub fn start(&self, table: u32, cursor: &mut [u32]) -> Answer {
        start(&self.lengths, &self.bins, &self.heads, &self.names, &self.cells, table, cursor)
    }

    pub fn walk(&self, cursor: &mut [u32]) -> Answer {
        walk(&self.lengths, &self.bins, &self.heads, &self.names, &self.cells, cursor)
    }

    /// The set's file at the front of `out`.
    pub fn save(&self, out: &mut [u8]) -> Answer {
        save(&self.lengths, &self.bins, &self.heads, &self.names, &self.cells, out)
    }

    pub fn move_bin(&mut self, table: u32, bin: u32) -> Answer {
        move_bin(&self.lengths, &mut self.bins, &mut self.heads, &self.names, &mut self.cells, table, bin)
    }

    pub fn tally(&self, totals: &mut [u64]) -> Answer {
        tally(&self.lengths, &self.bins, &self.heads, &self.names, &self.cells, totals)
    }

    pub fn load_chunk(&mut self, loader: &mut [u64], chunk: &[u8]) -> Answer {
        load_chunk(&mut self.lengths, &mut self.bins, &mut self.heads, &mut self.names, &mut self.cells, loader, chunk)
    }

    pub fn load_end(&mut self, loader: &mut [u64]) -> Answer {
        load_end(&mut self.lengths, &mut self.bins, &mut self.heads, &mut self.names, &mut self.cells, loader)
    }
}
