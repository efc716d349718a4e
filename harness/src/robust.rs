//! Calls on random and damaged words, lengths and cursors, with guard words around each slice, and random runs of demand 3.
use harness::files::{self, Loads, Model};
use harness::lent::{Lent, G32, G64, G8, GUARD};
use harness::moving::move_beside;
use harness::oz::{self, Index, LINE_WORDS, NOTED, NULL};
use harness::rng::Rng;
use harness::saved::Salvage;
use harness::sets;
use harness::totals::{tally_beside, MOST_SETS, WORDS};
use std::collections::BTreeMap;

#[derive(Clone, PartialEq)]
struct Live {
    names: Lent<u64>,
    cells: Lent<u32>,
    head: Lent<u32>,
    sizes: Lent<u32>,
    lines: Lent<u64>,
}

impl Live {
    fn new(ix: &Index) -> Self {
        Live {
            names: Lent::new(&ix.names, G64),
            cells: Lent::new(&ix.cells, G32),
            head: Lent::new(&ix.head, G32),
            sizes: Lent::new(&ix.sizes, G32),
            lines: Lent::new(&ix.lines, G64),
        }
    }

    fn listing(&self) -> Vec<oz::Entry> {
        oz::listing(self.names.get(), self.cells.get(), self.head.get())
    }

    fn guarded(&self) -> bool {
        let small = [&self.cells, &self.head, &self.sizes];
        self.names.guarded(G64) && self.lines.guarded(G64) && small.iter().all(|lent| lent.guarded(G32))
    }

    /// Whether the sizes of a sound tree are those that its parent links give.
    fn sized(&self) -> bool {
        self.sizes.get() == oz::climbed_sizes(self.cells.get())
    }

    fn insert(&mut self, hash: u64, key: u64, place: u32) -> oz::Answer {
        oz::insert(self.names.lend(), self.cells.lend(), self.head.lend(), self.sizes.lend(), self.lines.lend(), hash, key, place)
    }

    fn remove(&mut self, hash: u64, key: u64) -> oz::Answer {
        oz::remove(self.names.lend(), self.cells.lend(), self.head.lend(), self.sizes.lend(), self.lines.lend(), hash, key)
    }

    fn replace(&mut self, hash: u64, key: u64, place: u32) -> oz::Answer {
        oz::replace(self.names.get(), self.cells.lend(), self.head.get(), self.sizes.get(), self.lines.lend(), hash, key, place)
    }

    fn rollback(&mut self, mark: u32) -> oz::Answer {
        oz::rollback(self.names.lend(), self.cells.lend(), self.head.lend(), self.sizes.lend(), self.lines.lend(), mark)
    }

    fn batch(&mut self, calls: &[u64], answers: &mut [u64]) -> oz::Answer {
        let (head, sizes) = (self.head.lend(), self.sizes.lend());
        oz::batch(self.names.lend(), self.cells.lend(), head, sizes, self.lines.lend(), calls, answers)
    }

    fn fresh(&mut self) -> oz::Answer {
        oz::fresh(self.names.lend(), self.cells.lend(), self.head.lend(), self.sizes.lend(), self.lines.lend())
    }

    fn sound(&self) -> oz::Answer {
        oz::sound(self.names.get(), self.cells.get(), self.head.get(), self.sizes.get())
    }

    fn why(&self, shown: &mut [u32]) -> oz::Answer {
        oz::why(self.names.get(), self.cells.get(), self.head.get(), self.sizes.get(), shown)
    }

    fn kth(&self, k: u32) -> oz::Answer {
        oz::kth(self.names.get(), self.cells.get(), self.head.get(), self.sizes.get(), k)
    }

    fn position(&self, hash: u64, key: u64) -> oz::Answer {
        oz::position(self.names.get(), self.cells.get(), self.head.get(), self.sizes.get(), hash, key)
    }

    /// What the k-th call and the position call are to answer: 1 and 2 as the full check says, else by the sorted pairs.
    fn ranked(&self, by_order: impl Fn(&[u32]) -> oz::Answer) -> oz::Answer {
        match self.sound() {
            oz::Answer { number: 1, .. } => oz::Answer::plain(1, 0),
            oz::Answer { value: 0, .. } => oz::Answer::plain(2, 0),
            _ => by_order(&oz::in_order(self.names.get(), self.cells.get())),
        }
    }
}

fn word32(rng: &mut Rng, n: u64) -> u32 {
    match rng.below(8) {
        0 => NULL,
        1 => rng.next() as u32,
        2 => n as u32,
        3 => NULL - 1,
        _ => rng.below(n + 1) as u32,
    }
}

fn word64(rng: &mut Rng, n: u64) -> u64 {
    match rng.below(8) {
        0 => u64::MAX,
        1 => rng.next(),
        2 => 1 << 32,
        _ => rng.below(n + 1),
    }
}

/// A word of a journal: now and then the kind of a remove line, with or without a pair before.
fn line_word(rng: &mut Rng, n: u64) -> u64 {
    match rng.below(8) {
        0 => 2,
        1 => NOTED,
        2 => rng.below(4) + (1 << 32),
        _ => word64(rng, n),
    }
}

/// A length at, just beside or far from the wanted one.
fn length(rng: &mut Rng, wanted: usize) -> usize {
    match rng.below(40) {
        0 => wanted + 1,
        1 => wanted.saturating_sub(1),
        2 => 0,
        3 => wanted + 7,
        4 => rng.below(64) as usize,
        _ => wanted,
    }
}

fn resize<T: Copy>(words: &mut Vec<T>, len: usize, fill: T) {
    words.resize(len, fill);
}

/// Words of a live tree: sound, damaged or random, of right or wrong lengths.
fn live(rng: &mut Rng) -> Live {
    let slots = match rng.below(2000) {
        0 => 4096,
        1 => 4097,
        n => n as usize % 7 + 1,
    };
    let capacity = match rng.below(500) {
        0 => 1024,
        1 => 1025,
        n => n as usize % 5,
    };
    let mut ix = Index::new(slots, capacity.min(1024));
    let some = slots as u64 * 2;
    if slots < 64 {
        for _ in 0..rng.below(some) {
            if rng.below(3) != 0 {
                ix.forget();
            }
            let (h, k) = (rng.below(3), rng.below(slots as u64 + 1));
            match rng.below(5) {
                0 => ix.remove(h, k),
                1 => ix.replace(h, k, rng.next() as u32),
                _ => ix.insert(h, k, rng.next() as u32),
            };
        }
    }
    resize(&mut ix.lines, 1 + LINE_WORDS * capacity, 0);
    match rng.below(4) {
        0 => {}
        1 => {
            for w in ix.cells.iter_mut() {
                *w = word32(rng, slots as u64);
            }
            for w in ix.head.iter_mut().chain(ix.sizes.iter_mut()) {
                *w = word32(rng, slots as u64);
            }
            for w in ix.names.iter_mut() {
                *w = word64(rng, 3);
            }
            for w in ix.lines.iter_mut() {
                *w = line_word(rng, capacity as u64);
            }
        }
        _ => {
            for _ in 0..rng.below(4) {
                match rng.below(9) {
                    8 => {
                        let i = rng.below(ix.sizes.len() as u64) as usize;
                        ix.sizes[i] = word32(rng, slots as u64);
                    }
                    0 => {
                        let i = rng.below(ix.names.len() as u64) as usize;
                        ix.names[i] = word64(rng, 3);
                    }
                    1 => ix.head[rng.below(3) as usize] = word32(rng, slots as u64),
                    2 | 3 => {
                        let i = rng.below(ix.lines.len() as u64) as usize;
                        ix.lines[i] = line_word(rng, capacity as u64 + 1);
                    }
                    _ => {
                        let i = rng.below(ix.cells.len() as u64) as usize;
                        ix.cells[i] = word32(rng, slots as u64);
                    }
                }
            }
        }
    }
    let (a, b, c, d) = (length(rng, 2 * slots), length(rng, 7 * slots), length(rng, 3), length(rng, 1 + LINE_WORDS * capacity));
    let e = length(rng, slots);
    resize(&mut ix.sizes, e, 0);
    resize(&mut ix.names, a, 0);
    resize(&mut ix.cells, b, NULL);
    resize(&mut ix.head, c, NULL);
    resize(&mut ix.lines, d, 0);
    Live::new(&ix)
}

/// A sound tree of a few pairs, and a journal whose lines are drawn: of every kind, now and then of none, with pairs that may be there.
fn drawn(rng: &mut Rng) -> Live {
    let slots = 1 + rng.below(5) as usize;
    let capacity = rng.below(4) as usize;
    let mut ix = Index::new(slots, capacity.max(1));
    for _ in 0..rng.below(8) {
        ix.forget();
        let (h, k) = (rng.below(2), rng.below(3));
        match rng.below(4) {
            0 => ix.remove(h, k),
            _ => ix.insert(h, k, rng.below(2) as u32),
        };
    }
    resize(&mut ix.lines, 1 + LINE_WORDS * capacity, 0);
    ix.lines[0] = capacity as u64;
    for line in ix.lines[1..].chunks_exact_mut(LINE_WORDS) {
        let kind = [1, 2, NOTED, NOTED, NOTED, 3, 3 + (1 << 32), line_word(rng, 4)][rng.below(8) as usize];
        let old = if kind == 3 || rng.below(16) == 0 { rng.below(2) << 32 } else { 0 };
        line.copy_from_slice(&[kind, rng.below(2), rng.below(3), rng.below(2) + old, rng.below(2), rng.below(3)]);
    }
    Live::new(&ix)
}

/// A rollback of drawn lines.
fn drawn_calls(rng: &mut Rng, tally: &mut Tally) {
    let mut l = drawn(rng);
    let before = l.clone();
    let mark = rng.below(before.lines.get()[0] + 1) as u32;
    let answer = l.rollback(mark);
    tally.note("rollback", answer, l.names.len / 2, if answer.number == 0 { l.guarded() } else { l == before });
    tally.foretell(&before, &l, mark, answer);
}

#[derive(Default)]
struct Tally {
    calls: u64,
    touched: u64,
    searches: u64,
    strange: u64,
    rollbacks: u64,
    noted: u64,
    unforetold: u64,
    ranks: u64,
    misranked: u64,
    by: BTreeMap<(&'static str, u32), u64>,
}

impl Tally {
    /// A rollback's answer, held to what the lines say where it answered 0 or 8.
    fn foretell(&mut self, before: &Live, after: &Live, mark: u32, answer: oz::Answer) {
        if !matches!(answer.number, 0 | 8) {
            return;
        }
        self.rollbacks += 1;
        let kinds = before.lines.get()[1..].iter().step_by(LINE_WORDS).take(before.lines.get()[0] as usize).skip(mark as usize);
        self.noted += (answer.number == 0 && kinds.into_iter().any(|kind| *kind == NOTED)) as u64;
        if !foretold(before, after, mark, answer.number) {
            self.unforetold += 1;
            println!("foretold otherwise: rollback to {mark} answered {answer:?}");
        }
    }

    /// An answer of the k-th call or of the position call, and the one that it is to have.
    fn rank(&mut self, name: &'static str, answer: oz::Answer, wanted: oz::Answer) {
        self.ranks += 1;
        if answer != wanted {
            self.misranked += 1;
            println!("ranks: {name} answered {answer:?}, wanted {wanted:?}");
        }
    }

    /// A call's answer on so many slots, and whether it has touched nothing that it should not. Looks are at most the slots, on a hit at
    /// least one; 1, 10 and the routines that do not search have none.
    fn note(&mut self, name: &'static str, answer: oz::Answer, slots: usize, fine: bool) {
        self.calls += 1;
        *self.by.entry((name, answer.number)).or_default() += 1;
        if !fine {
            self.touched += 1;
            println!("touched: {name} answered {answer:?}");
        }
        let searched = matches!(name, "find" | "lookup") && !matches!(answer.number, 1 | 10);
        self.searches += searched as u64;
        let hit = searched && answer.number == 0 && answer.value != NULL;
        let most = if searched { slots as u32 } else { 0 };
        if !(hit as u32..=most).contains(&answer.looks) {
            self.strange += 1;
            println!("looks: {name} on {slots} slots answered {answer:?}");
        }
    }
}

/// Whether a replace that answered this slot has changed no name, no word of the header, no size and no cell but the slot's place.
fn placed(before: &Live, after: &Live, slot: u32) -> bool {
    let at = GUARD + 7 * slot as usize + oz::PLACE;
    let others = |l: &Live| [&l.cells.all[..at], &l.cells.all[at + 1..]].concat();
    before.names == after.names && before.head == after.head && before.sizes == after.sizes && others(before) == others(after)
}

/// Whether a remove that was accepted left the line that the rules say: with the pair before in the chain, if there was one.
fn noted(before: &Live, after: &Live, hash: u64, key: u64) -> bool {
    let list = before.listing();
    let Some(i) = list.iter().position(|e| (e.0, e.1) == (hash, key)) else { return false };
    let (kind, prior) = if i == 0 { (2, (0, 0, 0)) } else { (NOTED, list[i - 1]) };
    let at = 1 + LINE_WORDS * before.lines.get()[0] as usize;
    after.lines.get()[at..at + LINE_WORDS] == [kind, hash, key, list[i].2 as u64, prior.0, prior.1]
}

/// Whether a rollback that answered 0 or 8 did what the rules say of the lines: the entries along the chain with the sizes of their tree,
/// or that they do not fit.
fn foretold(before: &Live, after: &Live, mark: u32, number: u32) -> bool {
    match oz::undone(before.listing(), before.names.len / 2, before.lines.get(), mark as usize) {
        Some(list) => number == 0 && after.listing() == list && after.sized(),
        None => number == 8,
    }
}

/// A batch of any words on any words: its answer, and whether it did what the same calls made singly do on a copy, wrote no answer past the
/// calls, and was refused exactly where it is to be.
fn batched(rng: &mut Rng, l: &mut Live) -> (oz::Answer, bool) {
    let mut calls = Vec::new();
    for _ in 0..rng.below(6) {
        let known = rng.below(12) != 0;
        let kind = if known { 1 + rng.below(3) } else { word64(rng, 5) };
        let place = if rng.below(12) == 0 { word64(rng, 9) } else { rng.next() as u32 as u64 };
        calls.extend([kind, rng.below(3), rng.below(8), place]);
    }
    if rng.below(12) == 0 {
        calls.pop();
    }
    let n = calls.len() / 4;
    let room = if rng.below(8) == 0 { rng.below(6) as usize } else { n + rng.below(3) as usize };
    let mut answers = Lent::new(&(0..room).map(|_| rng.next()).collect::<Vec<u64>>(), G64);
    let (before, words) = (l.clone(), answers.clone());
    let known = |call: &[u64]| call[0] == 2 || (matches!(call[0], 1 | 3) && call[3] >> 32 == 0);
    let fit = calls.len() % 4 == 0 && n <= room && calls.chunks(4).all(known);
    let answer = l.batch(&calls, answers.lend());
    // An insert of a copy says 1 and 2 where a batch is to say so.
    let probe = before.clone().insert(0, 0, 0).number;
    let wanted = if probe == 1 || !fit { 1 } else if probe == 2 { 2 } else { 0 };
    if answer.number != wanted {
        return (answer, false);
    }
    if wanted != 0 {
        return (answer, *l == before && answers == words && answer.value == 0);
    }
    let mut single = before.clone();
    let mut told = words.get().to_vec();
    let mut accepted = 0;
    for (k, call) in calls.chunks(4).enumerate() {
        let a = match call[0] {
            1 => single.insert(call[1], call[2], call[3] as u32),
            2 => single.remove(call[1], call[2]),
            _ => single.replace(call[1], call[2], call[3] as u32),
        };
        told[k] = a.value as u64 + ((a.number as u64) << 32);
        accepted += (a.number == 0) as u32;
    }
    (answer, *l == single && answers.get() == told && answers.guarded(G64) && l.guarded() && answer.value == accepted)
}

/// A reader of drawn words, in range or not.
fn reader_words(rng: &mut Rng) -> Vec<u64> {
    let small = [rng.below(5), rng.below(19), rng.below(4), rng.next(), rng.next(), rng.below(4), rng.below(3), 0];
    let mut words: Vec<u64> = small.to_vec();
    match rng.below(6) {
        0 => words[rng.below(8) as usize] = word64(rng, 20),
        1 => words[7] = 1 + rng.below(4) + (rng.below(20) << 32),
        2 => words.truncate(rng.below(8) as usize),
        3 => words = vec![0, 0, 0, 0, 0, rng.below(3), 0, 0],
        _ => (),
    }
    words
}

/// A chunk or the end call on any words with any reader: its answer, and whether the chunk cut in two comes to the same, a call that says
/// 1 of the reader's words changes nothing, and no other word is touched.
fn read_any(rng: &mut Rng, l: &mut Live) -> (&'static str, oz::Answer, bool) {
    let mut reader = Lent::new(&reader_words(rng), G64);
    if rng.below(4) == 0 {
        let (before, words) = (l.clone(), reader.clone());
        let answer = oz::read_start(l.names.get(), l.cells.get(), l.head.get(), l.sizes.get(), l.lines.get(), reader.lend());
        let made = answer.number == 0 && reader.get() == [0, 0, 0, 0, 0, l.lines.get()[0] + 1, 0, 0];
        let probe = before.clone().insert(0, 0, 0).number;
        let wanted = if reader.len != 8 || probe == 1 { 1 } else if probe == 2 { 2 } else { 0 };
        return ("read_start", answer, *l == before && reader.guarded(G64) && answer.number == wanted && (made || reader == words));
    }
    let bytes: Vec<u8> = (0..rng.below(50)).map(|_| if rng.below(3) == 0 { rng.next() as u8 } else { rng.below(5) as u8 }).collect();
    let read = |l: &mut Live, reader: &mut Lent<u64>, chunk: &[u8]| {
        let (head, sizes) = (l.head.lend(), l.sizes.lend());
        oz::read_chunk(l.names.lend(), l.cells.lend(), head, sizes, l.lines.lend(), reader.lend(), chunk)
    };
    let end = |l: &mut Live, reader: &mut Lent<u64>| {
        let (head, sizes) = (l.head.lend(), l.sizes.lend());
        oz::read_end(l.names.lend(), l.cells.lend(), head, sizes, l.lines.lend(), reader.lend())
    };
    let (mut other, mut words) = (l.clone(), reader.clone());
    let (start, kept) = (l.clone(), reader.clone());
    // Words with no mark are no reader's, zeros among them.
    let unmarked = kept.len == 8 && kept.get()[5] == 0;
    if rng.below(4) == 0 {
        let answer = end(l, &mut reader);
        // An end call is noted, unless the reader is no reader: then nothing has changed.
        let again = end(&mut l.clone(), &mut reader.clone());
        let unread = *l == start && reader == kept;
        let noted = answer.number != 1 || unread || reader != kept;
        let refused = !unmarked || (answer.number == 1 && unread);
        return ("read_end", answer, again == answer && l.guarded() && reader.guarded(G64) && noted && refused);
    }
    let at = rng.below(bytes.len() as u64 + 1) as usize;
    let answer = read(l, &mut reader, &bytes);
    let refused = !unmarked || (answer.number == 1 && *l == start && reader == kept);
    read(&mut other, &mut words, &bytes[..at]);
    let cut = read(&mut other, &mut words, &bytes[at..]);
    ("read_chunk", answer, cut == answer && *l == other && reader == words && l.guarded() && reader.guarded(G64) && refused)
}

/// What is told of a tree, by its number.
const TOLD: [&str; 9] = ["why, sound,", "why, T1,", "why, T2,", "why, T3,", "why, T4,", "why, T5,", "why, T6,", "why, T7,", "why, T8,"];

/// Why any words are not sound, with so many words of `shown`: the answer, and whether 1 came exactly where it is to come and left `shown`
/// as it was, 0 was told exactly where the full check says yes, each word that says nothing is null and each other one in its range.
fn why_any(rng: &mut Rng, l: &Live, len: usize) -> (&'static str, oz::Answer, bool) {
    let mut shown = Lent::new(&(0..len).map(|_| word32(rng, 8)).collect::<Vec<u32>>(), G32);
    let (before, words) = (l.clone(), shown.clone());
    let answer = l.why(shown.lend());
    let verdict = l.sound();
    let kept = *l == before && shown.guarded(G32);
    if len != 8 || verdict.number == 1 {
        return ("why", answer, kept && answer == oz::Answer::plain(1, 0) && shown == words);
    }
    let Some(name) = TOLD.get(answer.value as usize).filter(|_| answer.number == 0) else { return ("why", answer, false) };
    let slots = l.names.len as u32 / 2;
    let way = |w: &[u32]| w[0] < slots && w[1] < 2 && w[2] <= slots;
    let w = shown.get();
    let slot = match answer.value {
        0 | 2 => w[0] == NULL,
        rule => w[0] < slots || (rule == 1 && w[0] == NULL),
    };
    let other = if answer.value == 4 { w[1] < slots && w[1] != w[0] } else { w[1] == NULL };
    let ways = if answer.value == 6 { way(&w[2..5]) && way(&w[5..8]) && w[4] != w[7] } else { w[2..].iter().all(|v| *v == NULL) };
    (name, answer, kept && slot && other && ways && (answer.value == 0) == (verdict.value == 1))
}

/// Why a sound tree with one or two words changed is not sound, with `shown` of each length: a colour, a name, a link, a size or the header
/// is another, so that each rule comes up as the first broken one.
fn reason_calls(rng: &mut Rng, tally: &mut Tally) {
    let slots = 1 + rng.below(12) as usize;
    let mut ix = Index::new(slots, 1);
    for _ in 0..rng.below(2 * slots as u64 + 1) {
        ix.forget();
        ix.insert(rng.below(3), rng.below(9), 5);
    }
    for _ in 0..1 + rng.below(2) {
        let i = rng.below(slots as u64) as usize;
        let link = if rng.below(4) == 0 { NULL } else { rng.below(slots as u64) as u32 };
        match rng.below(5) {
            0 => ix.cells[7 * i + oz::STATE] = [0, 2, 1][ix.cells[7 * i + oz::STATE] as usize],
            1 => ix.names[2 * i + rng.below(2) as usize] = rng.below(9),
            2 => ix.cells[7 * i + oz::PARENT + rng.below(5) as usize] = link,
            3 => ix.sizes[i] = rng.below(slots as u64 + 1) as u32,
            _ => ix.head[rng.below(2) as usize] = link,
        }
    }
    let l = Live::new(&ix);
    for len in [0, 7, 8, 9] {
        let (name, answer, fine) = why_any(rng, &l, len);
        tally.note(name, answer, slots, fine);
    }
}

/// Salvage of any first tree: into a cleared tree of its capacity or another, now and then with a word changed or of another length, with a
/// report of about as many words. Words and answer are to be those of the model.
fn salvage_any(rng: &mut Rng, l: &Live) -> (&'static str, oz::Answer, bool) {
    let n = l.names.len / 2;
    let slots = if rng.below(20) == 0 { rng.below(n as u64 + 3) as usize } else { n };
    let mut second = Index::new(slots, 0);
    if rng.below(8) == 0 {
        let Index { names, cells, head, sizes, .. } = &mut second;
        match rng.below(4) {
            0 => names.iter_mut().skip(rng.below(slots as u64 + 1) as usize).take(1).for_each(|w| *w = word64(rng, 3)),
            1 => head[rng.below(3) as usize] = word32(rng, slots as u64),
            2 => sizes.iter_mut().skip(rng.below(slots as u64 + 1) as usize).take(1).for_each(|w| *w = word32(rng, 3)),
            _ => cells.iter_mut().skip(rng.below(7 * slots as u64 + 1) as usize).take(1).for_each(|w| *w = word32(rng, slots as u64)),
        }
    }
    let (a, b, c, d) = (length(rng, 2 * slots), length(rng, 7 * slots), length(rng, 3), length(rng, slots));
    resize(&mut second.names, a, 0);
    resize(&mut second.cells, b, NULL);
    resize(&mut second.head, c, NULL);
    resize(&mut second.sizes, d, 0);
    let report: Vec<u32> = (0..length(rng, n)).map(|_| word32(rng, 4)).collect();
    let mut lent = Salvage::new(l.names.get(), l.cells.get(), &second, &report);
    let before = lent.clone();
    let answer = lent.call();
    ("salvage", answer, lent.wrong(&before, answer).is_none())
}

/// Batches of 1,100 drawn calls at the limits of slots and lines, the tree full but for one slot, each held to the same calls made singly:
/// how many there were, and how many were not the same.
fn limits(rng: &mut Rng) -> (u64, u64) {
    let (mut made, mut wrong) = (0, 0);
    for (slots, lines) in [(1, 0), (1, 1), (1, 1024), (4096, 0), (4096, 1), (4096, 1024)] {
        let mut ix = Index::new(slots, lines.max(1));
        for k in 1..slots as u64 {
            ix.forget();
            ix.insert(k % 5, k, 1);
        }
        ix.lines = vec![0; 1 + LINE_WORDS * lines];
        let call = |rng: &mut Rng| {
            let kind = [1, 1, 2, 3][rng.below(4) as usize];
            [kind, rng.below(5), rng.below(2 * slots as u64), rng.next() as u32 as u64]
        };
        let calls: Vec<u64> = (0..1100).flat_map(|_| call(rng)).collect();
        let mut single = ix.clone();
        let words = single.singly(&calls);
        let mut answers = vec![0; 1100];
        let answer = ix.batch(&calls, &mut answers);
        made += 1;
        let accepted = words.iter().filter(|w| *w >> 32 == 0).count() as u32;
        if answer != oz::Answer::plain(0, accepted) || answers != words || ix != single {
            wrong += 1;
            println!("batch at {slots} slots, {lines} lines: {answer:?}");
        }
    }
    (made, wrong)
}

fn live_calls(rng: &mut Rng, tally: &mut Tally) {
    let mut l = live(rng);
    let mut before = l.clone();
    for _ in 0..8 {
        let (h, k) = if rng.below(4) == 0 { (word64(rng, 3), word64(rng, 9)) } else { (rng.below(3), rng.below(8)) };
        let mark = word32(rng, 3);
        let mut as_single = true;
        let (name, answer) = match rng.below(36) / 2 {
            17 => {
                let (name, answer, fine) = salvage_any(rng, &l);
                as_single = fine;
                (name, answer)
            }
            14 | 15 => {
                let (name, answer, fine) = read_any(rng, &mut l);
                as_single = fine;
                (name, answer)
            }
            16 => {
                let len = [0, 7, 9, 8, 8, 8, 8, 8][rng.below(8) as usize];
                let (name, answer, fine) = why_any(rng, &l, len);
                as_single = fine;
                (name, answer)
            }
            12 => ("fresh", l.fresh()),
            13 => {
                let (answer, fine) = batched(rng, &mut l);
                as_single = fine;
                ("batch", answer)
            }
            0 => ("find", oz::find(l.names.get(), l.cells.get(), l.head.get(), h, k)),
            1 => ("check", oz::check(l.names.get(), l.cells.get(), l.head.get())),
            2 => {
                let answer = l.sound();
                (if answer.value == 1 { "sound, yes," } else { "sound" }, answer)
            }
            3 | 4 => ("insert", l.insert(h, k, 5)),
            5 | 6 => ("remove", l.remove(h, k)),
            7 => ("replace", l.replace(h, k, word32(rng, 9))),
            8 => {
                let k = word32(rng, 5);
                let answer = l.kth(k);
                tally.rank("kth", answer, l.ranked(|order| oz::kth_of(order, k)));
                ("kth", answer)
            }
            9 => {
                let answer = l.position(h, k);
                tally.rank("position", answer, l.ranked(|order| oz::position_of(order, l.names.get(), h, k)));
                ("position", answer)
            }
            _ => ("rollback", l.rollback(mark)),
        };
        let writes = matches!(name, "fresh" | "insert" | "remove" | "replace" | "rollback" | "batch") && answer.number == 0;
        let fine = match name {
            "read_start" | "read_chunk" | "read_end" => as_single,
            "salvage" => as_single && l == before,
            _ if name.starts_with("why") => as_single,
            "replace" if writes => l.guarded() && placed(&before, &l, answer.value),
            "remove" if writes => l.guarded() && l.sized() && noted(&before, &l, h, k),
            "batch" if !as_single => false,
            _ if writes => l.guarded() && l.sized(),
            _ => l == before,
        };
        tally.note(name, answer, l.names.len / 2, fine);
        if name == "rollback" {
            tally.foretell(&before, &l, mark, answer);
        }
        if writes || name.starts_with("read_") {
            before = l.clone();
        }
    }
}

/// Words of a frozen set, random or nearly so.
fn set_calls(rng: &mut Rng, tally: &mut Tally) {
    let tables = 1 + rng.below(4) as usize;
    let first = 1u32 << rng.below(3);
    let mut lengths: Vec<u32> = (0..tables).map(|k| first << k).collect();
    let bins_len: usize = lengths.iter().map(|l| *l as usize).sum();
    let (slots, headers) = (rng.below(6) as usize, rng.below(3) as usize);
    let bin = |rng: &mut Rng| match rng.below(8) {
        0 | 1 => 1,
        2 => 2 + rng.below(slots as u64 + 1) as u32,
        3 => 4098 + rng.below(headers as u64 + 1) as u32,
        4 => rng.next() as u32,
        _ => 0,
    };
    let mut bins: Vec<u32> = (0..bins_len).map(|_| bin(rng)).collect();
    let mut ix = Index::new(slots, 0);
    let mut heads: Vec<u32> = (0..headers).flat_map(|_| [NULL, NULL, 0]).collect();
    if rng.below(2) == 0 {
        for w in ix.cells.iter_mut().chain(heads.iter_mut()) {
            *w = word32(rng, slots as u64);
        }
        for w in ix.names.iter_mut() {
            *w = word64(rng, 3);
        }
    }
    if rng.below(10) == 0 {
        let i = rng.below(tables as u64) as usize;
        lengths[i] = word32(rng, 16);
    }
    let (a, b, c, d, e) =
        (length(rng, tables), length(rng, bins_len), length(rng, 3 * headers), length(rng, 2 * slots), length(rng, 7 * slots));
    resize(&mut lengths, a, 0);
    resize(&mut bins, b, 0);
    resize(&mut heads, c, NULL);
    resize(&mut ix.names, d, 0);
    resize(&mut ix.cells, e, NULL);
    calls_on(rng, tally, &lengths, &bins, &heads, &ix.names, &ix.cells);
}

/// An accepted set with a few words changed.
fn near_calls(rng: &mut Rng, tally: &mut Tally) {
    let mut s = sets::small(rng);
    let n = s.names.len() as u64 / 2;
    for _ in 0..rng.below(4) {
        let words: &mut Vec<u32> =
            [&mut s.bins, &mut s.heads, &mut s.cells, &mut s.lengths].into_iter().nth(rng.below(4) as usize).unwrap();
        if !words.is_empty() {
            let i = rng.below(words.len() as u64) as usize;
            words[i] = word32(rng, n + 3);
        }
    }
    calls_on(rng, tally, &s.lengths, &s.bins, &s.heads, &s.names, &s.cells);
}

fn calls_on(rng: &mut Rng, tally: &mut Tally, lengths: &[u32], bins: &[u32], heads: &[u32], names: &[u64], cells: &[u32]) {
    let (tables, slots) = (lengths.len() as u64, names.len() / 2);
    let set = (Lent::new(lengths, G32), Lent::new(bins, G32), Lent::new(heads, G32), Lent::new(names, G64), Lent::new(cells, G32));
    let before = set.clone();
    let answer = oz::accept(set.0.get(), set.1.get(), set.2.get(), set.3.get(), set.4.get());
    tally.note(if answer.value == 1 { "accept, yes," } else { "accept" }, answer, slots, set == before);
    let as_set =
        oz::Set { lengths: lengths.to_vec(), bins: bins.to_vec(), heads: heads.to_vec(), names: names.to_vec(), cells: cells.to_vec() };
    let (answer, fine) = save_any(rng, &as_set);
    tally.note("save", answer, slots, fine);
    let (answer, left) = move_beside(&as_set, if rng.below(8) == 0 { word32(rng, 9) } else { rng.below(2) as u32 }, word32(rng, 3));
    tally.note("move", answer, slots, left.is_ok());
    let (answer, left) = tally_beside(&as_set, &drawn_totals(rng));
    tally.note("tally", answer, slots, left.is_ok());
    let table = |rng: &mut Rng| if rng.below(8) == 0 { word32(rng, 9) } else { rng.below(tables + 1) as u32 };
    for _ in 0..4 {
        let i = rng.below(slots as u64 + 1) as usize;
        let (h, k) = if 2 * i + 1 < names.len() { (names[2 * i], names[2 * i + 1]) } else { (word64(rng, 9), word64(rng, 9)) };
        let answer = oz::lookup(set.0.get(), set.1.get(), set.2.get(), set.3.get(), set.4.get(), table(rng), h, k);
        tally.note("lookup", answer, slots, set == before);
    }
    let words: Vec<u32> = (0..length(rng, 11)).map(|_| word32(rng, 4)).collect();
    let mut cursor = Lent::new(&words, G32);
    let was = cursor.clone();
    if rng.below(3) != 0 {
        let answer = oz::start(set.0.get(), set.1.get(), set.2.get(), set.3.get(), set.4.get(), table(rng), cursor.lend());
        let fine = cursor.guarded(G32) && (answer.number == 0 || cursor == was);
        tally.note("start", answer, slots, fine && set == before);
    }
    for _ in 0..6 {
        if cursor.len == 11 && rng.below(6) == 0 {
            let i = rng.below(11) as usize;
            cursor.lend()[i] = word32(rng, 5);
        }
        let was = cursor.clone();
        let answer = oz::walk(set.0.get(), set.1.get(), set.2.get(), set.3.get(), set.4.get(), cursor.lend());
        let fine = cursor.guarded(G32) && (answer.number == 0 || cursor == was);
        let name = if answer.number == 0 && answer.value != NULL { "walk, an entry," } else { "walk" };
        tally.note(name, answer, slots, fine && set == before);
    }
}

/// Totals of any words, most often in their ranges.
fn drawn_totals(rng: &mut Rng) -> Vec<u64> {
    let sets = if rng.below(6) == 0 { word64(rng, 2_000_000) } else { rng.below(MOST_SETS + 1) };
    let most = MOST_SETS.saturating_sub(sets);
    let refused = if rng.below(6) == 0 { word64(rng, 2_000_000) } else { most.saturating_sub(rng.below(2)) };
    let mut totals = vec![sets, refused];
    totals.extend((2..WORDS).map(|_| rng.below(4096u64.saturating_mul(sets).saturating_add(1))));
    if rng.below(8) == 0 {
        totals[2 + rng.below(37) as usize] = word64(rng, 9);
    }
    resize(&mut totals, length(rng, WORDS), 0);
    totals
}

/// A loader of drawn words over few items, most often in range, and the slices that its counts ask for, of any words.
fn drawn_loader(rng: &mut Rng) -> (Vec<u64>, oz::Set) {
    let section = rng.below(5);
    let mut words = vec![section, 0, 0, 0, 0, 0, 0, 0];
    (0..section as usize).for_each(|k| words[3 + k] = rng.below(4));
    if section < 4 {
        let k = section as usize;
        let mut come = 0;
        if rng.below(3) != 0 {
            words[3 + k] = 1 + rng.below(3);
            come = 1 + rng.below(words[3 + k] * [1, 1, 3, 9][k]);
        }
        let most = if rng.below(4) == 0 { 8 } else { 4 };
        let bytes = rng.below(most);
        let part = if rng.below(2) == 0 { rng.next() } else { rng.below(3) };
        words[1] = 8 * come + bytes;
        words[2] = part & ((1 << (8 * bytes)) - 1);
    }
    let [tables, bins, headers, slots] = [3, 4, 5, 6].map(|k| words[k] as usize + rng.below(3) as usize);
    let mut narrow = |wanted: usize| (0..length(rng, wanted)).map(|_| word32(rng, 4)).collect::<Vec<u32>>();
    let (lengths, bins, heads, cells) = (narrow(tables), narrow(bins), narrow(3 * headers), narrow(7 * slots));
    let names = (0..length(rng, 2 * slots)).map(|_| word64(rng, 4)).collect();
    (words, oz::Set { lengths, bins, heads, names, cells })
}

/// A loader amid the file of a small set, with the slices as its bytes left them, and the rest of the file; now and then a word of the
/// slices is another then.
fn loader_amid(rng: &mut Rng) -> (Vec<u64>, oz::Set, Vec<u8>) {
    let mut s = sets::small(rng);
    let bytes = files::written(&s);
    let spoilt = rng.below(4) == 0;
    if spoilt {
        sets::damage(rng, &mut s);
    }
    let longer = s.bins.len() + rng.below(3) as usize;
    resize(&mut s.bins, longer, 7);
    let at = if rng.below(2) == 0 { bytes.len() } else { rng.below(bytes.len() as u64 + 1) as usize };
    let mut model = Model::new(&s);
    model.chunk(&bytes[..at]);
    if spoilt {
        model.set = s;
    }
    (model.loader.to_vec(), model.set, bytes[at..].to_vec())
}

/// The loader's calls with any words of the loader, any slices and any chunks: answer, loader and slices are those of the model, a chunk
/// cut in two comes to the same, and where the model has no such loader the answer is 1 and nothing is written.
fn loader_calls(rng: &mut Rng, tally: &mut Tally) {
    let (mut words, set, mut bytes) = if rng.below(2) == 0 {
        let (words, set) = drawn_loader(rng);
        let zeros = rng.below(8);
        let byte = |rng: &mut Rng| if rng.below(8) < zeros { 0 } else if rng.below(9) == 0 { rng.next() as u8 } else { rng.below(4) as u8 };
        (words, set, (0..rng.below(60)).map(|_| byte(rng)).collect())
    } else {
        loader_amid(rng)
    };
    match rng.below(12) {
        0 => words[rng.below(8) as usize] = word64(rng, 20),
        1 => words[7] = 1 + (rng.below(16) << 32) + if rng.below(3) == 0 { word64(rng, 300) } else { 0 },
        2 => resize(&mut words, rng.below(17) as usize, 0),
        3 => bytes.extend((0..rng.below(4)).map(|_| rng.next() as u8)),
        4 => bytes.truncate(rng.below(bytes.len() as u64 + 1) as usize),
        _ => (),
    }
    let slots = set.names.len() / 2;
    let mut lent = Loads::new(&set, &words);
    let before = lent.clone();
    if rng.below(8) == 0 {
        let answer = lent.start();
        let made = lent.is(&Model::new(&set)) && answer == oz::Answer::plain(0, 1);
        let left = lent == before && answer == oz::Answer::plain(1, 0);
        return tally.note("load_start", answer, slots, if words.len() == 8 { made } else { left });
    }
    let told = Model::of_words(&words, &set);
    let held = |lent: &Loads, answer: oz::Answer, model: Option<(oz::Answer, &Model)>| match model {
        Some((wanted, model)) => answer == wanted && lent.is(model),
        None => answer == oz::Answer::plain(1, 0) && *lent == before,
    };
    if rng.below(4) == 0 {
        let answer = lent.end();
        let mut model = told;
        let wanted = model.as_mut().map(|model| model.end());
        let fine = held(&lent, answer, wanted.zip(model.as_ref()));
        return tally.note("load_end", answer, slots, fine && lent.clone().end() == answer);
    }
    let at = rng.below(bytes.len() as u64 + 1) as usize;
    let mut other = lent.clone();
    let answer = lent.chunk(&bytes);
    other.chunk(&bytes[..at]);
    let cut = other.chunk(&bytes[at..]);
    let mut model = told;
    let wanted = model.as_mut().map(|model| model.chunk(&bytes));
    let fine = held(&lent, answer, wanted.zip(model.as_ref()));
    tally.note("load_chunk", answer, slots, fine && cut == answer && lent == other);
}

/// Save of any words into any room: answer and bytes are the model's.
fn save_any(rng: &mut Rng, s: &oz::Set) -> (oz::Answer, bool) {
    let size = files::written(s).len();
    let room = if rng.below(6) == 0 { rng.below(2 * size as u64) as usize } else { size + rng.below(3) as usize };
    let out: Vec<u8> = (0..room).map(|_| rng.next() as u8).collect();
    let mut lent = Lent::new(&out, G8);
    let answer = s.save(lent.lend());
    let (wanted, left) = files::saved_as(s, &out);
    (answer, answer == wanted && lent.get() == left && lent.guarded(G8))
}

/// The entries in order.
fn contents(ix: &Index) -> Vec<oz::Entry> {
    let mut all: Vec<_> = (0..ix.slots() as u32)
        .filter(|&i| ix.cell(i, oz::STATE) != 0)
        .map(|i| (ix.names[2 * i as usize], ix.names[2 * i as usize + 1], ix.cell(i, oz::PLACE)))
        .collect();
    all.sort();
    all
}

/// Demand 3: any calls, replaces among them, after a mark, then a rollback to it: the entries are those of the mark, and so is their
/// order along the chain. After every call the sizes are those of the tree, and a refused one changes no word. Below the mark and past
/// the length the journal is garbage.
fn demand3(rng: &mut Rng) -> (u64, Result<u64, String>) {
    let slots = 1 + rng.below(12) as usize;
    let capacity = rng.below(24) as usize;
    let mut ix = Index::new(slots, capacity.max(1));
    let pairs = 1 + rng.below(slots as u64 + 4);
    for _ in 0..rng.below(2 * slots as u64) {
        ix.forget();
        let (h, k) = (rng.below(2), rng.below(pairs));
        ix.insert(h, k, rng.next() as u32);
    }
    resize(&mut ix.lines, 1 + LINE_WORDS * capacity, 0);
    for w in ix.lines[1..].iter_mut() {
        *w = word64(rng, 4);
    }
    let m = rng.below(capacity as u64 + 1) as usize;
    ix.lines[0] = m as u64;
    let kept = ix.lines[1..1 + LINE_WORDS * m].to_vec();
    let (held, listed) = (contents(&ix), ix.listing());
    let calls = rng.below(60);
    for _ in 0..calls {
        let (h, k) = (rng.below(2), rng.below(pairs));
        let before = ix.clone();
        let answer = match rng.below(13) {
            0 => {
                let length = ix.lines[0];
                let mark = m as u64 + rng.below(length - m as u64 + 2);
                ix.rollback(mark as u32)
            }
            1..=4 => ix.remove(h, k),
            5..=7 => ix.replace(h, k, rng.next() as u32),
            _ => ix.insert(h, k, rng.next() as u32),
        };
        if answer.number != 0 && ix != before {
            return (calls, Err(format!("a refused call, {answer:?}, has changed a word: {before:?} to {ix:?}")));
        }
        if ix.sizes != oz::climbed_sizes(&ix.cells) {
            return (calls, Err(format!("sizes after {answer:?}: {before:?} to {ix:?}")));
        }
    }
    let before = ix.clone();
    let length = ix.lines[0] as usize;
    let answer = ix.rollback(m as u32);
    let fail = |what: &str| (calls, Err(format!("{what}: {slots} slots, {capacity} lines, mark {m}, length {length}, answer {answer:?}")));
    if answer.number != 0 || answer.value as usize != length - m {
        return fail("answer");
    }
    if ix.sound().value != 1 {
        return fail("not sound");
    }
    if contents(&ix) != held {
        return fail("contents");
    }
    if ix.listing() != listed {
        return fail("listing");
    }
    if ix.sizes != oz::climbed_sizes(&ix.cells) {
        return fail("sizes");
    }
    if ix.lines[0] as usize != m || ix.lines[1..1 + LINE_WORDS * m] != kept[..] {
        return fail("lines below the mark");
    }
    if ix.lines[1 + LINE_WORDS * m..1 + LINE_WORDS * length].iter().any(|w| *w != 0) {
        return fail("lines from the mark");
    }
    if ix.lines[1 + LINE_WORDS * length..] != before.lines[1 + LINE_WORDS * length..] {
        return fail("words past the length");
    }
    (calls, Ok((length - m) as u64))
}

fn main() {
    let calls: u64 = std::env::args().nth(1).map_or(10_000_000, |s| s.parse().expect("a number of calls"));
    let mut rng = Rng::new(3);
    let mut tally = Tally::default();
    while tally.calls < calls {
        live_calls(&mut rng, &mut tally);
        set_calls(&mut rng, &mut tally);
        near_calls(&mut rng, &mut tally);
        drawn_calls(&mut rng, &mut tally);
        reason_calls(&mut rng, &mut tally);
        (0..3).for_each(|_| loader_calls(&mut rng, &mut tally));
    }
    println!("calls {} on random and damaged words, each slice between guard words", tally.calls);
    for ((name, number), count) in &tally.by {
        println!("  {name} answered {number}: {count}");
    }
    println!("words touched outside or by a refused call: {}", tally.touched);
    println!(
        "finds and lookups with looks {}; more looks than slots, none on a hit, or some where there are none: {}",
        tally.searches, tally.strange
    );
    println!(
        "rollbacks that answered 0 or 8 {}, {} of them with a noted pair undone; another number or another listing than the lines say: {}",
        tally.rollbacks, tally.noted, tally.unforetold
    );
    println!("k-th and position {}; another answer than the sorted pairs and the full check give: {}", tally.ranks, tally.misranked);
    let (batches, differing) = limits(&mut rng);
    println!("batches of 1,100 calls at the limits {batches}; not the same as the calls made singly: {differing}");
    let runs = calls / 100;
    let (mut made, mut undone, mut wrong) = (0, 0, 0);
    for _ in 0..runs {
        let (calls, outcome) = demand3(&mut rng);
        made += calls;
        match outcome {
            Ok(lines) => undone += lines,
            Err(what) => {
                wrong += 1;
                println!("demand 3: {what}");
            }
        }
    }
    println!("demand 3: {runs} runs, {made} calls after the mark, {undone} lines undone by the last rollback, wrong {wrong}");
    std::process::exit((tally.touched + tally.strange + tally.unforetold + tally.misranked + differing + wrong != 0) as i32);
}
