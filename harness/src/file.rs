//! Sets saved, held against a writer that is written apart; files loaded, as they are and damaged, cut anywhere, held after every chunk
//! against a loader that is written apart; and lookups and walks of loaded sets beside the source's.
use harness::files::{counts, cut_out, saved_as, written, Loads, Model, MOST, MOST_BYTES};
use harness::lent::{Lent, G8};
use harness::oz::{Answer, Index, Set, NULL, STATE};
use harness::reads::{asked, same_search, walk_beside, whole_walk};
use harness::rng::Rng;
use harness::sets;
use harness::source::Tables;
use std::collections::BTreeMap;

/// What came of the calls of one kind: how many sets or files, how many chunks, how often each number.
#[derive(Clone, Default)]
struct Counts {
    tried: u64,
    chunks: u64,
    answered: BTreeMap<u32, u64>,
    differences: u64,
}

#[derive(Default)]
struct Tally {
    kinds: Vec<(&'static str, Counts)>,
    /// The difference on the fewest bytes.
    smallest: Option<(usize, String)>,
    bytes: u64,
    lookups: u64,
    hits: u64,
    walks: u64,
    steps: u64,
    given: u64,
}

/// Any words, so many of each slice.
fn rubbish(rng: &mut Rng, lengths: [usize; 5]) -> Set {
    let mut words = |n: usize| (0..n).map(|_| rng.next()).collect::<Vec<u64>>();
    let narrow = |words: Vec<u64>| words.into_iter().map(|w| w as u32 | 1).collect::<Vec<u32>>();
    Set {
        lengths: narrow(words(lengths[0])),
        bins: narrow(words(lengths[1])),
        heads: narrow(words(lengths[2])),
        names: words(lengths[3]),
        cells: narrow(words(lengths[4])),
    }
}

/// Slices of any words in which a set of so many items has room, each some words longer, or none.
fn larger(rng: &mut Rng, [tables, words, headers, slots]: [usize; 4]) -> Set {
    let exact = rng.below(4) == 0;
    let lengths = [tables, words, 3 * headers, 2 * slots, 7 * slots];
    let longer = lengths.map(|n| n + if exact { 0 } else { rng.below(20) as usize });
    rubbish(rng, longer)
}

/// Lengths of chunks that make up so many bytes, up to so many of them, some empty.
fn pieces(rng: &mut Rng, bytes: usize, most: u64) -> Vec<usize> {
    let mut left = bytes;
    let mut all: Vec<usize> = (0..rng.below(most))
        .map(|_| {
            let most = if rng.below(2) == 0 { 6 } else { left as u64 + 1 };
            let cut = rng.below(most).min(left as u64) as usize;
            left -= cut;
            cut
        })
        .collect();
    all.push(left);
    all
}

impl Tally {
    fn count(&mut self, kind: &'static str) -> &mut Counts {
        let at = self.kinds.iter().position(|(name, _)| *name == kind).unwrap_or_else(|| {
            self.kinds.push((kind, Counts::default()));
            self.kinds.len() - 1
        });
        &mut self.kinds[at].1
    }

    fn differs(&mut self, kind: &'static str, size: usize, what: String) {
        self.count(kind).differences += 1;
        if self.smallest.as_ref().map_or(true, |(fewest, _)| size < *fewest) {
            self.smallest = Some((size, format!("{kind}: {what}")));
        }
    }

    /// Saves a set into so many bytes, and holds the answer and every byte against the writer's.
    fn save(&mut self, kind: &'static str, rng: &mut Rng, s: &Set, room: usize) {
        let out: Vec<u8> = (0..room).map(|_| rng.next() as u8).collect();
        let (before, mut lent) = (s.clone(), Lent::new(&out, G8));
        let answer = s.save(lent.lend());
        let (wanted, left) = saved_as(s, &out);
        let counts = self.count(kind);
        counts.tried += 1;
        *counts.answered.entry(answer.number).or_default() += 1;
        if answer != wanted || lent.get() != left || !lent.guarded(G8) || *s != before {
            self.differs(kind, room, format!("{s:?} into {room} bytes: {answer:?}, wanted {wanted:?}; {:?}, wanted {left:?}", lent.get()));
        }
    }

    /// Loads bytes that are cut into chunks of these lengths into slices, every call held against the model's; then further calls, with
    /// these slices and with others, which are to give the same answer and to change nothing. The set, where it is accepted.
    fn load(&mut self, kind: &'static str, rng: &mut Rng, into: &Set, bytes: &[u8], cuts: &[usize]) -> Option<Set> {
        let words: Vec<u64> = (0..8).map(|_| rng.next()).collect();
        let (mut lent, mut model) = (Loads::new(into, &words), Model::new(into));
        let mut wrong = None;
        let mut hold = |step: &str, answer: Answer, wanted: Answer, lent: &Loads, model: &Model| {
            if wrong.is_none() && (answer != wanted || !lent.is(model)) {
                let (loader, words) = (lent.loader.get(), model.loader);
                let slices = if lent.set() == model.set { "the same slices" } else { "other slices" };
                wrong = Some(format!("{step}: {answer:?}, wanted {wanted:?}; loader {loader:?}, wanted {words:?}; {slices}"));
            }
        };
        hold("start", lent.start(), Answer::plain(0, 1), &lent, &model);
        let mut rest = bytes;
        for cut in cuts {
            let (chunk, more) = rest.split_at(*cut);
            rest = more;
            let (answer, wanted) = (lent.chunk(chunk), model.chunk(chunk));
            hold("chunk", answer, wanted, &lent, &model);
        }
        let (answer, wanted) = (lent.end(), model.end());
        hold("end", answer, wanted, &lent, &model);
        for chunk in [&[][..], &[1, 0, 0, 0, 1][..]] {
            hold("a chunk after the end", lent.chunk(chunk), wanted, &lent, &model);
        }
        hold("an end call after the end", lent.end(), wanted, &lent, &model);
        let few = [0; 5].map(|_| rng.below(3) as usize);
        let mut other = model.with(rubbish(rng, few));
        let mut lent_other = Loads::new(&other.set, lent.loader.get());
        hold("other slices after the end", lent_other.chunk(bytes), other.chunk(bytes), &lent_other, &other);
        hold("an end call with other slices", lent_other.end(), other.end(), &lent_other, &other);
        let counts = self.count(kind);
        counts.tried += 1;
        counts.chunks += cuts.len() as u64;
        *counts.answered.entry(answer.number).or_default() += 1;
        self.bytes += bytes.len() as u64;
        if let Some(what) = wrong {
            let lengths = [into.lengths.len(), into.bins.len(), into.heads.len(), into.names.len(), into.cells.len()];
            let shown = &bytes[..bytes.len().min(2000)];
            self.differs(kind, bytes.len(), format!("{} bytes {shown:?} cut {cuts:?} into slices of {lengths:?}: {what}", bytes.len()));
            return None;
        }
        (answer.number == 0).then(|| cut_out(&lent.set(), lent.loader.get()))
    }

    /// Loads a file and, where it is accepted, saves the set again: it is to be the file's own bytes.
    fn there_and_back(&mut self, kind: &'static str, rng: &mut Rng, into: &Set, bytes: &[u8], cuts: &[usize]) -> Option<Set> {
        let loaded = self.load(kind, rng, into, bytes, cuts)?;
        let mut out = vec![0xEE; bytes.len() + 3];
        let answer = loaded.save(&mut out);
        if answer != Answer::plain(0, bytes.len() as u32) || out[..bytes.len()] != *bytes || out[bytes.len()..] != [0xEE; 3] {
            self.differs(kind, bytes.len(), format!("{bytes:?}, loaded and saved: {answer:?}, {out:?}"));
        }
        Some(loaded)
    }

    /// A set that was saved, read as it was loaded, beside the source over the set that was saved: lookups of its pairs and of others from
    /// every table, with their looks, walks entry by entry with the cursor's indexes, and whole walks.
    fn read(&mut self, kind: &'static str, rng: &mut Rng, s: &Set, loaded: &Set) {
        let n = s.names.len() / 2;
        let tables = Tables::of_words(s).expect("an accepted set");
        for t in 0..s.lengths.len() {
            for (hash, key) in asked(rng, s) {
                let (ours, theirs) = (loaded.lookup(t as u32, hash, key), tables.search(t, hash, key, 64 * (n + 1) + 64));
                self.lookups += 1;
                self.hits += (ours.number == 0 && ours.value != NULL) as u64;
                if !same_search(ours, theirs, n) || ours != s.lookup(t as u32, hash, key) {
                    self.differs(kind, n, format!("{s:?} lookup from {t} of {hash} {key}: ours {ours:?}, source {theirs:?}"));
                }
            }
            let walked = walk_beside(loaded, &tables, t);
            self.walks += 1;
            self.steps += walked.steps;
            if !walked.done || walked.wrong.is_some() {
                self.differs(kind, n, format!("{s:?} walk from {t}: {:?}", walked.wrong));
            }
            match whole_walk(loaded, t) {
                Ok(given) => self.given += given,
                Err(what) => self.differs(kind, n, format!("{s:?} whole walk from {t}: {what}")),
            }
        }
    }

    /// An accepted set, saved, loaded and read.
    fn whole(&mut self, kind: &'static str, rng: &mut Rng, s: &Set, most: u64) {
        let bytes = written(s);
        let (into, cuts) = (larger(rng, counts(s)), pieces(rng, bytes.len(), most));
        match self.there_and_back(kind, rng, &into, &bytes, &cuts) {
            Some(loaded) if loaded == *s => self.read(kind, rng, s, &loaded),
            loaded => self.differs(kind, bytes.len(), format!("{s:?} came back as {loaded:?}")),
        }
    }
}

/// Sets drawn as the comparisons with the source draw them, or damaged: saved into rooms of several lengths, and their files loaded.
fn drawn_sets(rng: &mut Rng, tally: &mut Tally, many: usize) {
    for _ in 0..many {
        let s = sets::small(rng);
        let size = written(&s).len();
        let (more, any) = (rng.below(30) as usize, rng.below(2 * size as u64) as usize);
        tally.save("saved: sets", rng, &s, size + more);
        tally.save("saved: sets, a byte of room too few", rng, &s, size - 1);
        tally.save("saved: sets, any room", rng, &s, any);
        tally.whole("loaded: sets", rng, &s, 8);
        let mut s = s;
        sets::damage(rng, &mut s);
        if rng.below(3) == 0 && !s.cells.is_empty() {
            let i = rng.below(s.cells.len() as u64) as usize;
            s.cells[i] = rng.next() as u32;
        }
        tally.save("saved: damaged sets", rng, &s, size + more / 10);
        let (into, bytes) = (larger(rng, counts(&s)), written(&s));
        let cuts = pieces(rng, size, 6);
        if let Some(loaded) = tally.there_and_back("loaded: damaged sets", rng, &into, &bytes, &cuts) {
            // A state above 255 has another byte.
            let (same, bytes_hold) = (loaded == s, s.cells.chunks(7).all(|cell| cell[STATE] < 256));
            if bytes_hold && !same {
                tally.differs("loaded: damaged sets", size, format!("{s:?} came back as {loaded:?}"));
            }
        }
        let mut s = sets::small(rng);
        unfit(rng, &mut s);
        let room = written(&s).len() + 40;
        tally.save("saved: words that do not fit", rng, &s, room);
        let (into, bytes) = (larger(rng, counts(&s)), written(&s));
        let cuts = pieces(rng, bytes.len(), 6);
        tally.there_and_back("loaded: words that do not fit", rng, &into, &bytes, &cuts);
    }
}

/// A length of a table or of a slice is another.
fn unfit(rng: &mut Rng, s: &mut Set) {
    let k = rng.below(s.lengths.len() as u64) as usize;
    match rng.below(7) {
        0 => s.lengths[k] = [0, 3, 4096, 8192, 1 << 31, NULL][rng.below(6) as usize],
        1 => s.lengths[k] = s.lengths[k].wrapping_add(1),
        2 => drop(s.lengths.pop()),
        3 => s.bins.push(0),
        4 => drop(s.bins.pop()),
        5 => s.names.extend([0; 1]),
        _ => s.lengths.push(2 * s.lengths[s.lengths.len() - 1]),
    }
}

/// A small set of each sort: one empty bin, a list, a tree, and forwarded tables with both.
fn samples(rng: &mut Rng) -> Vec<Set> {
    let mut all = vec![
        Set { lengths: vec![1], bins: vec![0], heads: vec![], names: vec![], cells: vec![] },
        sets::one_list(rng, 3),
        sets::lone_trees(rng, 2),
    ];
    let sort = |s: &Set| (s.bins.iter().any(|w| (2..4098).contains(w)), s.bins.iter().any(|w| *w >= 4098), s.bins.contains(&1));
    for wanted in [(false, true, false), (true, true, true)] {
        all.push((0..).map(|_| sets::draw(rng, 2, 2, 6, 1)).find(|s| sort(s) == wanted).unwrap());
    }
    all
}

/// Files of small sets: byte by byte, cut in two at every byte, cut in three at every two bytes of the shorter ones, ended at every byte,
/// every byte set to several values, bytes behind the last section, each count set to other values, slices a word too short.
fn every_byte(rng: &mut Rng, tally: &mut Tally, s: &Set) {
    let bytes = written(s);
    let n = bytes.len();
    let into = larger(rng, counts(s));
    tally.there_and_back("every byte a chunk", rng, &into, &bytes, &vec![1; n]);
    for at in 0..=n {
        tally.there_and_back("cut in two at every byte", rng, &into, &bytes, &[at, n - at]);
        let some = pieces(rng, at, 4);
        tally.load("ended at every byte", rng, &into, &bytes[..at], &some);
        tally.load("ended at every byte, byte by byte", rng, &into, &bytes[..at], &vec![1; at]);
        for then in at..if n <= 260 { n + 1 } else { at } {
            tally.there_and_back("cut in three at every two bytes", rng, &into, &bytes, &[at, then - at, n - then]);
        }
    }
    for at in 0..n {
        let old = bytes[at];
        for to in [0, 1, 2, 3, 7, 8, 9, 127, 128, 255, old.wrapping_add(1), old.wrapping_sub(1), old ^ 16] {
            let mut other = bytes.clone();
            other[at] = to;
            let some = pieces(rng, n, 4);
            tally.there_and_back("every byte set to other values", rng, &into, &other, &some);
        }
    }
    for more in 1..6 {
        let other: Vec<u8> = bytes.iter().copied().chain((0..more).map(|_| rng.next() as u8)).collect();
        for at in 0..=more {
            tally.load("bytes behind the last section", rng, &into, &other, &[n + at, more - at]);
        }
    }
    let (mut offset, items) = (0, counts(s));
    for k in 0..4 {
        let most = MOST[k] as u32;
        let own = items[k] as u32;
        for count in [0, own.wrapping_sub(1), own + 1, own + 2, most, most + 1, 256, 65536, 1 << 31, NULL] {
            let mut other = bytes.clone();
            other[offset..offset + 4].copy_from_slice(&count.to_le_bytes());
            let some = pieces(rng, n, 4);
            tally.load("each count set to other values", rng, &into, &other, &some);
            tally.load("each count set to other values", rng, &into, &other[..offset + 4], &vec![1; offset + 4]);
        }
        offset += 4 + [4, 4, 12, 41][k] * items[k];
    }
    let lengths = [items[0], items[1], 3 * items[2], 2 * items[3], 7 * items[3]];
    for slice in 0..5 {
        for fewer in 1..=lengths[slice].min(9) {
            let mut short = lengths.map(|n| n + 1);
            short[slice] = lengths[slice] - fewer;
            let (into, some) = (rubbish(rng, short), pieces(rng, n, 6));
            tally.load("slices some words too short", rng, &into, &bytes, &some);
        }
    }
}

/// Counts at their limits and one above, into slices with room for more than any limit: 14 exactly above, at the count's last byte.
fn over_limits(rng: &mut Rng, tally: &mut Tally) {
    let into = rubbish(rng, [12, 8200, 3 * 4100, 2 * 4100, 7 * 4100]);
    for (k, most) in MOST.into_iter().enumerate() {
        let front: Vec<u8> = vec![0; 4 * k];
        for count in [most - 1, most, most + 1] {
            let bytes = [&front[..], &(count as u32).to_le_bytes()].concat();
            for held in bytes.len() - 4..=bytes.len() {
                tally.load("counts at their limits", rng, &into, &bytes[..held], &vec![1; held]);
            }
            let longer = [&bytes[..], &vec![0; 41 * 4097 + 16]].concat();
            let cuts = pieces(rng, longer.len(), 5);
            tally.load("counts at their limits, and zeros", rng, &into, &longer, &cuts);
        }
    }
}

/// Bytes drawn, four at a time as small numbers, so that counts are small and sections become whole; some bytes are any.
fn drawn_bytes(rng: &mut Rng, tally: &mut Tally) {
    let few = 1 + rng.below(4);
    let mut bytes: Vec<u8> = (0..rng.below(40)).flat_map(|_| (rng.below(few) as u32).to_le_bytes()).collect();
    bytes.truncate(rng.below(bytes.len() as u64 + 1).max(rng.below(200)) as usize);
    for _ in 0..rng.below(3) * (rng.below(4) == 0) as u64 {
        let at = rng.below(bytes.len() as u64 + 1) as usize;
        bytes.insert(at, rng.next() as u8);
    }
    let items = [5, 5, 4, 4].map(|n| rng.below(n) as usize);
    let into = larger(rng, items);
    let cuts = pieces(rng, bytes.len(), 8);
    tally.load("drawn bytes", rng, &into, &bytes, &cuts);
}

/// A drawn file with some bytes damaged, cut short or longer.
fn damaged_files(rng: &mut Rng, tally: &mut Tally) {
    let s = sets::small(rng);
    let mut bytes = written(&s);
    let kind = rng.below(4);
    match kind {
        0 => bytes.truncate(rng.below(bytes.len() as u64 + 1) as usize),
        1 => bytes.extend((0..1 + rng.below(50)).map(|_| rng.next() as u8)),
        2 => {
            let (i, j) = (rng.below(bytes.len() as u64) as usize, rng.below(bytes.len() as u64) as usize);
            bytes.swap(i, j);
        }
        _ => {}
    }
    for _ in 0..if kind == 3 { 1 + rng.below(3) } else { 0 } {
        let at = rng.below(bytes.len() as u64) as usize;
        bytes[at] = if rng.below(2) == 0 { rng.next() as u8 } else { bytes[at] ^ (1 << rng.below(8)) };
    }
    let into = larger(rng, counts(&s));
    let cuts = pieces(rng, bytes.len(), 6);
    tally.there_and_back("damaged files", rng, &into, &bytes, &cuts);
}

/// Between two chunks slices are lent that are too short for a count that was taken, or not: 1 and nothing changed exactly where they are;
/// then the loading goes on. Loaders of other lengths are 1 and stay as they are.
fn other_slices(rng: &mut Rng, tally: &mut Tally) {
    const KIND: &str = "other slices between two chunks";
    let s = sets::small(rng);
    let bytes = written(&s);
    let into = larger(rng, counts(&s));
    let (mut lent, mut model) = (Loads::new(&into, &[7; 8]), Model::new(&into));
    lent.start();
    let mut wrong = None;
    let mut chunk_of = |lent: &mut Loads, model: &mut Model, chunk: &[u8]| {
        let (answer, wanted) = (lent.chunk(chunk), model.chunk(chunk));
        if answer != wanted || !lent.is(model) {
            wrong = Some(format!("chunk of {}: {answer:?}, wanted {wanted:?}", chunk.len()));
        }
    };
    let at = rng.below(bytes.len() as u64 + 1) as usize;
    chunk_of(&mut lent, &mut model, &bytes[..at]);
    let lengths = [0; 5].map(|_| rng.below(1 + 2 * bytes.len() as u64 / 5) as usize);
    let set = if rng.below(2) == 0 { rubbish(rng, lengths) } else { larger(rng, counts(&s)) };
    let chunk = &bytes[at..at + rng.below((bytes.len() - at) as u64 + 1) as usize];
    let ends = rng.below(3) == 0;
    let mut other = Loads::new(&set, lent.loader.get());
    let before = other.clone();
    let answer = if ends { other.end() } else { other.chunk(chunk) };
    let told = Model::of_words(&model.loader, &set);
    let fine = match told {
        None => answer == Answer::plain(1, 0) && other == before,
        Some(mut model) => answer == (if ends { model.end() } else { model.chunk(chunk) }) && other.is(&model),
    };
    chunk_of(&mut lent, &mut model, &bytes[at..]);
    let (end, wanted) = (lent.end(), model.end());
    let length = rng.below(20) as usize;
    let mut odd = Loads::new(&into, &vec![0; length]);
    let was = odd.clone();
    let answers = [odd.start(), odd.chunk(&bytes), odd.end()];
    let refused = length == 8 || (answers == [Answer::plain(1, 0); 3] && odd == was);
    let counts = tally.count(KIND);
    counts.tried += 1;
    counts.chunks += 3;
    *counts.answered.entry(answer.number).or_default() += 1;
    if !fine || !refused || wrong.is_some() || end != wanted || !lent.is(&model) {
        let then = if ends { "the end call".to_string() } else { format!("a chunk of {}", chunk.len()) };
        let what = format!("{bytes:?} at {at}, {then} with {set:?}: {answer:?}; a loader of {length}: {answers:?}; {wrong:?}");
        tally.differs(KIND, bytes.len(), what);
    }
}

/// The largest sets: the largest file there is, 4,096 trees of one slot, lists and trees over one and over eight tables, one list, and all
/// slots free.
fn large(rng: &mut Rng, tally: &mut Tally) {
    let largest = sets::largest(rng);
    assert_eq!(written(&largest).len(), MOST_BYTES);
    let free = Set { names: vec![0; 8192], cells: Index::new(4096, 0).cells, ..sets::largest(rng) };
    let free = Set { bins: vec![0; 8160], heads: [NULL, NULL, 0].repeat(4096), ..free };
    let more = [sets::lone_trees(rng, 4096), sets::draw(rng, 1, 4096, 4096, 0), sets::draw(rng, 8, 32, 4000, 96)];
    let list = sets::one_list(rng, 4096);
    for s in [&largest, &free, &list].into_iter().chain(&more) {
        let size = written(s).len();
        for room in [size - 1, size, size + 100] {
            tally.save("saved: the largest sets", rng, s, room);
        }
        tally.whole("loaded: the largest sets", rng, s, 20);
        let bytes = written(s);
        let wide = vec![65536; size / 65536].into_iter().chain([size % 65536]).collect::<Vec<usize>>();
        let into = larger(rng, counts(s));
        tally.there_and_back("the largest sets in chunks of 64 KiB", rng, &into, &bytes, &wide);
    }
    for _ in 0..40 {
        let mut bytes = written(&largest);
        let at = rng.below(bytes.len() as u64) as usize;
        bytes[at] ^= 1 << rng.below(8);
        let cuts = pieces(rng, bytes.len(), 6);
        let into = larger(rng, counts(&largest));
        tally.there_and_back("the largest file with a bit damaged", rng, &into, &bytes, &cuts);
    }
}

fn main() {
    let scale: usize = std::env::args().nth(1).map_or(100, |s| s.parse().expect("a scale in hundredths"));
    let many = |n: usize| (n * scale / 100).max(1);
    let mut rng = Rng::new(12);
    let mut tally = Tally::default();
    drawn_sets(&mut rng, &mut tally, many(20_000));
    for s in samples(&mut rng) {
        every_byte(&mut rng, &mut tally, &s);
    }
    over_limits(&mut rng, &mut tally);
    for _ in 0..many(60_000) {
        drawn_bytes(&mut rng, &mut tally);
        damaged_files(&mut rng, &mut tally);
        other_slices(&mut rng, &mut tally);
    }
    large(&mut rng, &mut tally);
    let mut all = Counts::default();
    let mut numbers = [BTreeMap::new(), BTreeMap::new()];
    for (name, c) in &tally.kinds {
        let told: Vec<String> = c.answered.iter().map(|(number, times)| format!("{number}: {times}")).collect();
        println!("  {name}: {}, in {} chunks; answered {}; differences {}", c.tried, c.chunks, told.join(", "), c.differences);
        all.tried += c.tried;
        all.chunks += c.chunks;
        all.differences += c.differences;
        let saves = name.starts_with("saved") as usize;
        c.answered.iter().for_each(|(number, times)| *numbers[saves].entry(*number).or_default() += *times);
    }
    for (what, numbers) in ["files", "saves"].iter().zip(&numbers) {
        let told: Vec<String> = numbers.iter().map(|(number, times): (_, &u64)| format!("{number}: {times}")).collect();
        println!("{what} by the number answered: {}", told.join(", "));
    }
    println!("sets saved and files loaded {}, in {} chunks, {} bytes", all.tried, all.chunks, tally.bytes);
    println!(
        "loaded sets beside the source: lookups with looks {} (slots {}), walks {} of {} steps; whole walks give {} slots, each entry once",
        tally.lookups, tally.hits, tally.walks, tally.steps, tally.given
    );
    if let Some((size, what)) = &tally.smallest {
        println!("smallest, {size} bytes: {what}");
    }
    println!("differences {}", all.differences);
    let loads: Vec<u32> = numbers[0].keys().copied().collect();
    let saves: Vec<u32> = numbers[1].keys().copied().collect();
    let every = loads == [0, 1, 2, 12, 13, 14] && saves == [0, 1, 2];
    std::process::exit((all.differences != 0 || !every) as i32);
}
