//! Times in one run and on the same inputs: the exports, the source's own routines, and BTreeMap. Each figure is the best of the rounds.
use harness::files;
use harness::oz::{self, Index, Set, NULL};
use harness::rng::Rng;
use harness::sets;
use harness::uploads;
use harness::source::{Bin, Tables, Walk};
use std::collections::{BTreeMap, HashMap};
use std::hint::black_box;
use std::io::{BufReader, Read, Write};
use std::process::Command;
use std::time::Instant;

const ROUNDS: usize = 25;

/// How many finds a round asks for.
const ASKED: usize = 1 << 18;

/// Nanoseconds for each of n things that f does, the best of the rounds.
fn best(n: usize, mut f: impl FnMut()) -> f64 {
    (0..ROUNDS)
        .map(|_| {
            let from = Instant::now();
            f();
            from.elapsed().as_nanos() as f64 / n as f64
        })
        .fold(f64::INFINITY, f64::min)
}

/// Nanoseconds for each of the pairs, asked in their order so many times.
fn each(times: usize, pairs: &[(u64, u64)], mut find: impl FnMut(u64, u64) -> bool, found: bool) -> f64 {
    best(times * pairs.len(), || {
        for _ in 0..times {
            for (h, k) in pairs {
                assert_eq!(black_box(find(*h, *k)), found);
            }
        }
    })
}

fn row(name: &str, ours: f64, source: Option<f64>, map: Option<f64>) {
    let ratio = |x: Option<f64>| x.map_or("-".into(), |x| format!("{:.2}", ours / x));
    let ns = |x: Option<f64>| x.map_or("-".into(), |x| format!("{x:.1}"));
    println!("| {name} | {ours:.1} | {} | {} | {} | {} |", ns(source), ns(map), ratio(source), ratio(map));
}

/// The acceptance of a set beside one walk of a BTreeMap of its pairs.
fn accept_row(name: &str, times: usize, set: &Set) {
    let n = set.names.len() / 2;
    let map: BTreeMap<(u64, u64), u32> = (0..n).map(|i| ((set.names[2 * i], set.names[2 * i + 1]), i as u32)).collect();
    let accept = best(times, || {
        for _ in 0..times {
            assert_eq!(black_box(set.accept()).value, 1);
        }
    });
    let walk = best(times, || {
        for _ in 0..times {
            black_box(map.iter().fold(0u64, |a, ((h, k), v)| a ^ h ^ k ^ *v as u64));
        }
    });
    row(name, accept, None, Some(walk));
}

/// 500 inserts into 3,000 pairs, all pairs in a drawn order: in one batch, its one check timed apart, by single calls, by the source's own
/// routines and into a BTreeMap. Each figure is for the 500 together.
fn batch_rows(rng: &mut Rng) {
    const HELD: usize = 3000;
    const MORE: usize = 500;
    let pairs: Vec<(u64, u64)> = (0..HELD + MORE).map(|_| (rng.next(), rng.next())).collect();
    let mut held = Index::new(4096, 1024);
    for (h, k) in &pairs[..HELD] {
        held.forget();
        assert_eq!(held.insert(*h, *k, 1).number, 0);
    }
    held.forget();
    let calls: Vec<u64> = pairs[HELD..].iter().flat_map(|(h, k)| [1, *h, *k, 1]).collect();
    let mut answers = vec![0; MORE];
    let (mut whole, mut check, mut single) = (f64::INFINITY, f64::INFINITY, f64::INFINITY);
    let (mut source, mut map_time) = (f64::INFINITY, f64::INFINITY);
    for round in 0..ROUNDS {
        let mut ix = held.clone();
        let from = Instant::now();
        let answer = black_box(ix.batch(&calls, &mut answers));
        whole = whole.min(from.elapsed().as_nanos() as f64);
        assert_eq!((answer.number, answer.value as usize), (0, MORE));
        // An empty batch makes the one check and nothing else.
        let ix = &mut held.clone();
        let from = Instant::now();
        assert_eq!(black_box(ix.batch(&[], &mut [])).number, 0);
        check = check.min(from.elapsed().as_nanos() as f64);
        if round < 3 {
            let mut ix = held.clone();
            let from = Instant::now();
            for (h, k) in &pairs[HELD..] {
                assert_eq!(black_box(ix.insert(*h, *k, 1)).number, 0);
            }
            single = single.min(from.elapsed().as_nanos() as f64);
        }
        let bin = Bin::new();
        let mut map = BTreeMap::new();
        for (h, k) in &pairs[..HELD] {
            bin.insert(*h, *k, 1);
            map.insert((*h, *k), 1u32);
        }
        let from = Instant::now();
        for (h, k) in &pairs[HELD..] {
            black_box(bin.insert(*h, *k, 1));
        }
        source = source.min(from.elapsed().as_nanos() as f64);
        let from = Instant::now();
        for (h, k) in &pairs[HELD..] {
            assert!(black_box(map.insert((*h, *k), 1)).is_none());
        }
        map_time = map_time.min(from.elapsed().as_nanos() as f64);
    }
    row("a batch of 500 inserts into 3,000 pairs, with its one check", whole, Some(source), Some(map_time));
    row("the same after the check", whole - check, Some(source), Some(map_time));
    row("the one check of it", check, None, None);
    row("the same 500 inserts by single calls", single, Some(source), Some(map_time));
}

/// The entries of an upload, by a reader without checks of its own: each with the offset of its first byte.
fn entries(bytes: &[u8], mut enter: impl FnMut(u64, u64, u32)) {
    let mut at = 0;
    for _ in 0..4 {
        let count = u16::from_le_bytes([bytes[at + 1], bytes[at + 2]]);
        at += 3;
        for _ in 0..count {
            let hash = u64::from_le_bytes(bytes[at..at + 8].try_into().unwrap());
            let key = u64::from_le_bytes(bytes[at + 8..at + 16].try_into().unwrap());
            enter(hash, key, at as u32);
            at += 16;
        }
    }
}

/// An upload of 1,000 entries into an empty index, in chunks of 64 KiB and of 64 bytes; into the source's tree and a BTreeMap by a Rust
/// program that reads the same bytes.
fn upload_rows(rng: &mut Rng) {
    let sections: Vec<Vec<(u64, u64)>> = (0..4).map(|_| (0..250).map(|_| (rng.next(), rng.next())).collect()).collect();
    let bytes = uploads::bytes(&sections);
    let empty = Index::new(4096, 1024);
    let (mut source, mut map_time) = (f64::INFINITY, f64::INFINITY);
    for _ in 0..ROUNDS {
        let bin = Bin::new();
        let from = Instant::now();
        entries(&bytes, |h, k, p| drop(black_box(bin.insert(h, k, p))));
        source = source.min(from.elapsed().as_nanos() as f64);
        let mut map = BTreeMap::new();
        let from = Instant::now();
        entries(&bytes, |h, k, p| assert!(black_box(map.insert((h, k), p)).is_none()));
        map_time = map_time.min(from.elapsed().as_nanos() as f64);
    }
    for (name, length) in [("64 KiB", 65536), ("64 bytes", 64)] {
        let mut ours = f64::INFINITY;
        for _ in 0..ROUNDS {
            let mut ix = empty.clone();
            let mut reader = [0; 8];
            let from = Instant::now();
            assert_eq!(ix.read_start(&mut reader).number, 0);
            for chunk in bytes.chunks(length) {
                black_box(ix.read_chunk(&mut reader, chunk));
            }
            let answer = ix.read_end(&mut reader);
            ours = ours.min(from.elapsed().as_nanos() as f64);
            assert_eq!((answer.number, answer.value), (0, 1000));
        }
        row(&format!("an upload of 1,000 entries in chunks of {name}"), ours, Some(source), Some(map_time));
    }
}

/// Salvage of 4,096 slots into a cleared tree, with no pair twice, and with the pairs of the first half again in the second; beside Rust
/// that reads the same words into a BTreeMap: states 1 and 2, of each pair the first. Each figure is for all slots together.
fn salvage_rows(rng: &mut Rng) {
    const SLOTS: usize = 4096;
    let cleared = Index::new(SLOTS, 0);
    let mut first = cleared.clone();
    for i in 0..SLOTS {
        first.names[2 * i..2 * i + 2].copy_from_slice(&[rng.next(), rng.next()]);
        first.cells[7 * i..7 * i + 2].copy_from_slice(&[i as u32, 1 + i as u32 % 2]);
    }
    let mut repeats = first.clone();
    // The second half of the slots repeats the first, in a drawn order.
    let mut order: Vec<usize> = (0..SLOTS / 2).collect();
    rng.shuffle(&mut order);
    for (i, of) in order.into_iter().enumerate() {
        repeats.names.copy_within(2 * of..2 * of + 2, SLOTS + 2 * i);
    }
    for (name, first, kept) in [("all kept", &first, SLOTS), ("half of them repeats", &repeats, SLOTS / 2)] {
        let (mut ours, mut map_time) = (f64::INFINITY, f64::INFINITY);
        for _ in 0..ROUNDS {
            let mut into = cleared.clone();
            let mut report = vec![0; SLOTS];
            let Index { names, cells, head, sizes, .. } = &mut into;
            let from = Instant::now();
            let answer = black_box(oz::salvage(&first.names, &first.cells, names, cells, head, sizes, &mut report));
            ours = ours.min(from.elapsed().as_nanos() as f64);
            assert_eq!((answer.number, answer.value as usize), (0, kept));
            let (names, cells) = (black_box(&first.names), black_box(&first.cells));
            let from = Instant::now();
            let mut map = BTreeMap::new();
            for (name, cell) in names.chunks_exact(2).zip(cells.chunks_exact(7)) {
                if matches!(cell[oz::STATE], 1 | 2) {
                    map.entry((name[0], name[1])).or_insert(cell[oz::PLACE]);
                }
            }
            assert_eq!(black_box(&map).len(), kept);
            map_time = map_time.min(from.elapsed().as_nanos() as f64);
        }
        row(&format!("salvage of 4,096 slots, {name}"), ours, None, Some(map_time));
    }
}

/// Rust that writes the words of a set's file by to_le_bytes, and nothing else. Like read_words it is called as the exports are: inlined
/// into the rounds it is compiled otherwise from program to program, and a read took 1.6 times as long in one of them.
#[inline(never)]
fn write_words(s: &Set, out: &mut [u8]) -> usize {
    let mut at = 0;
    let mut put = |bytes: &[u8]| {
        out[at..at + bytes.len()].copy_from_slice(bytes);
        at += bytes.len();
    };
    for (count, words) in [(s.lengths.len(), &s.lengths), (s.bins.len(), &s.bins), (s.heads.len() / 3, &s.heads)] {
        put(&(count as u32).to_le_bytes());
        words.iter().for_each(|w| put(&w.to_le_bytes()));
    }
    put(&(s.names.len() as u32 / 2).to_le_bytes());
    for (name, cell) in s.names.chunks_exact(2).zip(s.cells.chunks_exact(7)) {
        name.iter().for_each(|w| put(&w.to_le_bytes()));
        put(&cell[oz::PLACE].to_le_bytes());
        put(&[cell[oz::STATE] as u8]);
        cell[oz::PARENT..].iter().for_each(|w| put(&w.to_le_bytes()));
    }
    at
}

/// Rust that reads the words of a set's file by from_le_bytes into slices of their number, and nothing else.
#[inline(never)]
fn read_words(bytes: &[u8], s: &mut Set) {
    let four = |b: &[u8]| u32::from_le_bytes(b.try_into().unwrap());
    let eight = |b: &[u8]| u64::from_le_bytes(b.try_into().unwrap());
    let mut rest = bytes;
    for (words, each) in [(&mut s.lengths, 1), (&mut s.bins, 1), (&mut s.heads, 3)] {
        let count = four(&rest[..4]) as usize * each;
        let (section, more) = rest[4..].split_at(4 * count);
        words[..count].iter_mut().zip(section.chunks_exact(4)).for_each(|(w, b)| *w = four(b));
        rest = more;
    }
    let slots = rest[4..].chunks_exact(41).take(four(&rest[..4]) as usize);
    for ((name, cell), b) in s.names.chunks_exact_mut(2).zip(s.cells.chunks_exact_mut(7)).zip(slots) {
        name[0] = eight(&b[..8]);
        name[1] = eight(&b[8..16]);
        cell[oz::PLACE] = four(&b[16..20]);
        cell[oz::STATE] = b[20] as u32;
        cell[oz::PARENT..].iter_mut().zip(b[21..].chunks_exact(4)).for_each(|(w, b)| *w = four(b));
    }
}

/// Save and load, in chunks of 64 KiB, of a set: with acceptance, beside acceptance alone; and without it, beside Rust that writes and
/// reads the same words. Of a load that is all but the end call; of a save the difference of two figures, most of which are acceptance.
fn file_rows(name: &str, times: usize, set: &Set) {
    let bytes = files::written(set);
    let (mut out, mut copy) = (vec![0; bytes.len()], vec![0; bytes.len()]);
    let mut into = Set {
        lengths: vec![7; set.lengths.len()],
        bins: vec![7; set.bins.len()],
        heads: vec![7; set.heads.len()],
        names: vec![7; set.names.len()],
        cells: vec![7; set.cells.len()],
    };
    let mut other = into.clone();
    let again = |f: &mut dyn FnMut()| {
        let from = Instant::now();
        (0..times).for_each(|_| f());
        from.elapsed().as_nanos() as f64 / times as f64
    };
    let mut figures = [f64::INFINITY; 6];
    for _ in 0..ROUNDS {
        let round = [
            again(&mut || assert_eq!(black_box(set.accept()).value, 1)),
            again(&mut || assert_eq!(black_box(set.save(&mut out)).value as usize, bytes.len())),
            again(&mut || assert_eq!(write_words(black_box(set), black_box(&mut copy)), bytes.len())),
            again(&mut || {
                let mut loader = [0; 8];
                oz::load_start(&mut loader);
                for chunk in bytes.chunks(65536) {
                    black_box(into.load_chunk(&mut loader, chunk));
                }
                assert_eq!(black_box(into.load_end(&mut loader)).value as usize, bytes.len());
            }),
            again(&mut || {
                let mut loader = [0; 8];
                oz::load_start(&mut loader);
                for chunk in bytes.chunks(65536) {
                    black_box(into.load_chunk(&mut loader, chunk));
                }
            }),
            again(&mut || read_words(black_box(&bytes), black_box(&mut other))),
        ];
        figures.iter_mut().zip(round).for_each(|(best, time)| *best = best.min(time));
    }
    assert!(out == bytes && copy == bytes && into == *set && other == *set);
    let [accept, save, writes, load, chunks, reads] = figures;
    let size = bytes.len();
    row(&format!("acceptance of {name}"), accept, None, None);
    row(&format!("save of {name}, {size} bytes, with its acceptance (source: acceptance alone)"), save, Some(accept), None);
    row("the same after the acceptance (source: Rust by to_le_bytes)", save - accept, Some(writes), None);
    row(&format!("load of {name} in chunks of 64 KiB, with its acceptance (source: acceptance alone)"), load, Some(accept), None);
    row("the same without the end call, which has the acceptance (source: Rust by from_le_bytes)", chunks, Some(reads), None);
}

/// A move of a bin of 4,096 entries, with its acceptance beside acceptance alone, and without it beside the source's nodes: a difference of
/// two figures.
fn move_rows(rng: &mut Rng) {
    for (name, tree) in [("a tree", true), ("a list", false)] {
        // One list of 4,096 slots has an acceptance of its own kind, so of lists there are 64 entries.
        let half = if tree { 2048 } else { 32 };
        let set = sets::halves(rng, half, half, tree, 2, false);
        let bin = Bin::new();
        let slots = |s: &Set| (0..2 * half).map(|x| (s.names[2 * x], s.names[2 * x + 1])).collect::<Vec<(u64, u64)>>();
        slots(&set).iter().for_each(|(h, k)| bin.insert(*h, *k, 1));
        let (mut accept, mut moves, mut source) = (f64::INFINITY, f64::INFINITY, f64::INFINITY);
        for _ in 0..ROUNDS {
            let from = Instant::now();
            assert_eq!(black_box(set.accept()).value, 1);
            accept = accept.min(from.elapsed().as_nanos() as f64);
            let mut copy = set.clone();
            let from = Instant::now();
            assert_eq!(black_box(copy.move_bin(0, 0)).value as usize, 2 * half);
            moves = moves.min(from.elapsed().as_nanos() as f64);
            let from = Instant::now();
            black_box(bin.halves(1));
            source = source.min(from.elapsed().as_nanos() as f64);
        }
        let title = format!("a move of {name} of {} entries, with its acceptance (source: acceptance alone)", 2 * half);
        row(&title, moves, Some(accept), None);
        row("the same after the acceptance (source: its nodes, in two new trees)", moves - accept, Some(source), None);
    }
}

/// Sets of 512 slots, a file each: loaded and tallied, beside Rust that reads the same words, makes a HashMap of them and looks every entry
/// up.
fn tally_rows(rng: &mut Rng) {
    let all: Vec<Set> = (0..16).map(|_| (0..).map(|_| sets::draw(rng, 3, 64, 512, 0)).find(|s| s.names.len() == 1024).unwrap()).collect();
    let files: Vec<Vec<u8>> = all.iter().map(files::written).collect();
    let mut into = Set { lengths: vec![7; 8], bins: vec![7; 1024], heads: vec![7; 768], names: vec![7; 1024], cells: vec![7; 3584] };
    let (mut other, mut totals) = (into.clone(), vec![0; 39]);
    let (mut ours, mut theirs) = (f64::INFINITY, f64::INFINITY);
    for _ in 0..ROUNDS {
        let from = Instant::now();
        for bytes in &files {
            let mut loader = [0; 8];
            oz::load_start(&mut loader);
            into.load_chunk(&mut loader, bytes);
            assert_eq!(into.load_end(&mut loader).value as usize, bytes.len());
            let [tables, words, headers, slots] = [3, 4, 5, 6].map(|k| loader[k] as usize);
            let (lengths, bins, heads) = (&into.lengths[..tables], &into.bins[..words], &into.heads[..3 * headers]);
            let counted = oz::tally(lengths, bins, heads, &into.names[..2 * slots], &into.cells[..7 * slots], &mut totals);
            assert_eq!(black_box(counted).value, 1);
        }
        ours = ours.min(from.elapsed().as_nanos() as f64 / files.len() as f64);
        let from = Instant::now();
        for bytes in &files {
            read_words(black_box(bytes), black_box(&mut other));
            let pairs = other.names.chunks_exact(2).enumerate();
            let map: HashMap<(u64, u64), u32> = pairs.map(|(x, name)| ((name[0], name[1]), x as u32)).collect();
            let found = other.names.chunks_exact(2).filter(|name| black_box(map.get(&(name[0], name[1]))).is_some()).count();
            assert_eq!(found, 512);
        }
        theirs = theirs.min(from.elapsed().as_nanos() as f64 / files.len() as f64);
    }
    row("a set of 512 slots loaded and tallied, by the exports (source: Rust with a HashMap)", ours, Some(theirs), None);
    if let Ok(figures) = std::env::var("FIGURES") {
        week_row(&figures, &files);
    }
}

/// The files again and again after their lengths, 4,000 in all, through `figures` as a program, which accepts and tallies each, and through
/// this program as `bench week`, which makes a HashMap of each: the same input from a file, best of five.
fn week_row(figures: &str, files: &[Vec<u8>]) {
    let input = std::env::temp_dir().join(format!("week-{}", std::process::id()));
    let block = |bytes: &Vec<u8>| [&(bytes.len() as u32).to_le_bytes()[..], bytes].concat();
    let blocks: Vec<u8> = files.iter().flat_map(block).collect();
    let mut out = std::fs::File::create(&input).expect("a file for the input");
    (0..4000 / files.len()).for_each(|_| out.write_all(&blocks).expect("room for the input"));
    drop(out);
    let own = std::env::current_exe().expect("this program's path");
    let timed = |mut program: Command| {
        (0..5).fold(f64::INFINITY, |best, _| {
            let from = Instant::now();
            program.stdin(std::fs::File::open(&input).expect("the input"));
            let told = program.output().expect("a program that runs").stdout;
            assert!(told.starts_with(b"sets 4000\n"), "{}", String::from_utf8_lossy(&told));
            best.min(from.elapsed().as_nanos() as f64 / 4000.0)
        })
    };
    let ours = timed(Command::new(figures));
    let mut week = Command::new(own);
    week.arg("week");
    let theirs = timed(week);
    std::fs::remove_file(&input).expect("the input is there");
    row("a set of 512 slots through ./figures (source: a Rust program with a HashMap)", ours, Some(theirs), None);
    println!("sets a second: ./figures {:.0}, the Rust program {:.0}", 1e9 / ours, 1e9 / theirs);
}

/// `bench week`: reads sets' files, each after its length, makes a HashMap of each and looks every entry up.
fn week() {
    let mut input = BufReader::with_capacity(65536, std::io::stdin());
    let mut into = Set { lengths: vec![0; 8], bins: vec![0; 1024], heads: vec![0; 768], names: vec![0; 1024], cells: vec![0; 3584] };
    let (mut length, mut bytes, mut sets) = ([0; 4], Vec::new(), 0);
    while input.read_exact(&mut length).is_ok() {
        bytes.resize(u32::from_le_bytes(length) as usize, 0);
        input.read_exact(&mut bytes).expect("a whole file");
        read_words(&bytes, &mut into);
        let pairs = into.names.chunks_exact(2).enumerate();
        let map: HashMap<(u64, u64), u32> = pairs.map(|(x, name)| ((name[0], name[1]), x as u32)).collect();
        assert!(into.names.chunks_exact(2).all(|name| black_box(map.get(&(name[0], name[1]))).is_some()));
        sets += 1;
    }
    println!("sets {sets}");
}

fn main() {
    if std::env::args().nth(1).as_deref() == Some("week") {
        return week();
    }
    println!("| what | ours, ns | source, ns | BTreeMap, ns | ours / source | ours / BTreeMap |");
    println!("|---|---|---|---|---|---|");
    let mut rng = Rng::new(5);
    let mut order_rng = Rng::new(8);
    for size in [16usize, 256, 4096] {
        let mut ix = Index::new(size, 1);
        let bin = Bin::new();
        let mut map = BTreeMap::new();
        let mut there = Vec::new();
        while there.len() < size {
            let (hash, key) = (rng.next(), rng.next());
            ix.forget();
            ix.insert(hash, key, 1);
            bin.insert(hash, key, 1);
            map.insert((hash, key), 1u32);
            there.push((hash, key));
        }
        rng.shuffle(&mut there);
        let absent: Vec<(u64, u64)> = there.iter().map(|(h, _)| (*h, rng.next())).collect();
        let strange: Vec<(u64, u64)> = there.iter().map(|_| (rng.next(), rng.next())).collect();
        for (name, pairs, found) in
            [("find, hit", &there, true), ("find, miss", &strange, false), ("find, miss on an equal hash", &absent, false)]
        {
            // Asked in a drawn order, as names come; and in one short order again and again, which a processor learns by heart.
            let drawn: Vec<(u64, u64)> = (0..ASKED).map(|_| pairs[order_rng.below(size as u64) as usize]).collect();
            for (order, pairs) in [("", &drawn), (", in one order again and again", pairs)] {
                let times = ASKED / pairs.len();
                let ours = each(times, pairs, |h, k| ix.find(h, k).value != NULL, found);
                let source = each(times, pairs, |h, k| bin.find(h, k), found);
                let btree = each(times, pairs, |h, k| map.get(&(h, k)).is_some(), found);
                row(&format!("{name}, {size} pairs{order}"), ours, Some(source), Some(btree));
            }
        }
        // Half of the pairs leave and join again, so that the tree stays large.
        let calls = if size == 4096 { 64 } else { size / 2 };
        let times = (20_000 / (size * calls)).max(1);
        let (mut inserts, mut removes) = (f64::INFINITY, f64::INFINITY);
        let (mut source_inserts, mut source_removes) = (f64::INFINITY, f64::INFINITY);
        let (mut map_inserts, mut map_removes) = (f64::INFINITY, f64::INFINITY);
        let some: Vec<(u64, u64)> = there[..calls].to_vec();
        for _ in 0..times * ROUNDS {
            let from = Instant::now();
            for (h, k) in &some {
                ix.forget();
                assert_eq!(ix.remove(*h, *k).number, 0);
            }
            removes = removes.min(from.elapsed().as_nanos() as f64 / calls as f64);
            let from = Instant::now();
            for (h, k) in &some {
                ix.forget();
                assert_eq!(ix.insert(*h, *k, 1).number, 0);
            }
            inserts = inserts.min(from.elapsed().as_nanos() as f64 / calls as f64);
            if size > 16 {
                let from = Instant::now();
                for (h, k) in &some {
                    bin.remove(*h, *k);
                }
                source_removes = source_removes.min(from.elapsed().as_nanos() as f64 / calls as f64);
                let from = Instant::now();
                for (h, k) in &some {
                    bin.insert(*h, *k, 1);
                }
                source_inserts = source_inserts.min(from.elapsed().as_nanos() as f64 / calls as f64);
            }
            let from = Instant::now();
            for (h, k) in &some {
                assert!(map.remove(&(*h, *k)).is_some());
            }
            map_removes = map_removes.min(from.elapsed().as_nanos() as f64 / calls as f64);
            let from = Instant::now();
            for (h, k) in &some {
                assert!(map.insert((*h, *k), 1).is_none());
            }
            map_inserts = map_inserts.min(from.elapsed().as_nanos() as f64 / calls as f64);
        }
        let of = |x: f64| (size > 16).then_some(x);
        row(&format!("insert with its full check, {size} slots"), inserts, of(source_inserts), Some(map_inserts));
        row(&format!("remove with its full check, {size} slots"), removes, of(source_removes), Some(map_removes));
        let times = (40_000 / size).max(1);
        let full = best(times, || {
            for _ in 0..times {
                assert_eq!(black_box(ix.sound()).value, 1);
            }
        });
        let own = best(times, || {
            for _ in 0..times {
                assert_eq!(black_box(ix.check()).number, 0);
            }
        });
        let source = best(times, || {
            for _ in 0..times {
                bin.check();
            }
        });
        let walk = best(times, || {
            for _ in 0..times {
                black_box(map.iter().fold(0u64, |a, ((h, k), v)| a ^ h ^ k ^ *v as u64));
            }
        });
        row(&format!("full check (BTreeMap: one walk), {size} slots"), full, None, Some(walk));
        row(&format!("the source's check (BTreeMap: one walk), {size} slots"), own, Some(source), Some(walk));
        // Positions at a drawn place, each call with its full check; a BTreeMap is counted along.
        let order: Vec<(u64, u64)> = map.keys().copied().collect();
        let drawn: Vec<usize> = (0..64).map(|_| order_rng.below(size as u64) as usize).collect();
        let kth = best(drawn.len(), || {
            for &k in &drawn {
                let slot = black_box(ix.kth(k as u32)).value as usize;
                assert_eq!((ix.names[2 * slot], ix.names[2 * slot + 1]), order[k]);
            }
        });
        let along = best(drawn.len(), || {
            for &k in &drawn {
                assert_eq!(black_box(map.iter().nth(k)).unwrap().0, &order[k]);
            }
        });
        row(&format!("the pair at a position, with its full check (BTreeMap: counted along), {size} slots"), kth, None, Some(along));
        let position = best(drawn.len(), || {
            for &k in &drawn {
                assert_eq!(black_box(ix.position(order[k].0, order[k].1)).value as usize, k);
            }
        });
        let before = best(drawn.len(), || {
            for &k in &drawn {
                assert_eq!(black_box(map.range(..order[k]).count()), k);
            }
        });
        row(&format!("the position of a pair, with its full check (BTreeMap: counted along), {size} slots"), position, None, Some(before));
    }
    batch_rows(&mut rng);
    upload_rows(&mut rng);
    salvage_rows(&mut Rng::new(11));
    let mut file_rng = Rng::new(12);
    file_rows("the largest set", 4, &sets::largest(&mut file_rng));
    let small = (0..).map(|_| sets::draw(&mut file_rng, 3, 64, 512, 0)).find(|s| s.names.len() == 1024).unwrap();
    file_rows("a set of 512 slots", 40, &small);
    move_rows(&mut Rng::new(17));
    tally_rows(&mut Rng::new(39));
    let set = sets::draw(&mut rng, 3, 64, 4096, 0);
    let n = set.names.len() / 2;
    let tables = Tables::of_words(&set).expect("an accepted set");
    let map: BTreeMap<(u64, u64), u32> = (0..n).map(|i| ((set.names[2 * i], set.names[2 * i + 1]), i as u32)).collect();
    let pairs: Vec<(u64, u64)> = map.keys().copied().collect();
    let times = 40;
    let ours = best(times * n, || {
        for _ in 0..times {
            for (h, k) in &pairs {
                assert_eq!(black_box(set.lookup(0, *h, *k)).number, 0);
            }
        }
    });
    let source = best(times * n, || {
        for _ in 0..times {
            for (h, k) in &pairs {
                assert!(black_box(tables.lookup(0, *h, *k)) != NULL);
            }
        }
    });
    let btree = best(times * n, || {
        for _ in 0..times {
            for (h, k) in &pairs {
                assert!(black_box(map.get(&(*h, *k))).is_some());
            }
        }
    });
    row(&format!("lookup from table 0, hit, a set of {n} entries"), ours, Some(source), Some(btree));
    let ours = best(times * n, || {
        for _ in 0..times {
            let mut cursor = [0; 11];
            set.start(0, &mut cursor);
            let mut count = 0;
            while black_box(set.walk(&mut cursor)).value != NULL {
                count += 1;
            }
            assert_eq!(count, n);
        }
    });
    let source = best(times * n, || {
        for _ in 0..times {
            let mut walk = Walk::new(&tables, 0);
            let mut count = 0;
            while black_box(walk.next()) != NULL {
                count += 1;
            }
            assert_eq!(count, n);
        }
    });
    let btree = best(times * n, || {
        for _ in 0..times {
            assert_eq!(black_box(map.iter().map(|(_, v)| black_box(*v) as usize).count()), n);
        }
    });
    row(&format!("a whole walk from table 0, for each of {n} entries"), ours, Some(source), Some(btree));
    accept_row(&format!("acceptance of that set (BTreeMap: one walk of {n})"), times, &set);
    // Where acceptance has the most to do: the slots of a long list are hung in a tree, and each bin has a tree of its own.
    accept_row("acceptance of 4096 slots in one list", 1, &sets::one_list(&mut rng, 4096));
    accept_row("acceptance of 4096 bins, each a tree of one slot", times, &sets::lone_trees(&mut rng, 4096));
}
