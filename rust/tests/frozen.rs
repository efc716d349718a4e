//! Frozen sets, their files and the figures through the safe types.
use oz::{Frozen, Loader, Refusal, Totals};

/// The file of a set of docs/sets.
fn file(name: &str) -> Vec<u8> {
    let path = format!("{}/../docs/sets/{name}.bin", env!("CARGO_MANIFEST_DIR"));
    std::fs::read(&path).unwrap_or_else(|e| panic!("{path}: {e}"))
}

const SETS: [&str; 8] = ["empty", "forwarded", "forwarded_twice", "half", "list", "no_header", "sample", "tree"];

#[test]
fn the_sets_of_docs() {
    for name in SETS {
        let bytes = file(name);
        let set = Frozen::load(&bytes).unwrap_or_else(|e| panic!("{name}: {e}"));
        assert_eq!(set.accept(), Ok(true), "{name}");
        assert_eq!(set.save().as_deref(), Ok(&bytes[..]), "{name}");
        for chunk in [1, 3, 64] {
            let mut loader = Loader::start();
            let mut taken = 0;
            for piece in bytes.chunks(chunk) {
                taken = loader.chunk(piece).unwrap();
            }
            assert_eq!(taken as usize, bytes.len());
            assert_eq!(loader.end().unwrap(), set, "{name} by {chunk}");
        }
        let mut seen = vec![false; set.capacity()];
        for entry in set.walk(0).unwrap() {
            let entry = entry.unwrap();
            assert!(!std::mem::replace(&mut seen[entry.slot as usize], true));
            assert_eq!(set.entry(entry.slot), Some(entry));
            let found = set.lookup(0, entry.hash, entry.key).unwrap();
            assert_eq!(found.slot, Some(entry.slot), "{name}");
            assert!(found.looks >= 1);
        }
        let used = (0..set.capacity() as u32).filter(|slot| set.entry(*slot).is_some()).count();
        assert_eq!(seen.iter().filter(|given| **given).count(), used, "{name}");
        assert_eq!(set.walk(set.tables() as u32).err(), Some(Refusal::UnknownTable));
        assert_eq!(set.lookup(u32::MAX, 0, 0), Err(Refusal::UnknownTable));
    }
    for number in [1, 2, 12, 13, 14] {
        let refused = Frozen::load(&file(&format!("refused_{number}"))).unwrap_err();
        assert_eq!(refused.number(), number);
    }
}

#[test]
fn every_bin_moved() {
    for name in SETS {
        let mut set = Frozen::load(&file(name)).unwrap();
        let before: Vec<_> = set.walk(0).unwrap().map(|entry| entry.unwrap()).collect();
        let lengths = set.lengths().to_vec();
        let mut full = false;
        for (table, length) in lengths.iter().enumerate() {
            for bin in 0..*length {
                match set.move_bin(table as u32, bin) {
                    Ok(_) | Err(Refusal::CannotMove) => {}
                    Err(Refusal::Full) => full = true,
                    Err(other) => panic!("{name} table {table} bin {bin}: {other}"),
                }
            }
        }
        assert_eq!(full, name == "no_header", "{name}");
        assert_eq!(set.accept(), Ok(true));
        for entry in before {
            assert_eq!(set.lookup(0, entry.hash, entry.key).unwrap().slot, Some(entry.slot));
        }
    }
}

#[test]
fn figures() {
    let mut totals = Totals::default();
    let mut entries = 0;
    for name in SETS {
        let set = Frozen::load(&file(name)).unwrap();
        entries += set.walk(0).unwrap().count() as u64;
        assert_eq!(set.tally(&mut totals), Ok(true));
    }
    assert_eq!(Frozen::default().tally(&mut totals), Ok(false));
    assert_eq!((totals.sets(), totals.refused(), totals.entries()), (SETS.len() as u64, 1, entries));
    let rows: u64 = (1..=32).map(|looks| totals.row(looks).unwrap()).sum();
    assert_eq!(rows + totals.more(), entries);
    assert_eq!((totals.row(0), totals.row(33)), (None, None));
    assert!(totals.looks() >= entries && totals.lists() + totals.trees() > 0);
    let mut words = *totals.words();
    words[0] = 1_000_000;
    words[1] = 0;
    let mut most = Totals::from_words(words);
    assert_eq!(Frozen::default().tally(&mut most), Err(Refusal::TooMany));
    assert_eq!(most, Totals::from_words(words));
    words[1] = 1;
    assert_eq!(Frozen::default().tally(&mut Totals::from_words(words)), Err(Refusal::Unfit));
}

#[test]
fn a_ring_of_slots_ends() {
    let null = u32::MAX;
    // A list whose one slot is its own next.
    let set = Frozen::from_parts(vec![1], vec![2], vec![], vec![7, 1], vec![100, 1, null, null, null, null, 0]);
    assert_eq!(set.accept(), Ok(false));
    assert_eq!(set.save(), Err(Refusal::Damaged));
    let items: Vec<_> = set.walk(0).unwrap().collect();
    assert_eq!(items.len(), 2);
    assert!(items[0].is_ok());
    assert!(matches!(items[1], Err(Refusal::Lost { .. })));
    assert_eq!(set.lookup(0, 7, 2), Err(Refusal::Lost { looks: 1 }));
}

#[test]
fn any_words_and_no_panic() {
    let mut seed = 88172645463325252u64;
    let mut next = move || {
        seed ^= seed << 13;
        seed ^= seed >> 7;
        seed ^= seed << 17;
        seed
    };
    for _ in 0..4000 {
        let (tables, slots, headers) = (next() % 4, next() % 6, next() % 3);
        let first = 1 << (next() % 3);
        let lengths: Vec<u32> = (0..tables).map(|k| if next() % 20 == 0 { next() as u32 } else { first << k }).collect();
        let words = if next() % 10 == 0 { next() % 40 } else { lengths.iter().map(|l| *l as u64).sum::<u64>() % 100 };
        let word = |r: u64| match r % 8 {
            0 => u32::MAX,
            1 => (r >> 8) as u32,
            2 => 4098 + (r >> 8) as u32 % 3,
            _ => (r >> 8) as u32 % 8,
        };
        let bins = (0..words).map(|_| word(next())).collect();
        let heads = (0..3 * headers).map(|_| word(next())).collect();
        let names = (0..2 * slots).map(|_| next() % 8).collect();
        let cells = (0..7 * slots + u64::from(next() % 20 == 0)).map(|_| word(next())).collect();
        let mut set = Frozen::from_parts(lengths, bins, heads, names, cells);
        let before = set.clone();
        if let Ok(walk) = set.walk((next() % 4) as u32) {
            assert!(walk.count() <= set.capacity() + 1);
        }
        let _ = (set.lookup(0, next() % 8, next() % 8), set.entry(next() as u32), set.tally(&mut Totals::default()));
        let accepted = set.accept();
        assert_eq!(set.save().is_ok(), accepted == Ok(true));
        assert_eq!(set, before);
        if accepted != Ok(true) {
            assert!(set.move_bin(0, 0).is_err());
            assert_eq!(set, before);
        }
    }
}
