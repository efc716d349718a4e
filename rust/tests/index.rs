//! A live index through the safe types.
use oz::{Call, Check, Fate, Index, Reader, Refusal, Side};

fn listed(index: &Index) -> Vec<(u64, u64, u32)> {
    index.entries().map(|entry| entry.unwrap()).map(|e| (e.hash, e.key, e.place)).collect()
}

/// The file of a folder of docs/.
fn file(path: &str) -> Vec<u8> {
    let path = format!("{}/../docs/{path}", env!("CARGO_MANIFEST_DIR"));
    std::fs::read(&path).unwrap_or_else(|e| panic!("{path}: {e}"))
}

#[test]
fn the_script_of_the_rules() {
    let mut index = Index::new(512, 512).unwrap();
    assert_eq!(index.insert(0, 1, 10), Ok(0));
    assert_eq!(index.mark(), 1);
    assert_eq!(index.insert(0, 2, 20), Ok(1));
    assert_eq!(index.remove(0, 1), Ok(0));
    assert_eq!(index.insert(0, 1, 11), Ok(0));
    assert_eq!(listed(&index), [(0, 1, 11), (0, 2, 20)]);
    assert_eq!(index.rollback(1), Ok(3));
    assert_eq!(listed(&index), [(0, 1, 10)]);
    let found = index.find(0, 2).unwrap();
    assert_eq!((found.slot, found.looks), (None, 1));
    assert_eq!(index.remove(0, 2), Err(Refusal::Absent));
}

#[test]
fn the_limits() {
    for (capacity, lines) in [(0, 0), (4097, 0), (1, 1025), (usize::MAX, 0), (1, usize::MAX)] {
        assert_eq!(Index::new(capacity, lines), Err(Refusal::Unfit), "{capacity} {lines}");
    }
    let mut index = Index::new(1, 2).unwrap();
    assert_eq!((index.capacity(), index.line_capacity(), index.len()), (1, 2, 0));
    assert_eq!(index.insert(1, 1, 1), Ok(0));
    assert_eq!(index.insert(1, 1, 1), Err(Refusal::Present { slot: 0 }));
    assert_eq!(index.insert(2, 2, 2), Err(Refusal::Full));
    assert_eq!(index.remove(1, 1), Ok(0));
    assert_eq!(index.insert(2, 2, 2), Err(Refusal::JournalFull));
    assert_eq!(index.rollback(3), Err(Refusal::BadMark));
    assert_eq!(index.kth(0), Err(Refusal::OutOfRange));
    assert_eq!(index.position(1, 1), Err(Refusal::Absent));
    assert_eq!(index.rollback(0), Ok(2));
}

#[test]
fn positions_and_batches() {
    let mut index = Index::new(900, 1000).unwrap();
    let calls: Vec<Call> = (0..900).map(|i| Call::Insert { hash: i * 7919 % 900, key: i, place: i as u32 }).collect();
    assert!(index.batch(&calls).unwrap().iter().all(|answer| answer.is_ok()));
    assert_eq!(index.len(), 900);
    for k in [0, 1, 213, 899] {
        let slot = index.kth(k).unwrap();
        let entry = index.entry(slot).unwrap();
        assert_eq!((entry.slot, entry.hash), (slot, k as u64));
        assert_eq!(index.position(entry.hash, entry.key), Ok(k));
    }
    let more = [Call::Replace { hash: 0, key: 0, place: 5 }, Call::Remove { hash: 5, key: 5 }, Call::Remove { hash: 7919 % 900, key: 1 }];
    let answers = index.batch(&more).unwrap();
    assert_eq!(answers, [Ok(0), Err(Refusal::Absent), Ok(1)]);
    assert_eq!(index.batch(&[]), Ok(vec![]));
    assert_eq!(index.check(), Ok(Check::Passes));
}

#[test]
fn uploads_whole_or_not_at_all() {
    let upload = file("uploads/sample.bin");
    let mut index = Index::new(4096, 1024).unwrap();
    assert_eq!(index.read(&upload), Ok(6));
    let wanted = [(7, 3, 92), (0, 0, 76), (u64::MAX, 1, 57), (3, 9, 35), (7, 2, 19), (7, 1, 3)];
    assert_eq!(listed(&index), wanted);
    for (name, number) in [("3", 3), ("6", 6), ("12", 12), ("13", 13), ("18", 18)] {
        let mut fresh = Index::new(4096, 1024).unwrap();
        let before = fresh.clone();
        let refused = fresh.read(&file(&format!("uploads/refused_{name}.bin"))).unwrap_err();
        assert_eq!(refused.number(), number);
        assert_eq!(fresh, before, "refused_{name}");
    }
}

#[test]
fn a_reader_that_is_dropped_takes_its_entries_back() {
    let upload = file("uploads/sample.bin");
    let mut index = Index::new(64, 64).unwrap();
    index.insert(99, 99, 99).unwrap();
    let before = index.clone();
    for cut in 0..=upload.len() {
        let mut reader = Reader::start(&mut index).unwrap();
        let taken = reader.chunk(&upload[..cut]).unwrap();
        assert_eq!(reader.index().len() as u32, 1 + taken);
        drop(reader);
        assert_eq!(index, before, "cut at {cut}");
        let mut reader = Reader::start(&mut index).unwrap();
        reader.chunk(&upload[..cut]).unwrap();
        reader.chunk(&upload[cut..]).unwrap();
        assert_eq!(reader.end(), Ok(6));
        assert_eq!(index.rollback(1), Ok(6));
    }
}

#[test]
fn a_new_journal_keeps_what_was_entered() {
    let mut index = Index::new(4, 1).unwrap();
    for i in 0..4 {
        index.insert(i, i, 0).unwrap();
        index.begin_journal();
    }
    assert_eq!((index.len(), index.mark(), index.sound()), (4, 0, Ok(true)));
    assert_eq!(index.rollback(1), Err(Refusal::BadMark));
}

#[test]
fn the_dumps_of_docs() {
    let told = [
        ("sound", None),
        ("t1", Some(1)),
        ("t1_header", Some(1)),
        ("t2", Some(2)),
        ("t3", Some(3)),
        ("t4", Some(4)),
        ("t5", Some(5)),
        ("t6", Some(6)),
        ("t7", Some(7)),
        ("t8", Some(8)),
        ("lost", Some(1)),
    ];
    for (name, rule) in told {
        let bytes = file(&format!("dumps/{name}.bin"));
        let mut index = Index::from_dump(&bytes).unwrap_or_else(|| panic!("{name}"));
        assert_eq!(index.dump().unwrap(), bytes, "{name}");
        let reason = index.why().unwrap();
        assert_eq!(reason.map(|r| r.rule), rule, "{name}: {reason:?}");
        assert_eq!(index.sound(), Ok(rule.is_none()));
        if let Some(r) = reason {
            assert_eq!(r.other.is_some(), r.rule == 4, "{name}");
            assert_eq!(r.ways.is_some(), r.rule == 6, "{name}");
            if let Some([left, right]) = r.ways {
                assert_ne!(left.blacks, right.blacks);
                assert!(matches!(left.side, Side::Left | Side::Right));
            }
            assert_eq!(index.insert(1, 2, 3), Err(Refusal::Damaged), "{name}");
            assert!(Reader::start(&mut index).is_err(), "{name}");
        }
        assert!(index.entries().count() <= index.capacity() + 1, "{name}");
        let saved = index.salvage().unwrap();
        assert_eq!(saved.index.sound(), Ok(true), "{name}");
        assert_eq!(saved.report.iter().filter(|fate| **fate == Fate::Kept).count(), saved.kept as usize);
        assert_eq!(saved.index.len(), saved.kept as usize);
    }
    for name in ["short", "long", "over"] {
        assert_eq!(Index::from_dump(&file(&format!("dumps/{name}.bin"))), None, "{name}");
    }
    let mut unfit = Index::from_dump(&file("dumps/unfit.bin")).unwrap();
    assert_eq!(unfit.insert(1, 2, 3), Err(Refusal::Unfit));
    unfit.begin_journal();
    assert_ne!(unfit.insert(1, 2, 3), Err(Refusal::Unfit));
}

#[test]
fn slots_in_one_line_in_a_small_thread() {
    let (n, null) = (4096u32, u32::MAX);
    let names = (0..n as u64).flat_map(|i| [i, i]).collect();
    let link = |i: u32| if i < n { i } else { null };
    let cells = (0..n).flat_map(|i| [0, 1, i.wrapping_sub(1), null, link(i + 1), i.wrapping_sub(1), link(i + 1)]).collect();
    let line = Index::from_parts(names, cells, [0, 0, n], (0..n).map(|i| n - i).collect(), vec![0]);
    let ask = move || {
        assert_eq!(line.check(), Ok(Check::Passes));
        let reason = line.why().unwrap().unwrap();
        assert_eq!((reason.rule, line.sound(), line.entries().count()), (6, Ok(false), 4096));
        let mut saved = line.salvage().unwrap().index;
        assert_eq!((saved.len(), saved.sound(), saved.rollback(0)), (4096, Ok(true), Ok(0)));
    };
    std::thread::Builder::new().stack_size(1 << 20).spawn(ask).unwrap().join().unwrap();
}

#[test]
fn every_type_goes_to_another_thread() {
    fn goes<T: Send + Sync>() {}
    goes::<Index>();
    goes::<oz::Frozen>();
    goes::<oz::Loader>();
    goes::<Reader<'static>>();
    goes::<oz::Totals>();
    goes::<Refusal>();
}

/// Numbers from a fixed seed.
struct Drawn(u64);

impl Drawn {
    fn next(&mut self) -> u64 {
        self.0 ^= self.0 << 13;
        self.0 ^= self.0 >> 7;
        self.0 ^= self.0 << 17;
        self.0
    }

    fn word(&mut self, slots: usize) -> u32 {
        match self.next() % 8 {
            0 => u32::MAX,
            1 => self.next() as u32,
            _ => (self.next() % (slots as u64 + 2)) as u32,
        }
    }

    fn len(&mut self, right: usize) -> usize {
        if self.next() % 8 == 1 {
            (self.next() % 40) as usize
        } else {
            right
        }
    }
}

#[test]
fn any_words_and_no_panic() {
    let mut drawn = Drawn(88172645463325252);
    let mut lost = 0;
    for _ in 0..4000 {
        let (n, c) = ((drawn.next() % 9) as usize, (drawn.next() % 4) as usize);
        let names = (0..drawn.len(2 * n)).map(|_| drawn.next() % 4).collect();
        let cells = (0..drawn.len(7 * n)).map(|_| drawn.word(n)).collect();
        let head = [drawn.word(n), drawn.word(n), drawn.word(n)];
        let sizes = (0..drawn.len(n)).map(|_| drawn.word(n)).collect();
        let lines = (0..drawn.len(1 + 6 * c)).map(|_| drawn.next() % 4).collect();
        let mut index = Index::from_parts(names, cells, head, sizes, lines);
        let before = index.clone();
        lost += u32::from(index.entries().last().is_some_and(|last| last.is_err()));
        assert!(index.entries().count() <= index.capacity() + 1);
        let (sound, why) = (index.sound(), index.why());
        assert_eq!(sound.map(|yes| !yes), why.map(|reason| reason.is_some()));
        let _ = (index.find(1, 1), index.check(), index.kth(0), index.position(1, 1), index.dump(), index.entry(drawn.word(n)));
        let _ = (index.salvage(), index.mark(), index.len(), index.line_capacity());
        assert_eq!(index, before);
        if sound != Ok(true) {
            assert!(index.insert(1, 1, 1).is_err() && index.remove(1, 1).is_err() && index.replace(1, 1, 1).is_err());
            assert!(index.rollback(0).is_err() && index.batch(&[Call::Remove { hash: 1, key: 1 }]).is_err());
            assert!(index.read(&[1, 0, 0]).is_err());
            assert_eq!(index, before);
        }
        index.begin_journal();
    }
    assert!(lost > 100, "{lost}");
}
