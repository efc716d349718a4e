//! The comparisons with the source's own routines, after every operation every link, colour, root, first, count and size.
use harness::oz::{self, Index, NULL};
use harness::reads::{self, same_search, whole_walk};
use harness::rng::Rng;
use harness::sets;
use harness::uploads;
use harness::source::{By, Removal, Tables, Tree};
use harness::MESSAGES;
use seize::trace;
use std::collections::{BTreeMap, HashSet};
use std::panic::{catch_unwind, AssertUnwindSafe};

/// One call of a script.
#[derive(Clone, Copy, PartialEq, Eq, Debug)]
enum Op {
    Insert(u64, u64, u32),
    Remove(u64, u64),
    Replace(u64, u64, u32),
}

#[derive(Default)]
struct Counts {
    finds: u64,
    inserts: u64,
    removes: u64,
    replaces: u64,
    present: u64,
    full: u64,
    absent: u64,
    unplaced: u64,
    whole: u64,
    early: u64,
    kths: u64,
    positions: u64,
}

/// Our index beside a tree of the source.
struct Pair {
    ours: Index,
    theirs: Tree,
}

impl Pair {
    fn new(slots: usize, by: By) -> Self {
        Pair { ours: Index::new(slots, 1), theirs: Tree::new(slots, by) }
    }

    /// Find of the call's pair, slot and looks, before the call is made: the slot.
    fn find(&self, hash: u64, key: u64) -> Result<u32, String> {
        let ours = self.ours.find(hash, key);
        let slots = self.ours.slots();
        let theirs = self.theirs.search(hash, key, 3 * slots + 3);
        match same_search(ours, theirs, slots) {
            true => Ok(ours.value),
            false => Err(format!("find {hash} {key}: ours {ours:?}, source {theirs:?}")),
        }
    }

    fn step(&mut self, op: Op, counts: &mut Counts) -> Result<(), String> {
        self.ours.forget();
        let slots = self.ours.slots();
        let (Op::Insert(hash, key, _) | Op::Remove(hash, key) | Op::Replace(hash, key, _)) = op;
        let there = self.find(hash, key)?;
        counts.finds += 1;
        match op {
            Op::Insert(hash, key, place) => {
                let lowest = (0..slots as u32).find(|&i| self.ours.cell(i, oz::STATE) == 0);
                let answer = self.ours.insert(hash, key, place);
                let wanted = match (there, lowest) {
                    (NULL, Some(at)) => (0, at),
                    (NULL, None) => (5, 0),
                    (at, _) => (3, at),
                };
                if (answer.number, answer.value) != wanted {
                    return Err(format!("answer {answer:?}, wanted {wanted:?}"));
                }
                if wanted.0 != 5 {
                    let met = self.theirs.insert(hash, key, place, wanted.1);
                    if met != there {
                        return Err(format!("the source's insert answers {met}, its find {there}"));
                    }
                }
                counts.inserts += 1;
                counts.full += (wanted.0 == 5) as u64;
                counts.present += (wanted.0 == 3) as u64;
            }
            Op::Remove(hash, key) => {
                let answer = self.ours.remove(hash, key);
                let (at, how) = self.theirs.remove(hash, key);
                let wanted = if at == NULL { (4, 0) } else { (0, at) };
                if (answer.number, answer.value) != wanted {
                    return Err(format!("answer {answer:?}, wanted {wanted:?}"));
                }
                counts.removes += 1;
                counts.absent += (at == NULL) as u64;
                if at != NULL {
                    counts.whole += (how == Removal::Whole) as u64;
                    counts.early += (how == Removal::Drivers) as u64;
                }
            }
            Op::Replace(hash, key, place) => {
                let before = self.ours.clone();
                let answer = self.ours.replace(hash, key, place);
                let at = self.theirs.replace(hash, key, place);
                let wanted = if at == NULL { (4, 0) } else { (0, at) };
                if (answer.number, answer.value) != wanted {
                    return Err(format!("answer {answer:?}, wanted {wanted:?}"));
                }
                if !self.ours.only_place(&before, hash, key, place) {
                    return Err(format!("more than the place of slot {there} and a line: {before:?} to {:?}", self.ours));
                }
                counts.replaces += 1;
                counts.unplaced += (at == NULL) as u64;
            }
        }
        if let Some(what) = self.theirs.differs(&self.ours) {
            return Err(what);
        }
        self.ranks(hash, key, counts)
    }

    /// The pair at a position and the position of a pair, held to the pairs in sorted order: on few slots at every position up to the
    /// count and of every pair, else at one position that varies; and of the call's own pair.
    fn ranks(&self, hash: u64, key: u64, counts: &mut Counts) -> Result<(), String> {
        let ix = &self.ours;
        let order = oz::in_order(&ix.names, &ix.cells);
        let asked: Vec<u32> = match ix.slots() {
            0..=8 => (0..=order.len() as u32).collect(),
            _ => vec![(counts.finds % (order.len() as u64 + 1)) as u32],
        };
        let mut pairs = vec![(hash, key)];
        for k in asked {
            let (ours, wanted) = (ix.kth(k), oz::kth_of(&order, k));
            if ours != wanted {
                return Err(format!("k-th {k}: ours {ours:?}, by sorting {wanted:?}"));
            }
            counts.kths += 1;
            pairs.extend(order.get(k as usize).map(|&i| (ix.names[2 * i as usize], ix.names[2 * i as usize + 1])));
        }
        for (hash, key) in pairs {
            let (ours, wanted) = (ix.position(hash, key), oz::position_of(&order, &ix.names, hash, key));
            if ours != wanted {
                return Err(format!("position of {hash} {key}: ours {ours:?}, by sorting {wanted:?}"));
            }
            counts.positions += 1;
        }
        Ok(())
    }
}

/// A script cut into batches of drawn lengths: each is held to the same calls made singly on a copy, every word and every answer, and to
/// the source, which makes them one by one. The answers' words past the calls are to stay.
fn batches(rng: &mut Rng, by: By, scripts: usize, length: usize, report: &mut Report) -> (u64, u64) {
    let (mut made, mut calls) = (0, 0);
    for _ in 0..scripts {
        let slots = 1 + rng.below(40) as usize;
        let lines = rng.below(60) as usize;
        let mut pair = Pair { ours: Index::new(slots, lines), theirs: Tree::new(slots, by) };
        for _ in 0..length {
            let drawn: Vec<u64> = (0..rng.below(30))
                .flat_map(|_| {
                    let kind = [1, 1, 1, 2, 2, 3][rng.below(6) as usize];
                    let place = if kind == 2 { rng.next() } else { rng.next() as u32 as u64 };
                    [kind, rng.below(2), rng.below(slots as u64 + 3), place]
                })
                .collect();
            let mut single = pair.ours.clone();
            let words = single.singly(&drawn);
            let mut wanted = words.clone();
            wanted.extend([7; 3]);
            let mut answers = vec![7; words.len() + 3];
            let answer = pair.ours.batch(&drawn, &mut answers);
            let accepted = words.iter().filter(|w| *w >> 32 == 0).count() as u32;
            made += 1;
            calls += words.len() as u64;
            if answer != oz::Answer::plain(0, accepted) || answers != wanted || pair.ours != single {
                let what = format!("{slots} slots, {lines} lines, {drawn:?}: {answer:?}, {answers:?} and {wanted:?}");
                report.differs("batch and single calls", drawn.len(), what);
                break;
            }
            for (call, word) in drawn.chunks(4).zip(&words) {
                match call[0] {
                    1 if *word >> 32 == 0 => drop(pair.theirs.insert(call[1], call[2], call[3] as u32, *word as u32)),
                    2 if *word >> 32 == 0 => drop(pair.theirs.remove(call[1], call[2])),
                    3 if *word >> 32 == 0 => drop(pair.theirs.replace(call[1], call[2], call[3] as u32)),
                    _ => (),
                }
            }
            if let Some(what) = pair.theirs.differs(&pair.ours) {
                report.differs("batch and source", drawn.len(), format!("{slots} slots, {drawn:?}: {what}"));
                break;
            }
            if pair.ours.lines[0] as usize == lines && rng.below(2) == 0 {
                pair.ours.forget();
            }
        }
    }
    (made, calls)
}

/// A part of an upload that is short, and the journal's length set back by somebody else, to the mark or above it: the end call answers 7
/// and writes nothing, where entries were taken.
fn cut_journal(rng: &mut Rng, before: &Index, part: &[u8], number: u32) -> bool {
    let mut ix = before.clone();
    let mut reader = [0; 8];
    ix.read_start(&mut reader);
    let taken = ix.read_chunk(&mut reader, part);
    if number != 12 || taken.value == 0 {
        return true;
    }
    ix.lines[0] = before.lines[0] + rng.below(taken.value as u64);
    let was = ix.clone();
    ix.read_end(&mut reader).number == 7 && ix == was
}

/// Uploads, drawn and damaged, cut anywhere, into indexes that hold some entries: the end call answers what the rules say, by a reader
/// written apart; an accepted one leaves the words of the same entries inserted singly, and the source's tree; a refused one the entries,
/// their order and the lines of before; and a later chunk and end call answer the same and change nothing. How many, and how many accepted.
fn read_uploads(rng: &mut Rng, by: By, count: usize, report: &mut Report) -> (u64, u64) {
    let (mut made, mut accepted) = (0, 0);
    for _ in 0..count {
        let slots = 1 + rng.below(14) as usize;
        let lines = rng.below(14) as usize;
        let mut pair = Pair { ours: Index::new(slots, lines), theirs: Tree::new(slots, by) };
        for _ in 0..rng.below(slots as u64 + 1) {
            let (h, k) = (rng.below(3), rng.below(9));
            let answer = pair.ours.insert(h, k, 7);
            if answer.number == 0 {
                pair.theirs.insert(h, k, 7, answer.value);
            }
        }
        let before = pair.ours.clone();
        let held = before.listing();
        let mark = before.lines[0] as usize;
        let bytes = uploads::draw(rng);
        let (number, entered) = uploads::told(&bytes, &held, slots, lines - mark);
        let mut cuts = Vec::new();
        let mut left = bytes.len() as u64;
        for _ in 0..rng.below(6) {
            let cut = rng.below(left + 1);
            cuts.push(cut as usize);
            left -= cut;
        }
        let mut reader = [rng.next(); 8];
        let mut ours = |ix: &mut Index| {
            ix.read_start(&mut reader);
            let mut rest = &bytes[..];
            for cut in &cuts {
                let (chunk, more) = rest.split_at(*cut);
                ix.read_chunk(&mut reader, chunk);
                rest = more;
            }
            ix.read_chunk(&mut reader, rest);
            let answer = ix.read_end(&mut reader);
            let after = ix.clone();
            let again = (ix.read_chunk(&mut reader, &[1, 2, 3]), ix.read_end(&mut reader));
            (answer, again == (answer, answer) && after == *ix)
        };
        let (answer, same) = ours(&mut pair.ours);
        made += 1;
        let mut fine = same && answer.number == number && pair.ours.sizes == oz::climbed_sizes(&pair.ours.cells);
        if number == 0 {
            accepted += 1;
            let mut single = before.clone();
            for (h, k, place) in &entered {
                let slot = single.insert(*h, *k, *place);
                pair.theirs.insert(*h, *k, *place, slot.value);
            }
            fine &= answer.value as usize == entered.len() && single == pair.ours && pair.theirs.differs(&pair.ours).is_none();
        } else {
            let kept = 1 + oz::LINE_WORDS * mark;
            fine &= pair.ours.listing() == held && pair.ours.sound().value == 1;
            fine &= pair.ours.lines[..kept] == before.lines[..kept] && pair.ours.lines[kept..].iter().all(|w| *w == 0);
            // 3 comes with the slot of the pair at that point.
            let mut single = before.clone();
            for (h, k, place) in &entered {
                single.insert(*h, *k, *place);
            }
            fine &= number == 3 || answer.value == 0;
            fine &= number != 3 || single.cells.get(7 * answer.value as usize + oz::STATE).is_some_and(|s| *s != 0);
        }
        if !fine {
            let what = format!("{slots} slots, {lines} lines, {held:?}, {bytes:?}, {cuts:?}: {answer:?}, wanted {number}");
            report.differs("upload", bytes.len(), what);
        }
        let part = &bytes[..rng.below(bytes.len() as u64 + 1) as usize];
        if !cut_journal(rng, &before, part, uploads::told(part, &held, slots, lines - mark).0) {
            report.differs("cut journal", part.len(), format!("{slots} slots, {lines} lines, {held:?}, {part:?}"));
        }
    }
    (made, accepted)
}

fn run(slots: usize, by: By, script: &[Op], counts: &mut Counts) -> Result<(), (usize, String)> {
    let mut pair = Pair::new(slots, by);
    for (k, op) in script.iter().enumerate() {
        pair.step(*op, counts).map_err(|what| (k, what))?;
    }
    Ok(())
}

/// Drops calls from a script that differs while it still differs.
fn smallest(slots: usize, by: By, script: &[Op]) -> (Vec<Op>, String) {
    let mut best = script.to_vec();
    let mut what = String::new();
    loop {
        match run(slots, by, &best, &mut Counts::default()) {
            Ok(()) => return (best, what),
            Err((k, w)) => {
                best.truncate(k + 1);
                what = w;
            }
        }
        let shorter = (0..best.len()).find_map(|i| {
            let mut s = best.clone();
            s.remove(i);
            run(slots, by, &s, &mut Counts::default()).is_err().then_some(s)
        });
        match shorter {
            Some(s) => best = s,
            None => return (best, what),
        }
    }
}

struct Report {
    differences: u64,
    smallest: BTreeMap<String, (usize, String)>,
}

impl Report {
    fn differs(&mut self, class: &str, size: usize, what: String) {
        self.differences += 1;
        let entry = self.smallest.entry(class.to_string()).or_insert((usize::MAX, String::new()));
        if size < entry.0 {
            *entry = (size, what);
        }
    }

    fn script(&mut self, class: &str, slots: usize, by: By, script: &[Op]) {
        let (short, what) = smallest(slots, by, script);
        self.differs(class, short.len(), format!("{slots} slots, {by:?}, {short:?}: {what}"));
    }
}

fn orders(n: usize) -> Vec<Vec<u64>> {
    fn go(left: &mut Vec<u64>, sofar: &mut Vec<u64>, out: &mut Vec<Vec<u64>>) {
        if left.is_empty() {
            out.push(sofar.clone());
        }
        for i in 0..left.len() {
            let k = left.remove(i);
            sofar.push(k);
            go(left, sofar, out);
            sofar.pop();
            left.insert(i, k);
        }
    }
    let mut out = Vec::new();
    go(&mut (1..=n as u64).collect(), &mut Vec::new(), &mut out);
    out
}

/// The tree by keys: each pair's colour, and its parent's, left's and right's keys.
fn shape(ix: &Index) -> Vec<[u64; 5]> {
    let key = |l: u32| if l == NULL { 0 } else { ix.names[2 * l as usize + 1] };
    let mut rows: Vec<[u64; 5]> = (0..ix.slots() as u32)
        .filter(|&i| ix.cell(i, oz::STATE) != 0)
        .map(|i| [key(i), ix.cell(i, oz::STATE) as u64, key(ix.cell(i, oz::PARENT)), key(ix.cell(i, oz::LEFT)), key(ix.cell(i, oz::RIGHT))])
        .collect();
    rows.sort();
    rows
}

/// All insert orders of n pairs, then from each distinct tree all removal orders.
fn exhaustive(n: usize, by: By, counts: &mut Counts, report: &mut Report) -> (usize, usize) {
    let orders = orders(n);
    let mut seen = HashSet::new();
    let mut trees = Vec::new();
    for order in &orders {
        let script: Vec<Op> = order.iter().map(|&k| Op::Insert(0, k, k as u32 * 10)).collect();
        let mut pair = Pair::new(n, by);
        for (k, op) in script.iter().enumerate() {
            if pair.step(*op, counts).is_err() {
                report.script("insert orders", n, by, &script[..=k]);
                break;
            }
        }
        if seen.insert(shape(&pair.ours)) {
            trees.push(script);
        }
    }
    for inserts in &trees {
        for order in &orders {
            let mut script = inserts.clone();
            script.extend(order.iter().map(|&k| Op::Remove(0, k)));
            let mut pair = Pair::new(n, by);
            for (k, op) in script.iter().enumerate() {
                let mut quiet = Counts::default();
                if pair.step(*op, if k < n { &mut quiet } else { counts }).is_err() {
                    report.script("removal orders", n, by, &script[..=k]);
                    break;
                }
            }
        }
    }
    (orders.len(), trees.len())
}

/// Random scripts: pairs out of few or many hashes, inserts and removes in phases that grow and shrink the tree, and replaces all along.
fn random(rng: &mut Rng, by: By, scripts: usize, pairs: u64, length: usize, counts: &mut Counts, report: &mut Report) {
    let mut places = Rng::new(9);
    for _ in 0..scripts {
        let slots = if rng.below(4) == 0 { 1 + rng.below(pairs) } else { pairs } as usize;
        let hashes = [1, 2, 5, pairs, u64::MAX][rng.below(5) as usize];
        let universe: Vec<(u64, u64)> = (0..pairs).map(|k| (rng.below(hashes), if rng.below(8) == 0 { rng.next() } else { k })).collect();
        let mut grow = true;
        let mut script = Vec::with_capacity(length);
        let mut there: Vec<(u64, u64)> = Vec::new();
        for _ in 0..length {
            if rng.below(pairs) == 0 {
                grow = !grow;
            }
            let any = universe[rng.below(pairs) as usize];
            if (rng.below(4) != 0) == grow {
                if !there.contains(&any) && there.len() < slots {
                    there.push(any);
                }
                script.push(Op::Insert(any.0, any.1, rng.next() as u32));
            } else {
                // Mostly a pair that is there.
                let pair = if there.is_empty() || rng.below(8) == 0 { any } else { there[rng.below(there.len() as u64) as usize] };
                there.retain(|p| *p != pair);
                script.push(Op::Remove(pair.0, pair.1));
            }
            if places.below(3) == 0 {
                let pair = if there.is_empty() || places.below(8) == 0 { any } else { there[places.below(there.len() as u64) as usize] };
                script.push(Op::Replace(pair.0, pair.1, places.next() as u32));
            }
        }
        if run(slots, by, &script, counts).is_err() {
            report.script("random scripts", slots, by, &script);
        }
    }
}

/// What the source's check comes to: nothing, a test's number with its slot, or that it does not end.
#[derive(PartialEq, Eq, Debug)]
enum Verdict {
    Passes,
    Fails(u32, u32),
    RunsOn,
}

/// The verdict, and the number of visits.
fn source_check(tree: &Tree, limit: usize) -> (Verdict, usize) {
    trace::start(limit);
    let outcome = catch_unwind(AssertUnwindSafe(|| tree.check()));
    let visits = tree.visits(&trace::stop());
    let verdict = match outcome {
        Ok(()) => Verdict::Passes,
        Err(panic) => {
            let text = panic.downcast_ref::<String>().cloned().or_else(|| panic.downcast_ref::<&str>().map(|s| s.to_string())).unwrap();
            if text.contains(trace::RUNS_ON) {
                Verdict::RunsOn
            } else {
                let test = MESSAGES.iter().position(|m| text.contains(m)).expect("a message of the source's check") as u32 + 1;
                Verdict::Fails(test, *visits.last().expect("a slot was visited"))
            }
        }
    };
    (verdict, visits.len())
}

#[derive(Default)]
struct Damage {
    trees: u64,
    sound: u64,
    passes: u64,
    fails: [u64; 8],
    nines: u64,
    nines_ending: u64,
    finds: u64,
    hits: u64,
    nothings: u64,
    find_nines: u64,
}

/// Sound trees with one to four words changed, links within range: the source could hold no other.
fn damaged(rng: &mut Rng, trees: usize, report: &mut Report) -> Damage {
    let mut d = Damage::default();
    for k in 0..trees {
        let slots = 1 + rng.below(if k % 4 == 0 { 40 } else { 8 }) as usize;
        let mut ix = Index::new(slots, 1);
        let pairs = 1 + rng.below(2 * slots as u64);
        let hashes = 1 + rng.below(4);
        for _ in 0..2 * slots {
            ix.forget();
            let (h, k) = (rng.below(hashes) * 2, rng.below(pairs) * 2);
            if rng.below(4) == 0 {
                ix.remove(h, k);
            } else {
                ix.insert(h, k, 7);
            }
        }
        let link = |rng: &mut Rng| if rng.below(3) == 0 { NULL } else { rng.below(slots as u64) as u32 };
        for _ in 0..rng.below(4) + 1 {
            let i = rng.below(slots as u64) as usize;
            match rng.below(12) {
                0 => ix.names[2 * i] = rng.below(hashes * 2 + 1),
                1 => ix.names[2 * i + 1] = rng.below(pairs * 2 + 1),
                2 => ix.cells[7 * i + oz::STATE] = rng.below(3) as u32,
                3 => ix.head[0] = link(rng),
                4 => ix.head[1] = link(rng),
                n => ix.cells[7 * i + 2 + (n as usize) % 5] = link(rng),
            }
        }
        d.trees += 1;
        d.sound += (ix.sound().value == 1) as u64;
        let tree = Tree::of_words(&ix);
        let say = |what: String| format!("{slots} slots, names {:?}, cells {:?}, head {:?}: {what}", ix.names, ix.cells, ix.head);
        // More loads than any walk of at most as many visits as there are slots makes.
        let limit = 64 * slots + 64;
        let ours = ix.check();
        let (theirs, visits) = source_check(&tree, limit);
        match (ours.number, &theirs) {
            (0, Verdict::Passes) => d.passes += 1,
            (n, Verdict::Fails(t, s)) if n == 100 + t && ours.value == *s => d.fails[*t as usize - 1] += 1,
            (9, Verdict::RunsOn) if visits > slots => d.nines += 1,
            // The source ends after more visits than there are slots.
            (9, _) if visits > slots => {
                d.nines += 1;
                d.nines_ending += 1;
                let entry = report
                    .smallest
                    .entry("known: more visits than slots, yet the source's check ends".into())
                    .or_insert((usize::MAX, String::new()));
                if slots < entry.0 {
                    *entry = (slots, say(format!("ours 9, source {theirs:?}")));
                }
            }
            _ => report.differs("check of damaged trees", slots, say(format!("ours {ours:?}, source {theirs:?}"))),
        }
        for _ in 0..2 {
            let (hash, key) = (rng.below(hashes * 2 + 1), rng.below(pairs * 2 + 1));
            let ours = ix.find(hash, key);
            let theirs = tree.search(hash, key, 3 * slots + 3);
            d.finds += 1;
            match (same_search(ours, theirs, slots), theirs.0) {
                (true, Some(s)) => {
                    d.hits += (s != NULL) as u64;
                    d.nothings += (s == NULL) as u64;
                }
                (true, None) => d.find_nines += 1,
                _ => report.differs("find in damaged trees", slots, say(format!("find {hash} {key}: ours {ours:?}, source {theirs:?}"))),
            }
        }
    }
    d
}

#[derive(Default)]
struct Frozen {
    sets: u64,
    accepted: u64,
    unbuilt: u64,
    lookups: u64,
    hits: u64,
    lookup_nines: u64,
    null_first: u64,
    null_first_slots: u64,
    walks: u64,
    steps: u64,
    entries: u64,
    dones: u64,
    wholes: u64,
    given: u64,
}

/// Lookup and the walk, entry by entry with the cursor's indexes.
fn frozen(rng: &mut Rng, count: usize, damage: bool, report: &mut Report) -> Frozen {
    let mut f = Frozen::default();
    while (f.sets as usize) < count {
        let mut s = sets::small(rng);
        if damage {
            sets::damage(rng, &mut s);
        }
        let accepted = s.accept();
        let Some(tables) = Tables::of_words(&s) else {
            f.unbuilt += 1;
            continue;
        };
        f.sets += 1;
        f.accepted += (accepted == oz::Answer::plain(0, 1)) as u64;
        let n = s.names.len() / 2;
        let size = s.bins.len() + n;
        if !damage && accepted.value != 1 {
            report.differs("a set that should be accepted", size, format!("{s:?}: {accepted:?}"));
        }
        if accepted.value == 1 {
            for t in 0..s.lengths.len() {
                f.wholes += 1;
                match whole_walk(&s, t) {
                    Ok(given) => f.given += given,
                    Err(what) => report.differs("whole walk", size, format!("{s:?} from {t}: {what}")),
                }
            }
        }
        let first_null = |w: u32| w >= 4098 && s.heads[3 * (w - 4098) as usize + 1] == NULL;
        // The first bin from table t on that is not Moved.
        let ends_in = |t: usize, hash: u64| {
            let bin = |k: usize| s.bins[s.begin(k) + (hash & (s.lengths[k] as u64 - 1)) as usize];
            (t..s.lengths.len()).map(bin).find(|w| *w != 1).unwrap_or(0)
        };
        let null_first = s.bins.iter().any(|w| first_null(*w));
        for t in 0..s.lengths.len() {
            for _ in 0..6 {
                let (hash, key) = if n != 0 && rng.below(3) != 0 {
                    let i = rng.below(n as u64) as usize;
                    (s.names[2 * i], s.names[2 * i + 1])
                } else {
                    (rng.below(20), rng.below(20))
                };
                let ours = s.lookup(t as u32, hash, key);
                let theirs = tables.search(t, hash, key, 64 * (n + 1) + 64);
                f.lookups += 1;
                match (same_search(ours, theirs, n), theirs) {
                    (true, (Some(at), _)) => f.hits += (at != NULL) as u64,
                    (true, (None, _)) => f.lookup_nines += 1,
                    // The source asks the header's first, we its root alone.
                    (_, (Some(NULL), 0)) if first_null(ends_in(t, hash)) => {
                        f.null_first += 1;
                        f.null_first_slots += ((ours.number, ours.value) != (0, NULL)) as u64;
                        let entry = report
                            .smallest
                            .entry("known: lookup in a tree whose first is null".into())
                            .or_insert((usize::MAX, String::new()));
                        if size < entry.0 {
                            *entry = (size, format!("{s:?} lookup from {t} of {hash} {key}: ours {ours:?}, source Nothing without a look"));
                        }
                    }
                    _ => report.differs("lookup", size, format!("{s:?} lookup from {t} of {hash} {key}: ours {ours:?}, source {theirs:?}")),
                }
            }
            // The source would follow a null pointer from a tree without a first.
            if null_first {
                continue;
            }
            f.walks += 1;
            let walked = reads::walk_beside(&s, &tables, t);
            f.steps += walked.steps;
            f.entries += walked.entries;
            f.dones += walked.done as u64;
            if let Some(what) = walked.wrong {
                report.differs("walk", size, format!("{s:?} from {t}: {what}"));
            }
        }
    }
    f
}

fn main() {
    std::panic::set_hook(Box::new(|_| {}));
    let scale: usize = std::env::args().nth(1).map_or(100, |s| s.parse().expect("a scale in hundredths"));
    let many = |n: usize| (n * scale / 100).max(1);
    let mut report = Report { differences: 0, smallest: BTreeMap::new() };
    let (mut finds, mut lookups, mut kths, mut positions) = (0, 0, 0, 0);
    for by in [By::Drivers, By::Bin] {
        let mut counts = Counts::default();
        let n = if scale < 20 { 5 } else { 7 };
        let (orders, trees) = exhaustive(n, by, &mut counts, &mut report);
        finds += counts.finds;
        kths += counts.kths;
        positions += counts.positions;
        println!("{by:?}: {orders} insert orders of {n} pairs, {trees} distinct trees, all removal orders of each");
        println!(
            "  finds with looks {}, inserts {}, removes {}, of these by remove_tree_node whole {}",
            counts.finds, counts.inserts, counts.removes, counts.whole
        );
        let mut rng = Rng::new(1);
        for (name, scripts, pairs, length) in [("up to 60 pairs", many(4000), 60, 250), ("several hundred pairs", many(300), 700, 3000)] {
            let mut counts = Counts::default();
            random(&mut rng, by, scripts, pairs, length, &mut counts, &mut report);
            finds += counts.finds;
            kths += counts.kths;
            positions += counts.positions;
            println!("{by:?}: {scripts} random scripts over {name}");
            println!(
                "  finds with looks {}, inserts {} (present {}, full {}), removes {} (absent {}), of these by remove_tree_node whole {}, \
                 by the driver {}{}",
                counts.finds,
                counts.inserts,
                counts.present,
                counts.full,
                counts.removes,
                counts.absent,
                counts.whole,
                counts.early,
                if by == By::Bin { " after remove_tree_node returned early" } else { "" }
            );
            println!("  replaces {} (absent {}), with no other word of the tree changed than a place", counts.replaces, counts.unplaced);
        }
    }
    for by in [By::Drivers, By::Bin] {
        let (made, calls) = batches(&mut Rng::new(6), by, many(4000), 12, &mut report);
        println!("{by:?}: {made} batches of {calls} calls, each held to the same calls made singly, word for word, and to the source");
    }
    for by in [By::Drivers, By::Bin] {
        let (made, accepted) = read_uploads(&mut Rng::new(7), by, many(60_000), &mut report);
        println!("{by:?}: {made} uploads cut anywhere, {accepted} accepted, held to a reader written apart, single inserts and the source");
    }
    let d = damaged(&mut Rng::new(2), many(200_000), &mut report);
    println!("damaged trees {} (sound still {})", d.trees, d.sound);
    println!(
        "  check: passes {}, fails by test {:?}, 9 in ours {} (the source runs on {}, ends after more visits than slots {})",
        d.passes,
        d.fails,
        d.nines,
        d.nines - d.nines_ending,
        d.nines_ending
    );
    println!(
        "  finds with looks {}: slots {}, Nothing {}, 9 in ours where the source runs on {}",
        d.finds, d.hits, d.nothings, d.find_nines
    );
    for (name, damage) in [("sets", false), ("damaged sets", true)] {
        let f = frozen(&mut Rng::new(4), many(20_000), damage, &mut report);
        lookups += f.lookups - f.null_first;
        println!("{name} {} (accepted {}; {} more that the source's types cannot hold)", f.sets, f.accepted, f.unbuilt);
        println!(
            "  lookups with looks {}: slots {}, 9 in ours where the source runs on {}",
            f.lookups - f.null_first,
            f.hits,
            f.lookup_nines
        );
        println!(
            "  beside these, where ours looks into a tree with null first {}, of these with another answer {}",
            f.null_first, f.null_first_slots
        );
        println!("  walks {} ({} to the end), steps {}, entries {}", f.walks, f.dones, f.steps, f.entries);
        println!("  whole walks of the {} accepted {}, from every table, {} slots given, each entry once", f.accepted, f.wholes, f.given);
    }
    for (class, (_, what)) in &report.smallest {
        println!("smallest, {class}: {what}");
    }
    println!("compared with their looks: finds {}, lookups {lookups}", finds + d.finds);
    println!(
        "after every call the sizes were recounted from the source's nodes; held to the sorted pairs: k-th {kths}, position {positions}"
    );
    println!("differences {}", report.differences);
    std::process::exit((report.differences != 0) as i32);
}
