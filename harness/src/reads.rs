//! Reads of a frozen set beside the source's: lookups, whole walks, and walks entry by entry with the cursor's indexes.
use crate::oz::{self, NULL};
use crate::rng::Rng;
use crate::source::{Tables, Walk};

/// Whether a find or lookup of ours in so many slots has the slot and the looks of the source's; where the source would not end, 9 and as
/// many looks as there are slots.
pub fn same_search(ours: oz::Answer, (found, looks): (Option<u32>, usize), slots: usize) -> bool {
    match found {
        Some(at) => ours == (oz::Answer { number: 0, value: at, looks: looks as u32 }),
        None => looks > slots && ours == (oz::Answer { number: 9, value: 0, looks: slots as u32 }),
    }
}

/// Pairs to look up in a set: its own, or 48 of them drawn where it has more, and four that it need not have.
pub fn asked(rng: &mut Rng, s: &oz::Set) -> Vec<(u64, u64)> {
    let n = s.names.len() / 2;
    let own = |rng: &mut Rng, i: usize| {
        let x = if n > 48 { rng.below(n as u64) as usize } else { i };
        (s.names[2 * x], s.names[2 * x + 1])
    };
    (0..n.min(48) + 4).map(|i| if i < n.min(48) { own(rng, i) } else { (rng.below(20), rng.below(20)) }).collect()
}

/// A whole walk of an accepted set by the exports alone, from start at table t until Done: how many slots it gives, or what is wrong with
/// them. A slot is to be given once exactly if it is in use and lookup from t of its pair answers it, and else not at all; from table 0
/// every slot in use is.
pub fn whole_walk(s: &oz::Set, t: usize) -> Result<u64, String> {
    let n = s.names.len() / 2;
    let mut times = vec![0u32; n];
    let mut cursor = [0u32; 11];
    let start = s.start(t as u32, &mut cursor);
    if start != oz::Answer::plain(0, 1) {
        return Err(format!("start {start:?}"));
    }
    let mut given = 0;
    loop {
        let step = s.walk(&mut cursor);
        if step == oz::Answer::plain(0, NULL) {
            break;
        }
        if step.number != 0 || step.value as usize >= n || given > n as u64 {
            return Err(format!("step {given}: {step:?}"));
        }
        times[step.value as usize] += 1;
        given += 1;
    }
    for (x, times) in times.iter().enumerate() {
        let used = s.cells[7 * x + oz::STATE] != 0;
        let looked = s.lookup(t as u32, s.names[2 * x], s.names[2 * x + 1]);
        let answered = used && (looked.number, looked.value) == (0, x as u32);
        if *times != answered as u32 || (t == 0 && used != answered) {
            return Err(format!("slot {x}, used {used}, answered by lookup {answered}, is given {times} times"));
        }
    }
    Ok(given)
}

/// What a walk of ours beside the source's came to: its steps, the entries of them, whether both came to the end, and what differs.
pub struct Walked {
    pub steps: u64,
    pub entries: u64,
    pub done: bool,
    pub wrong: Option<String>,
}

/// The walk from table t beside the source's, until two steps past the end. No bin's tree is without a first: the source would follow a
/// null pointer.
pub fn walk_beside(s: &oz::Set, tables: &Tables, t: usize) -> Walked {
    let mut cursor = [7u32; 11];
    let start = s.start(t as u32, &mut cursor);
    let mut walk = Walk::new(tables, t);
    let wrong = (start != oz::Answer::plain(0, 1)).then(|| format!("start {start:?}"));
    let mut walked = Walked { steps: 0, entries: 0, done: false, wrong };
    let mut past = 0;
    for step in 0..s.names.len() + 4 {
        if cursor[0] != t as u32 || cursor[1..] != walk.state() {
            walked.wrong = Some(format!("step {step}: cursor {cursor:?}, source {:?}", walk.state()));
        }
        if walked.wrong.is_some() || past == 2 {
            break;
        }
        let ours = s.walk(&mut cursor);
        let theirs = walk.next();
        walked.steps += 1;
        walked.entries += (theirs != NULL) as u64;
        past += (theirs == NULL) as u64;
        if (ours.number, ours.value) != (0, theirs) {
            walked.wrong = Some(format!("step {step}: ours {ours:?}, source {theirs}"));
        }
    }
    walked.done = past != 0;
    walked
}
