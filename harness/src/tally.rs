//! Sets counted into totals, each call held against a count that is made apart; many sets in several orders; a million and one.
use harness::oz::{Answer, Set};
use harness::rng::Rng;
use harness::sets;
use harness::totals::{added, tally_beside, MOST_SETS, WORDS};
use std::collections::BTreeMap;

#[derive(Default)]
struct Counts {
    answered: BTreeMap<(u32, u32), u64>,
    rows: Vec<u64>,
    orders: u64,
    differences: u64,
    smallest: Option<(usize, String)>,
}

impl Counts {
    fn differs(&mut self, size: usize, what: String) {
        self.differences += 1;
        if self.smallest.as_ref().map_or(true, |(fewest, _)| size < *fewest) {
            self.smallest = Some((size, what));
        }
    }

    /// A tally held against the count; the totals that are left, where both have them.
    fn tally(&mut self, s: &Set, totals: &[u64]) -> Option<Vec<u64>> {
        let (answer, left) = tally_beside(s, totals);
        *self.answered.entry((answer.number, answer.value)).or_default() += 1;
        left.map_err(|what| self.differs(s.names.len() + s.bins.len(), what)).ok()
    }

    /// The sets one after the other, in several orders: the same totals each time, which are the sums of what each adds.
    fn week(&mut self, rng: &mut Rng, sets: &mut [Set]) {
        let mut wanted = vec![0; WORDS];
        for s in sets.iter() {
            wanted.iter_mut().zip(added(s)).for_each(|(total, more)| *total += more);
        }
        for _ in 0..4 {
            rng.shuffle(sets);
            let mut totals = vec![0; WORDS];
            for s in sets.iter() {
                s.tally(&mut totals);
            }
            self.orders += 1;
            let rows: u64 = totals[6..].iter().sum();
            let weighted: u64 = totals[6..].iter().zip(1..).map(|(row, looks)| row * looks).sum();
            if totals != wanted || rows != totals[2] || weighted > totals[5] {
                self.differs(sets.len(), format!("{sets:?}: {totals:?}, wanted {wanted:?}"));
            }
        }
        self.rows.iter_mut().zip(&wanted).for_each(|(row, more)| *row += more);
    }
}

/// Totals in their ranges, at their ends and past them, or of another length.
fn drawn(rng: &mut Rng) -> Vec<u64> {
    let sets = [0, 1, 2, 1000, MOST_SETS - 1, MOST_SETS, MOST_SETS + 1][rng.below(7) as usize];
    let most = MOST_SETS.saturating_sub(sets);
    let refused = [0, 1, most / 2, most.saturating_sub(1), most, most + 1][rng.below(6) as usize];
    let mut totals = vec![sets, refused];
    for j in 2..WORDS {
        let most = if j == 5 { 4096 * 4096 } else { 4096 } * sets;
        totals.push(if rng.below(2) == 0 { most } else { rng.below(most + 1) });
    }
    match rng.below(12) {
        0 => totals.truncate(rng.below(WORDS as u64) as usize),
        1 => totals.push(0),
        2 => totals[rng.below(WORDS as u64) as usize] += 1,
        3 => totals[rng.below(WORDS as u64) as usize] = u64::MAX,
        4 => (totals[0], totals[1]) = (u64::MAX, 1),
        _ => (),
    }
    totals
}

/// A set of any kind: drawn, a long list, one damaged, one that does not fit.
fn any_set(rng: &mut Rng) -> Set {
    let mut s = sets::small(rng);
    match rng.below(10) {
        0 => s = { let n = 1 + rng.below(60) as usize; sets::one_list(rng, n) },
        1 => s = { let n = 1 << rng.below(5); sets::lone_trees(rng, n) },
        2 => s = { let (first, entries) = (1 << rng.below(2), 100 + rng.below(300) as usize); sets::draw(rng, 2, first, entries, 3) },
        3 | 4 => sets::damage(rng, &mut s),
        5 => s.bins.push(0),
        6 => s = Set { lengths: vec![], bins: vec![], heads: vec![], names: vec![], cells: vec![] },
        _ => (),
    }
    s
}

/// A small set a million times, then once more; then the same as refused.
fn million(rng: &mut Rng, counts: &mut Counts) {
    let s = sets::one_list(rng, 2);
    let mut spoilt = s.clone();
    spoilt.bins.push(0);
    for s in [s, spoilt] {
        let mut totals = vec![0; WORDS];
        let taken = (0..MOST_SETS).filter(|_| s.tally(&mut totals).number == 0).count() as u64;
        let wanted: Vec<u64> = added(&s).iter().map(|more| more * MOST_SETS).collect();
        let over = s.tally(&mut totals);
        if taken != MOST_SETS || totals != wanted || over != Answer::plain(17, 0) {
            counts.differs(0, format!("{s:?} a million times and once more: {taken} taken, {totals:?}, wanted {wanted:?}, then {over:?}"));
        }
        counts.tally(&s, &totals);
    }
}

fn main() {
    let scale: usize = std::env::args().nth(1).map_or(100, |s| s.parse().expect("a scale in hundredths"));
    let many = |n: usize| (n * scale / 100).max(1);
    let mut rng = Rng::new(39);
    let mut counts = Counts { rows: vec![0; WORDS], ..Counts::default() };
    for _ in 0..many(300_000) {
        let (s, totals) = (any_set(&mut rng), drawn(&mut rng));
        counts.tally(&s, &totals);
    }
    for _ in 0..many(4_000) {
        let mut sets: Vec<Set> = (0..rng.below(40)).map(|_| any_set(&mut rng)).collect();
        counts.week(&mut rng, &mut sets);
    }
    let mut large = vec![sets::largest(&mut rng), sets::one_list(&mut rng, 4096), sets::draw(&mut rng, 3, 4, 4096, 0)];
    counts.week(&mut rng, &mut large);
    million(&mut rng, &mut counts);
    let told: Vec<String> = counts.answered.iter().map(|((number, value), times)| format!("{number} {value}: {times}")).collect();
    println!("tallies by number and value: {}", told.join(", "));
    println!("orders of many sets {}; their words, from the sets on: {:?}", counts.orders, counts.rows);
    println!("a set a million times and once more: tried, accepted and refused");
    if let Some((_, what)) = &counts.smallest {
        println!("smallest: {what}");
    }
    println!("differences {}", counts.differences);
    let every = counts.answered.keys().eq(&[(0, 0), (0, 1), (1, 0), (17, 0)]) && counts.rows.iter().all(|row| *row > 0);
    std::process::exit((counts.differences != 0 || !every) as i32);
}
