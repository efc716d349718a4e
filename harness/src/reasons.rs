//! Why a tree is not sound, found by the words of the rules alone: whether a rule is broken by section 2, and which slots show it by
//! section 13. It goes down from the root and along the chain, and writes out every row and every way before it looks at one.
use crate::oz::{Index, LEFT, NEXT, NULL, PARENT, PREV, RIGHT, STATE};

/// The number told and the eight words of `shown`.
#[derive(Clone, Copy, PartialEq, Eq, Debug)]
pub struct Reason {
    pub rule: u32,
    pub shown: [u32; 8],
}

/// A way from the root to a null link: each slot with the side that it is left by, 0 left and 1 right.
type Way = Vec<(u32, u32)>;

impl Index {
    fn slot_numbers(&self) -> std::ops::Range<u32> {
        0..self.slots() as u32
    }

    fn used(&self, i: u32) -> bool {
        self.cell(i, STATE) != 0
    }

    fn pair(&self, i: u32) -> (u64, u64) {
        (self.names[2 * i as usize], self.names[2 * i as usize + 1])
    }

    fn child(&self, i: u32, side: u32) -> u32 {
        self.cell(i, if side == 0 { LEFT } else { RIGHT })
    }

    fn names_a_slot(&self, link: u32) -> bool {
        (link as usize) < self.slots()
    }

    /// The slots met from a link on by a field, up to null or to the first that is met again.
    fn row(&self, from: u32, field: usize) -> Vec<u32> {
        let (mut met, mut at) = (Vec::new(), from);
        while at != NULL && !met.contains(&at) {
            met.push(at);
            at = self.cell(at, field);
        }
        met
    }

    /// T1 at a slot.
    fn shows1(&self, i: u32) -> bool {
        let links_bad = (PARENT..=NEXT).map(|f| self.cell(i, f)).any(|link| link != NULL && !self.names_a_slot(link));
        let cleared = self.pair(i) == (0, 0) && (0..7).all(|f| self.cell(i, f) == [0, 0, NULL, NULL, NULL, NULL, NULL][f]);
        links_bad || self.cell(i, STATE) > 2 || (!self.used(i) && !cleared)
    }

    fn broken1(&self) -> bool {
        let linked = self.head[..2].iter().all(|&link| link == NULL || self.names_a_slot(link));
        let count = self.slot_numbers().filter(|&i| self.used(i)).count();
        self.slot_numbers().any(|i| self.shows1(i)) || !linked || self.head[2] as usize != count
    }

    fn broken2(&self) -> bool {
        self.head[..2].iter().any(|&link| (link == NULL) != (self.head[2] == 0))
    }

    /// How many times each slot is reached from the root, and whether each child that is met points back. It stops where more slots have
    /// been reached than there are.
    fn reached(&self) -> (Vec<usize>, bool) {
        let (mut times, mut back, mut all) = (vec![0; self.slots()], true, 0);
        let mut waiting = vec![self.head[0]];
        while let Some(i) = waiting.pop() {
            if i == NULL || all > self.slots() {
                continue;
            }
            all += 1;
            times[i as usize] += 1;
            for c in [self.child(i, 0), self.child(i, 1)] {
                back &= c == NULL || self.cell(c, PARENT) == i;
                waiting.push(c);
            }
        }
        (times, back)
    }

    fn broken3(&self) -> bool {
        let (times, back) = self.reached();
        let root = self.head[0];
        let each_once = self.slot_numbers().all(|i| times[i as usize] == self.used(i) as usize);
        (root != NULL && self.cell(root, PARENT) != NULL) || !back || !each_once
    }

    /// T3 at a slot.
    fn shows3(&self, i: u32) -> bool {
        let (root, parent) = (self.head[0], self.cell(i, PARENT));
        let children = [self.child(i, 0), self.child(i, 1)];
        let among = if parent == NULL { 0 } else { [0, 1].iter().filter(|&&side| self.child(parent, side) == i).count() };
        let placed = if i == root { parent == NULL } else { among == 1 };
        let back = children.iter().all(|&c| c == NULL || self.cell(c, PARENT) == i);
        let twice = children[0] != NULL && children[0] == children[1];
        self.used(i) && (!placed || !back || twice || !self.row(i, PARENT).contains(&root))
    }

    /// The slots below a link, read left, self, right. What holds T3 has no ring.
    fn in_row(&self, link: u32) -> Vec<u32> {
        if link == NULL {
            return Vec::new();
        }
        let mut row = self.in_row(self.child(link, 0));
        row.push(link);
        row.extend(self.in_row(self.child(link, 1)));
        row
    }

    /// The neighbours in order whose pairs do not rise.
    fn falls(&self) -> Vec<(u32, u32)> {
        let row = self.in_row(self.head[0]);
        row.windows(2).filter(|two| self.pair(two[0]) >= self.pair(two[1])).map(|two| (two[0], two[1])).collect()
    }

    /// T5 at a slot.
    fn shows5(&self, i: u32) -> bool {
        let red = |i: u32| i != NULL && self.cell(i, STATE) == 2;
        red(i) && (i == self.head[0] || red(self.child(i, 0)) || red(self.child(i, 1)))
    }

    /// Every way from a link down to a null link. Of a null link it is the one that meets no slot.
    fn ways(&self, link: u32) -> Vec<Way> {
        if link == NULL {
            return vec![Vec::new()];
        }
        let on = |side| self.ways(self.child(link, side)).into_iter().map(move |way| [vec![(link, side)], way].concat());
        on(0).chain(on(1)).collect()
    }

    fn blacks(&self, way: &Way) -> u32 {
        way.iter().filter(|(i, _)| self.cell(*i, STATE) == 1).count() as u32
    }

    /// The number of black slots that all ways below a link meet, where that is one number.
    fn equally(&self, link: u32) -> Option<u32> {
        let mut met: Vec<u32> = self.ways(link).iter().map(|way| self.blacks(way)).collect();
        met.dedup();
        Some(met[0]).filter(|_| met.len() == 1)
    }

    /// T6 at a slot.
    fn shows6(&self, i: u32) -> bool {
        let (left, right) = (self.equally(self.child(i, 0)), self.equally(self.child(i, 1)));
        self.used(i) && left.is_some() && right.is_some() && left != right
    }

    /// The way from the root by a slot and its side, and from there on by left links: its last slot, side, blacks.
    fn way_by(&self, i: u32, side: u32) -> [u32; 3] {
        let goes = |way: &Way| {
            let at = way.iter().position(|step| *step == (i, side));
            at.map_or(false, |at| way[at + 1..].iter().all(|step| step.1 == 0))
        };
        let all: Vec<Way> = self.ways(self.head[0]).into_iter().filter(goes).collect();
        assert_eq!(all.len(), 1);
        let (last, side) = all[0][all[0].len() - 1];
        [last, side, self.blacks(&all[0])]
    }

    fn broken7(&self) -> bool {
        let row = self.row(self.head[1], NEXT);
        let ends = row.last().map_or(true, |&i| self.cell(i, NEXT) == NULL);
        let whole = self.slot_numbers().all(|i| row.contains(&i) == self.used(i));
        let back = (0..row.len()).all(|k| self.cell(row[k], PREV) == if k == 0 { NULL } else { row[k - 1] });
        !ends || !whole || !back
    }

    /// T7 at a slot.
    fn shows7(&self, i: u32) -> bool {
        let (first, prev, next) = (self.head[1], self.cell(i, PREV), self.cell(i, NEXT));
        let before = prev == NULL || self.cell(prev, NEXT) == i;
        let after = next == NULL || self.cell(next, PREV) == i;
        self.used(i) && ((i == first && prev != NULL) || !before || !after || !self.row(i, PREV).contains(&first))
    }

    /// T8 at a slot.
    fn shows8(&self, i: u32) -> bool {
        let number = if self.used(i) { self.in_row(i).len() } else { 0 };
        self.sizes[i as usize] as usize != number
    }

    fn lowest(&self, shows: impl Fn(u32) -> bool) -> Option<u32> {
        self.slot_numbers().find(|&i| shows(i))
    }

    /// The first broken rule and what shows it. Err is where a rule is broken and no slot shows it, or one shows it that is not broken.
    pub fn reason(&self) -> Result<Reason, u32> {
        let told = |rule: u32, slot: u32| Reason { rule, shown: [slot, NULL, NULL, NULL, NULL, NULL, NULL, NULL] };
        if self.broken1() {
            return Ok(told(1, self.lowest(|i| self.shows1(i)).unwrap_or(NULL)));
        }
        if self.broken2() {
            return Ok(told(2, NULL));
        }
        let by_slot = |rule: u32, broken: bool, slot: Option<u32>| match (broken, slot) {
            (false, None) => Ok(None),
            (true, Some(slot)) => Ok(Some(told(rule, slot))),
            _ => Err(rule),
        };
        if let Some(reason) = by_slot(3, self.broken3(), self.lowest(|i| self.shows3(i)))? {
            return Ok(reason);
        }
        if let Some((slot, other)) = self.falls().into_iter().min() {
            return Ok(Reason { rule: 4, shown: [slot, other, NULL, NULL, NULL, NULL, NULL, NULL] });
        }
        if let Some(slot) = self.lowest(|i| self.shows5(i)) {
            return Ok(told(5, slot));
        }
        if let Some(Reason { rule, shown }) = by_slot(6, self.equally(self.head[0]).is_none(), self.lowest(|i| self.shows6(i)))? {
            let (one, two) = (self.way_by(shown[0], 0), self.way_by(shown[0], 1));
            return Ok(Reason { rule, shown: [shown[0], NULL, one[0], one[1], one[2], two[0], two[1], two[2]] });
        }
        if let Some(reason) = by_slot(7, self.broken7(), self.lowest(|i| self.shows7(i)))? {
            return Ok(reason);
        }
        Ok(self.lowest(|i| self.shows8(i)).map_or(told(0, NULL), |slot| told(8, slot)))
    }
}
