//! A live index.
use crate::raw::{self, CELL_WORDS, COUNT, FIRST, LINE_WORDS, NEXT, NULL};
use crate::refusal::{taken, value};
use crate::{slot, Entry, Found, Refusal};
use std::fmt;

/// A live index: a red-black tree over pairs (hash, key), each with a place, and a journal that takes calls back. It owns its words.
///
/// ```
/// use oz::{Index, Refusal};
/// let mut index = Index::new(64, 16)?;
/// assert_eq!(index.insert(17, 1, 10)?, 0);
/// assert_eq!(index.insert(42, 2, 20)?, 1);
/// assert_eq!(index.position(42, 2)?, 1);
/// assert_eq!(index.remove(17, 1)?, 0);
/// assert_eq!(index.remove(17, 1), Err(Refusal::Absent));
/// # Ok::<(), Refusal>(())
/// ```
#[derive(Clone, PartialEq, Eq, Debug)]
pub struct Index {
    pub(crate) names: Vec<u64>,
    pub(crate) cells: Vec<u32>,
    pub(crate) head: [u32; raw::HEAD_WORDS],
    pub(crate) sizes: Vec<u32>,
    pub(crate) lines: Vec<u64>,
}

/// A call of a batch.
#[derive(Clone, Copy, PartialEq, Eq, Debug)]
#[allow(missing_docs)]
pub enum Call {
    /// As [`Index::insert`].
    Insert { hash: u64, key: u64, place: u32 },
    /// As [`Index::remove`].
    Remove { hash: u64, key: u64 },
    /// As [`Index::replace`].
    Replace { hash: u64, key: u64, place: u32 },
}

impl Call {
    fn words(self) -> [u64; 4] {
        match self {
            Call::Insert { hash, key, place } => [1, hash, key, place.into()],
            Call::Remove { hash, key } => [2, hash, key, 0],
            Call::Replace { hash, key, place } => [3, hash, key, place.into()],
        }
    }
}

/// What the source's own check says.
#[derive(Clone, Copy, PartialEq, Eq, Debug)]
pub enum Check {
    /// No test fails. The tree need not be sound.
    Passes,
    /// The first test that fails.
    Fails {
        /// 1 to 8: prev, next, parent, left's parent, left's hash, right's parent, right's hash, both children red.
        test: u32,
        /// The slot where it fails.
        slot: u32,
    },
}

/// Why a tree is not sound: the first broken rule, and what shows it (docs/RULES.md, section 13).
#[derive(Clone, Copy, PartialEq, Eq, Debug)]
pub struct Reason {
    /// The number of the rule, 1 to 8 for T1 to T8.
    pub rule: u32,
    /// The lowest slot that shows it, None where only the header does.
    pub slot: Option<u32>,
    /// With T4 the slot next in order, whose pair is not above.
    pub other: Option<u32>,
    /// With T6 two ways from the root by the slot, by its left link and by its right, which meet unequally many black slots.
    pub ways: Option<[Way; 2]>,
}

/// A way down the tree to a null link.
#[derive(Clone, Copy, PartialEq, Eq, Debug)]
pub struct Way {
    /// Its last slot.
    pub last: u32,
    /// The side of the null link that it ends at.
    pub side: Side,
    /// The black slots that it meets, from the root on.
    pub blacks: u32,
}

/// A side of a slot.
#[derive(Clone, Copy, PartialEq, Eq, Debug)]
#[allow(missing_docs)]
pub enum Side {
    Left,
    Right,
}

/// The rule and where it is broken: `T5 slot 17`, or `T2 header`.
impl fmt::Display for Reason {
    fn fmt(&self, f: &mut fmt::Formatter<'_>) -> fmt::Result {
        match self.slot {
            Some(slot) => write!(f, "T{} slot {slot}", self.rule),
            None => write!(f, "T{} header", self.rule),
        }
    }
}

/// What came of a salvage.
#[derive(Clone, PartialEq, Eq, Debug)]
pub struct Salvaged {
    /// A sound index of as many slots and lines, with the entries that were kept, in slots 0, 1, 2 and so on; its journal is empty.
    pub index: Index,
    /// How many slots were kept.
    pub kept: u32,
    /// What became of each slot of the first.
    pub report: Vec<Fate>,
}

/// What became of a slot in a salvage.
#[derive(Clone, Copy, PartialEq, Eq, Debug)]
pub enum Fate {
    /// Its entry is in the new index.
    Kept,
    /// It was free.
    Free,
    /// Its state is above 2.
    UnknownState,
    /// This lower slot was kept with its pair.
    Repeats(u32),
}

impl Fate {
    fn of(word: u32) -> Fate {
        match word {
            0 => Fate::Kept,
            1 => Fate::Free,
            2 => Fate::UnknownState,
            _ => Fate::Repeats(word - 3),
        }
    }
}

impl Index {
    /// An empty index of so many slots, 1 to 4,096, and lines of its journal, 0 to 1,024. It writes every word.
    ///
    /// Refusal: [`Unfit`](Refusal::Unfit) for other numbers.
    ///
    /// ```
    /// use oz::{Index, Refusal};
    /// assert!(Index::new(4096, 1024)?.is_empty());
    /// assert_eq!(Index::new(4097, 0), Err(Refusal::Unfit));
    /// # Ok::<(), Refusal>(())
    /// ```
    pub fn new(capacity: usize, lines: usize) -> Result<Index, Refusal> {
        if capacity > raw::SLOTS_MOST || lines > raw::LINES_MOST {
            return Err(Refusal::Unfit);
        }
        let mut made = Index {
            names: vec![0; 2 * capacity],
            cells: vec![0; CELL_WORDS * capacity],
            head: [0; raw::HEAD_WORDS],
            sizes: vec![0; capacity],
            lines: vec![0; 1 + LINE_WORDS * lines],
        };
        value(raw::fresh(&mut made.names, &mut made.cells, &mut made.head, &mut made.sizes, &mut made.lines))?;
        Ok(made)
    }

    /// An index of these words, whatever they are: nothing is checked, and each call says what it makes of them. The slices are those of
    /// docs/RULES.md, section 1.
    pub fn from_parts(names: Vec<u64>, cells: Vec<u32>, head: [u32; 3], sizes: Vec<u32>, lines: Vec<u64>) -> Index {
        Index { names, cells, head, sizes, lines }
    }

    /// Per slot: hash, key.
    pub fn names(&self) -> &[u64] {
        &self.names
    }

    /// Per slot: place, state, parent, left, right, prev, next; [`raw`] has their numbers.
    pub fn cells(&self) -> &[u32] {
        &self.cells
    }

    /// Root, first, count.
    pub fn head(&self) -> &[u32; 3] {
        &self.head
    }

    /// Per slot: the number of pairs in its subtree.
    pub fn sizes(&self) -> &[u32] {
        &self.sizes
    }

    /// The journal: its length, then six words a line.
    pub fn lines(&self) -> &[u64] {
        &self.lines
    }

    /// How many slots it has.
    pub fn capacity(&self) -> usize {
        self.names.len() / 2
    }

    /// How many lines its journal has room for.
    pub fn line_capacity(&self) -> usize {
        self.lines.len().saturating_sub(1) / LINE_WORDS
    }

    /// The header's count, which in a sound tree is the number of its pairs.
    pub fn len(&self) -> usize {
        self.head[COUNT] as usize
    }

    /// Whether the header's count is 0.
    pub fn is_empty(&self) -> bool {
        self.len() == 0
    }

    /// What stands in a used slot, with one read; None where the slot is free or there is none.
    pub fn entry(&self, slot: u32) -> Option<Entry> {
        Entry::used(&self.names, &self.cells, slot)
    }

    /// The slot that has the pair, with the looks: one way down the tree, at most 24 looks in a sound one. The tree is not checked.
    ///
    /// Refusals: [`Unfit`](Refusal::Unfit), [`Lost`](Refusal::Lost); in a sound tree it is never lost.
    ///
    /// ```
    /// # use oz::{Index, Refusal};
    /// let mut index = Index::new(8, 8)?;
    /// let slot = index.insert(42, 2, 20)?;
    /// let found = index.find(42, 2)?;
    /// assert_eq!((found.slot, found.looks), (Some(slot), 1));
    /// assert_eq!(index.entry(slot).unwrap().place, 20);
    /// assert_eq!(index.find(42, 3)?.slot, None);
    /// # Ok::<(), Refusal>(())
    /// ```
    pub fn find(&self, hash: u64, key: u64) -> Result<Found, Refusal> {
        Found::of(raw::find(&self.names, &self.cells, &self.head, hash, key))
    }

    /// The pair joins the tree with its place, in the lowest free slot, which is answered; the journal has one line more. It checks every
    /// slot first; many at once are [`batch`](Index::batch).
    ///
    /// Refusals: Unfit, Damaged, Present with the slot that has the pair, Full, JournalFull.
    pub fn insert(&mut self, hash: u64, key: u64, place: u32) -> Result<u32, Refusal> {
        value(raw::insert(&mut self.names, &mut self.cells, &mut self.head, &mut self.sizes, &mut self.lines, hash, key, place))
    }

    /// The pair leaves the tree; answers the slot freed; the journal has one line more. It checks every slot first.
    ///
    /// Refusals: Unfit, Damaged, Absent, JournalFull.
    pub fn remove(&mut self, hash: u64, key: u64) -> Result<u32, Refusal> {
        value(raw::remove(&mut self.names, &mut self.cells, &mut self.head, &mut self.sizes, &mut self.lines, hash, key))
    }

    /// The pair's place is this one from now on; answers its slot; the journal has one line more. It checks every slot first.
    ///
    /// Refusals: Unfit, Damaged, Absent, JournalFull.
    ///
    /// ```
    /// # use oz::{Index, Refusal};
    /// let mut index = Index::new(8, 8)?;
    /// let slot = index.insert(1, 1, 10)?;
    /// assert_eq!(index.replace(1, 1, 11)?, slot);
    /// assert_eq!(index.entry(slot).unwrap().place, 11);
    /// index.rollback(1)?;
    /// assert_eq!(index.entry(slot).unwrap().place, 10);
    /// # Ok::<(), Refusal>(())
    /// ```
    pub fn replace(&mut self, hash: u64, key: u64, place: u32) -> Result<u32, Refusal> {
        value(raw::replace(&self.names, &mut self.cells, &self.head, &self.sizes, &mut self.lines, hash, key, place))
    }

    /// The journal's length, which is the mark to come back to by [`rollback`](Index::rollback).
    pub fn mark(&self) -> u32 {
        self.lines.first().map_or(0, |&length| u32::try_from(length).unwrap_or(u32::MAX))
    }

    /// Undoes the journal's lines from the last down to the mark; answers how many. The pairs, the places and the order of the listing are
    /// then those of the mark. It checks every slot first.
    ///
    /// Refusals: Unfit, Damaged, BadMark, Misfit.
    pub fn rollback(&mut self, mark: u32) -> Result<u32, Refusal> {
        value(raw::rollback(&mut self.names, &mut self.cells, &mut self.head, &mut self.sizes, &mut self.lines, mark))
    }

    /// Keeps what was entered and begins a new journal, of length 0, so that all its lines are there again. Nothing from before can be
    /// taken back then, and marks from before mean nothing any more. It writes one word.
    ///
    /// ```
    /// # use oz::{Index, Refusal};
    /// let mut index = Index::new(8, 1)?;
    /// index.insert(1, 1, 10)?;
    /// assert_eq!(index.insert(2, 2, 20), Err(Refusal::JournalFull));
    /// index.begin_journal();
    /// index.insert(2, 2, 20)?;
    /// assert_eq!(index.rollback(0)?, 1);
    /// assert!(index.find(1, 1)?.slot.is_some());
    /// # Ok::<(), Refusal>(())
    /// ```
    pub fn begin_journal(&mut self) {
        if let Some(length) = self.lines.first_mut() {
            *length = 0;
        }
    }

    /// Makes the calls in order after one check of every slot; answers for each what the single call would. A refused call does not stop
    /// the later ones.
    ///
    /// Refusals, with which no call is made: Unfit, Damaged.
    ///
    /// ```
    /// use oz::{Call, Index, Refusal};
    /// let mut index = Index::new(8, 8)?;
    /// let answers = index.batch(&[
    ///     Call::Insert { hash: 1, key: 1, place: 10 },
    ///     Call::Insert { hash: 1, key: 1, place: 11 },
    ///     Call::Remove { hash: 1, key: 1 },
    /// ])?;
    /// assert_eq!(answers, [Ok(0), Err(Refusal::Present { slot: 0 }), Ok(0)]);
    /// # Ok::<(), Refusal>(())
    /// ```
    pub fn batch(&mut self, calls: &[Call]) -> Result<Vec<Result<u32, Refusal>>, Refusal> {
        let words: Vec<u64> = calls.iter().flat_map(|call| call.words()).collect();
        let mut answers = vec![0; calls.len()];
        let (head, sizes) = (&mut self.head, &mut self.sizes);
        value(raw::batch(&mut self.names, &mut self.cells, head, sizes, &mut self.lines, &words, &mut answers))?;
        Ok(answers.into_iter().map(|word| value(raw::Answer::of(word))).collect())
    }

    /// The slot of the pair at position k in order, by hash and then key, counted from 0. It checks every slot, and then goes one way down
    /// the tree; to take many positions, sort what [`entries`](Index::entries) lists once.
    ///
    /// Refusals: Unfit, Damaged, OutOfRange.
    pub fn kth(&self, k: u32) -> Result<u32, Refusal> {
        value(raw::kth(&self.names, &self.cells, &self.head, &self.sizes, k))
    }

    /// The position of the pair in that order: how many pairs come before it. It checks every slot, and then goes one way down the tree.
    ///
    /// Refusals: Unfit, Damaged, Absent.
    ///
    /// Counting along the listing gives the same position and checks nothing. With 900 names in 4,096 slots it takes 2.3 microseconds,
    /// and this call 36.6 (measured on x86-64). Count where nothing hangs on the position, and ask where something is decided by it:
    ///
    /// ```
    /// # use oz::{Index, Refusal};
    /// # let mut index = Index::new(4096, 8)?;
    /// # index.insert(1, 1, 10)?;
    /// # index.insert(2, 5, 10)?;
    /// # index.insert(2, 2, 10)?;
    /// let mut before = 0;
    /// for entry in index.entries() {
    ///     let entry = entry?;
    ///     before += u32::from((entry.hash, entry.key) < (2, 5));
    /// }
    /// assert_eq!(before, index.position(2, 5)?);
    /// # Ok::<(), Refusal>(())
    /// ```
    pub fn position(&self, hash: u64, key: u64) -> Result<u32, Refusal> {
        value(raw::position(&self.names, &self.cells, &self.head, &self.sizes, hash, key))
    }

    /// The source's own check: its eight tests at each slot that it reaches from the root. A tree that passes need not be sound;
    /// [`sound`](Index::sound) is the one to believe.
    ///
    /// Refusals: Unfit, Lost.
    pub fn check(&self) -> Result<Check, Refusal> {
        let answer = raw::check(&self.names, &self.cells, &self.head);
        match answer.number {
            101..=108 => Ok(Check::Fails { test: answer.number - 100, slot: answer.value }),
            _ => taken(answer).map(|_| Check::Passes),
        }
    }

    /// The full check: whether the tree is sound, its sizes included. It reads every slot.
    ///
    /// Refusal: Unfit.
    pub fn sound(&self) -> Result<bool, Refusal> {
        Ok(value(raw::sound(&self.names, &self.cells, &self.head, &self.sizes))? == 1)
    }

    /// Why the tree is not sound, or None exactly if it is. It reads every slot.
    ///
    /// Refusal: Unfit.
    ///
    /// ```
    /// use oz::{Index, Refusal};
    /// let mut index = Index::new(8, 8)?;
    /// index.insert(1, 1, 10)?;
    /// assert_eq!(index.why()?, None);
    /// let mut sizes = index.sizes().to_vec();
    /// sizes[0] = 7;
    /// let (names, cells, lines) = (index.names().to_vec(), index.cells().to_vec(), index.lines().to_vec());
    /// let damaged = Index::from_parts(names, cells, *index.head(), sizes, lines);
    /// assert_eq!(damaged.why()?.unwrap().to_string(), "T8 slot 0");
    /// # Ok::<(), Refusal>(())
    /// ```
    pub fn why(&self) -> Result<Option<Reason>, Refusal> {
        let mut shown = [NULL; raw::SHOWN_WORDS];
        let rule = value(raw::why(&self.names, &self.cells, &self.head, &self.sizes, &mut shown))?;
        let way = |at: usize| {
            let side = if shown[at + 1] == 0 { Side::Left } else { Side::Right };
            Way { last: shown[at], side, blacks: shown[at + 2] }
        };
        let ways = (rule == 6).then(|| [way(2), way(5)]);
        Ok((rule != 0).then(|| Reason { rule, slot: slot(shown[0]), other: slot(shown[1]), ways }))
    }

    /// What can be saved of a damaged tree, as a new index with an empty journal: each slot with state 1 or 2 whose pair is in no lower
    /// kept slot. It reads every slot by number, follows no link, and inserts each into the new tree.
    ///
    /// Refusal: Unfit.
    ///
    /// ```
    /// use oz::{Fate, Index, Refusal};
    /// let mut index = Index::new(2, 8)?;
    /// index.insert(1, 1, 10)?;
    /// let saved = index.salvage()?;
    /// assert_eq!(saved.report, [Fate::Kept, Fate::Free]);
    /// assert!(saved.index.sound()?);
    /// # Ok::<(), Refusal>(())
    /// ```
    pub fn salvage(&self) -> Result<Salvaged, Refusal> {
        let mut index = Index::new(self.capacity(), self.line_capacity())?;
        let mut report = vec![0; self.capacity()];
        let second = (&mut index.names, &mut index.cells, &mut index.head, &mut index.sizes);
        let kept = value(raw::salvage(&self.names, &self.cells, second.0, second.1, second.2, second.3, &mut report))?;
        Ok(Salvaged { index, kept, report: report.into_iter().map(Fate::of).collect() })
    }

    /// The entries along the chain, from first by next: the last insert first, and after a rollback as at the mark. It reads only slots
    /// that are used. Where the words are damaged so that a link leads nowhere, or to more slots than there are, the last item is
    /// [`Lost`](Refusal::Lost), with no looks.
    ///
    /// ```
    /// use oz::{Index, Refusal};
    /// let mut index = Index::new(8, 8)?;
    /// index.insert(7, 1, 10)?;
    /// index.insert(3, 9, 20)?;
    /// let places: Result<Vec<u32>, Refusal> = index.entries().map(|entry| Ok(entry?.place)).collect();
    /// assert_eq!(places?, [20, 10]);
    /// # Ok::<(), Refusal>(())
    /// ```
    pub fn entries(&self) -> Entries<'_> {
        Entries { index: self, next: self.head[FIRST], left: self.capacity() }
    }

    /// The index as a dump, for `./why` and `./salvage`: 28 + 48 n + 48 c bytes (docs/RULES.md, section 15).
    ///
    /// Refusal: Unfit, where the slices' lengths are not those of an index.
    pub fn dump(&self) -> Result<Vec<u8>, Refusal> {
        let (n, c) = (self.capacity(), self.line_capacity());
        let lengths = [self.names.len(), self.cells.len(), self.sizes.len(), self.lines.len()];
        if !(1..=raw::SLOTS_MOST).contains(&n) || c > raw::LINES_MOST || lengths != [2 * n, CELL_WORDS * n, n, 1 + LINE_WORDS * c] {
            return Err(Refusal::Unfit);
        }
        let mut out = Vec::with_capacity(dump_bytes(n, c));
        narrow(&mut out, &[n as u32, c as u32]);
        wide(&mut out, &self.names);
        narrow(&mut out, &self.cells);
        narrow(&mut out, &self.head);
        narrow(&mut out, &self.sizes);
        wide(&mut out, &self.lines);
        Ok(out)
    }

    /// The index of a dump, as it was dumped, damaged or not; None where the bytes are no dump.
    ///
    /// ```
    /// use oz::{Index, Refusal};
    /// let mut index = Index::new(8, 8)?;
    /// index.insert(7, 1, 10)?;
    /// let bytes = index.dump()?;
    /// assert_eq!(bytes.len(), 28 + 48 * 8 + 48 * 8);
    /// assert_eq!(Index::from_dump(&bytes), Some(index));
    /// assert_eq!(Index::from_dump(&bytes[1..]), None);
    /// # Ok::<(), Refusal>(())
    /// ```
    pub fn from_dump(bytes: &[u8]) -> Option<Index> {
        let mut rest = bytes;
        let counts = narrowed(&mut rest, 2)?;
        let (n, c) = (counts[0] as usize, counts[1] as usize);
        if !(1..=raw::SLOTS_MOST).contains(&n) || c > raw::LINES_MOST || bytes.len() != dump_bytes(n, c) {
            return None;
        }
        Some(Index {
            names: widened(&mut rest, 2 * n)?,
            cells: narrowed(&mut rest, CELL_WORDS * n)?,
            head: narrowed(&mut rest, raw::HEAD_WORDS)?.try_into().ok()?,
            sizes: narrowed(&mut rest, n)?,
            lines: widened(&mut rest, 1 + LINE_WORDS * c)?,
        })
    }
}

/// The bytes of a dump of n slots and c lines.
fn dump_bytes(n: usize, c: usize) -> usize {
    28 + 48 * n + 48 * c
}

fn wide(out: &mut Vec<u8>, words: &[u64]) {
    out.extend(words.iter().flat_map(|word| word.to_le_bytes()));
}

fn narrow(out: &mut Vec<u8>, words: &[u32]) {
    out.extend(words.iter().flat_map(|word| word.to_le_bytes()));
}

/// So many bytes of the front; None where there are fewer.
fn front<'a>(rest: &mut &'a [u8], bytes: usize) -> Option<&'a [u8]> {
    let (front, behind) = (rest.get(..bytes)?, rest.get(bytes..)?);
    *rest = behind;
    Some(front)
}

fn widened(rest: &mut &[u8], words: usize) -> Option<Vec<u64>> {
    front(rest, 8 * words)?.chunks(8).map(|bytes| Some(u64::from_le_bytes(bytes.try_into().ok()?))).collect()
}

fn narrowed(rest: &mut &[u8], words: usize) -> Option<Vec<u32>> {
    front(rest, 4 * words)?.chunks(4).map(|bytes| Some(u32::from_le_bytes(bytes.try_into().ok()?))).collect()
}

/// The entries along the chain; [`Index::entries`] makes it.
#[derive(Clone, Debug)]
pub struct Entries<'a> {
    index: &'a Index,
    next: u32,
    left: usize,
}

impl Iterator for Entries<'_> {
    type Item = Result<Entry, Refusal>;

    fn next(&mut self) -> Option<Result<Entry, Refusal>> {
        let at = slot(self.next)?;
        self.next = NULL;
        let cell = CELL_WORDS * at as usize;
        let found = Entry::at(&self.index.names, &self.index.cells, at).zip(self.index.cells.get(cell + NEXT));
        match (self.left.checked_sub(1), found) {
            (Some(left), Some((entry, &next))) => {
                (self.left, self.next) = (left, next);
                Some(Ok(entry))
            }
            _ => Some(Err(Refusal::Lost { looks: 0 })),
        }
    }
}

impl std::iter::FusedIterator for Entries<'_> {}
