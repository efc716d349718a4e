//! A frozen set.
use crate::raw;
use crate::refusal::value;
use crate::{slot, Entry, Found, Refusal, Totals};

/// A frozen set: 1 to 8 tables of bins, each bin a list or a tree of entries. It owns its words. [`Loader`](crate::Loader) makes one from a
/// file; `Frozen::default()` is five empty slices, which is no set: Unfit for every call, and a refused one for a tally.
///
/// ```
/// use oz::{Frozen, Refusal};
/// // One table of one bin, which is a list of one slot: word 2 + slot 0.
/// let null = u32::MAX;
/// let set = Frozen::from_parts(vec![1], vec![2], vec![], vec![7, 1], vec![100, 1, null, null, null, null, null]);
/// assert!(set.accept()?);
/// assert_eq!(set.lookup(0, 7, 1)?.slot, Some(0));
/// for entry in set.walk(0)? {
///     assert_eq!(entry?.place, 100);
/// }
/// let file = set.save()?;
/// assert_eq!(Frozen::load(&file)?, set);
/// # Ok::<(), Refusal>(())
/// ```
#[derive(Clone, PartialEq, Eq, Debug, Default)]
pub struct Frozen {
    pub(crate) lengths: Vec<u32>,
    pub(crate) bins: Vec<u32>,
    pub(crate) heads: Vec<u32>,
    pub(crate) names: Vec<u64>,
    pub(crate) cells: Vec<u32>,
}

impl Frozen {
    /// A set of these words, whatever they are: nothing is checked, and [`accept`](Frozen::accept) says whether it may be used. The
    /// slices are those of docs/RULES.md, sections 1 and 7.
    pub fn from_parts(lengths: Vec<u32>, bins: Vec<u32>, heads: Vec<u32>, names: Vec<u64>, cells: Vec<u32>) -> Frozen {
        Frozen { lengths, bins, heads, names, cells }
    }

    /// The number of bins of each table.
    pub fn lengths(&self) -> &[u32] {
        &self.lengths
    }

    /// The bin words of all tables in a row: 0 empty, 1 Moved, 2 + slot a list, 4,098 + header a tree.
    pub fn bins(&self) -> &[u32] {
        &self.bins
    }

    /// Per tree header: root, first, count.
    pub fn heads(&self) -> &[u32] {
        &self.heads
    }

    /// Per slot: hash, key.
    pub fn names(&self) -> &[u64] {
        &self.names
    }

    /// Per slot: place, state, parent, left, right, prev, next; [`raw`] has their numbers.
    pub fn cells(&self) -> &[u32] {
        &self.cells
    }

    /// How many tables it has.
    pub fn tables(&self) -> usize {
        self.lengths.len()
    }

    /// How many slots it has.
    pub fn capacity(&self) -> usize {
        self.names.len() / 2
    }

    /// What stands in a used slot, with one read; None where the slot is free or there is none.
    pub fn entry(&self, slot: u32) -> Option<Entry> {
        Entry::used(&self.names, &self.cells, slot)
    }

    /// Whether the set is accepted. It reads every bin, header and slot. Ask it once of a set that came from elsewhere; one that a
    /// [`Loader`](crate::Loader) made is accepted.
    ///
    /// Refusal: Unfit.
    pub fn accept(&self) -> Result<bool, Refusal> {
        Ok(value(raw::accept(&self.lengths, &self.bins, &self.heads, &self.names, &self.cells))? == 1)
    }

    /// The slot that has the pair, sought from this table on, with the looks: a bin of each table down to the first that is not Moved, then
    /// one list or one way down a tree. The set is not checked.
    ///
    /// Refusals: Unfit, UnknownTable, Lost; on an accepted set UnknownTable alone.
    pub fn lookup(&self, table: u32, hash: u64, key: u64) -> Result<Found, Refusal> {
        Found::of(raw::lookup(&self.lengths, &self.bins, &self.heads, &self.names, &self.cells, table, hash, key))
    }

    /// The entries of this table and of the later ones, each once on an accepted set. Each step goes on from bin to bin, and the set is not
    /// checked. On a set that is not accepted the last item may be a refusal, and an item that comes after as many as there are slots is
    /// [`Lost`](Refusal::Lost), with no looks.
    ///
    /// Refusals: Unfit, UnknownTable.
    pub fn walk(&self, table: u32) -> Result<Walk<'_>, Refusal> {
        let mut cursor = [0; raw::CURSOR_WORDS];
        value(raw::start(&self.lengths, &self.bins, &self.heads, &self.names, &self.cells, table, &mut cursor))?;
        Ok(Walk { set: self, cursor, left: self.capacity(), done: false })
    }

    /// The set as a file. It reads every bin, header and slot first, as accept does.
    ///
    /// Refusals: Unfit, Damaged where the set is not accepted.
    pub fn save(&self) -> Result<Vec<u8>, Refusal> {
        let items = [self.lengths.len(), self.bins.len(), self.heads.len(), self.names.len()];
        let most = [raw::TABLES_MOST, raw::BINS_MOST, 3 * raw::HEADERS_MOST, 2 * raw::SLOTS_MOST];
        if items.iter().zip(most).any(|(&words, most)| words > most) {
            return Err(Refusal::Unfit);
        }
        let [tables, bins, heads, names] = items;
        let mut out = vec![0; 16 + 4 * tables + 4 * bins + 12 * (heads / 3) + 41 * (names / 2)];
        value(raw::save(&self.lengths, &self.bins, &self.heads, &self.names, &self.cells, &mut out))?;
        Ok(out)
    }

    /// Moves one bin of a table to the next table; answers the entries moved. Slots keep their numbers, pairs and places, and lookups from
    /// table 0 find the same. It reads every bin, header and slot first, as accept does.
    ///
    /// Refusals: Unfit, UnknownTable, Damaged where the set is not accepted, CannotMove, Full where there are too few headers.
    ///
    /// ```
    /// use oz::{Frozen, Refusal};
    /// let null = u32::MAX;
    /// let cells = vec![100, 1, null, null, null, null, null];
    /// let mut set = Frozen::from_parts(vec![1, 2], vec![2, 0, 0], vec![], vec![7, 1], cells);
    /// assert_eq!(set.move_bin(0, 0)?, 1);
    /// assert_eq!(set.bins(), [1, 0, 2]);
    /// assert_eq!(set.move_bin(0, 0), Err(Refusal::CannotMove));
    /// # Ok::<(), Refusal>(())
    /// ```
    pub fn move_bin(&mut self, table: u32, bin: u32) -> Result<u32, Refusal> {
        value(raw::move_bin(&self.lengths, &mut self.bins, &mut self.heads, &self.names, &mut self.cells, table, bin))
    }

    /// Adds the set to the totals: true where it counts as accepted, false where as refused, which is then all that is added. It reads
    /// every bin, header and slot, and looks each entry up.
    ///
    /// Refusals: Unfit where a word of the totals is out of its range, TooMany where a million sets are counted.
    pub fn tally(&self, totals: &mut Totals) -> Result<bool, Refusal> {
        Ok(value(raw::tally(&self.lengths, &self.bins, &self.heads, &self.names, &self.cells, &mut totals.words))? == 1)
    }
}

/// The entries of a frozen set; [`Frozen::walk`] makes it.
#[derive(Clone, Debug)]
pub struct Walk<'a> {
    set: &'a Frozen,
    cursor: [u32; raw::CURSOR_WORDS],
    left: usize,
    done: bool,
}

impl Walk<'_> {
    /// The next entry, None at the end.
    fn step(&mut self) -> Result<Option<Entry>, Refusal> {
        let s = self.set;
        let lost = Refusal::Lost { looks: 0 };
        let Some(at) = slot(value(raw::walk(&s.lengths, &s.bins, &s.heads, &s.names, &s.cells, &mut self.cursor))?) else {
            return Ok(None);
        };
        self.left = self.left.checked_sub(1).ok_or(lost)?;
        Entry::at(&s.names, &s.cells, at).ok_or(lost).map(Some)
    }
}

impl Iterator for Walk<'_> {
    type Item = Result<Entry, Refusal>;

    fn next(&mut self) -> Option<Result<Entry, Refusal>> {
        if self.done {
            return None;
        }
        let item = self.step().transpose();
        self.done = !matches!(item, Some(Ok(_)));
        item
    }
}

impl std::iter::FusedIterator for Walk<'_> {}
