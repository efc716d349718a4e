//! A set's file in chunks.
use crate::raw::{self, BINS_MOST, CELL_WORDS, HEADERS_MOST, SLOTS_MOST, TABLES_MOST};
use crate::refusal::value;
use crate::{Frozen, Refusal};

/// Loads a set's file in chunks. It owns slices of the largest lengths, 262,048 bytes, so that every file which is allowed can be loaded;
/// the set that comes of it has only its own words.
///
/// ```
/// use oz::{Frozen, Loader, Refusal};
/// let set = Frozen::from_parts(vec![1], vec![0], vec![], vec![], vec![]);
/// let file = set.save()?;
/// let mut loader = Loader::start();
/// for chunk in file.chunks(3) {
///     loader.chunk(chunk)?;
/// }
/// assert_eq!(loader.end()?, set);
///
/// let mut loader = Loader::start();
/// loader.chunk(&file[..10])?;
/// assert_eq!(loader.end(), Err(Refusal::Short));
/// # Ok::<(), Refusal>(())
/// ```
#[derive(Clone, Debug)]
pub struct Loader {
    words: [u64; raw::LOADER_WORDS],
    set: Frozen,
}

impl Loader {
    /// Begins a file.
    pub fn start() -> Loader {
        let mut words = [0; raw::LOADER_WORDS];
        raw::load_start(&mut words);
        let set = Frozen {
            lengths: vec![0; TABLES_MOST],
            bins: vec![0; BINS_MOST],
            heads: vec![0; 3 * HEADERS_MOST],
            names: vec![0; 2 * SLOTS_MOST],
            cells: vec![0; CELL_WORDS * SLOTS_MOST],
        };
        Loader { words, set }
    }

    /// Takes the bytes of a chunk, of any number; answers the bytes taken since the start. It reads each byte once and checks nothing else.
    ///
    /// Refusals: OverLimit, Long, after which every later chunk and the end call say the same; the rest of the file need not be sent.
    pub fn chunk(&mut self, bytes: &[u8]) -> Result<u32, Refusal> {
        let Frozen { lengths, bins, heads, names, cells } = &mut self.set;
        value(raw::load_chunk(lengths, bins, heads, names, cells, &mut self.words, bytes))
    }

    /// The file has ended: answers its set, which is accepted. It reads every bin, header and slot, as accept does.
    ///
    /// Refusals: Short, Unfit where the words are no set's, Damaged where the set is not accepted, and those of the chunks.
    pub fn end(mut self) -> Result<Frozen, Refusal> {
        let Frozen { lengths, bins, heads, names, cells } = &mut self.set;
        value(raw::load_end(lengths, bins, heads, names, cells, &mut self.words))?;
        let [.., tables, words, headers, slots, _] = self.words.map(|word| word as usize);
        cut(lengths, tables);
        cut(bins, words);
        cut(heads, 3 * headers);
        cut(names, 2 * slots);
        cut(cells, CELL_WORDS * slots);
        Ok(self.set)
    }
}

fn cut<T>(words: &mut Vec<T>, len: usize) {
    words.truncate(len);
    words.shrink_to_fit();
}

impl Frozen {
    /// The set of a whole file that is in memory, which is accepted.
    ///
    /// Refusals: those of [`Loader`].
    pub fn load(file: &[u8]) -> Result<Frozen, Refusal> {
        let mut loader = Loader::start();
        loader.chunk(file)?;
        loader.end()
    }
}
