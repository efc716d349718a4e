//! An upload in chunks.
use crate::raw;
use crate::refusal::value;
use crate::{Index, Refusal};

/// Reads an upload in chunks into an index, whole or not at all. It borrows the index until the end call, so that nobody else writes it in
/// between. A reader that is dropped before its end call takes back what it entered.
///
/// An upload is four sections, of kinds 1 to 4 in this order, each a kind byte, a count of two bytes and so many entries of eight bytes
/// hash and eight bytes key, the lowest byte first. Each entry is inserted with the offset of its first byte as place.
///
/// ```
/// use oz::{Index, Reader, Refusal};
/// let mut upload = vec![1, 1, 0];
/// upload.extend(7u64.to_le_bytes());
/// upload.extend(9u64.to_le_bytes());
/// upload.extend([2, 0, 0, 3, 0, 0, 4, 0, 0]);
///
/// let mut index = Index::new(64, 16)?;
/// let mut reader = Reader::start(&mut index)?;
/// for chunk in upload.chunks(5) {
///     reader.chunk(chunk)?;
/// }
/// assert_eq!(reader.end()?, 1);
/// let slot = index.find(7, 9)?.slot.unwrap();
/// assert_eq!(index.entry(slot).unwrap().place, 3);
///
/// let mut reader = Reader::start(&mut index)?;
/// assert_eq!(reader.chunk(&upload), Err(Refusal::Present { slot }));
/// assert_eq!(reader.end(), Err(Refusal::Present { slot }));
/// assert_eq!(index.len(), 1);
/// # Ok::<(), Refusal>(())
/// ```
#[derive(Debug)]
pub struct Reader<'a> {
    index: &'a mut Index,
    words: [u64; raw::READER_WORDS],
    mark: u32,
    /// Whether what was entered is to be taken back where there is no end call.
    open: bool,
}

impl<'a> Reader<'a> {
    /// Begins an upload: what the index has stays, and the upload is taken back to here where it is refused. It checks every slot.
    ///
    /// Refusals: Unfit, Damaged.
    pub fn start(index: &'a mut Index) -> Result<Reader<'a>, Refusal> {
        let mut words = [0; raw::READER_WORDS];
        value(raw::read_start(&index.names, &index.cells, &index.head, &index.sizes, &index.lines, &mut words))?;
        let mark = index.mark();
        Ok(Reader { index, words, mark, open: true })
    }

    /// Takes the bytes of a chunk, of any number; answers the entries taken since the start. It checks every slot once where an entry ends
    /// in it or it is refused, and else nothing: few large chunks are cheaper than many small ones.
    ///
    /// Refusals: WrongKind, Long, Present with the slot, Full, JournalFull, after which the index is as it was at the start and every later
    /// chunk and the end call say the same; the rest of the upload need not be sent.
    pub fn chunk(&mut self, bytes: &[u8]) -> Result<u32, Refusal> {
        let Index { names, cells, head, sizes, lines } = &mut *self.index;
        let taken = value(raw::read_chunk(names, cells, head, sizes, lines, &mut self.words, bytes));
        // A refused chunk has taken everything back itself.
        self.open &= taken.is_ok();
        taken
    }

    /// The upload has ended: answers the entries taken. This is the answer that counts. It checks every slot only where it refuses.
    ///
    /// Refusals: Short where section 4 is not whole, and those of the chunks.
    pub fn end(mut self) -> Result<u32, Refusal> {
        self.open = false;
        let Index { names, cells, head, sizes, lines } = &mut *self.index;
        value(raw::read_end(names, cells, head, sizes, lines, &mut self.words))
    }

    /// The index, with what has been entered so far.
    pub fn index(&self) -> &Index {
        self.index
    }
}

impl Drop for Reader<'_> {
    /// Without an end call nothing of the upload stays. A rollback to the mark of the start is not refused, since nobody else wrote.
    fn drop(&mut self) {
        if self.open {
            let _ = self.index.rollback(self.mark);
        }
    }
}

impl Index {
    /// Reads a whole upload that is in memory; answers its entries, or leaves the index as it was. It checks every slot at the start,
    /// once in the chunk, and once more where the upload is too short.
    ///
    /// Refusals: those of [`Reader`].
    pub fn read(&mut self, upload: &[u8]) -> Result<u32, Refusal> {
        let mut reader = Reader::start(self)?;
        reader.chunk(upload)?;
        reader.end()
    }
}
