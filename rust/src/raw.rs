//! The 26 exports behind slices, and the layout of the words. A call takes any words, any numbers and any lengths, ends, and answers a
//! word, which is taken apart here; a refused call has written nothing but what include/oz.h says of a chunk and of an end call. The types
//! of this crate are made of these.

/// It changes with an argument of an export or the layout of a slice, as OZ_ABI of include/oz.h: link a library of this crate's own commit.
pub const ABI: usize = 2;

/// The link that leads nowhere; Nothing of a find or a lookup, and Done of a walk.
pub const NULL: u32 = u32::MAX;

/// The words of a slot in cells, and the number of each.
pub const CELL_WORDS: usize = 7;
pub const PLACE: usize = 0;
pub const STATE: usize = 1;
pub const PARENT: usize = 2;
pub const LEFT: usize = 3;
pub const RIGHT: usize = 4;
pub const PREV: usize = 5;
pub const NEXT: usize = 6;

/// The words of the header, and the number of each.
pub const HEAD_WORDS: usize = 3;
pub const ROOT: usize = 0;
pub const FIRST: usize = 1;
pub const COUNT: usize = 2;

/// The words of a journal's line: kind, hash, key, place, and the hash and key of the pair before.
pub const LINE_WORDS: usize = 6;

/// The kind of a remove line that notes the pair before.
pub const NOTED: u64 = 2 + (1 << 32);

/// The words of a cursor, of a reader, of a loader, of what `why` shows, and of the totals.
pub const CURSOR_WORDS: usize = 11;
pub const READER_WORDS: usize = 8;
pub const LOADER_WORDS: usize = 8;
pub const SHOWN_WORDS: usize = 8;
pub const TOTALS_WORDS: usize = 39;

/// The most slots and lines of an index, and the most tables, bin words, tree headers and slots of a frozen set.
pub const SLOTS_MOST: usize = 4096;
pub const LINES_MOST: usize = 1024;
pub const TABLES_MOST: usize = 8;
pub const BINS_MOST: usize = 8160;
pub const HEADERS_MOST: usize = 4096;

/// An exported routine's word, value + 2^32 * number + 2^48 * looks, taken apart. Number 0 is no refusal. Looks are how many slots a find
/// or a lookup has read the hash of; every other answer has 0.
#[derive(Clone, Copy, PartialEq, Eq, Debug)]
pub struct Answer {
    pub number: u32,
    pub value: u32,
    pub looks: u32,
}

impl Answer {
    /// An answer of a routine that does not search.
    pub const fn plain(number: u32, value: u32) -> Self {
        Answer { number, value, looks: 0 }
    }

    /// The answer that a word tells, of a call or of a batch's slice of answers.
    pub const fn of(word: u64) -> Self {
        Answer { number: (word >> 32) as u16 as u32, value: word as u32, looks: (word >> 48) as u32 }
    }
}

/// Declares an exported routine and ours over it: a slice goes as a pointer and a length, a number as it is.
macro_rules! export {
    (@ [$($doc:literal)*] $routine:ident $ours:ident ($($params:tt)*) ($($types:tt)*) ($($given:tt)*)) => {
        $(#[doc = $doc])*
        #[inline]
        #[allow(clippy::too_many_arguments)]
        pub fn $ours($($params)*) -> Answer {
            extern "C" {
                fn $routine($($types)*) -> u64;
            }
            // SAFETY: each pointer is that of a slice of so many words, the written ones are borrowed for writing, and the routine
            // is proved to stay within what it is lent, whatever the words, numbers and lengths are; it keeps no pointer.
            Answer::of(unsafe { $routine($($given)*) })
        }
    };
    (@ [$($d:tt)*] $routine:ident $ours:ident ($($p:tt)*) ($($t:tt)*) ($($g:tt)*) $name:ident: &mut [$word:ty], $($rest:tt)*) => {
        export!(@ [$($d)*] $routine $ours ($($p)* $name: &mut [$word],) ($($t)* _: *mut $word, _: usize,)
            ($($g)* $name.as_mut_ptr(), $name.len(),) $($rest)*);
    };
    (@ [$($d:tt)*] $routine:ident $ours:ident ($($p:tt)*) ($($t:tt)*) ($($g:tt)*) $name:ident: &[$word:ty], $($rest:tt)*) => {
        export!(@ [$($d)*] $routine $ours ($($p)* $name: &[$word],) ($($t)* _: *const $word, _: usize,)
            ($($g)* $name.as_ptr(), $name.len(),) $($rest)*);
    };
    (@ [$($d:tt)*] $routine:ident $ours:ident ($($p:tt)*) ($($t:tt)*) ($($g:tt)*) $name:ident: $number:ty, $($rest:tt)*) => {
        export!(@ [$($d)*] $routine $ours ($($p)* $name: $number,) ($($t)* _: $number,) ($($g)* $name,) $($rest)*);
    };
    ($(#[doc = $doc:literal])* $routine:ident $ours:ident $($rest:tt)*) => {
        export!(@ [$($doc)*] $routine $ours () () () $($rest)*);
    };
}

export!(
    /// Writes an empty index into the five slices, every word of them. 1.
    oz_fresh fresh names: &mut [u64], cells: &mut [u32], head: &mut [u32], sizes: &mut [u32], lines: &mut [u64],
);
export!(
    /// The slot that has the pair, or `NULL`, with the looks: one way down the tree. 1, 9.
    oz_find find names: &[u64], cells: &[u32], head: &[u32], hash: u64, key: u64,
);
export!(
    /// The pair joins the tree, after a check of every slot: the slot taken. 1, 2, 3 with the slot, 5, 6.
    oz_insert insert
    names: &mut [u64], cells: &mut [u32], head: &mut [u32], sizes: &mut [u32], lines: &mut [u64], hash: u64, key: u64, place: u32,
);
export!(
    /// The pair leaves the tree, after a check of every slot: the slot freed. 1, 2, 4, 6.
    oz_remove remove
    names: &mut [u64], cells: &mut [u32], head: &mut [u32], sizes: &mut [u32], lines: &mut [u64], hash: u64, key: u64,
);
export!(
    /// The pair gets another place, after a check of every slot: its slot. 1, 2, 4, 6.
    oz_replace replace
    names: &[u64], cells: &mut [u32], head: &[u32], sizes: &[u32], lines: &mut [u64], hash: u64, key: u64, place: u32,
);
export!(
    /// Undoes the journal's lines down to the mark, after a check of every slot: how many. 1, 2, 7, 8.
    oz_rollback rollback names: &mut [u64], cells: &mut [u32], head: &mut [u32], sizes: &mut [u32], lines: &mut [u64], mark: u32,
);
export!(
    /// Many calls, four words each, after one check of every slot: how many were accepted. 1, 2.
    oz_batch batch
    names: &mut [u64], cells: &mut [u32], head: &mut [u32], sizes: &mut [u32], lines: &mut [u64], calls: &[u64], answers: &mut [u64],
);
export!(
    /// Begins an upload, after a check of every slot: writes the reader. 1, 2.
    oz_read_start read_start names: &[u64], cells: &[u32], head: &[u32], sizes: &[u32], lines: &[u64], reader: &mut [u64],
);
export!(
    /// Takes the bytes of a chunk, with one check of every slot where an entry ends in it: the entries taken. 1, 18, 13, 3, 5, 6, 2, 7, 8.
    oz_read_chunk read_chunk
    names: &mut [u64], cells: &mut [u32], head: &mut [u32], sizes: &mut [u32], lines: &mut [u64], reader: &mut [u64], chunk: &[u8],
);
export!(
    /// The upload has ended: the entries taken. It checks every slot only where it refuses. 1, 12, 2, 7, 8, or what is noted.
    oz_read_end read_end
    names: &mut [u64], cells: &mut [u32], head: &mut [u32], sizes: &mut [u32], lines: &mut [u64], reader: &mut [u64],
);
export!(
    /// The source's own check, of every slot that it reaches: 0, or number 100 + t and the slot. 1, 9.
    oz_check check names: &[u64], cells: &[u32], head: &[u32],
);
export!(
    /// The full check of every slot: 1 exactly if the tree is sound. 1.
    oz_sound sound names: &[u64], cells: &[u32], head: &[u32], sizes: &[u32],
);
export!(
    /// The number of the first broken rule, 0 exactly if the tree is sound, and in eight words what shows it. 1.
    oz_why why names: &[u64], cells: &[u32], head: &[u32], sizes: &[u32], shown: &mut [u32],
);
export!(
    /// Inserts what can be saved into the second, empty tree: the slots kept, and a word of the report for each slot. 1.
    oz_salvage salvage
    names: &[u64], cells: &[u32], names2: &mut [u64], cells2: &mut [u32], head2: &mut [u32], sizes2: &mut [u32], report: &mut [u32],
);
export!(
    /// The slot of the pair at a position, after a check of every slot. 1, 2, 15.
    oz_kth kth names: &[u64], cells: &[u32], head: &[u32], sizes: &[u32], k: u32,
);
export!(
    /// The position of a pair, after a check of every slot. 1, 2, 4.
    oz_position position names: &[u64], cells: &[u32], head: &[u32], sizes: &[u32], hash: u64, key: u64,
);
export!(
    /// 1 exactly if the frozen set is accepted: every bin, header and slot is read. 1.
    oz_accept accept lengths: &[u32], bins: &[u32], heads: &[u32], names: &[u64], cells: &[u32],
);
export!(
    /// The slot that has the pair from this table on, or `NULL`, with the looks: the set is not checked. 1, 10, 9.
    oz_lookup lookup lengths: &[u32], bins: &[u32], heads: &[u32], names: &[u64], cells: &[u32], table: u32, hash: u64, key: u64,
);
export!(
    /// Writes a cursor at the first bin of the table. 1, 10.
    oz_start start lengths: &[u32], bins: &[u32], heads: &[u32], names: &[u64], cells: &[u32], table: u32, cursor: &mut [u32],
);
export!(
    /// The next entry's slot, or `NULL`: from bin to bin, and the set is not checked. 1, 11, 9.
    oz_walk walk lengths: &[u32], bins: &[u32], heads: &[u32], names: &[u64], cells: &[u32], cursor: &mut [u32],
);
export!(
    /// Writes the set's file, after its acceptance: the bytes. 1, 2.
    oz_save save lengths: &[u32], bins: &[u32], heads: &[u32], names: &[u64], cells: &[u32], out: &mut [u8],
);
export!(
    /// Begins a file: writes the loader. 1.
    oz_load_start load_start loader: &mut [u64],
);
export!(
    /// Takes the bytes of a chunk: how many since the start. 1, 14, 13, or what is noted.
    oz_load_chunk load_chunk
    lengths: &mut [u32], bins: &mut [u32], heads: &mut [u32], names: &mut [u64], cells: &mut [u32], loader: &mut [u64], chunk: &[u8],
);
export!(
    /// The file has ended: its bytes, after the set's acceptance. 1, 12, 2, or what is noted.
    oz_load_end load_end
    lengths: &mut [u32], bins: &mut [u32], heads: &mut [u32], names: &mut [u64], cells: &mut [u32], loader: &mut [u64],
);
export!(
    /// Moves one bin to the next table, after the set's acceptance: the entries moved. 1, 10, 2, 16, 5.
    oz_move move_bin
    lengths: &[u32], bins: &mut [u32], heads: &mut [u32], names: &[u64], cells: &mut [u32], table: u32, bin: u32,
);
export!(
    /// Adds a set to the totals, after its acceptance: 1 where it counts as accepted, 0 where as refused. 1, 17.
    oz_tally tally lengths: &[u32], bins: &[u32], heads: &[u32], names: &[u64], cells: &[u32], totals: &mut [u64],
);
