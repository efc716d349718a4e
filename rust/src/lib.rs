//! The name index behind safe types. Every routine of the library is proved, in Rattle, to take any words and numbers, to end and to stay
//! within what it is lent; this crate owns the words, calls the routines and says their answers as `Result`. docs/RULES.md says what is
//! promised, docs/HANDBOOK.md what to do with each refusal, include/oz.h has the same for C.
//!
//! To use it, give a program the dependency `oz = { path = ".." }`, with the path of this folder, and make the library that it links by
//! `./library` in the repository's root. OZ_LIB names the folder of libexports.a where that is another than target/staticlib.
//!
//! * [`Index`]: a live index, at most 4,096 slots, with a journal that takes calls back.
//! * [`Reader`]: an upload in chunks into an index, entered whole or not at all.
//! * [`Frozen`]: a frozen set, with lookup and walk; [`Loader`] reads its file in chunks.
//! * [`Totals`]: figures over many sets.
//! * [`Refusal`]: why a call was refused, the numbers 1 to 18.
//! * [`raw`]: the exports themselves, behind slices that the caller owns.
//!
//! ```
//! use oz::{Index, Refusal};
//!
//! let mut index = Index::new(64, 16)?;
//! index.insert(17, 1, 10)?;
//! let mark = index.mark();
//! let slot = index.insert(42, 2, 20)?;
//! assert_eq!(index.find(42, 2)?.slot, Some(slot));
//! index.rollback(mark)?;
//! assert_eq!(index.find(42, 2)?.slot, None);
//! # Ok::<(), Refusal>(())
//! ```
//!
//! **Cost.** Insert, remove, replace, rollback and the two calls by position check every slot on each call, so that nobody has to check a
//! tree beforehand: on 4,096 slots some 55 microseconds, where a find takes well under one. [`Index::batch`] checks once for all its calls,
//! and a [`Reader`] once for each chunk in which an entry ends. A frozen set is checked whole by accept, save, a load's end, each move and
//! each tally; lookup and walk check nothing. Each method says what it reads.
//!
//! **Threads.** No routine keeps anything between calls. All types here are `Send` and `Sync`; what `&self` calls only reads.
//!
//! **Stack.** [`Index::check`] takes up to 709 KiB and [`Index::why`] up to 388 on a damaged tree of 4,096 slots in one line; a rollback
//! and a refused chunk some 201; what accepts a set some 140 where that has a list of more than 64 slots. A thread of Rust's default 2 MiB
//! is enough.
#![warn(missing_docs)]

mod frozen;
mod index;
mod loader;
#[allow(missing_docs)]
pub mod raw;
mod reader;
mod refusal;
mod totals;

pub use frozen::{Frozen, Walk};
pub use index::{Call, Check, Entries, Fate, Index, Reason, Salvaged, Side, Way};
pub use loader::Loader;
pub use reader::Reader;
pub use refusal::Refusal;
pub use totals::Totals;

/// What a find or a lookup came to.
#[derive(Clone, Copy, PartialEq, Eq, Debug)]
pub struct Found {
    /// The slot that has the pair, None where none has.
    pub slot: Option<u32>,
    /// How many slots the hash was read of.
    pub looks: u32,
}

impl Found {
    fn of(answer: raw::Answer) -> Result<Found, Refusal> {
        let found = refusal::taken(answer)?;
        Ok(Found { slot: slot(found.value), looks: found.looks })
    }
}

/// A pair, hash and key, with its place, and the slot that has it. Pairs are ordered by hash, then key.
#[derive(Clone, Copy, PartialEq, Eq, Hash, Debug)]
pub struct Entry {
    /// The slot that has the pair.
    pub slot: u32,
    /// The pair's hash.
    pub hash: u64,
    /// The pair's key.
    pub key: u64,
    /// The pair's place.
    pub place: u32,
}

impl Entry {
    /// What stands in a slot, whatever its state; None where there is no such slot.
    fn at(names: &[u64], cells: &[u32], slot: u32) -> Option<Entry> {
        let i = slot as usize;
        let (hash, key) = (*names.get(2 * i)?, *names.get(2 * i + 1)?);
        Some(Entry { slot, hash, key, place: *cells.get(raw::CELL_WORDS * i + raw::PLACE)? })
    }

    /// The same of a used slot: None also where its state is 0.
    fn used(names: &[u64], cells: &[u32], slot: u32) -> Option<Entry> {
        let state = *cells.get(raw::CELL_WORDS * slot as usize + raw::STATE)?;
        Entry::at(names, cells, slot).filter(|_| state != 0)
    }
}

/// A word that is a slot or null.
fn slot(word: u32) -> Option<u32> {
    (word != raw::NULL).then_some(word)
}
