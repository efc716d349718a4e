//! The numbers of a refusal.
use crate::raw::Answer;
use std::fmt;

/// Why a call was refused: the numbers 1 to 18 of docs/RULES.md, section 8. docs/HANDBOOK.md says what to do with each. A refused call has
/// changed nothing, or, of an upload, has taken back what the upload entered.
///
/// ```
/// use oz::{Index, Refusal};
/// let mut index = Index::new(4, 4)?;
/// let slot = index.insert(7, 1, 100)?;
/// let again = index.insert(7, 1, 200).unwrap_err();
/// assert_eq!(again, Refusal::Present { slot });
/// assert_eq!(again.number(), 3);
/// assert_eq!(again.to_string(), "present: the pair is there already");
/// # Ok::<(), Refusal>(())
/// ```
#[derive(Clone, Copy, PartialEq, Eq, Hash, Debug)]
pub enum Refusal {
    /// 1: the lengths of the slices do not fit, a limit is broken, or words are out of their ranges.
    Unfit,
    /// 2: the tree is not sound, or the set is not accepted.
    Damaged,
    /// 3: the pair is there already.
    Present {
        /// The slot that has it; of an upload, the one that had it before the rollback.
        slot: u32,
    },
    /// 4: the pair is not there.
    Absent,
    /// 5: no free slot; of a move, headers run out.
    Full,
    /// 6: no line is left in the journal.
    JournalFull,
    /// 7: the mark is above the journal's length.
    BadMark,
    /// 8: the journal's lines do not fit the tree.
    Misfit,
    /// 9: a read came to a word that leads nowhere, or to more slots than there are.
    Lost {
        /// The looks that a find or a lookup made before; 0 of all else.
        looks: u32,
    },
    /// 10: there is no such table.
    UnknownTable,
    /// 11: no cursor of this set.
    BadCursor,
    /// 12: an upload or a file ends before its last section is whole.
    Short,
    /// 13: a byte comes after the last section.
    Long,
    /// 14: a count of a file passes its limit.
    OverLimit,
    /// 15: the position is not below the count.
    OutOfRange,
    /// 16: no next table, no such bin, already Moved, or its parent bin not Moved.
    CannotMove,
    /// 17: a million sets are counted.
    TooMany,
    /// 18: a section of an upload begins with another byte than its kind.
    WrongKind,
}

impl Refusal {
    /// The number, as the rules, include/oz.h and the programs have it.
    pub fn number(self) -> u32 {
        match self {
            Refusal::Unfit => 1,
            Refusal::Damaged => 2,
            Refusal::Present { .. } => 3,
            Refusal::Absent => 4,
            Refusal::Full => 5,
            Refusal::JournalFull => 6,
            Refusal::BadMark => 7,
            Refusal::Misfit => 8,
            Refusal::Lost { .. } => 9,
            Refusal::UnknownTable => 10,
            Refusal::BadCursor => 11,
            Refusal::Short => 12,
            Refusal::Long => 13,
            Refusal::OverLimit => 14,
            Refusal::OutOfRange => 15,
            Refusal::CannotMove => 16,
            Refusal::TooMany => 17,
            Refusal::WrongKind => 18,
        }
    }

    /// The refusal that an answer of the module `raw` tells; None where its number is not 1 to 18.
    pub fn of(answer: Answer) -> Option<Refusal> {
        Some(match answer.number {
            1 => Refusal::Unfit,
            2 => Refusal::Damaged,
            3 => Refusal::Present { slot: answer.value },
            4 => Refusal::Absent,
            5 => Refusal::Full,
            6 => Refusal::JournalFull,
            7 => Refusal::BadMark,
            8 => Refusal::Misfit,
            9 => Refusal::Lost { looks: answer.looks },
            10 => Refusal::UnknownTable,
            11 => Refusal::BadCursor,
            12 => Refusal::Short,
            13 => Refusal::Long,
            14 => Refusal::OverLimit,
            15 => Refusal::OutOfRange,
            16 => Refusal::CannotMove,
            17 => Refusal::TooMany,
            18 => Refusal::WrongKind,
            _ => return None,
        })
    }

    /// What the number means, as oz_words of include/oz.h says it.
    pub fn words(self) -> &'static str {
        match self {
            Refusal::Unfit => "unfit: lengths that do not fit, a limit that is broken, or words out of their ranges",
            Refusal::Damaged => "damaged: the tree is not sound, or the set is not accepted",
            Refusal::Present { .. } => "present: the pair is there already",
            Refusal::Absent => "absent: the pair is not there",
            Refusal::Full => "full: no slot is free, or too few headers",
            Refusal::JournalFull => "journal full: no line is left",
            Refusal::BadMark => "bad mark: it is above the journal's length",
            Refusal::Misfit => "misfit: the journal's lines do not fit the tree",
            Refusal::Lost { .. } => "lost: a word leads nowhere, or to more slots than there are",
            Refusal::UnknownTable => "unknown table: there is none of this number",
            Refusal::BadCursor => "bad cursor: it is none of this set",
            Refusal::Short => "short: the bytes end before the last section is whole",
            Refusal::Long => "long: a byte comes after the last section",
            Refusal::OverLimit => "over limit: a count passes its limit or its slice",
            Refusal::OutOfRange => "out of range: the position is not below the count",
            Refusal::CannotMove => "cannot move: no next table, no such bin, already Moved, or its parent bin not Moved",
            Refusal::TooMany => "too many: a million sets are counted",
            Refusal::WrongKind => "wrong kind: a section begins with another byte than its kind",
        }
    }
}

impl fmt::Display for Refusal {
    fn fmt(&self, f: &mut fmt::Formatter<'_>) -> fmt::Result {
        f.write_str(self.words())
    }
}

impl std::error::Error for Refusal {}

/// The answer itself where its number is 0, else the refusal. A library of this commit has no other number than 0 to 18, but for the
/// tests of the source's check, which `Index::check` takes before.
pub(crate) fn taken(answer: Answer) -> Result<Answer, Refusal> {
    match Refusal::of(answer) {
        Some(refusal) => Err(refusal),
        None if answer.number == 0 => Ok(answer),
        None => unreachable!("libexports.a answered number {}: it is of another commit than this crate", answer.number),
    }
}

/// The value where the number is 0, else the refusal.
pub(crate) fn value(answer: Answer) -> Result<u32, Refusal> {
    taken(answer).map(|answer| answer.value)
}
