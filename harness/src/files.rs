//! A set's file, by the words of section 16 alone: a writer, and a loader that keeps all bytes since the start and reads them anew at
//! every call.
use crate::accepted::{accepted, fits};
use crate::lent::{Lent, LentSet, G64};
use crate::oz::{self, Answer, Set};

/// The most items that a section may have: tables, bin words, headers, slots.
pub const MOST: [usize; 4] = [8, 8160, 4096, 4096];

/// The bytes of each word of an item.
const WIDTHS: [&[usize]; 4] = [&[4], &[4], &[4, 4, 4], &[8, 8, 4, 1, 4, 4, 4, 4, 4]];

/// The words of each of the five slices that an item takes.
const TAKES: [[usize; 5]; 4] = [[1, 0, 0, 0, 0], [0, 1, 0, 0, 0], [0, 0, 3, 0, 0], [0, 0, 0, 2, 7]];

/// The most bytes that a file may have.
pub const MOST_BYTES: usize = 16 + 4 * 8 + 4 * 8160 + 12 * 4096 + 41 * 4096;

fn slice_lengths(s: &Set) -> [usize; 5] {
    [s.lengths.len(), s.bins.len(), s.heads.len(), s.names.len(), s.cells.len()]
}

/// The first items of a section after their count, as the slices have them.
fn section(s: &Set, k: usize, count: usize) -> Vec<u8> {
    let mut out = (count as u32).to_le_bytes().to_vec();
    match k {
        0 => s.lengths[..count].iter().for_each(|w| out.extend(w.to_le_bytes())),
        1 => s.bins[..count].iter().for_each(|w| out.extend(w.to_le_bytes())),
        2 => s.heads[..3 * count].iter().for_each(|w| out.extend(w.to_le_bytes())),
        _ => {
            for (name, cell) in s.names.chunks_exact(2).zip(s.cells.chunks_exact(7)).take(count) {
                out.extend(name[0].to_le_bytes());
                out.extend(name[1].to_le_bytes());
                out.extend(cell[oz::PLACE].to_le_bytes());
                out.push(cell[oz::STATE] as u8);
                for link in [oz::PARENT, oz::LEFT, oz::RIGHT, oz::PREV, oz::NEXT] {
                    out.extend(cell[link].to_le_bytes());
                }
            }
        }
    }
    out
}

/// The items of a set's four sections.
pub fn counts(s: &Set) -> [usize; 4] {
    [s.lengths.len(), s.bins.len(), s.heads.len() / 3, s.names.len() / 2]
}

/// The bytes of a set's file.
pub fn written(s: &Set) -> Vec<u8> {
    (0..4).flat_map(|k| section(s, k, counts(s)[k])).collect()
}

/// The number of up to eight bytes.
fn number(bytes: &[u8]) -> u64 {
    bytes.iter().rev().fold(0, |x, b| x << 8 | *b as u64)
}

/// Whether so many items of a section are within their limit and the slices.
fn may_hold(lengths: [usize; 5], k: usize, count: u64) -> bool {
    count <= MOST[k] as u64 && (0..5).all(|slice| TAKES[k][slice] * count as usize <= lengths[slice])
}

/// What the bytes since a start come to.
struct Read {
    /// The loader's words but for the note; where a byte is refused, those before it.
    loader: [u64; 7],
    /// Each whole word: the offset behind it, its slice and index, its value.
    words: Vec<(usize, usize, usize, u64)>,
    /// 13 or 14.
    refusal: Option<u32>,
}

/// Reads the bytes since a start into slices of these lengths.
fn read(bytes: &[u8], lengths: [usize; 5]) -> Read {
    let (mut at, mut counts, mut words) = (0, [0; 4], Vec::new());
    let ends = |k: usize, come: usize, part: &[u8], counts: [u64; 4], words, refusal| Read {
        loader: [k as u64, (8 * come + part.len()) as u64, number(part), counts[0], counts[1], counts[2], counts[3]],
        words,
        refusal,
    };
    for k in 0..4 {
        if bytes.len() - at < 4 {
            return ends(k, 0, &bytes[at..], counts, words, None);
        }
        let count = number(&bytes[at..at + 4]);
        if !may_hold(lengths, k, count) {
            return ends(k, 0, &bytes[at..at + 3], counts, words, Some(14));
        }
        counts[k] = count;
        at += 4;
        let mut come = 1;
        for item in 0..count as usize {
            for (field, &width) in WIDTHS[k].iter().enumerate() {
                if bytes.len() - at < width {
                    return ends(k, come, &bytes[at..], counts, words, None);
                }
                let (slice, index) = match (k, field) {
                    (3, 0 | 1) => (3, 2 * item + field),
                    (3, _) => (4, 7 * item + field - 2),
                    _ => (k, WIDTHS[k].len() * item + field),
                };
                words.push((at + width, slice, index, number(&bytes[at..at + width])));
                at += width;
                come += 1;
            }
        }
    }
    let refusal = (at < bytes.len()).then_some(13);
    ends(4, 0, &[], counts, words, refusal)
}

/// A loader's words and the slices, with the bytes that came since its start.
#[derive(Clone)]
pub struct Model {
    pub set: Set,
    pub loader: [u64; 8],
    came: Vec<u8>,
}

impl Model {
    /// After a start.
    pub fn new(set: &Set) -> Self {
        Model { set: set.clone(), loader: [0; 8], came: Vec::new() }
    }

    /// The loader that words say, with the bytes that would have led to it; none where a chunk and the end call are to answer 1 and change
    /// nothing: where a word is out of its range, or, nothing being noted, a slice is too short for a count that was taken.
    pub fn of_words(words: &[u64], set: &Set) -> Option<Self> {
        let loader: [u64; 8] = words.try_into().ok()?;
        let [whole, at, part, ..] = loader;
        let (come, bytes) = (at / 8, at % 8);
        if whole > 4 || part >> (8 * bytes) != 0 || (whole == 4 && at != 0) {
            return None;
        }
        for k in 0..4 {
            let known = (k as u64) < whole || (k as u64 == whole && come > 0);
            if loader[3 + k] > if known { MOST[k] as u64 } else { 0 } {
                return None;
            }
        }
        let k = whole as usize;
        if k < 4 {
            let fields = WIDTHS[k].len() as u64;
            let width = if come == 0 { 4 } else { WIDTHS[k][((come - 1) % fields) as usize] };
            if come > loader[3 + k] * fields || bytes >= width as u64 {
                return None;
            }
        }
        let mut model = Model { set: set.clone(), loader, came: Vec::new() };
        if loader[7] != 0 {
            let (number, value) = ((loader[7] - 1) >> 32, (loader[7] - 1) as u32);
            return (number == 0 || ([1, 2, 12, 13, 14].contains(&number) && value == 0)).then_some(model);
        }
        if !(0..4).all(|k| may_hold(slice_lengths(set), k, loader[3 + k])) {
            return None;
        }
        for k in 0..k {
            model.came.extend(section(set, k, loader[3 + k] as usize));
        }
        if k < 4 {
            let long = (0..come as usize).map(|word| if word == 0 { 4 } else { WIDTHS[k][(word - 1) % WIDTHS[k].len()] }).sum();
            model.came.extend(&section(set, k, loader[3 + k] as usize)[..long]);
            model.came.extend(&part.to_le_bytes()[..bytes as usize]);
        }
        Some(model)
    }

    /// The same loader with other slices.
    pub fn with(&self, set: Set) -> Self {
        Model { set, ..self.clone() }
    }

    /// What every later call answers, once an answer is noted.
    fn noted(&self) -> Option<Answer> {
        let word = self.loader[7].checked_sub(1)?;
        Some(Answer::plain((word >> 32) as u32, word as u32))
    }

    fn note(&mut self, answer: Answer) -> Answer {
        self.loader[7] = 1 + answer.value as u64 + ((answer.number as u64) << 32);
        answer
    }

    fn refuse(&mut self, number: u32) -> Answer {
        let Set { lengths, bins, heads, names, cells } = &mut self.set;
        [lengths, bins, heads, cells].into_iter().for_each(|words| words.fill(0));
        names.fill(0);
        self.note(Answer::plain(number, 0))
    }

    pub fn chunk(&mut self, chunk: &[u8]) -> Answer {
        if let Some(answer) = self.noted() {
            return answer;
        }
        let old = self.came.len();
        self.came.extend(chunk);
        let Read { loader, words, refusal } = read(&self.came, slice_lengths(&self.set));
        self.loader[..7].copy_from_slice(&loader);
        if let Some(number) = refusal {
            return self.refuse(number);
        }
        let Set { lengths, bins, heads, names, cells } = &mut self.set;
        for (end, slice, index, value) in words.into_iter().filter(|word| word.0 > old) {
            assert!(end <= self.came.len());
            match slice {
                0 => lengths[index] = value as u32,
                1 => bins[index] = value as u32,
                2 => heads[index] = value as u32,
                3 => names[index] = value,
                _ => cells[index] = value as u32,
            }
        }
        Answer::plain(0, self.came.len() as u32)
    }

    pub fn end(&mut self) -> Answer {
        if let Some(answer) = self.noted() {
            return answer;
        }
        if self.loader[0] != 4 {
            return self.refuse(12);
        }
        let cut = cut_out(&self.set, &self.loader);
        if !fits(&cut) {
            return self.refuse(1);
        }
        if !accepted(&cut) {
            return self.refuse(2);
        }
        let Set { lengths, bins, heads, names, cells } = &mut self.set;
        lengths[cut.lengths.len()..].fill(0);
        bins[cut.bins.len()..].fill(0);
        heads[cut.heads.len()..].fill(0);
        names[cut.names.len()..].fill(0);
        cells[cut.cells.len()..].fill(0);
        self.note(Answer::plain(0, self.came.len() as u32))
    }
}

/// The set that the loader's counts cut out of the slices.
pub fn cut_out(s: &Set, loader: &[u64]) -> Set {
    let [tables, words, headers, slots] = [3, 4, 5, 6].map(|k| loader[k] as usize);
    Set {
        lengths: s.lengths[..tables].to_vec(),
        bins: s.bins[..words].to_vec(),
        heads: s.heads[..3 * headers].to_vec(),
        names: s.names[..2 * slots].to_vec(),
        cells: s.cells[..7 * slots].to_vec(),
    }
}

/// What save is to answer, and to leave in `out`.
pub fn saved_as(s: &Set, out: &[u8]) -> (Answer, Vec<u8>) {
    let refused = |number: u32| (Answer::plain(number, 0), out.to_vec());
    if !fits(s) {
        return refused(1);
    }
    let bytes = written(s);
    if out.len() < bytes.len() {
        return refused(1);
    }
    if !accepted(s) {
        return refused(2);
    }
    (Answer::plain(0, bytes.len() as u32), [&bytes, &out[bytes.len()..]].concat())
}

/// The slices of a call of the loader, each between guard words.
#[derive(Clone, PartialEq)]
pub struct Loads {
    slices: LentSet,
    pub loader: Lent<u64>,
}

impl Loads {
    pub fn new(set: &Set, loader: &[u64]) -> Self {
        Loads { slices: LentSet::new(set), loader: Lent::new(loader, G64) }
    }

    pub fn start(&mut self) -> Answer {
        oz::load_start(self.loader.lend())
    }

    pub fn chunk(&mut self, chunk: &[u8]) -> Answer {
        let LentSet { lengths, bins, heads, names, cells } = &mut self.slices;
        oz::load_chunk(lengths.lend(), bins.lend(), heads.lend(), names.lend(), cells.lend(), self.loader.lend(), chunk)
    }

    pub fn end(&mut self) -> Answer {
        let LentSet { lengths, bins, heads, names, cells } = &mut self.slices;
        oz::load_end(lengths.lend(), bins.lend(), heads.lend(), names.lend(), cells.lend(), self.loader.lend())
    }

    pub fn guarded(&self) -> bool {
        self.slices.guarded() && self.loader.guarded(G64)
    }

    pub fn set(&self) -> Set {
        self.slices.set()
    }

    /// Whether slices and loader are the model's, and no guard word is another.
    pub fn is(&self, model: &Model) -> bool {
        self.guarded() && self.loader.get() == model.loader && self.slices.is(&model.set)
    }
}
