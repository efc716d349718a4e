//! The crate beside include/oz.h: the same words for each number, the same names and arguments, the same lengths.
use oz::raw::Answer;
use oz::{raw, Refusal};

const HEADER: &str = include_str!("../../include/oz.h");
const RAW: &str = include_str!("../src/raw.rs");

/// The number of an enumerator or of a plain macro of the header.
fn constant(name: &str) -> usize {
    let after = |sign: &str| HEADER.split(&format!("{name}{sign}")).nth(1);
    let text = after(" = ").or_else(|| HEADER.split(&format!("#define {name} ")).nth(1)).unwrap_or_else(|| panic!("no {name}"));
    let digits: String = text.chars().take_while(|c| c.is_ascii_digit()).collect();
    digits.parse().unwrap_or_else(|_| panic!("{name} is {}", &text[..10]))
}

#[test]
fn each_number_has_the_same_words() {
    let body = HEADER.split("oz_words(unsigned number) {").nth(1).unwrap().split("default:").next().unwrap();
    for number in 1..=18 {
        let refusal = Refusal::of(Answer::plain(number, 0)).unwrap();
        assert_eq!(refusal.number(), number);
        let line = body.lines().find(|line| line.contains(&format!("\"{refusal}\""))).unwrap_or_else(|| panic!("no words for {number}"));
        let name = line.trim().strip_prefix("case ").unwrap().split(':').next().unwrap();
        assert_eq!(constant(name), number as usize, "{line}");
    }
    assert_eq!(body.matches("case ").count(), 1 + 18 + 8);
    assert_eq!(Refusal::of(Answer::plain(0, 0)), None);
    assert_eq!(Refusal::of(Answer::plain(19, 0)), None);
}

/// The header's parameters as Rust's macro writes them: a pointer and its length are a slice.
fn parameters(text: &str) -> Vec<String> {
    let one = |p: &str| p.split_whitespace().collect::<Vec<_>>().join(" ");
    let all: Vec<String> = text.split(',').map(one).filter(|p| !p.ends_with("_len")).collect();
    let word = |p: &str| match p {
        p if p.contains("uint64_t") => "u64",
        p if p.contains("uint32_t") => "u32",
        p if p.contains("uint8_t") => "u8",
        p => panic!("{p}"),
    };
    all.iter()
        .map(|p| match p.split_once('*') {
            Some((kind, name)) if kind.starts_with("const") => format!("{name}: &[{}]", word(kind)),
            Some((kind, name)) => format!("{name}: &mut [{}]", word(kind)),
            None => format!("{}: {}", p.rsplit(' ').next().unwrap(), word(p)),
        })
        .collect()
}

#[test]
fn each_export_has_the_same_arguments() {
    let mut count = 0;
    for declared in HEADER.split("\nuint64_t oz_").skip(1) {
        let (name, rest) = declared.split_once('(').unwrap();
        let wanted = parameters(rest.split(')').next().unwrap());
        let ours = RAW.split(&format!(" oz_{name} ")).nth(1).unwrap_or_else(|| panic!("no oz_{name}")).split(");").next().unwrap();
        let ours = ours.split_once(|c: char| c.is_whitespace()).unwrap().1;
        let ours: Vec<String> = ours.split(',').map(|p| p.trim().to_string()).filter(|p| !p.is_empty()).collect();
        assert_eq!(ours, wanted, "oz_{name}");
        count += 1;
    }
    assert_eq!(count, 26);
    assert_eq!(RAW.matches("\nexport!(").count(), 26);
}

#[test]
fn each_length_and_each_offset_is_the_same() {
    let pairs = [
        ("OZ_ABI", raw::ABI),
        ("OZ_HEAD_WORDS", raw::HEAD_WORDS),
        ("OZ_CURSOR_WORDS", raw::CURSOR_WORDS),
        ("OZ_READER_WORDS", raw::READER_WORDS),
        ("OZ_LOADER_WORDS", raw::LOADER_WORDS),
        ("OZ_SHOWN_WORDS", raw::SHOWN_WORDS),
        ("OZ_TOTALS_WORDS", raw::TOTALS_WORDS),
        ("OZ_SLOTS_MOST", raw::SLOTS_MOST),
        ("OZ_LINES_MOST", raw::LINES_MOST),
        ("OZ_TABLES_MOST", raw::TABLES_MOST),
        ("OZ_BINS_MOST", raw::BINS_MOST),
        ("OZ_HEADERS_MOST", raw::HEADERS_MOST),
        ("OZ_PLACE", raw::PLACE),
        ("OZ_STATE", raw::STATE),
        ("OZ_PARENT", raw::PARENT),
        ("OZ_LEFT", raw::LEFT),
        ("OZ_RIGHT", raw::RIGHT),
        ("OZ_PREV", raw::PREV),
        ("OZ_NEXT", raw::NEXT),
        ("OZ_ROOT", raw::ROOT),
        ("OZ_FIRST", raw::FIRST),
        ("OZ_COUNT", raw::COUNT),
    ];
    for (name, ours) in pairs {
        assert_eq!(constant(name), ours, "{name}");
    }
}
