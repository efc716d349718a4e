//! Names go in; one is found by its pair and by its position, and taken back. From the repository's root, on x86-64:
//!   ./library
//!   cargo run --manifest-path rust/Cargo.toml --example index
//! or, with rustc alone, after the first line:
//!   rustc --edition 2021 -O --crate-type rlib --crate-name oz -L native=target/staticlib -l static=exports \
//!     --out-dir target rust/src/lib.rs
//!   rustc --edition 2021 -O --extern oz=target/liboz.rlib -o target/index-rs examples/index.rs && target/index-rs
//! It prints
//!   slot 0, mark 1, slot 1, found at 1 in 2 looks, name 2 of 2, back 1, found nowhere
use oz::{Index, Refusal};

fn main() -> Result<(), Refusal> {
    let mut index = Index::new(64, 16)?;
    print!("slot {}, ", index.insert(17, 1, 10)?);
    let mark = index.mark();
    print!("mark {mark}, ");
    let slot = index.insert(42, 2, 20)?;
    print!("slot {slot}, ");
    let found = index.find(42, 2)?;
    assert_eq!(found.slot, Some(slot));
    print!("found at {slot} in {} looks, ", found.looks);
    let at = index.position(42, 2)?;
    assert_eq!(index.kth(at)?, slot);
    print!("name {} of {}, ", at + 1, index.len());
    print!("back {}, ", index.rollback(mark)?);
    println!("found {}", if index.find(42, 2)?.slot.is_none() { "nowhere" } else { "still" });
    Ok(())
}
