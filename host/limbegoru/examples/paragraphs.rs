//! A host that keeps paragraphs in memory of its own: it gives out free bytes, takes them back, is told where it takes
//! some back twice, and reads how many bytes it had to spare.
//! `cargo run --offline --release -p limbegoru --example paragraphs`

use limbegoru::{ListLand, Mode, Range, Refusal};

const BASE: u64 = 4096;

fn main() -> Result<(), Refusal> {
    let mut words = [0; 64];
    let all = Range::new(BASE, BASE + 8 * words.len() as u64);
    let mut land = ListLand::open(all.base, all.limit, 8, &mut words)?;
    land.insert(all)?;

    let first = land.find_first(40, Mode::Low)?;
    let second = land.find_first(56, Mode::Low)?;
    println!("first paragraph at {}, second at {}", first.range.base, second.range.base);
    let at = (first.range.base - BASE) / 8;
    land.words_mut()[at as usize] = u64::from_le_bytes(*b"Once upo");

    land.insert(first.range)?;
    println!("the first is released");
    match land.insert(first.range) {
        Err(refusal @ Refusal::Overlap) => println!("released again: {refusal}"),
        other => panic!("a second release is refused, but this was answered: {other:?}"),
    }
    for range in land.ranges() {
        let range = range?;
        println!("free: {} to {}", range.base, range.limit);
    }
    assert_eq!(land.handle().bytes, all.length() - second.range.length());
    let spare = land.low_water().unwrap_or(0);
    println!("low water: {spare} of {} bytes were free at the least", all.length());
    assert_eq!(spare, all.length() - first.range.length() - second.range.length());
    Ok(())
}
