//! A pair of lands records every release, however short its node space: what has no room there stands in the list.
//! `cargo run --offline --release -p limbegoru --example short_table`

use limbegoru::{BlockLand, ListLand, Mode, Pair, Range, Refusal};

fn main() -> Result<(), Refusal> {
    let (mut words, mut nodes) = ([0; 64], [0; 2]); // node space for one range
    let list = ListLand::open(4096, 4608, 8, &mut words)?;
    let block = BlockLand::open(4096, 4608, 8, &mut nodes)?;
    let mut pair = Pair::new(list, block);

    for base in [4096, 4176, 4256] {
        pair.insert(Range::new(base, base + 40))?;
    }
    println!("{} range in the table, {} in the list", pair.handle().block.ranges, pair.handle().list.ranges);

    let last = pair.find_last(16, Mode::High)?;
    println!(
        "found {} to {}, at the end of {} to {}",
        last.range.base, last.range.limit, last.old.base, last.old.limit
    );
    for range in pair.block().ranges().chain(pair.list().ranges()) {
        let range = range?;
        println!("free: {} to {}", range.base, range.limit);
    }
    if let (Some(tabled), Some(listed)) = (pair.block().low_water(), pair.list().low_water()) {
        println!("low water: {tabled} bytes in the table, {listed} in the list");
    }
    let handle = pair.handle();
    assert_eq!(handle.block.bytes + handle.list.bytes, 3 * 40 - last.range.length());
    Ok(())
}
