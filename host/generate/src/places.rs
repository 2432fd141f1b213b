//! Blocks out of place: what a copying tool may do to a sound file, and the check that the rules meet first.

use scene::{seal_block_from, BLOCK};

use crate::rules::{wrong_check, Case};

/// Two blocks exchanged.
pub fn exchange(file: &mut [u8], a: usize, b: usize) {
    for i in 0..BLOCK {
        file.swap(BLOCK * a + i, BLOCK * b + i);
    }
}

/// A sound file with every block exchanged with each of the next eight, or lost under it; with neighbouring draws
/// exchanged; and with checks whose sums begin at 0, in one block after the first or in all.
pub fn cases(file: &[u8]) -> impl Iterator<Item = Case> + '_ {
    let blocks = file.len() / BLOCK;
    let pairs = move || (0..blocks).flat_map(move |a| (a + 1..blocks.min(a + 9)).map(move |b| (a, b)));
    let exchanged = pairs().map(|(a, b)| spoiled(file, format!("blocks {a} and {b}"), a, |file| exchange(file, a, b)));
    let lost = pairs().map(|(a, b)| {
        let name = format!("block {b} over block {a}");
        spoiled(file, name, a, |file| file.copy_within(BLOCK * b..BLOCK * (b + 1), BLOCK * a))
    });
    let draws = (1..blocks.saturating_sub(4)).step_by(4).map(|a| {
        let four = |file: &mut [u8]| (a..a + 4).for_each(|block| exchange(file, block, block + 4));
        spoiled(file, format!("blocks from {a} and from {}", a + 4), a, four)
    });
    let old = (1..blocks)
        .map(|block| spoiled(file, format!("block {block} from 0"), block, |file| seal_block_from(file, block, 0)));
    let all_old = (blocks > 1).then(|| {
        let from_zero = |file: &mut [u8]| (0..blocks).for_each(|block| seal_block_from(file, block, 0));
        spoiled(file, "all blocks from 0".to_string(), 1, from_zero)
    });
    exchanged.chain(lost).chain(draws).chain(old).chain(all_old)
}

/// The file with a change, which the check of a block tells.
fn spoiled(file: &[u8], name: String, block: usize, change: impl FnOnce(&mut [u8])) -> Case {
    let mut bytes = file.to_vec();
    change(&mut bytes);
    Case { name, bytes, fault: Some(wrong_check(block)) }
}
