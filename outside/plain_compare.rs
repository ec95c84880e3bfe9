//! Part of plain.rs: two grids side by side, by document 02's Req 05; what the list holds is flo.h's. The benchmark times the library against it.

use super::{CELLS, CELL_LENGTH, DONE, LENGTHS_DIFFER};

/// Numbers of a difference in the list.
pub const DIFFERENCE: usize = 6;

/// The number, and how many cells differ. The list takes the first differences that fit whole; on a refusal it keeps what it held.
pub fn compare(firsts_a: &[u32], seconds_a: &[u32], firsts_b: &[u32], seconds_b: &[u32], differences: &mut [u32]) -> (u32, u64) {
    let length = firsts_a.len();
    if seconds_a.len() != length || firsts_b.len() != length || seconds_b.len() != length {
        return (LENGTHS_DIFFER, 0);
    }
    if length % CELLS != 0 {
        return (CELL_LENGTH, 0);
    }
    let (mut count, mut room) = (0, differences.chunks_exact_mut(DIFFERENCE));
    for i in 0..length {
        if firsts_a[i] != firsts_b[i] || seconds_a[i] != seconds_b[i] {
            count += 1;
            if let Some(six) = room.next() {
                let (symbol, cell) = ((i / CELLS) as u32, (i % CELLS) as u32);
                six.copy_from_slice(&[symbol, cell, firsts_a[i], seconds_a[i], firsts_b[i], seconds_b[i]]);
            }
        }
    }
    (DONE, count)
}
