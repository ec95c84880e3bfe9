//! Part of plain.rs: totals over blocks, by document 02's Req 09; where a total stands in the list, and what another length gets, is flo.h's.
//!
//! Nothing is added up: the blocks that came are kept, and each total is counted over all of them, whenever it is asked for.

use super::{ACCEPTED, DISAGREE, DONE, NO_CODEWORD, PACKETS, TOO_MANY_LOST, TOTAL_FULL};

/// Totals of a packet position, and of all sixteen.
pub const OF_POSITION: usize = 8;
pub const TOTALS: usize = 128;

/// What receiving answers of a block.
#[derive(Clone, Copy, PartialEq, Debug)]
pub struct Receipt {
    pub number: u32,
    pub lost: u16,
    pub reasons: [u8; PACKETS],
}

impl Receipt {
    pub fn is_block(&self) -> bool {
        [DONE, TOO_MANY_LOST, NO_CODEWORD].contains(&self.number)
    }

    /// Whether all reasons are known, and the mask is the sum that those other than 0 give.
    fn agrees(&self) -> bool {
        let sum: u32 = (0..PACKETS).filter(|&p| self.reasons[p] != ACCEPTED).map(|p| 1 << p).sum();
        sum == self.lost as u32 && self.reasons.iter().all(|reason| [0, 11, 12, 13, 14, 15].contains(reason))
    }

    /// Whether the total at this place of the list counts the block.
    fn is_counted(&self, place: usize) -> bool {
        let (p, which) = (place / OF_POSITION, place % OF_POSITION);
        match (which, self.reasons[p]) {
            (0, reason) => reason == ACCEPTED,
            (1, reason) => reason != ACCEPTED && self.number == DONE,
            (2, reason) => reason != ACCEPTED && self.number != DONE,
            (_, reason) => reason as usize == which + 8,
        }
    }
}

/// What the totals were at the start, and the blocks that came since then.
#[derive(Clone)]
pub struct Month {
    start: Vec<u64>,
    blocks: Vec<Receipt>,
}

impl Month {
    pub fn new(start: &[u64]) -> Month {
        Month { start: start.to_vec(), blocks: Vec::new() }
    }

    fn total(&self, place: usize) -> u128 {
        self.start[place] as u128 + self.blocks.iter().filter(|block| block.is_counted(place)).count() as u128
    }

    /// As the lent list has them, of which no number passes 2^64 - 1.
    pub fn totals(&self) -> Vec<u64> {
        (0..self.start.len()).map(|place| self.total(place) as u64).collect()
    }

    pub fn add(&mut self, receipt: &Receipt) -> u32 {
        if !receipt.is_block() {
            return DONE;
        }
        if self.start.len() != TOTALS || !receipt.agrees() {
            return DISAGREE;
        }
        self.blocks.push(*receipt);
        if (0..TOTALS).any(|place| self.total(place) > u64::MAX as u128) {
            self.blocks.pop();
            return TOTAL_FULL;
        }
        DONE
    }

    /// How many blocks came since the start.
    pub fn blocks(&self) -> usize {
        self.blocks.len()
    }
}
