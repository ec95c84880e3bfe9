//! The tests of totals over blocks: long sequences in any order, every way in which a mask and reasons can disagree, totals at the top (2^64 - 1) and
//! one below it, lists of other lengths, numbers that are no block's, and what receiving answers.
//!
//! What has to come of a receipt is nearly always known beforehand; so the plain program is tested as well.

use crate::check_profile::{damaged, random_profile, written, KS, MODES};
use crate::check_receive::{any_grid, clean_grid, Receiving};
use crate::check_tools::{Call, Given, Kind, Random, Room, Tally};
use crate::library;
use crate::plain::{self, Month, Receipt, Received, ACCEPTED, DISAGREE, DONE, NO_CODEWORD, OF_POSITION, PACKETS, STATE};
use crate::plain::{MARKED, TOO_MANY_LOST, TOTALS, TOTAL_FULL};
use std::ops::RangeInclusive;

/// The numbers of a received block.
const BLOCKS: [u32; 3] = [DONE, TOO_MANY_LOST, NO_CODEWORD];
/// The reasons of a lost packet.
const REASONS: RangeInclusive<u8> = 11..=15;
const TOP: u64 = u64::MAX;
/// As many blocks the plain program counts over, before it starts anew with the totals that these gave: else a long sequence would take too long.
const COUNTED: usize = 20;

// ---- receipts

/// Numbers that are no block's: the others of the table and some of no table, all that differ from a block's in one bit, and what is a block's in
/// its lower bits or but for its sign.
fn no_block_numbers() -> Vec<u32> {
    let near = BLOCKS.into_iter().flat_map(|number| (0..32).map(move |bit| number ^ 1 << bit));
    let high = BLOCKS.into_iter().flat_map(|number| [number | 0xFFFF_FF00, number | 0x7FFF_0000, number.wrapping_neg(), !number]);
    let all = (0..=64).chain(near).chain(high).chain([90, 100, 255, 1000, 1 << 31, u32::MAX - 1, u32::MAX]);
    all.filter(|number| !BLOCKS.contains(number)).collect()
}

fn lost_reason(random: &mut Random) -> u8 {
    REASONS.start() + random.below(5) as u8
}

/// A right receipt of these lost packets, with any reasons for them.
fn receipt_of(random: &mut Random, number: u32, lost: u16) -> Receipt {
    let mut reasons = [ACCEPTED; PACKETS];
    (0..PACKETS).filter(|p| lost >> p & 1 == 1).for_each(|p| reasons[p] = lost_reason(random));
    Receipt { number, lost, reasons }
}

/// A right receipt: nothing lost, one packet, few, any, all.
fn any_block(random: &mut Random, number: u32) -> Receipt {
    let [a, b, c] = [(); 3].map(|_| random.next() as u16);
    let lost = random.pick(&[0, 1 << (a % 16), a & b & c, a & b, a, a, a | b, !(1 << (a % 16)), 0xFFFF]);
    receipt_of(random, number, lost)
}

/// The receipt with another reason for one packet, and its bit set where it should be.
fn with_reason(receipt: &Receipt, p: usize, reason: u8) -> Receipt {
    let mut other = *receipt;
    other.reasons[p] = reason;
    other.lost = receipt.lost & !(1 << p) | u16::from(reason != ACCEPTED) << p;
    other
}

fn unknown_reason(random: &mut Random) -> u8 {
    let any = random.next() as u8;
    let reason = random.pick(&[1, 2, 9, 10, 16, 17, 32, 128, 255, any]);
    if REASONS.contains(&reason) || reason == ACCEPTED { 10 } else { reason }
}

/// The receipt made wrong: bits of its mask turned over, an unknown reason with or without its bit, or an accepted packet's reason and a lost one's
/// exchanged, where it has both.
fn wrong(random: &mut Random, right: &Receipt) -> Receipt {
    let (p, q, mut receipt) = (random.below(PACKETS), random.below(PACKETS), *right);
    match random.below(4) {
        0 => receipt.lost ^= 1 << p,
        1 => receipt = with_reason(right, p, unknown_reason(random)),
        2 if (right.lost >> p ^ right.lost >> q) & 1 == 1 => receipt.reasons.swap(p, q),
        _ => receipt.lost ^= 1 + random.below(0xFFFF) as u16,
    }
    if random.percent(20) {
        receipt.reasons[p] = unknown_reason(random);
    }
    receipt
}

/// With a number that is no block's: right otherwise, wrong, or anything.
fn any_no_block(random: &mut Random, number: u32) -> Receipt {
    let right = any_block(random, number);
    match random.below(4) {
        0 => right,
        1 => wrong(random, &right),
        2 => Receipt { number, lost: 0, reasons: [0; PACKETS] },
        _ => Receipt { number, lost: random.next() as u16, reasons: random.bytes(PACKETS).try_into().unwrap() },
    }
}

/// The places of the totals that a right receipt of a block raises.
fn raised(receipt: &Receipt) -> Vec<usize> {
    let of_packet = |(p, &reason): (usize, &u8)| match (reason, receipt.number) {
        (ACCEPTED, _) => vec![OF_POSITION * p],
        (_, DONE) => vec![OF_POSITION * p + 1, OF_POSITION * p + reason as usize - 8],
        _ => vec![OF_POSITION * p + 2, OF_POSITION * p + reason as usize - 8],
    };
    receipt.reasons.iter().enumerate().flat_map(of_packet).collect()
}

// ---- totals by both programs

struct Totals {
    /// The lent list, behind it room for one that is right, and guards around both: so a library that doesn't look at the length is found out too.
    room: Room<u64>,
    length: usize,
    plain: Month,
}

impl Totals {
    fn new(random: &mut Random, start: &[u64]) -> Totals {
        let mut room = Room::new(random, start.len() + TOTALS);
        room.lent()[..start.len()].copy_from_slice(start);
        Totals { room, length: start.len(), plain: Month::new(start) }
    }

    fn list(&mut self) -> &mut [u64] {
        &mut self.room.lent()[..self.length]
    }

    /// Adds a receipt with both programs; compares the number, also with the one that is known, and all of the memory.
    fn add(&mut self, tally: &mut Tally, label: &str, receipt: &Receipt, known: Option<u32>) {
        let (before, mut reasons) = (self.room.clone(), receipt.reasons);
        count_kinds(tally, receipt, self.list());
        let number = library::add(self.list(), receipt.number, receipt.lost, &mut reasons);
        let plain = self.plain.add(receipt);
        let (mut right, totals) = (before.clone(), self.plain.totals());
        right.lent()[..self.length].copy_from_slice(&totals);
        let is_added = number == DONE && receipt.is_block();
        let tests = [
            ("totals differ", self.room.same(&right)),
            ("a total moved that mustn't", is_added || self.room.same(&before)),
            ("nothing moved", !is_added || !self.room.same(&before)),
            ("the reasons were changed", reasons == receipt.reasons),
        ];
        tally.case(Call::Add, Given::NOTHING, label, number, plain, &tests);
        if let Some(known) = known {
            tally.known(label, plain.into(), known.into());
        }
        if self.plain.blocks() == COUNTED {
            self.plain = Month::new(&totals);
        }
    }
}

fn count_kinds(tally: &mut Tally, receipt: &Receipt, list: &[u64]) {
    let bits = (0..PACKETS).map(|p| (receipt.lost >> p & 1 == 1, receipt.reasons[p]));
    let (bit_alone, reason_alone) = (bits.clone().any(|(bit, reason)| bit && reason == 0), bits.clone().any(|(bit, reason)| !bit && reason != 0));
    let unknown = bits.clone().any(|(_, reason)| reason != ACCEPTED && !REASONS.contains(&reason));
    let (is_wrong, has_full, is_block) = (bit_alone || reason_alone || unknown, list.contains(&TOP), BLOCKS.contains(&receipt.number));
    let is_right = is_block && !is_wrong && list.len() == TOTALS;
    let rising: Vec<u64> = if is_right { raised(receipt).into_iter().map(|place| list[place]).collect() } else { Vec::new() };
    let would_pass = rising.contains(&TOP);
    let kinds = [
        (Kind::NothingLost, is_right && receipt.lost == 0),
        (Kind::SomeLost, is_right && receipt.lost != 0 && receipt.lost != 0xFFFF),
        (Kind::AllLost, is_right && receipt.lost == 0xFFFF),
        (Kind::BitAlone, is_block && bit_alone && !reason_alone && !unknown),
        (Kind::ReasonAlone, is_block && reason_alone && !bit_alone && !unknown),
        (Kind::UnknownReason, is_block && unknown && !bit_alone && !reason_alone),
        (Kind::OtherLength, is_block && !is_wrong && list.len() != TOTALS),
        (Kind::ToTheTop, is_right && !would_pass && rising.contains(&(TOP - 1))),
        (Kind::FullRises, is_right && would_pass),
        (Kind::FullStays, is_right && has_full && !would_pass),
        (Kind::WrongBesideFull, is_block && is_wrong && has_full),
        (Kind::NoBlock, !is_block && !is_wrong),
        (Kind::WrongNoBlock, !is_block && is_wrong),
        (Kind::NoBlockBesideFull, !is_block && has_full),
        (Kind::NoBlockOtherLength, !is_block && list.len() != TOTALS),
    ];
    kinds.iter().filter(|kind| kind.1).for_each(|kind| tally.kind(kind.0));
}

/// Small totals, as of some blocks.
fn small(random: &mut Random) -> Vec<u64> {
    (0..TOTALS).map(|_| random.next() % 1000).collect()
}

// ---- by hand

/// The report that document 01 prints, then the same packets lost in a block that ended in 0 and in one that ended in 10, each for another reason.
fn example_case(random: &mut Random, tally: &mut Tally) {
    let mut totals = Totals::new(random, &[0; TOTALS]);
    for (number, reason) in [(9, 11), (0, 12), (10, 15)] {
        let reasons = [0, 0, reason, 0, 0, reason, 0, 0, 0, reason, 0, 0, 0, 0, 0, 0];
        totals.add(tally, "an example", &Receipt { number, lost: 548, reasons }, Some(DONE));
    }
    for (p, eight) in totals.list().chunks_exact(OF_POSITION).enumerate() {
        let by_hand = if [2, 5, 9].contains(&p) { [0, 1, 2, 1, 1, 0, 0, 1] } else { [3, 0, 0, 0, 0, 0, 0, 0] };
        if eight != by_hand {
            tally.difference(&format!("add, an example: position {p} has {eight:?}, not {by_hand:?}"));
        }
    }
}

// ---- sequences

/// Receipts with the number that adding each must answer while no total is full: three of five are right ones of a block.
fn sequence(random: &mut Random, length: usize) -> Vec<(Receipt, u32)> {
    let numbers = no_block_numbers();
    let mut receipts = Vec::new();
    for _ in 0..length {
        let (number, other) = (random.pick(&BLOCKS), random.pick(&numbers));
        let right = any_block(random, number);
        receipts.push(match random.below(5) {
            0 => (wrong(random, &right), DISAGREE),
            1 => (any_no_block(random, other), DONE),
            _ => (right, DONE),
        });
    }
    receipts
}

/// The totals that the library gives for a sequence, beginning with zeros.
fn added(random: &mut Random, tally: &mut Tally, label: &str, receipts: &[(Receipt, u32)]) -> Vec<u64> {
    let mut totals = Totals::new(random, &[0; TOTALS]);
    receipts.iter().for_each(|(receipt, known)| totals.add(tally, label, receipt, Some(*known)));
    totals.list().to_vec()
}

/// A sequence, and the same one in another order. The sums that the totals must have are counted over the sequence itself.
fn sequence_case(random: &mut Random, tally: &mut Tally, length: usize) {
    let receipts = sequence(random, length);
    let totals = added(random, tally, "a sequence", &receipts);
    let blocks: Vec<&Receipt> = receipts.iter().filter(|(receipt, known)| *known == DONE && receipt.is_block()).map(|(receipt, _)| receipt).collect();
    let places: Vec<usize> = blocks.iter().flat_map(|block| raised(block)).collect();
    let mut counted = vec![0; TOTALS];
    places.iter().for_each(|&place| counted[place] += 1);
    if totals != counted {
        tally.difference("add, a sequence: the totals aren't what the whole sequence counts to");
    }
    for (p, eight) in totals.chunks_exact(OF_POSITION).enumerate() {
        let sum = |totals: &[u64]| totals.iter().map(|&total| total as u128).sum::<u128>();
        if sum(&eight[..3]) != blocks.len() as u128 || sum(&eight[3..]) != sum(&eight[1..3]) {
            tally.difference(&format!("add, a sequence: the sums of position {p} aren't the number of blocks and of losses"));
        }
    }
    let other: Vec<(Receipt, u32)> = random.some(length, length).into_iter().map(|i| receipts[i]).collect();
    if added(random, tally, "the same in another order", &other) != totals {
        tally.difference("add, the same in another order: other totals");
    }
}

/// Several lists by turns: nothing may be kept from one call for the next.
fn turns_case(random: &mut Random, tally: &mut Tally) {
    let mut lists = [(); 5].map(|_| {
        let start = small(random);
        Totals::new(random, &start)
    });
    for (receipt, known) in sequence(random, 3000) {
        let i = random.below(lists.len());
        lists[i].add(tally, "several lists by turns", &receipt, Some(known));
    }
}

/// Totals of any size, many of them near the top, so that some sooner or later are full. What comes is the plain program's to say.
fn large_case(random: &mut Random, tally: &mut Tally) {
    let share = random.pick(&[1, 5, 30, 100]);
    let start: Vec<u64> = (0..TOTALS)
        .map(|_| if random.percent(share) { TOP - random.next() % 40 } else { random.next() << random.below(17) })
        .collect();
    let mut totals = Totals::new(random, &start);
    for (receipt, _) in sequence(random, 60) {
        totals.add(tally, "totals of any size", &receipt, None);
    }
}

// ---- a mask and reasons that disagree

/// Every reason at every position, with its bit and without it, beside others that are right: none lost, all, any.
fn byte_cases(random: &mut Random, tally: &mut Tally) {
    for (number, p) in BLOCKS.into_iter().flat_map(|number| (0..PACKETS).map(move |p| (number, p))) {
        let any = random.next() as u16;
        for others in [0, 0xFFFF, any] {
            let start = small(random);
            let (mut totals, beside) = (Totals::new(random, &start), receipt_of(random, number, others));
            for (reason, bit) in (0..=255).flat_map(|reason| [0, 1].map(|bit| (reason, bit))) {
                let mut receipt = Receipt { lost: others & !(1 << p) | bit << p, ..beside };
                receipt.reasons[p] = reason;
                let is_right = if bit == 1 { REASONS.contains(&reason) } else { reason == ACCEPTED };
                totals.add(tally, "a reason with its bit or without", &receipt, Some(if is_right { DONE } else { DISAGREE }));
            }
        }
    }
}

/// A bit of the mask turned over, two bits, all; the mask moved by a place, turned round, with its bytes exchanged; the reasons likewise.
fn mask_cases(random: &mut Random, tally: &mut Tally) {
    let mut totals = Totals::new(random, &[0; TOTALS]);
    for number in (0..150).flat_map(|_| BLOCKS) {
        let right = any_block(random, number);
        totals.add(tally, "right beside turned bits", &right, Some(DONE));
        for p in 0..PACKETS {
            let q = (p + 1 + random.below(PACKETS - 1)) % PACKETS;
            for turned in [1 << p, 1 << p | 1 << q] {
                totals.add(tally, "turned bits", &Receipt { lost: right.lost ^ turned, ..right }, Some(DISAGREE));
            }
        }
        let (lost, mut turned, mut moved) = (right.lost, right.reasons, right.reasons);
        turned.reverse();
        moved.rotate_right(1);
        let masks = [!lost, lost << 1, lost >> 1, lost.rotate_left(1), lost.rotate_right(1), lost.reverse_bits(), lost.swap_bytes(), 0, 0xFFFF];
        for other in masks {
            totals.add(tally, "another mask", &Receipt { lost: other, ..right }, Some(if other == lost { DONE } else { DISAGREE }));
        }
        for (reasons, mask) in [(turned, lost.reverse_bits()), (moved, lost.rotate_left(1))] {
            totals.add(tally, "other reasons", &Receipt { reasons, ..right }, Some(if mask == lost { DONE } else { DISAGREE }));
            totals.add(tally, "other reasons and their mask", &Receipt { number, lost: mask, reasons }, Some(DONE));
        }
    }
}

/// Every mask: with any reasons that are right for it, and with the same reasons as all others.
fn every_mask_cases(random: &mut Random, tally: &mut Tally) {
    let mut totals = Totals::new(random, &[0; TOTALS]);
    let numbers = BLOCKS.map(|number| any_block(random, number));
    for lost in 0..=0xFFFF {
        let number = random.pick(&BLOCKS);
        let right = receipt_of(random, number, lost);
        totals.add(tally, "every mask, right", &right, Some(DONE));
        let same = random.pick(&numbers);
        let known = if lost == same.lost { DONE } else { DISAGREE };
        totals.add(tally, "every mask, the same reasons", &Receipt { lost, ..same }, Some(known));
    }
}

// ---- totals at the top

/// Each total alone at the top or one below it, with every outcome of its packet; then the same once more, made wrong, and as no block.
fn alone_cases(random: &mut Random, tally: &mut Tally) {
    let numbers = no_block_numbers();
    for (place, number) in (0..TOTALS).flat_map(|place| BLOCKS.map(|number| (place, number))) {
        for (reason, below) in [ACCEPTED].into_iter().chain(REASONS).flat_map(|reason| [0, 1].map(|below| (reason, below))) {
            let receipt = with_reason(&any_block(random, number), place / OF_POSITION, reason);
            let rises = raised(&receipt).contains(&place);
            let mut start = small(random);
            start[place] = TOP - below;
            let mut totals = Totals::new(random, &start);
            let (none, other) = (Receipt { number: random.pick(&numbers), ..receipt }, wrong(random, &receipt));
            totals.add(tally, "a total at the top", &receipt, Some(if rises && below == 0 { TOTAL_FULL } else { DONE }));
            totals.add(tally, "a total at the top, again", &receipt, Some(if rises { TOTAL_FULL } else { DONE }));
            totals.add(tally, "a total at the top, a wrong receipt", &other, Some(DISAGREE));
            totals.add(tally, "a total at the top, no block", &none, Some(DONE));
        }
    }
}

/// All totals at the top but for those that rise, which are one below it: they reach it, and then are full. Then the other way round, with each of
/// those that rise in turn at the top.
fn just_these_cases(random: &mut Random, tally: &mut Tally) {
    for number in (0..30).flat_map(|_| BLOCKS) {
        let receipt = any_block(random, number);
        let places = raised(&receipt);
        let mut start = vec![TOP; TOTALS];
        places.iter().for_each(|&place| start[place] = TOP - 1);
        let mut totals = Totals::new(random, &start);
        totals.add(tally, "all that don't rise at the top", &receipt, Some(DONE));
        totals.add(tally, "all at the top", &receipt, Some(TOTAL_FULL));
        for &place in &places {
            let mut start = vec![TOP - 1; TOTALS];
            start[place] = TOP;
            Totals::new(random, &start).add(tally, "one that rises at the top", &receipt, Some(TOTAL_FULL));
        }
    }
}

/// All totals equal: at the top and near it, where a bit more is needed for the next number, and around the ends of smaller numbers.
fn equal_cases(random: &mut Random, tally: &mut Tally) {
    let ends = (1..64).flat_map(|bits| [(1 << bits) - 2, (1 << bits) - 1, 1 << bits]);
    for (total, number) in ends.chain([0, TOP - 2, TOP - 1, TOP]).flat_map(|total| BLOCKS.map(|number| (total, number))) {
        let mut totals = Totals::new(random, &[total; TOTALS]);
        let receipt = any_block(random, number);
        for more in 0..3 {
            let known = if total > TOP - 1 - more { TOTAL_FULL } else { DONE };
            totals.add(tally, "all totals equal", &receipt, Some(known));
        }
        let other = wrong(random, &receipt);
        totals.add(tally, "all totals equal, a wrong receipt", &other, Some(DISAGREE));
    }
}

// ---- numbers that are no block's, and lists of other lengths

fn no_block_cases(random: &mut Random, tally: &mut Tally) {
    for number in no_block_numbers() {
        for start in [vec![0; TOTALS], small(random), vec![TOP; TOTALS]] {
            let mut totals = Totals::new(random, &start);
            for _ in 0..8 {
                let receipt = any_no_block(random, number);
                totals.add(tally, "no block", &receipt, Some(DONE));
            }
        }
    }
}

/// Around the right length, and what is the right one in other units or in its lower bits.
fn length_cases(random: &mut Random, tally: &mut Tally) {
    let numbers = no_block_numbers();
    for length in (0..=136).chain([255, 256, 384, 1000, 1024, 65_536, 65_664]) {
        for total in [0, 7, TOP - 1, TOP] {
            let mut totals = Totals::new(random, &vec![total; length]);
            for number in BLOCKS {
                let right = any_block(random, number);
                let (other, none) = (wrong(random, &right), random.pick(&numbers));
                let known = if length != TOTALS { DISAGREE } else if totals.list().contains(&TOP) { continue } else { DONE };
                totals.add(tally, "lists of these lengths", &right, Some(known));
                totals.add(tally, "lists of these lengths, a wrong receipt", &other, Some(DISAGREE));
                let none = any_no_block(random, none);
                totals.add(tally, "lists of these lengths, no block", &none, Some(DONE));
            }
        }
    }
}

// ---- what receiving answers

fn receipt(received: &Received) -> Receipt {
    Receipt { number: received.number, lost: received.lost, reasons: received.reasons }
}

/// Receives a grid with the library, whole and in two pieces, asking after each, and adds all it answers. The plain receiver says what that is.
fn received_case(random: &mut Random, tally: &mut Tally, totals: &mut Totals, grid: &Receiving, data: usize) -> Receipt {
    let (bytes, marks) = (&grid.bytes, grid.marks);
    let known = receipt(&plain::receive_bytes(bytes, marks, &grid.firsts, &grid.seconds, &mut vec![0; data]));
    let (mut state, cells, mut room) = (vec![0; STATE], grid.firsts.len().min(grid.seconds.len()), vec![0; data]);
    let whole = receipt(&library::receive(bytes, marks, &grid.firsts, &grid.seconds, &mut room));
    let cut = random.below(cells + 1);
    let mut asked = Vec::new();
    for (from, to) in [(0, cut), (cut, cells)] {
        library::feed(bytes, &mut state, &grid.firsts[from..to], &grid.seconds[from..to]);
        asked.push(receipt(&library::ask(bytes, marks, &mut state, &mut room)));
    }
    if whole != known || known.is_block() && asked[1] != known {
        tally.difference("add, as received: not what the plain receiver says");
    }
    for receipt in [whole, asked[0], asked[1]] {
        totals.add(tally, "as received", &receipt, Some(DONE));
        tally.kind(Kind::OfReceive);
    }
    known
}

/// Grids as sent with marks, which alone are what is lost, spoilt ones, and some that are refused. Returns the numbers that came.
fn received_cases(random: &mut Random, tally: &mut Tally, mode: u8, k: u8) -> Vec<u32> {
    let mut numbers = Vec::new();
    let mut totals = Totals::new(random, &[0; TOTALS]);
    for marks in [0, 1, 0x8000, 0x0180, 0xFFFF, (1 << (16 - k)) - 1, (2 << (16 - k)) - 1] {
        let profile = random_profile(random, mode, k);
        let mut grid = clean_grid(random, "marks", profile);
        grid.marks = marks;
        let number = if marks.count_ones() > 16 - u32::from(k) { TOO_MANY_LOST } else { DONE };
        let reasons = std::array::from_fn(|p| if marks >> p & 1 == 1 { MARKED } else { ACCEPTED });
        if received_case(random, tally, &mut totals, &grid, profile.data_length()) != (Receipt { number, lost: marks, reasons }) {
            tally.difference("add, as received: not what is marked was lost");
        }
        numbers.push(number);
    }
    for turn in 0..12 {
        let mut grid = any_grid(random, mode, k);
        let (cells, profile) = (grid.firsts.len(), grid.profile);
        grid.bytes = if turn == 0 { damaged(random, &profile) } else { written(&profile) };
        let data = profile.data_length() + usize::from(turn == 1);
        let grid = if turn == 2 { grid.resize(random, data, cells, cells - 1) } else { grid };
        numbers.push(received_case(random, tally, &mut totals, &grid, data).number);
    }
    numbers
}

pub fn run(random: &mut Random, tally: &mut Tally) {
    example_case(random, tally);
    for length in [0, 1, 2, 10, 100, 1000, 1000, 1000, 20_000] {
        sequence_case(random, tally, length);
    }
    turns_case(random, tally);
    (0..200).for_each(|_| large_case(random, tally));
    byte_cases(random, tally);
    mask_cases(random, tally);
    every_mask_cases(random, tally);
    alone_cases(random, tally);
    just_these_cases(random, tally);
    equal_cases(random, tally);
    no_block_cases(random, tally);
    length_cases(random, tally);
    let modes = MODES.into_iter().flat_map(|mode| KS.map(|k| (mode, k)));
    let numbers: Vec<u32> = modes.flat_map(|(mode, k)| received_cases(random, tally, mode, k)).collect();
    if [0, 6, 7, 9, 10].iter().any(|number| !numbers.contains(number)) {
        tally.difference("add, as received: not all numbers came from receiving");
    }
}
