//! The tests of comparing two grids: special patterns in every part and place, lists of every size around the differences, refusals, grids
//! as sent.
//!
//! Most differences are made one by one, so that the list is known beforehand; so the plain program is tested as well.

use crate::check_profile::{random_profile, written, KS, MODES};
use crate::check_tools::{same, Call, Given, Kind, Random, Room, Tally};
use crate::library;
use crate::plain::{self, Profile, CELLS, CELL_LENGTH, DIFFERENCE, DONE, LENGTHS_DIFFER, POINTS};
use std::collections::BTreeMap;
use std::hint::black_box;

/// Both zeros, subnormals, the smallest normal, both ones, the largest, both infinities, and NaNs of both signs, quiet and signalling.
const SPECIAL: [u32; 18] = [
    0, 0x8000_0000, 1, 0x8000_0001, 0x007F_FFFF, 0x0080_0000, 0x3F80_0000, 0xBF80_0000, 0x7F7F_FFFF, 0x7F80_0000, 0xFF80_0000,
    0x7FC0_0000, 0x7FC0_0001, 0x7F80_0001, 0xFFC0_0000, 0xFF80_0001, 0xFFFF_FFFF, 0x7FFF_FFFF,
];

/// First and second parts of A, then of B.
type Lists<'a> = [&'a [u32]; 4];
type Difference = [u32; DIFFERENCE];

fn count_kinds(tally: &mut Tally, cells: usize, count: usize, length: usize) {
    let due = DIFFERENCE * count;
    let kinds = [
        (Kind::NoneDiffer, count == 0),
        (Kind::AllDiffer, count > 0 && count == cells),
        (Kind::NoList, count > 0 && length == 0),
        (Kind::ShortList, length > 0 && length < due),
        (Kind::TornList, length < due && length % DIFFERENCE != 0),
        (Kind::ExactList, count > 0 && length == due),
        (Kind::LongerList, count > 0 && length > due),
    ];
    kinds.iter().filter(|kind| kind.1).for_each(|kind| tally.kind(kind.0));
}

/// The list that is right: the first differences that fit whole, and behind them what was there.
fn filled(room: &Room<u32>, known: &[Difference]) -> Room<u32> {
    let mut right = room.clone();
    right.lent().chunks_exact_mut(DIFFERENCE).zip(known).for_each(|(six, difference)| six.copy_from_slice(difference));
    right
}

/// Runs both programs on copies of the same list and compares all of it, guards too; and with what is known beforehand of the differences.
/// Returns the library's list and count.
fn compare(tally: &mut Tally, label: &str, lists: Lists, room: &Room<u32>, known: Option<&[Difference]>) -> (Room<u32>, u64) {
    let (mut list, mut own, before) = (room.clone(), room.clone(), lists.map(<[u32]>::to_vec));
    let [firsts_a, seconds_a, firsts_b, seconds_b] = lists;
    let (number, count) = library::compare(firsts_a, seconds_a, firsts_b, seconds_b, list.lent());
    let kept = black_box(lists).iter().zip(&before).all(|(list, before)| same(list, before));
    let (own_number, own_count) = plain::compare(firsts_a, seconds_a, firsts_b, seconds_b, own.lent());
    let made = |known: &[Difference], list: &Room<u32>, count: u64| count == known.len() as u64 && list.same(&filled(room, known));
    let as_made = |list: &Room<u32>, count: u64| known.map_or(true, |known| made(known, list, count));
    let tests = [
        ("counts differ", count == own_count),
        ("lists differ", list.same(&own)),
        ("a refusal changed the list", number == DONE || list.same(room)),
        ("a refusal counts", number == DONE || count == 0),
        ("not the differences that were made", as_made(&list, count)),
        ("plain: not the differences that were made", as_made(&own, own_count)),
        ("the grids were changed", kept),
    ];
    tally.case(Call::Compare, Given::NOTHING, label, number, own_number, &tests);
    if own_number == DONE {
        count_kinds(tally, firsts_a.len(), own_count as usize, own.lent().len());
    }
    (list, count)
}

/// A part: every second one has a special pattern, the others have any.
fn part(random: &mut Random) -> u32 {
    if random.percent(50) { random.pick(&SPECIAL) } else { random.next() as u32 }
}

/// Two parts that aren't the same.
fn unequal(random: &mut Random) -> (u32, u32) {
    let (one, other) = (part(random), part(random));
    if one == other { (one, one ^ 1 << random.below(32)) } else { (one, other) }
}

// ---- grids that differ only where the test made it so

struct Pair {
    lists: [Vec<u32>; 4],
    /// The parts of A and B in each cell that differs, by its place in the grid.
    made: BTreeMap<usize, [u32; 4]>,
}

impl Pair {
    /// Twice the same grid.
    fn new(random: &mut Random, symbols: usize) -> Pair {
        let [firsts, seconds]: [Vec<u32>; 2] = [(); 2].map(|_| (0..CELLS * symbols).map(|_| part(random)).collect());
        Pair { lists: [firsts.clone(), seconds.clone(), firsts, seconds], made: BTreeMap::new() }
    }

    fn cells(&self) -> usize {
        self.lists[0].len()
    }

    /// Sets both parts of A and both of B in a cell.
    fn put(&mut self, place: usize, parts: [u32; 4]) {
        self.lists.iter_mut().zip(parts).for_each(|(list, part)| list[place] = part);
        if parts[..2] == parts[2..] {
            self.made.remove(&place);
        } else {
            self.made.insert(place, parts);
        }
    }

    /// Makes a cell differ: in its first part, in its second, in both.
    fn spoil(&mut self, random: &mut Random, place: usize) {
        let ((x, y), (z, w)) = (unequal(random), unequal(random));
        let parts = random.pick(&[[x, z, y, z], [z, x, z, y], [x, z, y, w], [x, y, y, x]]);
        self.put(place, parts);
    }

    /// Numbers that a list for all differences has.
    fn due(&self) -> usize {
        DIFFERENCE * self.made.len()
    }

    fn compare(&self, random: &mut Random, tally: &mut Tally, label: &str, length: usize) -> (Room<u32>, u64) {
        let known: Vec<Difference> = self
            .made
            .iter()
            .map(|(place, &[a, b, c, d])| [(place / CELLS) as u32, (place % CELLS) as u32, a, b, c, d])
            .collect();
        let room = Room::new(random, length);
        compare(tally, label, self.lists.each_ref().map(|list| &list[..]), &room, Some(&known))
    }

    /// Compares with these parts in one cell; afterwards A and B are the same there.
    fn alone(&mut self, random: &mut Random, tally: &mut Tally, label: &str, place: usize, parts: [u32; 4]) {
        self.put(place, parts);
        let length = random.pick(&[0, 5, 6, 7, 12]);
        self.compare(random, tally, label, length);
        self.put(place, [parts[0], parts[1], parts[0], parts[1]]);
    }

    /// Each symbol alone gives its part of the whole grid's list, where its number is added.
    fn by_symbols(&self, random: &mut Random, tally: &mut Tally) {
        let (mut whole, count) = self.compare(random, tally, "the whole grid", self.due());
        let (mut all, mut sum) = (Vec::new(), 0);
        for symbol in 0..self.cells() / CELLS {
            let lists = self.lists.each_ref().map(|list| &list[CELLS * symbol..CELLS * (symbol + 1)]);
            let room = Room::new(random, DIFFERENCE * CELLS);
            let (mut list, some) = compare(tally, "one symbol", lists, &room, None);
            let mut six: Vec<u32> = list.lent().iter().copied().take(DIFFERENCE * some as usize).collect();
            six.iter_mut().step_by(DIFFERENCE).for_each(|number| *number = number.wrapping_add(symbol as u32));
            all.extend(six);
            sum += some;
        }
        if all != whole.lent() || sum != count {
            tally.difference("compare, one symbol: together they aren't the whole grid's list");
        }
    }
}

/// In two symbols: the first cell, the last of a symbol, the first of the next, the grid's last, and two between.
fn places(random: &mut Random) -> [usize; 6] {
    [0, CELLS - 1, CELLS, 2 * CELLS - 1, 1 + random.below(CELLS - 2), CELLS + 1 + random.below(CELLS - 2)]
}

/// Every special pattern against every one, in either part, in both, and against itself.
fn special_cases(random: &mut Random, tally: &mut Tally) {
    let mut pair = Pair::new(random, 2);
    for (x, y) in SPECIAL.into_iter().flat_map(|x| SPECIAL.map(|y| (x, y))) {
        for place in places(random) {
            let other = part(random);
            pair.alone(random, tally, "special patterns, first part", place, [x, other, y, other]);
            pair.alone(random, tally, "special patterns, second part", place, [other, x, other, y]);
            pair.alone(random, tally, "special patterns, both parts", place, [x, x, y, y]);
            pair.alone(random, tally, "special patterns, exchanged parts", place, [x, y, y, x]);
        }
    }
}

/// One grid with a cell for each way to have four special patterns in it: 104,976 of them, in 26 symbols.
fn table_case(random: &mut Random, tally: &mut Tally) {
    let most = SPECIAL.len().pow(4);
    let mut pair = Pair::new(random, most.div_ceil(CELLS));
    for n in 0..most {
        pair.put(n, [1, 18, 18 * 18, 18 * 18 * 18].map(|step| SPECIAL[n / step % 18]));
    }
    pair.compare(random, tally, "all special patterns", pair.due());
    pair.compare(random, tally, "all special patterns", 1000);
}

/// A single bit turned over, in either part and in both.
fn bit_cases(random: &mut Random, tally: &mut Tally) {
    let mut pair = Pair::new(random, 2);
    for bit in (0..32).map(|bit| 1 << bit) {
        for place in places(random) {
            let (x, y) = (part(random), part(random));
            pair.alone(random, tally, "a bit of the first part", place, [x, y, x ^ bit, y]);
            pair.alone(random, tally, "a bit of the second part", place, [x, y, x, y ^ bit]);
            pair.alone(random, tally, "a bit of both parts", place, [x, y, x ^ bit, y ^ bit]);
        }
    }
}

/// Parts that stand elsewhere than they should, or whose sums or bits together are the same.
fn exchange_cases(random: &mut Random, tally: &mut Tally) {
    let mut pair = Pair::new(random, 2);
    for place in (0..20).flat_map(|_| places(random)).collect::<Vec<_>>() {
        let (x, y) = unequal(random);
        let (sum, bits) = (1 + random.next() as u32 % 1000, random.next() as u32 | 1);
        pair.alone(random, tally, "the same parts", place, [x, y, x, y]);
        pair.alone(random, tally, "exchanged parts", place, [x, y, y, x]);
        pair.alone(random, tally, "a part twice in B", place, [x, y, x, x]);
        pair.alone(random, tally, "a part twice in A", place, [y, y, x, y]);
        pair.alone(random, tally, "equal parts of A and of B", place, [x, x, y, y]);
        pair.alone(random, tally, "the same sum", place, [x, y, x.wrapping_add(sum), y.wrapping_sub(sum)]);
        pair.alone(random, tally, "the same bits together", place, [x, y, x ^ bits, y ^ bits]);
    }
}

// ---- the list's sizes

/// So many differences: at the grid's start, at its end, around the end of a symbol, anywhere.
fn with_differences(random: &mut Random, count: usize) -> [Pair; 5] {
    let starts = [Some(0), Some(2 * CELLS - count), Some(CELLS - count / 2), None, None];
    starts.map(|start| {
        let mut pair = Pair::new(random, 2);
        let places = start.map_or_else(|| random.some(count, 2 * CELLS), |start| (start..start + count).collect());
        places.into_iter().for_each(|place| pair.spoil(random, place));
        pair
    })
}

/// Lists of every size from nothing to two differences too long.
fn size_cases(random: &mut Random, tally: &mut Tally) {
    for count in [0, 1, 2, 3, 8] {
        for pair in with_differences(random, count) {
            for length in 0..=DIFFERENCE * count + 13 {
                pair.compare(random, tally, "a list of every size", length);
            }
        }
    }
}

fn all_differ_cases(random: &mut Random, tally: &mut Tally) {
    for symbols in [1, 2, 7] {
        let mut pair = Pair::new(random, symbols);
        (0..pair.cells()).for_each(|place| pair.spoil(random, place));
        let full = pair.due();
        for length in [full, full - 1, full - 5, full - 6, full - 7, full + 1, full + 6, full + 13, full / 2, 0, 1, 5, 6, 7] {
            pair.compare(random, tally, "all cells differ", length);
        }
    }
}

/// Grids of 0 to 9 symbols, and of 40, with any share of their cells differing and lists of any length.
fn random_cases(random: &mut Random, tally: &mut Tally) {
    for (symbols, share) in (0..10).chain([40]).flat_map(|symbols| [0, 1, 10, 100, 1000, 9990].map(|share| (symbols, share))) {
        let mut pair = Pair::new(random, symbols);
        for place in 0..pair.cells() {
            if random.below(10_000) < share {
                pair.spoil(random, place);
            }
        }
        let due = pair.due();
        for length in [due, random.below(due + 1), random.below(due + 1), random.below(due + 100)] {
            pair.compare(random, tally, "any differences", length);
        }
        pair.by_symbols(random, tally);
    }
}

/// A symbol number that doesn't fit a byte.
fn large_case(random: &mut Random, tally: &mut Tally) {
    let mut pair = Pair::new(random, 257);
    for symbol in [0, 15, 16, 127, 128, 254, 255, 256] {
        pair.spoil(random, CELLS * symbol);
        pair.spoil(random, CELLS * symbol + CELLS - 1);
    }
    pair.compare(random, tally, "many symbols", pair.due() + 7);
}

/// Lists that are the same memory, or a part of it that begins elsewhere: this may be, since they are only read.
fn shared_cases(random: &mut Random, tally: &mut Tally) {
    let memory: Vec<u32> = (0..4 * CELLS).map(|_| part(random)).collect();
    for start in [0, 1, 2, 3, CELLS, CELLS + 1] {
        let (x, y) = (&memory[..2 * CELLS], &memory[start..start + 2 * CELLS]);
        for lists in [[x, x, x, x], [x, y, x, y], [x, y, y, x], [x, x, y, y], [y, x, x, x], [x, x, x, y]] {
            for length in [0, 6, 100, DIFFERENCE * 2 * CELLS] {
                compare(tally, "the same memory", lists, &Room::new(random, length), None);
            }
        }
    }
}

// ---- refusals

/// Compares lists of these lengths, with other patterns in each of them.
fn length_case(random: &mut Random, tally: &mut Tally, spare: &[u32], lengths: [usize; 4]) {
    let mut lists: Lists = [&[]; 4];
    for (i, list) in lists.iter_mut().enumerate() {
        *list = &spare[9 * CELLS * i + i..][..lengths[i]];
    }
    let length = random.pick(&[0, 5, 6, 13, 60]);
    let room = Room::new(random, length);
    compare(tally, "lists of these lengths", lists, &room, None);
    let known = if lengths != [lengths[0]; 4] {
        LENGTHS_DIFFER
    } else if lengths[0] % CELLS != 0 {
        CELL_LENGTH
    } else {
        DONE
    };
    let plain = plain::compare(lists[0], lists[1], lists[2], lists[3], &mut []).0;
    tally.known("compare, lists of these lengths", plain.into(), known.into());
}

/// All lengths of a few in all four lists, then one length in all of them, and then another one in just one of them.
fn refusal_cases(random: &mut Random, tally: &mut Tally) {
    let spare: Vec<u32> = (0..40 * CELLS).map(|_| random.next() as u32).collect();
    let near = [0, 1, CELLS - 1, CELLS, CELLS + 1, 2 * CELLS - 1, 2 * CELLS, 2 * CELLS + 1, 7 * CELLS];
    for n in 0..near.len().pow(4) {
        length_case(random, tally, &spare, [1, 9, 81, 729].map(|step| near[n / step % 9]));
    }
    let powers = (0..16).flat_map(|bit| [(1 << bit) - 1, 1 << bit, (1 << bit) + 1]);
    for length in (0..130).chain(powers).chain((0..9 * CELLS).step_by(CELLS / 8)) {
        length_case(random, tally, &spare, [length; 4]);
        for i in 0..4 {
            let mut lengths = [length; 4];
            let [less, far_less] = [1, CELLS].map(|by| length.saturating_sub(by));
            lengths[i] = random.pick(&[0, 1, less, length + 1, far_less, length + CELLS, length / 2]);
            length_case(random, tally, &spare, lengths);
        }
    }
}

// ---- grids as sent

/// The bit patterns of the grid that the library sends.
fn sent(profile: &Profile, data: &[u8]) -> [Vec<u32>; 2] {
    let cells = CELLS * profile.symbols();
    let (mut firsts, mut seconds) = (vec![0.0; cells], vec![0.0; cells]);
    library::send(&written(profile), data, &mut firsts, &mut seconds);
    [firsts, seconds].map(|parts| parts.iter().map(|part| part.to_bits()).collect())
}

/// Which cells of the grid carry a point of the block.
fn carrying(profile: &Profile) -> Vec<bool> {
    let mut cells = vec![false; CELLS * profile.symbols()];
    for (t, i) in (0..profile.slots()).flat_map(|t| (0..POINTS).map(move |i| (t, i))) {
        let (symbol, number) = plain::slot_place(t);
        cells[CELLS * symbol + plain::point_cell(number, i)] = true;
    }
    cells
}

/// Compares two grids as sent. Returns the places that the library lists.
fn sent_case(random: &mut Random, tally: &mut Tally, label: &str, a: &[Vec<u32>; 2], b: &[Vec<u32>; 2]) -> Vec<usize> {
    let room = Room::new(random, DIFFERENCE * a[0].len());
    let (mut list, count) = compare(tally, label, [&a[0], &a[1], &b[0], &b[1]], &room, None);
    let listed = list.lent().chunks_exact(DIFFERENCE).take(count as usize);
    listed.map(|six| CELLS * six[0] as usize + six[1] as usize).collect()
}

fn sent_cases(random: &mut Random, tally: &mut Tally, mode: u8, k: u8) {
    let mut profile = random_profile(random, mode, k);
    let data = random.bytes(profile.data_length());
    let (mut other, place) = (data.clone(), random.below(data.len()));
    other[place] ^= 1 << random.below(8);
    let (grid, cells) = (sent(&profile, &data), carrying(&profile));
    let block: Vec<usize> = (0..cells.len()).filter(|&place| cells[place]).collect();

    let none = sent_case(random, tally, "a block sent twice", &grid, &sent(&profile, &data));
    let some = sent_case(random, tally, "one data bit", &grid, &sent(&profile, &other));
    let random_data = random.bytes(data.len());
    let many = sent_case(random, tally, "other data", &grid, &sent(&profile, &random_data));
    let mut silent = grid.clone();
    silent[1][2048] = 0x8000_0000; // no slot has cell 2048
    let one = sent_case(random, tally, "-0.0 in a silent cell", &grid, &silent);
    profile = Profile { level: if profile.level == 1.0 { 2.0 } else { 1.0 }, floor: 0.5, ..profile };
    let all = sent_case(random, tally, "another level and floor", &grid, &sent(&profile, &data));

    let in_block = |places: &[usize]| !places.is_empty() && places.iter().all(|&place| cells.get(place) == Some(&true));
    if !none.is_empty() || !in_block(&some) || !in_block(&many) || one != [2048] || all != block {
        tally.difference("compare, grids as sent: not the cells that must differ");
    }
    for other in MODES.into_iter().filter(|&other| other != mode) {
        let [firsts, seconds] = sent(&random_profile(random, other, k), &data);
        compare(tally, "another mode's grid", [&grid[0], &grid[1], &firsts, &seconds], &Room::new(random, 60), None);
    }
}

pub fn run(random: &mut Random, tally: &mut Tally) {
    special_cases(random, tally);
    table_case(random, tally);
    bit_cases(random, tally);
    exchange_cases(random, tally);
    size_cases(random, tally);
    all_differ_cases(random, tally);
    random_cases(random, tally);
    large_case(random, tally);
    shared_cases(random, tally);
    refusal_cases(random, tally);
    for (mode, k) in MODES.into_iter().flat_map(|mode| KS.map(|k| (mode, k))) {
        for _ in 0..4 {
            sent_cases(random, tally, mode, k);
        }
    }
}
