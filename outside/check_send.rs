//! The tests of sending: whole grids, single symbols, refusals; and of the outer parity alone.

use crate::check_profile::{damaged, edge_profiles, random_profile, written, KS, MODES};
use crate::check_tools::{Call, Given, Random, Room, Tally};
use crate::plain::{Answer, Profile, BLOCK, CELLS, PACKET};
use crate::{library, plain};

/// What a send is given. Without a symbol number it is the whole grid.
pub struct Sending {
    label: &'static str,
    profile: Vec<u8>,
    data: Vec<u8>,
    symbol: Option<usize>,
    firsts: Room<f32>,
    seconds: Room<f32>,
}

impl Sending {
    /// A send with nothing wrong but what the lengths say: of data, first parts and second parts.
    pub fn new(random: &mut Random, label: &'static str, profile: Vec<u8>, symbol: Option<usize>, lengths: [usize; 3]) -> Sending {
        let data = random.bytes(lengths[0]);
        let (firsts, seconds) = (Room::new(random, lengths[1]), Room::new(random, lengths[2]));
        Sending { label, profile, data, symbol, firsts, seconds }
    }

    /// Runs both programs on copies of the same memory and compares all of it, guards too. Returns what the plain program says.
    pub fn compare(&self, tally: &mut Tally) -> Answer {
        let (mut f, mut s) = (self.firsts.clone(), self.seconds.clone());
        let (mut own_f, mut own_s) = (self.firsts.clone(), self.seconds.clone());
        let (profile, data) = (&self.profile[..], &self.data[..]);
        let (call, library, plain) = match self.symbol {
            None => (
                Call::Send,
                library::send(profile, data, f.lent(), s.lent()),
                plain::send_bytes(profile, data, own_f.lent(), own_s.lent()),
            ),
            Some(symbol) => (
                Call::SendSymbol,
                library::send_symbol(profile, data, symbol, f.lent(), s.lent()),
                plain::send_symbol_bytes(profile, data, symbol, own_f.lent(), own_s.lent()),
            ),
        };
        let tests = [
            ("first parts differ", f.same(&own_f)),
            ("second parts differ", s.same(&own_s)),
            ("a refusal changed lent memory", library.number == 0 || (f.same(&self.firsts) && s.same(&self.seconds))),
        ];
        tally.case(call, Given::bytes(profile), self.label, library, plain, &tests);
        plain
    }
}

/// The right length, and the wrong ones nearest to it.
pub fn near(right: usize) -> [usize; 4] {
    [right, 0, right - 1, right + 1]
}

/// Right in most cases; else a wrong length, among them those that are right elsewhere.
pub fn often_right(random: &mut Random, right: usize) -> usize {
    if random.percent(70) {
        return right;
    }
    let symbols = CELLS * random.pick(&[1, 2, 3, 4, 5, 7]);
    let lengths = [0, 1, right - 1, right + 1, 2 * right, right / 2, symbols, symbols, PACKET * 8, PACKET * 14];
    random.pick(&lengths)
}

pub fn right_lengths(profile: &Profile, symbol: Option<usize>) -> [usize; 3] {
    let cells = if symbol.is_some() { CELLS } else { CELLS * profile.symbols() };
    [profile.data_length(), cells, cells]
}

/// Sends with nothing wrong: a grid, and all symbols of one.
fn right_grid(random: &mut Random, tally: &mut Tally, profile: &Profile) {
    Sending::new(random, "a right grid", written(profile), None, right_lengths(profile, None)).compare(tally);
}

fn right_symbols(random: &mut Random, tally: &mut Tally, profile: &Profile) {
    for symbol in (0..profile.symbols()).map(Some) {
        Sending::new(random, "a right symbol", written(profile), symbol, right_lengths(profile, symbol)).compare(tally);
    }
}

fn right_cases(random: &mut Random, tally: &mut Tally, mode: u8, k: u8) {
    for profile in edge_profiles(random, mode, k) {
        right_grid(random, tally, &profile);
        right_symbols(random, tally, &profile);
    }
    for i in 0..100 {
        let profile = random_profile(random, mode, k);
        right_grid(random, tally, &profile);
        if i % 5 == 0 {
            right_symbols(random, tally, &profile);
        }
    }
}

/// Data of one kind in all bytes: zeros, ones, one packet alone.
fn plain_data_cases(random: &mut Random, tally: &mut Tally, mode: u8, k: u8) {
    for i in 0..2 + k as usize {
        let profile = random_profile(random, mode, k);
        let mut sending = Sending::new(random, "even data", written(&profile), None, right_lengths(&profile, None));
        for (place, byte) in sending.data.iter_mut().enumerate() {
            let packet = place / PACKET + 2 == i;
            *byte = if i == 1 { 0xFF } else { packet as u8 };
        }
        sending.compare(tally);
    }
}

/// Every combination of near lengths, and of wrong symbol numbers.
fn near_cases(random: &mut Random, tally: &mut Tally, mode: u8, k: u8) {
    let profile = random_profile(random, mode, k);
    let last = profile.symbols() - 1;
    let symbols = [0, last, last + 1, last + 2, usize::MAX, 1 << 32, 1 << 63, 256].map(Some);
    for symbol in [None].into_iter().chain(symbols) {
        let [data, cells, _] = right_lengths(&profile, symbol);
        for (d, f) in near(data).into_iter().flat_map(|d| near(cells).map(|f| (d, f))) {
            for s in near(cells) {
                Sending::new(random, "near lengths", written(&profile), symbol, [d, f, s]).compare(tally);
            }
        }
    }
}

/// Anything wrong at random, several things at once too.
fn wrong_cases(random: &mut Random, tally: &mut Tally, mode: u8, k: u8) {
    for _ in 0..200 {
        let profile = random_profile(random, mode, k);
        let bytes = if random.percent(50) { damaged(random, &profile) } else { written(&profile) };
        let symbol = if random.percent(50) { Some(random.below(10)) } else { None };
        let lengths = right_lengths(&profile, symbol).map(|right| often_right(random, right));
        Sending::new(random, "anything wrong", bytes, symbol, lengths).compare(tally);
    }
}

fn parity_case(tally: &mut Tally, label: &str, k: u8, before: &Room<u8>) {
    let (mut block, mut own) = (before.clone(), before.clone());
    let library = library::parity(k, block.lent());
    let plain = plain::parity(k, own.lent());
    let kept = library == 0 || block.same(before);
    tally.case(Call::Parity, Given::NOTHING, label, library, plain, &[("blocks differ", block.same(&own)), ("a refusal changed the block", kept)]);
}

fn parity_cases(random: &mut Random, tally: &mut Tally) {
    for k in 0..=255 {
        for length in near(BLOCK) {
            let room = Room::new(random, length);
            parity_case(tally, "any K", k, &room);
        }
    }
    for k in KS {
        for _ in 0..300 {
            let mut room = Room::new(random, BLOCK);
            let bytes = random.bytes(BLOCK);
            room.lent().copy_from_slice(&bytes);
            parity_case(tally, "random blocks", k, &room);
        }
        // Each data packet alone, with all 256 bytes in its columns.
        for (p, from) in (0..k as usize).flat_map(|p| [(p, 0), (p, 122), (p, 134)]) {
            let mut room = Room::new(random, BLOCK);
            room.lent().fill(0);
            (0..PACKET).for_each(|j| room.lent()[PACKET * p + j] = (from + j) as u8);
            parity_case(tally, "one packet", k, &room);
        }
    }
}

pub fn run(random: &mut Random, tally: &mut Tally) {
    for (mode, k) in MODES.into_iter().flat_map(|mode| KS.map(|k| (mode, k))) {
        right_cases(random, tally, mode, k);
        plain_data_cases(random, tally, mode, k);
        near_cases(random, tally, mode, k);
        wrong_cases(random, tally, mode, k);
    }
    parity_cases(random, tally);
}
