//! An independent sender and receiver, written from the text of document 01 and of document 02's Req 01, 02 and 04 to 09 alone, with source
//! document 000's tables for puncturing and 16QAM (a state's bytes and what lists of differences and totals hold are flo.h's) and in the ordinary
//! way: log tables, precomputed addresses and places, one bit per byte.
//! The outside tests compare the C library with it, and the benchmark times the two side by side.
//!
//! Names are the documents'. `r` is 16 - K, `p` a packet, `t` a block slot, `j` a column.

#[path = "plain_codes.rs"]
mod codes;
#[path = "plain_compare.rs"]
mod compare;
#[path = "plain_pieces.rs"]
mod pieces;
#[path = "plain_profile.rs"]
mod profile;
#[path = "plain_totals.rs"]
mod totals;

pub use codes::*;
pub use compare::*;
pub use pieces::*;
pub use profile::*;
pub use totals::*;
use std::ops::Range;

pub const CELLS: usize = 4096; // cells of a symbol
pub const PACKET: usize = 122; // data bytes of a packet
pub const PACKETS: usize = 16;
pub const BLOCK: usize = PACKET * PACKETS;
pub const POINTS: usize = 500; // points of a slot
pub const CODED: usize = 3000; // most coded bits of a packet
pub const PROFILE: usize = 252; // bytes of the largest profile
pub const ENTERING: usize = 994; // bits of a packet that enter the turbo code

pub const DONE: u32 = 0;
pub const ENDS_INSIDE: u32 = 1;
pub const OTHER_TAG: u32 = 2;
pub const WRONG_LENGTH: u32 = 3;
pub const FIELD_DUE: u32 = 5;
pub const DATA_LENGTH: u32 = 6;
pub const CELL_LENGTH: u32 = 7;
pub const NO_SUCH_SYMBOL: u32 = 8;
pub const TOO_MANY_LOST: u32 = 9;
pub const NO_CODEWORD: u32 = 10;
pub const TOO_MANY_CELLS: u32 = 16;
pub const CELLS_MISSING: u32 = 17;
pub const LENGTHS_DIFFER: u32 = 18;
pub const TOTAL_FULL: u32 = 19;
pub const NO_SUCH_STATE: u32 = 22;
pub const DISAGREE: u32 = 23;
pub const BAD_MASK: u32 = 40;
pub const BAD_LEVEL: u32 = 41;
pub const BAD_MODE: u32 = 42;
pub const BAD_K: u32 = 43;
pub const BAD_SEED: u32 = 44;
pub const BAD_FLOOR: u32 = 45;
pub const TWIN_SLOTS: u32 = 46;

pub const ACCEPTED: u8 = 0;
pub const MARKED: u8 = 11;
pub const DOUBTFUL: u8 = 12;
pub const CHECK_WORD: u8 = 13;
pub const RESERVED: u8 = 14;
pub const CODED_BITS: u8 = 15;

// ---- slots, scrambling, cells

/// Adds the scrambling sequence to the bits.
pub fn scramble(seed: u32, mask: u32, bits: &mut [u8]) {
    let mut state = seed;
    for bit in bits {
        *bit ^= (state & mask).count_ones() as u8 & 1;
        state = (state << 1 & 0xF_FFFF) | ((state >> 19 ^ state >> 16) & 1);
    }
}

/// The symbol and the slot number of block slot t.
pub fn slot_place(t: usize) -> (usize, usize) {
    (t / 7, 1 + t % 7)
}

/// The cell of interlace k, place i.
pub fn interlace(k: usize, i: usize) -> usize {
    if k == 0 && i >= 250 { 56 + 8 * i } else { 48 + k + 8 * i }
}

/// The place of each point in its interlace, by Req 01.
pub static PLACES: [usize; POINTS] = places();

/// Runs i from 0 to 511, reverses its nine bits and drops what is 500 or above.
const fn places() -> [usize; POINTS] {
    let mut kept = [0; POINTS];
    let (mut i, mut n) = (0u16, 0);
    while i < 512 {
        let place = (i.reverse_bits() >> 7) as usize;
        if place < 500 {
            kept[n] = place;
            n += 1;
        }
        i += 1;
    }
    kept
}

/// The cell of point i of a slot that has number k.
pub fn point_cell(k: usize, i: usize) -> usize {
    interlace(k, PLACES[i])
}

/// Writes a slot's points, by document 01 or by source document 000's table of 16QAM: there s0 says the size of the first part and s1 its sign,
/// s2 and s3 those of the second.
pub fn put_slot(profile: &Profile, number: usize, bits: &[u8], firsts: &mut [f32], seconds: &mut [f32]) {
    let (inner, outer) = (profile.level, 3.0 * profile.level);
    if profile.part_bits() == 1 {
        let parts = [inner, -inner];
        for (i, pair) in bits.chunks_exact(2).enumerate() {
            let cell = point_cell(number, i);
            firsts[cell] = parts[pair[0] as usize];
            seconds[cell] = parts[pair[1] as usize];
        }
    } else {
        let parts = [[outer, -outer], [inner, -inner]];
        for (i, s) in bits.chunks_exact(4).enumerate() {
            let cell = point_cell(number, i);
            firsts[cell] = parts[s[0] as usize][s[1] as usize];
            seconds[cell] = parts[s[2] as usize][s[3] as usize];
        }
    }
}

/// Writes the slots of those symbols of the grid that are lent: all packets' bits in a row, cut into slots.
pub fn put_block(profile: &Profile, packets: &[[u8; ENTERING]; PACKETS], symbols: &Range<usize>, firsts: &mut [f32], seconds: &mut [f32]) {
    let (rate, length, size) = (profile.rate(), profile.rate().length(), profile.slot_bits());
    let slots = 7 * symbols.start..profile.slots().min(7 * symbols.end);
    let mut row = [0; PACKETS * CODED];
    for (p, coded) in row.chunks_exact_mut(length).take(PACKETS).enumerate() {
        if length * (p + 1) > size * slots.start && length * p < size * slots.end {
            encode(&packets[p], rate, coded);
        }
    }
    for t in slots {
        let (symbol, number) = slot_place(t);
        let bits = &mut row[size * t..size * (t + 1)];
        scramble(profile.seeds[t], profile.masks[number], bits);
        let base = CELLS * (symbol - symbols.start);
        put_slot(profile, number, bits, &mut firsts[base..base + CELLS], &mut seconds[base..base + CELLS]);
    }
}

/// The block's data packets and their outer parity; `data` has 122K bytes.
pub fn block_of(k: u8, data: &[u8]) -> Block {
    let mut block = [[0; PACKET]; PACKETS];
    let flat = block.as_flattened_mut();
    flat[..data.len()].copy_from_slice(data);
    parity(k, flat);
    block
}

fn send_range(profile: &Profile, data: &[u8], symbols: Range<usize>, firsts: &mut [f32], seconds: &mut [f32]) {
    let block = block_of(profile.k, data);
    firsts.fill(0.0);
    seconds.fill(0.0);
    let packets = block.map(|packet| packet_bits(&packet, check_word(&packet), 0));
    put_block(profile, &packets, &symbols, firsts, seconds);
}

/// The refusals that all calls on cells share, in their order; `lengths` are the two lists' and the right one.
fn refusal(profile: &Profile, data: usize, lengths: (usize, usize, usize)) -> Answer {
    let fault = profile.fault();
    if fault.number != DONE {
        fault
    } else if data != profile.data_length() {
        DATA_LENGTH.into()
    } else if lengths.0 != lengths.2 || lengths.1 != lengths.2 {
        CELL_LENGTH.into()
    } else {
        DONE.into()
    }
}

pub fn send(profile: &Profile, data: &[u8], firsts: &mut [f32], seconds: &mut [f32]) -> Answer {
    let right = CELLS * profile.symbols();
    let answer = refusal(profile, data.len(), (firsts.len(), seconds.len(), right));
    if answer.number == DONE {
        send_range(profile, data, 0..profile.symbols(), firsts, seconds);
    }
    answer
}

pub fn send_symbol(profile: &Profile, data: &[u8], symbol: usize, firsts: &mut [f32], seconds: &mut [f32]) -> Answer {
    let answer = refusal(profile, data.len(), (firsts.len(), seconds.len(), CELLS));
    if answer.number != DONE {
        return answer;
    }
    if symbol >= profile.symbols() {
        return NO_SUCH_SYMBOL.into();
    }
    send_range(profile, data, symbol..symbol + 1, firsts, seconds);
    answer
}

// ---- the way back

#[derive(Clone, Copy, PartialEq, Debug)]
pub struct Received {
    pub number: u32,
    pub place: usize,
    pub lost: u16,
    pub reasons: [u8; PACKETS],
}

impl Received {
    pub fn answer(&self) -> Answer {
        Answer { number: self.number, place: self.place }
    }
}

/// An answer that says nothing of packets.
impl From<Answer> for Received {
    fn from(Answer { number, place }: Answer) -> Received {
        Received { number, place, lost: 0, reasons: [0; PACKETS] }
    }
}

/// Decides points of slot number k, beginning with point `first`, as many as the bits have; false when a part is doubtful. No branches, since
/// signs and sizes can't be predicted.
fn decide(profile: &Profile, k: usize, first: usize, firsts: &[f32], seconds: &[f32], bits: &mut [u8]) -> bool {
    let (mut certain, floor) = (true, profile.floor);
    if profile.part_bits() == 1 {
        for (i, pair) in bits.chunks_exact_mut(2).enumerate() {
            let cell = point_cell(k, first + i);
            let (a, b) = (firsts[cell], seconds[cell]);
            certain &= ((a > floor) | (a < -floor)) & ((b > floor) | (b < -floor));
            (pair[0], pair[1]) = ((a < 0.0) as u8, (b < 0.0) as u8);
        }
    } else {
        let (low, high) = profile.around_line();
        for (i, s) in bits.chunks_exact_mut(4).enumerate() {
            let cell = point_cell(k, first + i);
            for (part, s) in [firsts[cell], seconds[cell]].into_iter().zip(s.chunks_exact_mut(2)) {
                let size = part.abs();
                certain &= (size > floor) & ((size < low) | (size > high));
                (s[0], s[1]) = ((size < low) as u8, (part < 0.0) as u8);
            }
        }
    }
    certain
}

/// The block's bits, decided and unscrambled, packet after packet, and bit p set where packet p has a doubtful part. Of marked packets nothing is
/// decided.
fn take_block(profile: &Profile, marks: u16, firsts: &[f32], seconds: &[f32]) -> ([u8; PACKETS * CODED], u16) {
    let (length, size) = (profile.rate().length(), profile.slot_bits());
    let (mut row, mut doubtful) = ([0; PACKETS * CODED], 0);
    for (t, bits) in row[..PACKETS * length].chunks_exact_mut(size).enumerate() {
        let (symbol, number) = slot_place(t);
        let base = CELLS * symbol;
        let (firsts, seconds) = (&firsts[base..base + CELLS], &seconds[base..base + CELLS]);
        let (mut from, mut some) = (0, false);
        while from < size {
            let p = (size * t + from) / length;
            let to = size.min(length * (p + 1) - size * t);
            if marks >> p & 1 == 0 {
                some = true;
                let certain = decide(profile, number, from * POINTS / size, firsts, seconds, &mut bits[from..to]);
                doubtful |= (!certain as u16) << p;
            }
            from = to;
        }
        if some {
            scramble(profile.seeds[t], profile.masks[number], bits);
        }
    }
    (row, doubtful)
}

/// Judges a packet's decided bits, none of which is doubtful: its reason, and the 122 bytes.
fn judge(rate: Rate, came: &[u8]) -> (u8, [u8; PACKET]) {
    let mut own = [0; CODED];
    let mut data = [0; PACKET];
    let mut bits = [0; ENTERING];
    for (i, bit) in bits.iter_mut().enumerate() {
        *bit = came[interleaved(rate.length(), rate.place(i))];
    }
    for (byte, eight) in data.iter_mut().zip(bits.chunks_exact(8)) {
        *byte = number_of(eight) as u8;
    }
    if check_word(&data) != number_of(&bits[976..992]) {
        return (CHECK_WORD, data);
    }
    if bits[992..] != [0, 0] {
        return (RESERVED, data);
    }
    encode(&bits, rate, &mut own[..rate.length()]);
    (if came == &own[..rate.length()] { ACCEPTED } else { CODED_BITS }, data)
}

pub fn receive(profile: &Profile, marks: u16, firsts: &[f32], seconds: &[f32], data: &mut [u8]) -> Received {
    let right = CELLS * profile.symbols();
    let mut answer = Received::from(refusal(profile, data.len(), (firsts.len(), seconds.len(), right)));
    if answer.number != DONE {
        return answer;
    }
    let mut block = [[0; PACKET]; PACKETS];
    let (row, doubtful) = take_block(profile, marks, firsts, seconds);
    for (p, came) in row.chunks_exact(profile.rate().length()).take(PACKETS).enumerate() {
        let (reason, packet) = match (marks >> p & 1, doubtful >> p & 1) {
            (1, _) => (MARKED, [0; PACKET]),
            (_, 1) => (DOUBTFUL, [0; PACKET]),
            _ => judge(profile.rate(), came),
        };
        answer.reasons[p] = reason;
        answer.lost |= ((reason != ACCEPTED) as u16) << p;
        block[p] = packet;
    }
    if answer.lost.count_ones() as usize > profile.r() {
        answer.number = TOO_MANY_LOST;
    } else if !restore(profile.k, answer.lost, &mut block) {
        answer.number = NO_CODEWORD;
    } else {
        data.copy_from_slice(&block.as_flattened()[..data.len()]);
    }
    answer
}

// ---- the same calls on a profile's bytes, as the C library takes them: what reading says comes first

pub fn send_bytes(profile: &[u8], data: &[u8], firsts: &mut [f32], seconds: &mut [f32]) -> Answer {
    match read_fields(profile) {
        Ok(profile) => send(&profile, data, firsts, seconds),
        Err(answer) => answer,
    }
}

pub fn send_symbol_bytes(profile: &[u8], data: &[u8], symbol: usize, firsts: &mut [f32], seconds: &mut [f32]) -> Answer {
    match read_fields(profile) {
        Ok(profile) => send_symbol(&profile, data, symbol, firsts, seconds),
        Err(answer) => answer,
    }
}

pub fn receive_bytes(profile: &[u8], marks: u16, firsts: &[f32], seconds: &[f32], data: &mut [u8]) -> Received {
    match read_fields(profile) {
        Ok(profile) => receive(&profile, marks, firsts, seconds, data),
        Err(answer) => answer.into(),
    }
}
