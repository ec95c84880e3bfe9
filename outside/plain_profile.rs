//! Part of plain.rs: the profile as bytes and as a value, by the text of document 01 and of document 02's Req 04, 06, 07 and 08 alone.
//!
//! A place is found in two ways that share nothing: reading knows how many bytes it has walked over, and a value's numbers are counted off. Only at 46
//! it is a block slot, and bytes and values share the search for it.

use super::{slot_place, Rate, PACKET, PACKETS, POINTS, PROFILE};
use super::{BAD_FLOOR, BAD_K, BAD_LEVEL, BAD_MASK, BAD_MODE, BAD_SEED, DONE, ENDS_INSIDE, FIELD_DUE, OTHER_TAG, TWIN_SLOTS, WRONG_LENGTH};

/// What a call says: its number, and at 40 to 45 the byte of the profile where the faulty number begins, at 46 the slot that repeats an earlier one.
/// Every other number has place 0.
#[derive(Clone, Copy, PartialEq, Debug)]
pub struct Answer {
    pub number: u32,
    pub place: usize,
}

/// A number that has no place.
impl From<u32> for Answer {
    fn from(number: u32) -> Answer {
        Answer { number, place: 0 }
    }
}

#[derive(Clone, Copy)]
pub struct Profile {
    pub masks: [u32; 8],
    pub level: f32, // document 01's D
    pub mode: u8,
    pub k: u8,
    pub seeds: [u32; 48],
    pub floor: f32,
}

impl Profile {
    pub const ZERO: Profile = Profile { masks: [0; 8], level: 0.0, mode: 0, k: 0, seeds: [0; 48], floor: 0.0 };

    pub fn rate(&self) -> Rate {
        match self.mode {
            0 | 2 => Rate::Third,
            1 | 3 => Rate::Half,
            _ => Rate::TwoThirds,
        }
    }

    /// Bits that a part carries: one in QPSK, two in 16QAM.
    pub fn part_bits(&self) -> usize {
        if self.mode < 2 { 1 } else { 2 }
    }

    pub fn slot_bits(&self) -> usize {
        2 * POINTS * self.part_bits()
    }

    /// Slots of a block, without gaps between the packets.
    pub fn slots(&self) -> usize {
        PACKETS * self.rate().length() / self.slot_bits()
    }

    pub fn symbols(&self) -> usize {
        self.slots().div_ceil(7)
    }

    pub fn r(&self) -> usize {
        PACKETS - self.k as usize
    }

    pub fn data_length(&self) -> usize {
        PACKET * self.k as usize
    }

    /// The ends of the doubtful range around twice the level, in 16QAM: doubling is exact, so each is rounded once.
    pub fn around_line(&self) -> (f32, f32) {
        let line = 2.0 * self.level;
        (line - self.floor, line + self.floor)
    }

    /// The first slot that has the seed and the mask of an earlier one in its symbol: each symbol's slots in turn, with what was seen in it so far.
    fn repeat(&self) -> Option<usize> {
        let (mut seen, mut in_symbol) = (Vec::new(), 0);
        (0..self.slots()).find(|&t| {
            let (symbol, number) = slot_place(t);
            if symbol != in_symbol {
                (seen, in_symbol) = (Vec::new(), symbol);
            }
            let own = (self.masks[number], self.seeds[t]);
            let is_repeat = seen.contains(&own);
            seen.push(own);
            is_repeat
        })
    }

    /// 46 and the slot, where one repeats another; its turn is after all else.
    fn twins(&self) -> Result<(), Answer> {
        self.repeat().map_or(Ok(()), |place| Err(Answer { number: TWIN_SLOTS, place }))
    }

    /// The first number outside its range, in the order of the tags, and where it would begin if the profile were written out, an unused seed as if
    /// all 48 were; then slots that are alike; 0 when all is right. The mode's turn is also that of a level which the mode can't send.
    pub fn fault(&self) -> Answer {
        let seed = |(t, &seed): (usize, &u32)| (BAD_SEED, 4, if t < self.slots() { is_state(seed) } else { seed == 0 });
        let between = [(BAD_LEVEL, 4, is_level(self.level)), (BAD_MODE, 1, is_mode(self.mode)), (BAD_K, 1, is_k(self.k))];
        let masks = self.masks.iter().map(|&mask| (BAD_MASK, 4, is_state(mask)));
        let (mut field, mut place, mut of_level) = (0, 0, 0);
        for (number, size, good) in masks.chain(between).chain(self.seeds.iter().enumerate().map(seed)) {
            if number != field {
                (field, place) = (number, place + 3); // tag and length stand before a field's first number
            }
            if !good {
                return Answer { number, place };
            }
            match number {
                BAD_LEVEL => of_level = place,
                BAD_MODE if !is_sent(self.level, self.mode) => return Answer { number: BAD_LEVEL, place: of_level },
                _ => (),
            }
            place += size;
        }
        let of_floor = place - 4 * (self.seeds.len() - self.slots()) + 3; // unused seeds aren't written; then come tag and length
        let answer = demand(is_floor(self.floor, self.level), BAD_FLOOR, of_floor).and_then(|()| self.twins());
        answer.err().unwrap_or(DONE.into())
    }
}

/// The range of masks and seeds.
fn is_state(x: u32) -> bool {
    (1..1 << 20).contains(&x)
}

fn is_level(level: f32) -> bool {
    level.is_normal() && level > 0.0
}

fn is_mode(mode: u8) -> bool {
    mode < 5
}

/// 16QAM sends three times the level too, and that must be finite.
fn is_sent(level: f32, mode: u8) -> bool {
    mode < 2 || (3.0 * level).is_finite()
}

fn is_k(k: u8) -> bool {
    matches!(k, 8 | 12 | 14)
}

/// +0.0 or positive, and its double at most the level, which also says that it is finite.
fn is_floor(floor: f32, level: f32) -> bool {
    (floor > 0.0 || floor.to_bits() == 0) && floor + floor <= level
}

/// What reading says, and the profile, all zero on a refusal.
pub fn read_profile(bytes: &[u8]) -> (Answer, Profile) {
    match read_fields(bytes) {
        Ok(profile) => (DONE.into(), profile),
        Err(answer) => (answer, Profile::ZERO),
    }
}

/// The profile that the bytes say, or why they say none.
pub fn read_fields(bytes: &[u8]) -> Result<Profile, Answer> {
    let (mut profile, mut rest) = (Profile::ZERO, bytes);
    let mut field = |tag, length| take_field(&mut rest, tag, length).map(|value| (bytes.len() - rest.len() - length, value));
    read_states(field(1, 32)?, &mut profile.masks, BAD_MASK)?;
    let (of_level, level) = field(2, 4)?;
    profile.level = f32::from_bits(u32::from_be_bytes(level.try_into().unwrap()));
    demand(is_level(profile.level), BAD_LEVEL, of_level)?;
    let (place, mode) = field(3, 1)?;
    profile.mode = mode[0];
    demand(is_mode(profile.mode), BAD_MODE, place)?;
    demand(is_sent(profile.level, profile.mode), BAD_LEVEL, of_level)?;
    let (place, k) = field(4, 1)?;
    profile.k = k[0];
    demand(is_k(profile.k), BAD_K, place)?;
    let slots = profile.slots();
    read_states(field(5, 4 * slots)?, &mut profile.seeds[..slots], BAD_SEED)?;
    let (place, floor) = field(6, 4)?;
    profile.floor = f32::from_bits(u32::from_be_bytes(floor.try_into().unwrap()));
    demand(is_floor(profile.floor, profile.level), BAD_FLOOR, place)?;
    match rest.len() {
        0 => profile.twins().map(|()| profile),
        1 | 2 => Err(ENDS_INSIDE.into()),
        _ => Err(OTHER_TAG.into()),
    }
}

/// Cuts the field that is due from the front of `rest`; the tests stand in document 01's order.
fn take_field<'a>(rest: &mut &'a [u8], tag: u8, length: usize) -> Result<&'a [u8], u32> {
    match rest {
        [] => Err(FIELD_DUE),
        [_] | [_, _] => Err(ENDS_INSIDE),
        [t, ..] if *t != tag => Err(OTHER_TAG),
        [_, high, low, ..] if u16::from_be_bytes([*high, *low]) as usize != length => Err(WRONG_LENGTH),
        [_, _, _, after @ ..] if after.len() < length => Err(ENDS_INSIDE),
        [_, _, _, after @ ..] => {
            let (value, left) = after.split_at(length);
            *rest = left;
            Ok(value)
        }
    }
}

/// The states of a field whose value begins at a place.
fn read_states((place, value): (usize, &[u8]), states: &mut [u32], number: u32) -> Result<(), Answer> {
    for (i, (state, bytes)) in states.iter_mut().zip(value.chunks_exact(4)).enumerate() {
        *state = u32::from_be_bytes(bytes.try_into().unwrap());
        demand(is_state(*state), number, place + 4 * i)?;
    }
    Ok(())
}

fn demand(in_range: bool, number: u32, place: usize) -> Result<(), Answer> {
    if in_range { Ok(()) } else { Err(Answer { number, place }) }
}

/// What writing says, the bytes with zeros after them, and their count; bytes and count all zero on a refusal.
pub fn write_profile(value: &Profile) -> (Answer, [u8; PROFILE], usize) {
    let mut bytes = [0; PROFILE];
    let answer = value.fault();
    if answer.number != DONE {
        return (answer, bytes, 0);
    }
    let states = |list: &[u32]| list.iter().flat_map(|x| x.to_be_bytes()).collect::<Vec<u8>>();
    let seeds = &value.seeds[..value.slots()];
    let [level, floor] = [value.level, value.floor].map(|x| x.to_bits().to_be_bytes().to_vec());
    let fields = [states(&value.masks), level, vec![value.mode], vec![value.k], states(seeds), floor];
    let mut count = 0;
    for (tag, field) in (1..).zip(fields) {
        bytes[count] = tag;
        bytes[count + 1..count + 3].copy_from_slice(&(field.len() as u16).to_be_bytes());
        bytes[count + 3..count + 3 + field.len()].copy_from_slice(&field);
        count += 3 + field.len();
    }
    (answer, bytes, count)
}
