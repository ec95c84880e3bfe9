//! Profiles: right ones, damaged ones, and the tests of reading and writing them. check_places.rs has those of numbers outside their range,
//! check_twins.rs those of slots that are alike.

use crate::check_floor::{most_floor, LEAST_HALF};
use crate::check_places::Spot;
use crate::check_tools::{same, Call, Given, Random, Tally, LARGEST};
use crate::check_twins::first_repeat;
use crate::library;
use crate::plain::{self, Answer, Profile, PROFILE};

pub const MODES: [u8; 5] = [0, 1, 2, 3, 4];
pub const KS: [u8; 3] = [8, 12, 14];

/// Where the six fields of a profile with so many seeds begin; the sixth goes to the end.
pub fn starts(slots: usize) -> [usize; 6] {
    [0, 35, 42, 46, 50, 53 + 4 * slots]
}

/// Bytes of a profile but for its seeds.
const WITHOUT_SEEDS: usize = 60;

/// The smallest levels and the largest; those from the fourth on only modes 0 and 1 can send. Some between.
const EDGE_LEVELS: [u32; 8] = [0x0080_0000, 0x0080_0001, LARGEST - 1, LARGEST, LARGEST + 1, 0x7F7F_FFFF, 0x3F80_0000, 0x3F7F_FFFF];

/// Masks and seeds, at times the smallest or largest.
fn random_state(random: &mut Random) -> u32 {
    match random.below(20) {
        0 => 1,
        1 => (1 << 20) - 1,
        _ => 1 + random.below((1 << 20) - 1) as u32,
    }
}

/// The largest level that the mode can send.
fn largest_level(mode: u8) -> u32 {
    if mode < 2 { 0x7F7F_FFFF } else { LARGEST }
}

/// A level that the mode can send.
fn random_level(random: &mut Random, mode: u8) -> f32 {
    let most = largest_level(mode);
    let any = 0x0080_0000 + random.below((most - 0x0080_0000) as usize + 1) as u32;
    let edge = random.pick(&EDGE_LEVELS);
    f32::from_bits(if random.percent(20) && edge <= most { edge } else { any })
}

/// A floor that the level allows: +0.0, the least, the largest and the one before it, any, and any that every level allows.
fn random_floor(random: &mut Random, level: f32) -> f32 {
    let most = most_floor(level);
    let (any, small) = (random.below(most as usize + 1) as u32, random.below(LEAST_HALF as usize + 1) as u32);
    let near = most - random.below(most.min(0x0400_0000) as usize) as u32;
    f32::from_bits(random.pick(&[0, 0, 1, small, any, near, near, most - 1, most]))
}

/// The profile with another level, and a floor that it allows.
pub fn with_level(profile: Profile, random: &mut Random, level: f32) -> Profile {
    Profile { level, floor: random_floor(random, level), ..profile }
}

pub fn random_profile(random: &mut Random, mode: u8, k: u8) -> Profile {
    let level = random_level(random, mode);
    let mut profile = with_level(Profile { mode, k, ..Profile::ZERO }, random, level);
    profile.masks.iter_mut().for_each(|mask| *mask = random_state(random));
    let slots = profile.slots();
    profile.seeds[..slots].iter_mut().for_each(|seed| *seed = random_state(random));
    repeat_some(random, &mut profile, slots);
    while let Some(t) = first_repeat(&profile) {
        profile.seeds[t] = random_state(random);
    }
    profile
}

/// At times one mask, one seed, or the first symbol's seeds in all symbols: by themselves these are right.
fn repeat_some(random: &mut Random, profile: &mut Profile, slots: usize) {
    let (mask, seed) = (profile.masks[0], profile.seeds[0]);
    match random.below(20) {
        0 => profile.masks.fill(mask),
        1 => profile.seeds[..slots].fill(seed),
        2 => (7..slots).for_each(|t| profile.seeds[t] = profile.seeds[t % 7]),
        _ => (),
    }
}

/// Two profiles with the least level that the mode can send and with the largest.
pub fn edge_profiles(random: &mut Random, mode: u8, k: u8) -> [Profile; 2] {
    [0x0080_0000, largest_level(mode)].map(|level| with_level(random_profile(random, mode, k), random, f32::from_bits(level)))
}

pub fn written(profile: &Profile) -> Vec<u8> {
    let (answer, bytes, count) = plain::write_profile(profile);
    assert_eq!(answer.number, 0);
    bytes[..count].to_vec()
}

fn wrong_length(random: &mut Random, right: u16) -> u16 {
    random.pick(&[0, right - 1, right + 1, right ^ 0x0100, right.swap_bytes(), 0xFFFF, 48, 64, 96, 128, 192])
}

/// One damage of a profile that is still in one piece; its kind and place are random.
fn damage(random: &mut Random, mut bytes: Vec<u8>) -> Vec<u8> {
    let (f, slots) = (random.below(6), (bytes.len() - WITHOUT_SEEDS) / 4);
    let starts = starts(slots);
    let (start, end) = (starts[f], *starts.get(f + 1).unwrap_or(&bytes.len()));
    match random.below(11) {
        0 => bytes.truncate(start),
        1 => bytes.truncate(start + 1 + random.below(end - start - 1)),
        2 => bytes[start] = random.pick(&[0, 1, 2, 3, 4, 5, 6, 7, 255]),
        3 => {
            let right = u16::from_be_bytes([bytes[start + 1], bytes[start + 2]]);
            bytes[start + 1..start + 3].copy_from_slice(&wrong_length(random, right).to_be_bytes());
        }
        4 | 5 => Spot::any_in(random, f, slots).spoil(random, slots, &mut bytes),
        6 => drop(bytes.drain(start..end)),
        7 => {
            let surplus = 1 + random.below(8);
            bytes.extend(random.bytes(surplus));
        }
        8 => {
            let place = random.below(bytes.len());
            bytes[place] = random.next() as u8;
        }
        9 => make_twins(random, slots, &mut bytes),
        _ => bytes[starts[2] + 3] = random.pick(&[0, 1, 2, 3, 4, 5]),
    }
    bytes
}

/// Copies the seed and the mask of a slot to a later one of its symbol. Masks begin at byte 3, seeds at byte 53.
fn make_twins(random: &mut Random, slots: usize, bytes: &mut [u8]) {
    let any = 1 + random.below(slots - 1);
    let t = if any % 7 == 0 { any - 1 } else { any };
    let u = t - 1 - random.below(t % 7);
    for [from, to] in [[u, t].map(|t| 3 + 4 * (1 + t % 7)), [u, t].map(|t| 53 + 4 * t)] {
        bytes.copy_within(from..from + 4, to);
    }
}

/// A profile with one damage, at times two, or just random bytes.
pub fn damaged(random: &mut Random, profile: &Profile) -> Vec<u8> {
    if random.percent(8) {
        let count = random.below(300);
        return random.bytes(count);
    }
    let once = damage(random, written(profile));
    if once.len() >= written(profile).len() && random.percent(25) { damage(random, once) } else { once }
}

fn same_profile(a: &Profile, b: &Profile) -> bool {
    a.masks == b.masks && a.seeds == b.seeds && same(&[a.level, a.floor], &[b.level, b.floor]) && a.mode == b.mode && a.k == b.k
}

fn read_case(tally: &mut Tally, label: &str, bytes: &[u8]) -> Answer {
    let (library, theirs) = library::read_profile(bytes);
    let (plain, ours) = plain::read_profile(bytes);
    let kept = library.number == 0 || same_profile(&theirs, &Profile::ZERO);
    let tests = [("profiles differ", same_profile(&theirs, &ours)), ("a refused profile isn't all zero", kept)];
    tally.case(Call::ReadProfile, Given::bytes(bytes), label, library, plain, &tests);
    plain
}

/// A read case in which it is known beforehand what is said.
pub fn expect(tally: &mut Tally, known: Answer, label: &str, bytes: &[u8]) {
    let plain = read_case(tally, label, bytes);
    tally.known(label, plain, known);
}

/// Each of the numbers 1, 2, 3 and 5 in each field and place of it, and the order of their tests inside a field.
fn each_field(tally: &mut Tally, profile: &Profile) {
    let right = written(profile);
    let mut expect = |number: u32, label: &str, bytes: &[u8]| expect(tally, number.into(), label, bytes);
    let starts = starts(profile.slots());
    for f in 0..6 {
        let (start, end) = (starts[f], *starts.get(f + 1).unwrap_or(&right.len()));
        expect(5, "ends between fields", &right[..start]);
        (start + 1..end).for_each(|cut| expect(1, "ends inside a field", &right[..cut]));
        for tag in (0..=255).filter(|&tag| tag != right[start]) {
            let mut bytes = right.clone();
            bytes[start] = tag;
            expect(2, "wrong tag", &bytes);
            bytes[start + 2] ^= 1;
            expect(2, "wrong tag and length", &bytes);
            expect(1, "wrong tag, header cut", &bytes[..start + 2]);
        }
        for bit in 0..16 {
            let mut bytes = right.clone();
            bytes[start + 1 + bit / 8] ^= 1 << (bit % 8);
            expect(3, "wrong length", &bytes);
            expect(3, "wrong length, value cut", &bytes[..start + 3]);
        }
    }
}

/// Bytes after the sixth field; every bit turned; every mode and K byte.
fn each_byte(random: &mut Random, tally: &mut Tally, profile: &Profile) {
    let right = written(profile);
    expect(tally, 0.into(), "a right profile", &right);
    for surplus in 1..40 {
        let number = if surplus < 3 { 1 } else { 2 };
        let mut bytes = right.clone();
        bytes.extend(random.bytes(surplus));
        expect(tally, number.into(), "surplus bytes", &bytes);
        for tag in [6, 7] {
            bytes[right.len()] = tag;
            expect(tally, number.into(), "surplus bytes", &bytes);
        }
    }
    for place in 0..8 * right.len() {
        let mut bytes = right.clone();
        bytes[place / 8] ^= 1 << (place % 8);
        read_case(tally, "one bit turned", &bytes);
    }
    for value in 0..=255 {
        for field in [2, 3] {
            let mut bytes = right.clone();
            bytes[starts(0)[field] + 3] = value;
            read_case(tally, "any mode or K", &bytes);
        }
    }
}

pub fn write_case(tally: &mut Tally, label: &str, value: &Profile) -> Answer {
    let (library, theirs, their_count) = library::write_profile(value);
    let (plain, ours, our_count) = plain::write_profile(value);
    let zero = library.number == 0 || (theirs == [0; PROFILE] && their_count == 0);
    let tests = [
        ("bytes differ", theirs == ours),
        ("counts differ", their_count == our_count),
        ("a refused profile isn't all zero", zero),
    ];
    tally.case(Call::WriteProfile, Given::value(value), label, library, plain, &tests);
    plain
}

pub fn run(random: &mut Random, tally: &mut Tally) {
    for (mode, k) in MODES.into_iter().flat_map(|mode| KS.map(|k| (mode, k))) {
        let profile = random_profile(random, mode, k);
        each_field(tally, &profile);
        each_byte(random, tally, &profile);
        for _ in 0..500 {
            let profile = random_profile(random, mode, k);
            write_case(tally, "a right value", &profile);
            read_case(tally, "a right profile", &written(&profile));
            for _ in 0..4 {
                read_case(tally, "a damaged profile", &damaged(random, &profile));
            }
        }
    }
    for _ in 0..2000 {
        let count = random.below(300);
        read_case(tally, "random bytes", &random.bytes(count));
    }
}
