//! Document 01's printed examples, the ends of Req 01's order, Req 06's and Req 07's figures, Req 08's slots, source document 000's points, and states,
//! decisions and coded packets worked out by hand and by flo.py, held against the plain program before it is used as a measure.

use crate::check_tools::{Tally, LARGEST};
use crate::plain::{self, Answer, Came, Encoder, Profile, Rate, BAD_FLOOR, CELLS, CODED, PACKET, TWIN_SLOTS};

/// Compares one example and counts a difference when it doesn't come out.
fn example<T: PartialEq + std::fmt::Debug>(tally: &mut Tally, name: &str, came: T, printed: T) {
    if came != printed {
        tally.difference(&format!("the example {name}: the plain program gives {came:?}, not {printed:?}"));
    }
}

/// The parity bytes of a block whose only byte that isn't zero is a 01 in packet p.
fn parity_of_one(k: u8, p: usize) -> Vec<u8> {
    let mut data = vec![0; PACKET * k as usize];
    data[PACKET * p] = 1;
    plain::block_of(k, &data)[k as usize..].iter().map(|packet| packet[0]).collect()
}

/// The generator, which is the codeword of a 01 in the last data packet, is zero at each of the roots that document 01 names.
fn roots_hold(k: u8) -> bool {
    let r = 16 - k as usize;
    let word: Vec<u8> = [1].into_iter().chain(parity_of_one(k, k as usize - 1)).collect();
    let power = |e: usize| (0..e).fold(1, |a, _| plain::product(a, 2));
    (128 - r / 2..128 + r / 2).all(|e| word.iter().fold(0, |sum, c| plain::product(sum, power(e)) ^ c) == 0)
}

fn codes(tally: &mut Tally) {
    example(tally, "check word", plain::check_word(b"123456789"), 0xD64E);
    let mut encoder = Encoder::default();
    example(tally, "P1", [1, 0, 0, 0, 0, 0, 0, 0].map(|x| encoder.step(x)), [1, 1, 1, 1, 0, 0, 1, 0]);
    example(tally, "P2 and P3", [0, 1, 2, 31, 32].map(plain::address), [27, 515, 257, 1005, 22]);
    example(tally, "P4", parity_of_one(14, 13), vec![0x49, 0x01]);
    example(tally, "P5", parity_of_one(12, 11), vec![0x38, 0xCF, 0x38, 0x01]);
    example(tally, "roots", [8, 12, 14].map(roots_hold), [true; 3]);
    example(tally, "P6", [0, 500, 1000, 1500].map(|i| plain::interleaved(2000, i)), [0, 1, 2, 3]);
}

fn cells(tally: &mut Tally) {
    let mut bits = [0; 21];
    plain::scramble(1, 1, &mut bits);
    let ones: Vec<usize> = (0..21).filter(|&i| bits[i] == 1).collect();
    example(tally, "P7", ones, vec![0, 17, 20]);
    example(tally, "P8", [249, 250].map(|i| plain::interlace(0, i)), [2040, 2056]);
    example(tally, "P9", [0, 499].map(|i| plain::interlace(3, i)), [51, 4043]);
    example(tally, "P10", [7, 47].map(plain::slot_place), [(1, 1), (6, 6)]);
    // The first by Req 01's sentence; the last are 508 to 510 with their nine bits reversed, since 511 is dropped.
    example(tally, "Req 01", plain::PLACES[..8].to_vec(), vec![0, 256, 128, 384, 64, 320, 192, 448]);
    example(tally, "Req 01, at its end", plain::PLACES[497..].to_vec(), vec![127, 383, 255]);
}

/// What documents 01 and 02 say of each mode: bits of a packet and of a slot, slots, symbols.
const FIGURES: [(usize, usize, usize, usize); 5] =
    [(3000, 1000, 48, 7), (2000, 1000, 32, 5), (3000, 2000, 24, 4), (2000, 2000, 16, 3), (1500, 2000, 12, 2)];

fn modes(tally: &mut Tally) {
    for (mode, figures) in (0..).zip(FIGURES) {
        let profile = Profile { mode, ..Profile::ZERO };
        let came = (profile.rate().length(), profile.slot_bits(), profile.slots(), profile.symbols());
        example(tally, "a mode's figures", came, figures);
    }
    // Three times the digits AAAAAA are 1FFFFFE, one less than which a float with the largest exponent can't have.
    example(tally, "the largest level", (3.0 * f32::from_bits(LARGEST)).to_bits(), 0x7F7F_FFFF);
    example(tally, "the next level", (3.0 * f32::from_bits(LARGEST + 1)).to_bits(), 0x7F80_0000);
}

/// Source document 000's table of 16QAM, row by row: s3 s2 s1 s0, m_Q, m_I.
const POINTS_16: [([u8; 4], i8, i8); 16] = [
    ([0, 0, 0, 0], 3, 3), ([0, 0, 0, 1], 3, 1), ([0, 0, 1, 1], 3, -1), ([0, 0, 1, 0], 3, -3),
    ([0, 1, 0, 0], 1, 3), ([0, 1, 0, 1], 1, 1), ([0, 1, 1, 1], 1, -1), ([0, 1, 1, 0], 1, -3),
    ([1, 1, 0, 0], -1, 3), ([1, 1, 0, 1], -1, 1), ([1, 1, 1, 1], -1, -1), ([1, 1, 1, 0], -1, -3),
    ([1, 0, 0, 0], -3, 3), ([1, 0, 0, 1], -3, 1), ([1, 0, 1, 1], -3, -1), ([1, 0, 1, 0], -3, -3),
];

fn points(tally: &mut Tally) {
    let (mut firsts, mut seconds) = (vec![0.0; CELLS], vec![0.0; CELLS]);
    let profile = Profile { level: 0.5, mode: 1, ..Profile::ZERO };
    plain::put_slot(&profile, 1, &[1, 0], &mut firsts, &mut seconds);
    example(tally, "P11", (firsts[49], seconds[49]), (-0.5, 0.5));
    for ([s3, s2, s1, s0], second, first) in POINTS_16 {
        plain::put_slot(&Profile { mode: 4, ..profile }, 1, &[s0, s1, s2, s3], &mut firsts, &mut seconds);
        example(tally, "a point of 16QAM", (firsts[49], seconds[49]), (first as f32 * 0.5, second as f32 * 0.5));
    }
}

/// The same data as flo.py's.
fn formula(count: usize) -> Vec<u8> {
    (0..count).map(|i| ((i * i * 7 + i * 13 + 5) % 251) as u8).collect()
}

/// The first 32 bits of a coded packet and the last, as `python3 outside/flo.py vectors` prints them.
fn coded(tally: &mut Tally) {
    let (zeros, ones, formula) = ([0; PACKET], [255; PACKET], formula(PACKET).try_into().unwrap());
    for (packet, rate, first, last) in [
        (formula, Rate::Third, "01110010011000110101011101000110", "01000101011110110011100011100010"),
        (formula, Rate::Half, "01110010001101110100011000110100", "00000100110001010111101110000010"),
        (formula, Rate::TwoThirds, "01110011011101000110000101100100", "01010001000011000100011110111000"),
        (zeros, Rate::TwoThirds, "00000000000100000000001000000000", "00000101000100010011000100000001"),
        (ones, Rate::TwoThirds, "11111101101011111110011111110111", "11111111111111110110111001101110"),
    ] {
        let bits = plain::packet_bits(&packet, plain::check_word(&packet), 0);
        let mut coded = [0; CODED];
        let coded = &mut coded[..rate.length()];
        plain::encode(&bits, rate, coded);
        let text: String = coded.iter().map(|bit| bit.to_string()).collect();
        example(tally, "a coded packet by flo.py", (&text[..32], &text[text.len() - 32..]), (first, last));
    }
}

/// K = 14, cells as sent, packets 2, 5 and 9 marked.
fn report(tally: &mut Tally, mode: u8) {
    let mut profile = Profile { masks: [1; 8], level: 1.0, mode, k: 14, ..Profile::ZERO };
    let (slots, cells) = (profile.slots(), CELLS * profile.symbols());
    (0..slots).for_each(|t| profile.seeds[t] = 1 + t as u32);
    let mut data = vec![0; profile.data_length()];
    let (mut firsts, mut seconds) = (vec![0.0; cells], vec![0.0; cells]);
    plain::send(&profile, &data, &mut firsts, &mut seconds);
    let answer = plain::receive(&profile, 548, &firsts, &seconds, &mut data);
    example(tally, "the report's head", (answer.number, answer.lost), (9, 548));
    example(tally, "the report", answer.reasons, [0, 0, 11, 0, 0, 11, 0, 0, 0, 11, 0, 0, 0, 0, 0, 0]);
}

/// A state after two pieces in mode 1, and what more fits into it.
fn state(tally: &mut Tally) {
    let profile = Profile { mode: 1, ..Profile::ZERO };
    let mut came = Came::nothing();
    came.feed(&profile, &[0.5, -1.0, -0.0], &[f32::INFINITY, 1e-45, -2.0]);
    came.feed(&profile, &[f32::NAN, f32::NEG_INFINITY], &[0.0, -1e-45]);
    example(tally, "a state's bytes", came.state()[..8].to_vec(), vec![0, 5, 0, 1, 5, 8, 4, 0]);
    let one = [1.0; 5 * CELLS];
    example(tally, "a cell too many", came.feed(&profile, &one[4..], &one[4..]), 16);
    example(tally, "all that lack", came.feed(&profile, &one[5..], &one[5..]), 0);
    example(tally, "a full state's head", came.state()[..8].to_vec(), vec![0x50, 0, 0, 1, 5, 8, 4, 0]);
    example(tally, "a state's length", came.state().len(), 28674);
}

/// The same in mode 4 with D = 0.5, so that the lines are -1, 0 and 1.
fn qam_state(tally: &mut Tally) {
    let profile = Profile { mode: 4, level: 0.5, ..Profile::ZERO };
    let mut came = Came::nothing();
    let (under, over) = (f32::from_bits(0x3F7F_FFFF), f32::from_bits(0x3F80_0001));
    came.feed(&profile, &[1.5, -1.5, 0.5, -0.5, 0.0], &[-0.5, 0.5, -1.5, 1.5, 1.5]);
    came.feed(&profile, &[under, 1.0, over, -under, -1.0, -over], &[over, under, 1.0, -over, -under, -1.0]);
    came.feed(&profile, &[f32::NAN, f32::NEG_INFINITY, 1e-45, -0.0], &[f32::INFINITY, -1e-45, f32::NAN, -1.0]);
    let bytes = [0, 15, 15, 11, 7, 3, 4, 2, 14, 20, 8, 19, 21, 4, 16, 22, 24, 0];
    example(tally, "a state's bytes in mode 4", came.state()[..18].to_vec(), bytes.to_vec());
    let one = [1.0; 2 * CELLS];
    example(tally, "a cell too many in mode 4", came.feed(&profile, &one[14..], &one[14..]), 16);
    example(tally, "all that lack in mode 4", came.feed(&profile, &one[15..], &one[15..]), 0);
    example(tally, "a full state's ends in mode 4", (came.state()[0], came.state()[2 * CELLS + 1], came.state()[2 * CELLS + 2]), (0x20, 24, 0));
}

/// With floors: D = 1 and floor 0.25 in mode 1, where only parts from -0.25 to 0.25 are doubtful, then D = 0.5 and floor 0.25 in mode 4, where also
/// those from 0.75 to 1.25 are and those from -1.25 to -0.75.
fn floor_states(tally: &mut Tally) {
    let bytes = |profile: &Profile, parts: &[f32]| {
        let mut came = Came::nothing();
        came.feed(profile, parts, &vec![profile.level; parts.len()]);
        came.state()[2..2 + parts.len()].to_vec()
    };
    let step = |part: f32, up: i32| f32::from_bits((part.to_bits() as i32 + up) as u32);
    let qpsk = Profile { mode: 1, level: 1.0, floor: 0.25, ..Profile::ZERO };
    let parts = [0.25, step(0.25, 1), step(0.25, -1), -0.25, step(-0.25, 1), step(-0.25, -1), 0.0, -0.0, f32::NAN, f32::INFINITY, 2.0, -2.0];
    example(tally, "a state's bytes with a floor", bytes(&qpsk, &parts), vec![2, 0, 2, 2, 1, 2, 2, 2, 2, 0, 0, 1]);
    let qam = Profile { mode: 4, level: 0.5, floor: 0.25, ..Profile::ZERO };
    let (low, high) = (0.75, 1.25);
    let parts = [0.25, step(0.25, 1), -0.25, step(-0.25, 1), step(low, -1), low, step(low, 1), step(high, -1), high, step(high, 1), 1.0];
    let inner = 5 * 2; // of the second parts, which are D
    let known = [4, 2, 4, 3, 2, 4, 4, 4, 4, 0, 4].map(|decision| decision + inner);
    example(tally, "a state's bytes in mode 4 with a floor", bytes(&qam, &parts), known.to_vec());
    let negatives = parts.map(|part| -part);
    let known = [4, 3, 4, 2, 3, 4, 4, 4, 4, 1, 4].map(|decision| decision + inner);
    example(tally, "a state's bytes in mode 4 with a floor", bytes(&qam, &negatives), known.to_vec());
}

/// Some of the decisions that `python3 outside/flo.py vectors` prints: mode, level, floor, part, decision.
const DECISIONS: [(u8, u32, u32, u32, u8); 16] = [
    (0, 0x3FC0_0000, 0x3F40_0000, 0x3F40_0000, 2),
    (0, 0x3FC0_0000, 0x3F40_0000, 0xBF40_0001, 1),
    (0, 0x0080_0000, 0x0000_0001, 0x8000_0001, 2),
    (0, 0x0080_0000, 0x0000_0001, 0x0000_0002, 0),
    (2, 0x3F80_0000, 0x33A0_0000, 0x3FFF_FFFE, 2),
    (2, 0x3F80_0000, 0x33A0_0000, 0xBFFF_FFFF, 4),
    (2, 0x3F80_0000, 0x33A0_0000, 0x4000_0001, 0),
    (2, 0x3F80_0001, 0x3E80_0000, 0x3FE0_0001, 2),
    (2, 0x3F80_0001, 0x3E80_0000, 0xBFE0_0002, 4),
    (2, 0x3F80_0001, 0x3E80_0000, 0x4010_0001, 4),
    (2, 0x3F80_0001, 0x3F00_0001, 0xC020_0001, 4),
    (2, 0x3F80_0001, 0x3F00_0001, 0xC020_0002, 1),
    (2, 0x0080_0000, 0x0000_0001, 0x80FF_FFFF, 4),
    (2, 0x0080_0000, 0x0000_0001, 0x80FF_FFFE, 3),
    (2, 0x7EAA_AAAA, 0x7E2A_AAAA, 0x7F55_5554, 4),
    (2, 0x7EAA_AAAA, 0x7E2A_AAAA, 0x7F55_5555, 0),
];

/// Bytes of a profile in each mode, and where its floor stands, by flo.h.
const FLOORS: [(usize, usize); 5] = [(252, 248), (188, 184), (156, 152), (124, 120), (108, 104)];

fn floors(tally: &mut Tally) {
    floor_states(tally);
    for (mode, level, floor, part, decided) in DECISIONS {
        let profile = Profile { mode, level: f32::from_bits(level), floor: f32::from_bits(floor), ..Profile::ZERO };
        example(tally, "a decision by flo.py", plain::decision(&profile, f32::from_bits(part)), decided);
    }
    for (mode, (count, place)) in (0..).zip(FLOORS) {
        let mut right = Profile { masks: [1; 8], level: 1.0, mode, k: 8, floor: 0.5, ..Profile::ZERO };
        let slots = right.slots();
        (0..slots).for_each(|t| right.seeds[t] = 1 + t as u32);
        let (answer, bytes, came) = plain::write_profile(&right);
        example(tally, "a profile's length", (answer.number, came, bytes.len()), (0, count, 252));
        example(tally, "its last field", bytes[count - 7..count].to_vec(), vec![6, 0, 4, 0x3F, 0, 0, 0]);
        let known = Answer { number: BAD_FLOOR, place };
        example(tally, "a bad floor's place", plain::write_profile(&Profile { floor: -0.0, ..right }).0, known);
        example(tally, "an old profile", plain::read_profile(&bytes[..count - 7]).0, 5.into());
    }
}

/// Slots by hand: mode, the masks that are 500, the slots whose seed is 600, and the slot that is named, if one is. All other masks are 1 to 8, all
/// other seeds 1 to 48. Slot t has mask 1 + t mod 7, so that slots 0, 7 and 14 have mask 1 and slots 6, 13 and 20 have mask 7.
const TWINS: [(u8, &[usize], &[usize], Option<usize>); 17] = [
    (0, &[1, 2], &[0, 1], Some(1)),
    (0, &[1, 7], &[0, 6], Some(6)),
    (0, &[6, 7], &[5, 6], Some(6)),
    (0, &[7, 1], &[6, 7], None), // symbols 0 and 1
    (0, &[1], &[0, 7, 14, 21, 28, 35, 42], None), // all symbols
    (0, &[0, 1], &[0, 1, 2, 3, 4, 5, 6], None), // no slot has mask 0
    (0, &[0, 7], &[5, 6, 12, 13], None),
    (0, &[1, 2, 3, 4, 5, 6, 7], &[5], None),
    (0, &[2, 4], &[0, 1, 2, 3, 4, 5, 6], Some(3)),
    (0, &[1, 3, 5], &[7, 9, 11], Some(9)),
    (0, &[5, 6], &[46, 47], Some(47)),
    (0, &[1, 6], &[42, 47], Some(47)),
    (1, &[3, 4], &[30, 31], Some(31)),
    (2, &[1, 3], &[21, 23], Some(23)),
    (3, &[1, 2], &[14, 15], Some(15)),
    (4, &[1, 5], &[7, 11], Some(11)),
    (4, &[5, 6], &[11], None), // slot 12 isn't there
];

fn twins(tally: &mut Tally) {
    for (mode, masks, seeds, named) in TWINS {
        let mut profile = Profile { masks: [1, 2, 3, 4, 5, 6, 7, 8], level: 1.0, mode, k: 12, ..Profile::ZERO };
        (0..profile.slots()).for_each(|t| profile.seeds[t] = 1 + t as u32);
        let (right, mut bytes, count) = plain::write_profile(&profile);
        example(tally, "no twins", right, 0.into());
        for &i in masks {
            profile.masks[i] = 500;
            bytes[3 + 4 * i..7 + 4 * i].copy_from_slice(&500u32.to_be_bytes());
        }
        for &t in seeds {
            profile.seeds[t] = 600;
            bytes[53 + 4 * t..57 + 4 * t].copy_from_slice(&600u32.to_be_bytes());
        }
        let known = named.map_or(0.into(), |place| Answer { number: TWIN_SLOTS, place });
        example(tally, "twins in a value", plain::write_profile(&profile).0, known);
        example(tally, "twins in bytes", plain::read_profile(&bytes[..count]).0, known);
    }
}

/// States after the first cells of a grid: the check words that `python3 outside/flo.py state` prints.
const STATES: [(u8, [u16; 5]); 4] = [
    (1, [0x8495, 0x089B, 0xB1FD, 0xE857, 0xE5FF]),
    (2, [0x8495, 0x5424, 0x1AE6, 0x58BE, 0xACFD]),
    (3, [0x8495, 0x5424, 0x3537, 0x4AC7, 0xAB3E]),
    (4, [0x8495, 0x5424, 0x7FCD, 0x1BCF, 0x6FD2]),
];

fn states(tally: &mut Tally) {
    for (mode, words) in STATES {
        let mut profile = Profile { level: 1.5, mode, k: 8, ..Profile::ZERO };
        let (slots, cells) = (profile.slots(), CELLS * profile.symbols());
        (0..8).for_each(|i| profile.masks[i] = 37 * i as u32 + 1);
        (0..slots).for_each(|t| profile.seeds[t] = 977 * t as u32 + 1);
        let data = formula(profile.data_length());
        let (mut firsts, mut seconds) = (vec![0.0; cells], vec![0.0; cells]);
        plain::send(&profile, &data, &mut firsts, &mut seconds);
        let word = |count: usize| {
            let mut came = Came::nothing();
            came.feed(&profile, &firsts[..count], &seconds[..count]);
            plain::check_word(&came.state()[..4300])
        };
        example(tally, "states by flo.py", [0, 50, 255, 256, 4200].map(word), words);
    }
}

pub fn run(tally: &mut Tally) {
    codes(tally);
    cells(tally);
    modes(tally);
    points(tally);
    coded(tally);
    (0..5).for_each(|mode| report(tally, mode));
    state(tally);
    qam_state(tally);
    floors(tally);
    twins(tally);
    states(tally);
}
