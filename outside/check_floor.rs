//! The floor, by document 02's Req 07: where the doubtful ranges end, worked out here in whole numbers and so apart from the plain program; parts at
//! these ends and one f32 beside them, in every mode, received whole and in pieces; grids as sent, which lose nothing; floors that a level allows and
//! floors that it doesn't.

use crate::check_pieces::{fed_case, spare, state_case};
use crate::check_places::each_call;
use crate::check_profile::{expect, random_profile, with_level, write_case, written, KS, MODES};
use crate::check_receive::clean_grid;
use crate::check_tools::{Kind, Random, Tally, LARGEST};
use crate::plain::{Answer, Profile, ACCEPTED, BAD_FLOOR, DOUBTFUL, PACKETS};

/// Half of the least level, which every level allows as a floor.
pub const LEAST_HALF: u32 = 0x0040_0000;

/// The bits of the largest floor that a level allows. Half a level is one less in its exponent; where that would be subnormal, the bits themselves
/// are a whole number that is halved, and what is over falls away.
pub fn most_floor(level: f32) -> u32 {
    let bits = level.to_bits();
    if bits >= 0x0100_0000 { bits - 0x0080_0000 } else { bits / 2 }
}

// ---- the ends of the doubtful ranges

/// A number's digits, and the exponent that its bits have; a subnormal one has that of the least normal ones.
fn digits(bits: u32) -> (u128, i32) {
    if bits < 0x0080_0000 { (bits as u128, 1) } else { ((bits & 0x007F_FFFF | 0x0080_0000) as u128, (bits >> 23) as i32) }
}

/// More binary digits behind a level's than would have any part in rounding.
const BEHIND: i32 = 70;

/// The bits of the f32 nearest to twice a level plus or minus a floor that the level allows; of two that are equally near, the even one.
fn line_end(level: u32, floor: u32, is_upper: bool) -> u32 {
    let ((line, exponent), (floor, of_floor)) = (digits(level), digits(floor));
    let shift = BEHIND + of_floor - exponent - 1;
    // A floor so small that it only has to be noticed is the least that is behind.
    let (line, floor) = (line << BEHIND, if shift >= 0 { floor << shift } else { floor.min(1) });
    let exact = if is_upper { line + floor } else { line - floor };
    let over = 128 - exact.leading_zeros() as i32 - 24;
    let (kept, rest, half) = (exact >> over, exact & ((1 << over) - 1), 1 << (over - 1));
    let kept = kept + (rest > half || (rest == half && kept % 2 == 1)) as u128;
    // With 24 digits the first is the exponent's one; a 25th adds one to it, as it must.
    ((exponent + over - BEHIND) << 23) as u32 + kept as u32
}

/// The bits of the positive ends of the doubtful ranges: the floor and, in 16QAM, the ends around twice the level. A part's size grows with its bits,
/// so what lies between two ends lies between their bits.
pub struct Ends {
    pub floor: u32,
    pub line: Option<(u32, u32)>,
}

pub fn ends(profile: &Profile) -> Ends {
    let (level, floor) = (profile.level.to_bits(), profile.floor.to_bits());
    let line = (profile.mode >= 2).then(|| (line_end(level, floor, false), line_end(level, floor, true)));
    Ends { floor, line }
}

/// Parts at the ends of the doubtful ranges, one f32 inside them and one beyond, and elsewhere, with the bits that each decides to; none where it is
/// doubtful.
pub fn edge_parts(profile: &Profile) -> Vec<(Kind, f32, Option<Vec<u8>>)> {
    let (Ends { floor, line }, level) = (ends(profile), profile.level.to_bits());
    let mut parts = Vec::new();
    for s in [0, 1] {
        let signed = |is_inner: u8| Some(if line.is_some() { vec![is_inner, s] } else { vec![s] });
        let (inner, outer) = (signed(1), signed(0));
        let mut some = vec![
            (Kind::Zero, 0, None),
            (Kind::AtFloor, floor, None),
            (Kind::BeyondFloor, floor + 1, inner.clone()),
            (Kind::AsSent, level, inner.clone()),
            (Kind::Infinite, 0x7F80_0000, outer.clone()),
            (Kind::NotANumber, 0x7FC0_0000, None),
            (Kind::NotANumber, 0x7F80_0001, None),
        ];
        if floor > 0 {
            some.push((Kind::InsideFloor, floor - 1, None));
        }
        if let Some((low, high)) = line {
            some.extend([
                (Kind::BeyondLow, low - 1, inner),
                (Kind::AtLow, low, None),
                (Kind::AtHigh, high, None),
                (Kind::BeyondHigh, high + 1, outer.clone()),
                (Kind::AsSent, (3.0 * profile.level).to_bits(), outer),
            ]);
            if low < high {
                some.extend([(Kind::InsideLow, low + 1, None), (Kind::InsideHigh, high - 1, None)]);
            }
        }
        parts.extend(some.into_iter().map(|(kind, bits, decided)| (kind, f32::from_bits(bits | (s as u32) << 31), decided)));
    }
    parts
}

/// Ends worked out by hand: level, floor, 2D - floor, 2D + floor.
const KNOWN_ENDS: [[u32; 4]; 14] = [
    [0x3F80_0000, 0, 0x4000_0000, 0x4000_0000],
    [0x3F80_0000, 1, 0x4000_0000, 0x4000_0000],
    [0x3F80_0000, 0x3F00_0000, 0x3FC0_0000, 0x4020_0000], // 1.5, 2.5
    [0x3F80_0000, 0x3380_0000, 0x4000_0000, 0x4000_0000], // 2^-24 is half a digit below 2: even
    [0x3F80_0000, 0x3380_0001, 0x3FFF_FFFF, 0x4000_0000], // a little more than half a digit
    [0x3F80_0000, 0x33A0_0000, 0x3FFF_FFFF, 0x4000_0000], // 5/8 of a digit below 2, 5/16 above
    [0x3F80_0000, 0x3400_0000, 0x3FFF_FFFF, 0x4000_0000], // a digit below 2, and half a one above: even
    [0x3F80_0000, 0x3400_0001, 0x3FFF_FFFF, 0x4000_0001],
    [0x3F80_0001, 0x3E80_0000, 0x3FE0_0002, 0x4010_0001], // 1.75 and two digits, 2.25 and one
    [0x3F80_0001, 0x3F00_0001, 0x3FC0_0002, 0x4020_0001], // 1.5 and one and a half: even; 2.5 and five quarters: the nearer
    [0x0080_0000, 1, 0x00FF_FFFF, 0x0100_0000],           // a digit below 2D, half a one above: even
    [0x0080_0000, 3, 0x00FF_FFFD, 0x0100_0002],           // one and a half: even
    [0x0080_0000, 0x0040_0000, 0x00C0_0000, 0x0120_0000],
    [0x7EAA_AAAA, 0x7E2A_AAAA, 0x7EFF_FFFF, 0x7F55_5554], // 1.5 times AAAAAA is FFFFFF; 2.5 times is half a digit more: even
];

fn known_ends(tally: &mut Tally) {
    for [level, floor, low, high] in KNOWN_ENDS {
        let profile = Profile { level: f32::from_bits(level), floor: f32::from_bits(floor), mode: 4, ..Profile::ZERO };
        let plain = profile.around_line();
        let (came, plain) = (ends(&profile).line, (plain.0.to_bits(), plain.1.to_bits()));
        if came != Some((low, high)) || plain != (low, high) {
            let known = format!("{low:08x} and {high:08x}");
            tally.difference(&format!("the ends of {level:08x} with {floor:08x}: {came:x?}, the plain program's {plain:x?}, not {known}"));
        }
    }
}

/// Any level and floor: the ends that the plain program has are these.
fn any_ends(random: &mut Random, tally: &mut Tally) {
    for _ in 0..200_000 {
        let any = random_profile(random, 4, 8);
        let plain = any.around_line();
        if ends(&any).line != Some((plain.0.to_bits(), plain.1.to_bits())) {
            tally.difference(&format!("the ends of {:e} with {:e}: {plain:?} by the plain program", any.level, any.floor));
        }
    }
}

// ---- levels and floors

/// The least, some with an odd last digit, one, the largest that modes 2 to 4 can send, and any.
fn levels(random: &mut Random, mode: u8) -> Vec<f32> {
    let fixed = [0x0080_0000, 0x0080_0001, 0x00FF_FFFF, 0x0100_0001, 0x3F80_0000, 0x3F80_0001, 0x3FC0_0000, 0x3FFF_FFFF, LARGEST - 1, LARGEST];
    let large: &[u32] = if mode < 2 { &[0x7F7F_FFFF] } else { &[] };
    let any = [(); 4].map(|_| random_profile(random, mode, 8).level);
    fixed.iter().chain(large).map(|&bits| f32::from_bits(bits)).chain(any).collect()
}

/// Floors that a level allows: +0.0, the smallest subnormal, the largest and the f32 before it, and some between: a millionth of the level, about
/// half a last digit of twice the level, any.
fn floors(random: &mut Random, level: f32) -> Vec<(Kind, u32)> {
    let (most, millionth) = (most_floor(level), (level / 1e6).to_bits());
    let half_digit = level.to_bits().saturating_sub(24 << 23).max(1) + random.below(0x0080_0000) as u32;
    let any = 1 + random.below(most as usize) as u32;
    let mut all = vec![(Kind::NoFloor, 0), (Kind::LeastFloor, 1), (Kind::BelowMostFloor, most - 1), (Kind::MostFloor, most), (Kind::AnyFloor, any)];
    all.extend([millionth, half_digit].into_iter().filter(|floor| (1..=most).contains(floor)).map(|floor| (Kind::SmallFloor, floor)));
    all
}

/// A grid as sent loses nothing; parts at the ends and beside them in its packets are doubtful or decided as they must be, whole and in pieces.
fn floor_case(random: &mut Random, tally: &mut Tally, spare: &[f32], profile: Profile) {
    let sent = clean_grid(random, "a grid as sent, with a floor", profile);
    sent.compare(tally);
    fed_case(random, tally, spare, sent);
    let parts = edge_parts(&profile);
    for from in (0..parts.len()).step_by(PACKETS) {
        let mut grid = clean_grid(random, "parts at the ends of the doubtful ranges", profile);
        grid.put_parts(random, tally, &parts, from);
        grid.compare(tally);
        if random.percent(30) {
            fed_case(random, tally, spare, grid);
        }
    }
    state_case(random, tally, &profile);
}

fn floor_cases(random: &mut Random, tally: &mut Tally, spare: &[f32], mode: u8) {
    for level in levels(random, mode) {
        for (kind, floor) in floors(random, level) {
            let k = random.pick(&KS);
            let profile = Profile { level, floor: f32::from_bits(floor), ..random_profile(random, mode, k) };
            expect(tally, 0.into(), "a right floor", &written(&profile));
            floor_case(random, tally, spare, profile);
            tally.kind(kind);
        }
    }
}

// ---- a grid received with another floor than it was sent with, and another level, so that it allows that floor

/// The floor is just what was sent, which then is doubtful in every part, or less by an f32. In 16QAM with the floor at D and the lines at 4D and
/// -4D, three times D is at an end too if it is exact.
fn other_floors(random: &mut Random, tally: &mut Tally, mode: u8) {
    for (k, is_at) in KS.into_iter().flat_map(|k| [(k, true), (k, false)]) {
        let level = f32::from_bits(random.pick(&[0x0080_0000, 0x3F80_0000, 0x3FC0_0000, LARGEST & !0x00FF_FFFF]));
        let sent = with_level(random_profile(random, mode, k), random, level);
        let floor = f32::from_bits(level.to_bits() - !is_at as u32);
        let received = Profile { level: 2.0 * level, floor, ..sent };
        let known = if is_at { Some(DOUBTFUL) } else if mode < 2 { Some(ACCEPTED) } else { None };
        clean_grid(random, "a floor near what was sent", sent).under(&received, known).compare(tally);
        tally.kind(Kind::FloorAtSent);
    }
}

// ---- floors that a level doesn't allow

/// Where the floor stands in a written profile.
fn of_floor(profile: &Profile) -> usize {
    written(profile).len() - 4
}

/// Too large by the least step, by more, just the level, one whose double is infinite, not finite, negative, -0.0, NaN.
fn bad_floors(random: &mut Random, level: f32) -> Vec<u32> {
    let (most, bits) = (most_floor(level), level.to_bits());
    let any = most + 1 + random.below((0x7F80_0000 - most) as usize) as u32;
    let always = [0x7F00_0000, 0x7F7F_FFFF, 0x7F80_0000, 0x7FC0_0000, 0x7F80_0001, 0x8000_0000, 0x8000_0001];
    [most + 1, most + 2, any, bits, bits + 1, most | 1 << 31].into_iter().chain(always).collect()
}

fn bad_floor_cases(random: &mut Random, tally: &mut Tally, spare: &[f32], mode: u8) {
    const LABEL: &str = "a floor that the level doesn't allow";
    for level in levels(random, mode) {
        let k = random.pick(&KS);
        let right = with_level(random_profile(random, mode, k), random, level);
        let known = Answer { number: BAD_FLOOR, place: of_floor(&right) };
        for floor in bad_floors(random, level) {
            let mut bytes = written(&right);
            bytes[known.place..].copy_from_slice(&floor.to_be_bytes());
            expect(tally, known, LABEL, &bytes);
            let plain = write_case(tally, LABEL, &Profile { floor: f32::from_bits(floor), ..right });
            tally.known(LABEL, plain, known);
            if floor == most_floor(level) + 1 {
                each_call(random, tally, spare, &right, &bytes, known);
                tally.kind(Kind::TooLargeFloor);
            }
        }
    }
}

/// Levels and floors at random, near each other: one is allowed exactly when its bits say so.
fn any_floors(random: &mut Random, tally: &mut Tally, mode: u8) {
    for _ in 0..2000 {
        let right = random_profile(random, mode, 12);
        let most = most_floor(right.level);
        let any = random.next() as u32;
        let floor = random.pick(&[most - 1, most, most + 1, most + 2, most.wrapping_add(any % 2001).wrapping_sub(1000), any]);
        let known = if floor <= most { 0.into() } else { Answer { number: BAD_FLOOR, place: of_floor(&right) } };
        let mut bytes = written(&right);
        bytes[of_floor(&right)..].copy_from_slice(&floor.to_be_bytes());
        expect(tally, known, "any floor", &bytes);
        let plain = write_case(tally, "any floor", &Profile { floor: f32::from_bits(floor), ..right });
        tally.known("any floor", plain, known);
    }
}

pub fn run(random: &mut Random, tally: &mut Tally) {
    let spare = spare(random);
    known_ends(tally);
    any_ends(random, tally);
    for mode in MODES {
        floor_cases(random, tally, &spare, mode);
        other_floors(random, tally, mode);
        bad_floor_cases(random, tally, &spare, mode);
        any_floors(random, tally, mode);
    }
}
