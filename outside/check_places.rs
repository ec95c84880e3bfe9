//! Which field is at fault and where: each number of a profile outside its range, as bytes and as a value; several of them; and beside faults
//! of the headers. A level that is too large for modes 2 to 4 has its turn after the mode.
//!
//! What must be said is known beforehand in nearly all of these cases, so that the plain program is tested as well.

use crate::check_floor::LEAST_HALF;
use crate::check_pieces::{spare, strange_case};
use crate::check_profile::{expect, random_profile, starts, write_case, written, KS, MODES};
use crate::check_receive::any_grid;
use crate::check_send::{right_lengths, Sending};
use crate::check_tools::{Random, Tally, LARGEST};
use crate::plain::{Answer, Profile, BAD_FLOOR, BAD_K, BAD_LEVEL, BAD_MASK, BAD_MODE, BAD_SEED, STATE};

/// A number of a profile that can be spoilt. `Large` is the level too, spoilt so that only modes 2 to 4 refuse it. The floor is spoilt so that no
/// level allows it; check_floor.rs has those that only some levels don't.
#[derive(Clone, Copy, PartialEq)]
pub enum Spot {
    Mask(usize),
    Level,
    Mode,
    Large,
    K,
    Seed(usize),
    Floor,
}
use Spot::{Floor, Large, Level, Mask, Mode, Seed, K};

/// The first, one between and the last of each field, and of the seeds also the last used one and the first unused one of each mode.
pub const SOME: [Spot; 19] = [
    Mask(0), Mask(3), Mask(7), Level, Mode, Large, K, Seed(0), Seed(11), Seed(12), Seed(15), Seed(16), Seed(23), Seed(24), Seed(31), Seed(32),
    Seed(40), Seed(47), Floor,
];

const BAD_STATES: [u32; 7] = [0, 1 << 20, (1 << 20) + 1, 1 << 24, 1 << 31, u32::MAX, 0xFFF0_0001];
const BAD_UNUSED: [u32; 5] = [1, 5, (1 << 20) - 1, 1 << 20, u32::MAX];
/// Zeros, subnormals, negatives, infinities and NaNs.
const BAD_LEVELS: [u32; 14] = [
    0, 0x8000_0000, 1, 0x0040_0000, 0x007F_FFFF, 0x807F_FFFF, 0x8080_0000, 0xBF80_0000, 0xFF7F_FFFF, 0x7F80_0000, 0xFF80_0000,
    0x7F80_0001, 0x7FC0_0000, 0xFFFF_FFFF,
];
/// Right by themselves, but three times as much is infinite.
const LARGE_LEVELS: [u32; 7] = [LARGEST + 1, LARGEST + 2, 0x7EC0_0000, 0x7F00_0000, 0x7F2A_AAAA, 0x7F2A_AAAB, 0x7F7F_FFFF];
const BAD_MODES: [u32; 4] = [5, 6, 128, 255];
const BAD_KS: [u32; 9] = [0, 2, 7, 9, 10, 11, 13, 16, 255];
/// -0.0, negatives, infinities, NaNs, and finite ones whose double isn't.
const BAD_FLOORS: [u32; 14] = [
    0x8000_0000, 0x8000_0001, 0x807F_FFFF, 0x8080_0000, 0xBF80_0000, 0xFF7F_FFFF, 0xFF80_0000, 0x7F80_0000, 0x7F80_0001, 0x7FC0_0000, 0xFFC0_0000,
    0xFFFF_FFFF, 0x7F00_0000, 0x7F7F_FFFF,
];

/// All numbers of a profile.
fn all() -> impl Iterator<Item = Spot> {
    (0..8).map(Mask).chain([Level, Mode, Large, K]).chain((0..48).map(Seed)).chain([Floor])
}

impl Spot {
    /// One in field f (from 0) of a profile that uses so many seeds.
    pub fn any_in(random: &mut Random, f: usize, slots: usize) -> Spot {
        let level = random.pick(&[Level, Large]);
        [Mask(random.below(8)), level, Mode, K, Seed(random.below(slots)), Floor][f]
    }

    fn field(self) -> usize {
        match self {
            Mask(_) => 0,
            Level | Large => 1,
            Mode => 2,
            K => 3,
            Seed(_) => 4,
            Floor => 5,
        }
    }

    /// The field with whose value it is tested.
    fn turn(self) -> usize {
        if self == Large { Mode.field() } else { self.field() }
    }

    /// Its turn among all numbers.
    fn rank(self) -> usize {
        all().position(|spot| spot == self).unwrap()
    }

    /// Whether such a number is refused in that mode, if nothing else is.
    pub fn is_bad_in(self, mode: u8) -> bool {
        self != Large || mode >= 2
    }

    /// Whether the bytes of a profile that uses so many seeds have it: they have no unused ones.
    pub fn is_written(self, slots: usize) -> bool {
        !matches!(self, Seed(t) if t >= slots)
    }

    /// What is to be said when it is the first that is bad in a profile that uses so many seeds. Three bytes of tag and length stand before a field's
    /// value.
    pub fn answer(self, slots: usize) -> Answer {
        let before = if let Mask(i) | Seed(i) = self { 4 * i } else { 0 };
        let number = [BAD_MASK, BAD_LEVEL, BAD_MODE, BAD_K, BAD_SEED, BAD_FLOOR][self.field()];
        Answer { number, place: starts(slots)[self.field()] + 3 + before }
    }

    pub fn bad(self, slots: usize) -> &'static [u32] {
        match self {
            Seed(t) if t >= slots => &BAD_UNUSED,
            Mask(_) | Seed(_) => &BAD_STATES,
            Level => &BAD_LEVELS,
            Large => &LARGE_LEVELS,
            Mode => &BAD_MODES,
            K => &BAD_KS,
            Floor => &BAD_FLOORS,
        }
    }

    /// Spoils the number in a profile's bytes.
    pub fn spoil(self, random: &mut Random, slots: usize, bytes: &mut [u8]) {
        self.put(slots, bytes, random.pick(self.bad(slots)));
    }

    pub fn put(self, slots: usize, bytes: &mut [u8], bad: u32) {
        let place = self.answer(slots).place;
        match self {
            Mode | K => bytes[place] = bad as u8,
            _ => bytes[place..place + 4].copy_from_slice(&bad.to_be_bytes()),
        }
    }

    pub fn set(self, value: &mut Profile, bad: u32) {
        match self {
            Mask(i) => value.masks[i] = bad,
            Level | Large => value.level = f32::from_bits(bad),
            Mode => value.mode = bad as u8,
            K => value.k = bad as u8,
            Seed(t) => value.seeds[t] = bad,
            Floor => value.floor = f32::from_bits(bad),
        }
    }
}

pub fn expect_value(tally: &mut Tally, known: Answer, label: &str, value: &Profile) {
    let plain = write_case(tally, label, value);
    tally.known(label, plain, known);
}

/// Spoils a right profile in these numbers, as a value and as bytes, and lets it be written and read: the first bad one is named, if there is one.
/// Bytes have no unused seeds. A level is spoilt in one way only.
fn spoilt(tally: &mut Tally, label: &str, right: &Profile, bad: &[(Spot, u32)]) {
    let (mut value, mut bytes) = (*right, written(right));
    let twice = bad.iter().any(|bad| bad.0 == Level);
    let bad: Vec<(Spot, u32)> = bad.iter().copied().filter(|bad| !(twice && bad.0 == Large)).collect();
    let slots = right.slots();
    for &(spot, number) in &bad {
        spot.set(&mut value, number);
        if spot.is_written(slots) {
            spot.put(slots, &mut bytes, number);
        }
    }
    let first = |some: fn(Spot, usize) -> bool| {
        let bad = bad.iter().map(|bad| bad.0).filter(|spot| spot.is_bad_in(right.mode) && some(*spot, slots));
        bad.min_by_key(|spot| spot.rank()).map_or(0.into(), |spot| spot.answer(slots))
    };
    expect_value(tally, first(|_, _| true), label, &value);
    expect(tally, first(Spot::is_written), label, &bytes);
}

/// Each number alone, with every bad value of it; and levels on both sides of the ends of what a mode can send.
fn alone(tally: &mut Tally, right: &Profile) {
    for spot in all() {
        spot.bad(right.slots()).iter().for_each(|&bad| spoilt(tally, "one bad number", right, &[(spot, bad)]));
    }
    let right_levels = (LARGEST - 40..=LARGEST).chain([0x0080_0000, 0x0080_0001, 0x3F80_0000]);
    for level in right_levels.map(f32::from_bits) {
        expect_value(tally, 0.into(), "a right level", &Profile { level, ..*right });
        expect(tally, 0.into(), "a right level", &written(&Profile { level, ..*right }));
    }
    (LARGEST + 1..LARGEST + 40).for_each(|level| spoilt(tally, "a large level", right, &[(Large, level)]));
    (0x007F_FFC0..0x0080_0000).for_each(|level| spoilt(tally, "a subnormal level", right, &[(Level, level)]));
    (5..=255).for_each(|mode| spoilt(tally, "any bad mode", right, &[(Mode, mode)]));
    (0..=255).filter(|&k| !KS.contains(&(k as u8))).for_each(|k| spoilt(tally, "any bad K", right, &[(K, k)]));
}

/// All pairs of some, and more at once of all.
fn together(random: &mut Random, tally: &mut Tally, right: &Profile) {
    let mut run = |random: &mut Random, label: &str, spots: &[Spot]| {
        let bad: Vec<(Spot, u32)> = spots.iter().map(|spot| (*spot, random.pick(spot.bad(right.slots())))).collect();
        spoilt(tally, label, right, &bad);
    };
    for (one, other) in SOME.into_iter().flat_map(|one| SOME.map(|other| (one, other))) {
        if one != other {
            run(random, "two bad numbers", &[one, other]);
        }
    }
    let all: Vec<Spot> = all().collect();
    for _ in 0..200 {
        let count = 2 + random.below(8);
        let spots: Vec<Spot> = random.some(count, all.len()).into_iter().map(|i| all[i]).collect();
        run(random, "many bad numbers", &spots);
        let seeds: Vec<Spot> = random.some(count, 48).into_iter().map(Seed).collect();
        run(random, "many bad seeds", &seeds);
    }
}

/// Faults of field f but for its value: the bytes, and the number that they give where nothing before is wrong.
pub fn headers(bytes: &[u8], f: usize, slots: usize) -> Vec<(Vec<u8>, u32)> {
    let (start, end) = (starts(slots)[f], *starts(slots).get(f + 1).unwrap_or(&bytes.len()));
    let cut = [(start, 5), (start + 1, 1), (start + 2, 1), (start + 3, 1), (end - 1, 1)].map(|(cut, number)| (bytes[..cut].to_vec(), number));
    let turned = [(start, 2), (start + 1, 3), (start + 2, 3)].map(|(place, number)| {
        let mut bytes = bytes.to_vec();
        bytes[place] ^= 8;
        (bytes, number)
    });
    cut.into_iter().chain(turned).collect()
}

/// A bad number beside a fault of a header or an early end: what is wrong in an earlier field, or in the header or the length of the bad number's
/// own, has its turn first, with place 0.
fn beside_headers(random: &mut Random, tally: &mut Tally, right: &Profile) {
    let slots = right.slots();
    for spot in SOME.into_iter().filter(|spot| spot.is_written(slots) && spot.is_bad_in(right.mode)) {
        let mut bytes = written(right);
        spot.spoil(random, slots, &mut bytes);
        for f in 0..6 {
            for (bytes, number) in headers(&bytes, f, slots) {
                expect(tally, if f > spot.turn() { spot.answer(slots) } else { number.into() }, "a bad number and a header's fault", &bytes);
            }
        }
        for surplus in 1..5 {
            let more = random.bytes(surplus);
            expect(tally, spot.answer(slots), "a bad number and surplus bytes", &[&bytes[..], &more].concat());
        }
    }
}

/// The mode says how many seeds are due: bad modes with another mode's seeds, another mode with these. If that mode can't send the level, that
/// comes first.
fn other_modes(random: &mut Random, tally: &mut Tally, right: &Profile) {
    for mode in MODES.into_iter().filter(|&mode| mode != right.mode) {
        let other = random_profile(random, mode, right.k);
        for mode in BAD_MODES {
            let (mut bytes, slots) = (written(&other), other.slots());
            Mode.put(slots, &mut bytes, mode);
            expect(tally, Mode.answer(slots), "a bad mode, another one's seeds", &bytes);
            expect_value(tally, Mode.answer(slots), "a bad mode, another one's seeds", &Profile { mode: mode as u8, ..other });
        }
        let large = f32::from_bits(random.pick(&LARGE_LEVELS));
        for level in [1.0, right.level, if right.mode < 2 { large } else { 1.0 }] {
            let right = Profile { level, ..*right };
            let refused = level.to_bits() > LARGEST && mode >= 2;
            let (slots, fewer) = (right.slots(), right.slots().min(other.slots()));
            let (of_level, seed) = (Large.answer(slots), Seed(fewer).answer(slots));
            expect_value(tally, if refused { of_level } else { seed }, "another mode", &Profile { mode, ..right });
            let mut bytes = written(&right);
            Mode.put(slots, &mut bytes, mode as u32);
            expect(tally, if refused { of_level } else { 3.into() }, "another mode", &bytes);
        }
    }
}

/// Any numbers in any places of a value, near the ends of the ranges too.
fn any_values(random: &mut Random, tally: &mut Tally, right: &Profile) {
    let all: Vec<Spot> = all().collect();
    for _ in 0..400 {
        let mut value = *right;
        for _ in 0..1 + random.below(3) {
            let any = random.next() as u32;
            let floats = [LARGEST, LARGEST + 1, 0x7F7F_FFFF, 0x8000_0000, LEAST_HALF];
            let ends = [0, 1, 2, 4, 5, 8, 14, (1 << 20) - 1, 1 << 20, any >> 12, any, u32::MAX, random.pick(&floats), random.pick(&floats)];
            random.pick(&all).set(&mut value, random.pick(&ends));
        }
        write_case(tally, "any numbers", &value);
    }
}

/// Bytes that all calls must refuse with this answer, in every call that takes them, with all else right and with all else wrong: the profile has
/// its turn first. `right` says the lengths that are right.
pub fn each_call(random: &mut Random, tally: &mut Tally, spare: &[f32], right: &Profile, bytes: &[u8], known: Answer) {
    const LABEL: &str = "a call with a profile that is refused";
    let grid = any_grid(random, right.mode, right.k);
    expect(tally, known, LABEL, bytes);
    let mut said = Vec::new();
    for lengths in [right_lengths(right, None), [0, 1, 2]] {
        said.push(Sending::new(random, LABEL, bytes.to_vec(), None, lengths).compare(tally));
        said.push(Sending::new(random, LABEL, bytes.to_vec(), Some(0), right_lengths(right, Some(0))).compare(tally));
        said.push(Sending::new(random, LABEL, bytes.to_vec(), Some(usize::MAX), lengths).compare(tally));
        for state in [&[0; STATE][..], &[255; STATE], &[]] {
            said.extend(strange_case(random, tally, spare, bytes, state, lengths[0]));
        }
        let mut receiving = grid.clone().resize(random, lengths[0], lengths[1], lengths[2]);
        receiving.bytes = bytes.to_vec();
        said.push(receiving.compare(tally));
    }
    said.into_iter().for_each(|plain| tally.known(LABEL, plain, known));
}

/// A bad number in every call's profile.
fn in_calls(random: &mut Random, tally: &mut Tally, spare: &[f32], right: &Profile) {
    for spot in SOME.into_iter().filter(|spot| spot.is_written(right.slots()) && spot.is_bad_in(right.mode)) {
        let mut bytes = written(right);
        spot.spoil(random, right.slots(), &mut bytes);
        each_call(random, tally, spare, right, &bytes, spot.answer(right.slots()));
    }
}

pub fn run(random: &mut Random, tally: &mut Tally) {
    let spare = spare(random);
    for (mode, k) in MODES.into_iter().flat_map(|mode| KS.map(|k| (mode, k))) {
        let floor = f32::from_bits(random.pick(&[0, 1, LEAST_HALF])); // every level allows these
        let right = Profile { floor, ..random_profile(random, mode, k) };
        alone(tally, &right);
        together(random, tally, &right);
        beside_headers(random, tally, &right);
        other_modes(random, tally, &right);
        any_values(random, tally, &right);
        in_calls(random, tally, &spare, &right);
    }
}
