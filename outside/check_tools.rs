//! What all outside tests share: the random numbers, lent memory with guards, and the tally of what came.

use crate::plain::{Answer, Profile};
use std::collections::{BTreeMap, BTreeSet};

/// A xorshift generator (Marsaglia's 64-bit one with a multiplied output): no crate, and the same numbers in every run.
pub struct Random(u64);

impl Random {
    pub fn new(seed: u64) -> Random {
        Random(seed.wrapping_mul(0x9E37_79B9_7F4A_7C15) | 1)
    }

    pub fn next(&mut self) -> u64 {
        self.0 ^= self.0 >> 12;
        self.0 ^= self.0 << 25;
        self.0 ^= self.0 >> 27;
        self.0.wrapping_mul(0x2545_F491_4F6C_DD1D) >> 16
    }

    /// A number below `end`.
    pub fn below(&mut self, end: usize) -> usize {
        self.next() as usize % end
    }

    /// True in that many of a hundred cases.
    pub fn percent(&mut self, share: usize) -> bool {
        self.below(100) < share
    }

    pub fn pick<T: Copy>(&mut self, list: &[T]) -> T {
        list[self.below(list.len())]
    }

    pub fn bytes(&mut self, count: usize) -> Vec<u8> {
        (0..count).map(|_| self.next() as u8).collect()
    }

    /// Any of the 2^32 bit patterns.
    pub fn float(&mut self) -> f32 {
        f32::from_bits(self.next() as u32)
    }

    /// That many different numbers below `end`.
    pub fn some(&mut self, count: usize, end: usize) -> Vec<usize> {
        let mut all: Vec<usize> = (0..end).collect();
        (0..count).map(|_| all.swap_remove(self.below(all.len()))).collect()
    }
}

/// Bytes, cells, their bit patterns and totals, compared by their bits: NaN equals itself, and the two zeros differ.
pub trait Bits: Copy {
    fn bits(self) -> u64;
    fn pattern(bits: u32) -> Self;
}

impl Bits for u8 {
    fn bits(self) -> u64 {
        self.into()
    }
    fn pattern(bits: u32) -> u8 {
        (bits >> 24) as u8
    }
}

impl Bits for u32 {
    fn bits(self) -> u64 {
        self.into()
    }
    fn pattern(bits: u32) -> u32 {
        bits
    }
}

impl Bits for f32 {
    fn bits(self) -> u64 {
        self.to_bits().into()
    }
    fn pattern(bits: u32) -> f32 {
        f32::from_bits(bits)
    }
}

impl Bits for u64 {
    fn bits(self) -> u64 {
        self
    }
    fn pattern(bits: u32) -> u64 {
        u64::from(bits) << 32 | u64::from(!bits)
    }
}

/// Goes through all of it, since nearly always nothing differs.
pub fn same<T: Bits>(a: &[T], b: &[T]) -> bool {
    a.len() == b.len() && a.iter().zip(b).fold(0, |differing, (x, y)| differing | (x.bits() ^ y.bits())) == 0
}

/// Lent memory, filled with a pattern; guards before and behind it show a write outside.
#[derive(Clone)]
pub struct Room<T> {
    memory: Vec<T>,
}

const GUARD: usize = 64;

impl<T: Bits> Room<T> {
    pub fn new(random: &mut Random, length: usize) -> Room<T> {
        let (start, step) = (random.next() as u32, random.next() as u32 | 1);
        let pattern = |i: usize| T::pattern(start.wrapping_add((i as u32).wrapping_mul(step)));
        Room { memory: (0..length + 2 * GUARD).map(pattern).collect() }
    }

    pub fn lent(&mut self) -> &mut [T] {
        let end = self.memory.len() - GUARD;
        &mut self.memory[GUARD..end]
    }

    pub fn same(&self, other: &Room<T>) -> bool {
        same(&self.memory, &other.memory)
    }
}

/// Slots of a block, which are also the seeds that its profile uses, in modes 0 to 4.
pub const SLOTS: [usize; 5] = [48, 32, 24, 16, 12];

/// The largest level whose triple is finite: its digits are AAAAAA, and (2^25 - 2) × 2^103 is the largest f32.
pub const LARGEST: u32 = 0x7EAA_AAAA;

/// What the tally needs of the profile that a call is given: its mode, if it is one of the five, and whether its level is right by itself but
/// more than modes 2 to 4 can send.
#[derive(Clone, Copy)]
pub struct Given {
    mode: Option<u8>,
    large: bool,
}

impl Given {
    pub const NOTHING: Given = Given { mode: None, large: false };

    /// The level begins at byte 38, and byte 45 is the mode.
    pub fn bytes(profile: &[u8]) -> Given {
        let level = profile.get(38..42).map_or(0, |level| u32::from_be_bytes(level.try_into().unwrap()));
        Given::of(profile.get(45).copied(), level)
    }

    pub fn value(profile: &Profile) -> Given {
        Given::of(Some(profile.mode), profile.level.to_bits())
    }

    fn of(mode: Option<u8>, level: u32) -> Given {
        Given { mode: mode.filter(|&mode| mode < 5), large: (LARGEST + 1..0x7F80_0000).contains(&level) }
    }
}

/// The calls of the library, as lines of the tally.
#[derive(Clone, Copy)]
pub enum Call {
    Send,
    SendSymbol,
    Receive,
    Feed,
    Ask,
    ReadProfile,
    WriteProfile,
    Parity,
    Compare,
    Add,
}

/// All numbers, as columns of the tally.
const NUMBERS: [u32; 23] = [0, 1, 2, 3, 5, 6, 7, 8, 9, 10, 16, 17, 18, 19, 22, 23, 40, 41, 42, 43, 44, 45, 46];

/// The numbers of a profile that is read, and of one passed as a value.
const OF_BYTES: &[u32] = &[1, 2, 3, 5, 40, 41, 42, 43, 44, 45, 46];
const OF_VALUE: &[u32] = &[40, 41, 42, 43, 44, 45, 46];

/// Places that must come wherever a profile can be refused, with their numbers: the first, one between and the last. Of the seeds it is the first;
/// the others, the floor's and the slots of 46 are each mode's own.
const PLACES: [(u32, usize); 7] = [(40, 3), (40, 15), (40, 31), (41, 38), (42, 45), (43, 49), (44, 53)];

/// Each call's name and the numbers that can arise in it: the profile's, and its own.
const CALLS: [(&str, &[u32], &[u32]); 10] = [
    ("send", OF_BYTES, &[0, 6, 7]),
    ("send_symbol", OF_BYTES, &[0, 6, 7, 8]),
    ("receive", OF_BYTES, &[0, 6, 7, 9, 10]),
    ("feed", OF_BYTES, &[0, 7, 16, 22]),
    ("ask", OF_BYTES, &[0, 6, 9, 10, 17, 22]),
    ("read_profile", OF_BYTES, &[0]),
    ("write_profile", OF_VALUE, &[0]),
    ("parity", &[], &[0, 6, 43]),
    ("compare", &[], &[0, 7, 18]),
    ("add", &[], &[0, 19, 23]),
];
const REASONS: [usize; 6] = [0, 11, 12, 13, 14, 15];
const SHOWN: usize = 10;

/// Kinds of cases that must come, as lines of the tally. In comparing, the lists are those that are lent where cells differ. The parts are those of
/// 16QAM: the doubtful ranges are that around zero, which ends at the floor, and those around 2D and -2D, which have a lower and an upper end. A level
/// is the one that a grid is received with, where it was sent with another. The floors are those of right profiles, but for the last. Twins are slots
/// of one symbol with the same seed and the same mask, and apart are those that are just not twins; where twins stand beside another fault, that one
/// is named. In the totals a list is the lent one, full is a total at 2^64 - 1, and a receipt is what is added: a number, a lost mask and reasons.
#[derive(Clone, Copy)]
pub enum Kind {
    NoneDiffer,
    AllDiffer,
    NoList,
    ShortList,
    TornList,
    ExactList,
    LongerList,
    Zero,
    InsideFloor,
    AtFloor,
    BeyondFloor,
    BeyondLow,
    AtLow,
    InsideLow,
    InsideHigh,
    AtHigh,
    BeyondHigh,
    Infinite,
    NotANumber,
    AsSent,
    Meeting,
    DecidesAlike,
    InnerOnLine,
    OuterOnLine,
    DecidesOtherwise,
    NoFloor,
    LeastFloor,
    SmallFloor,
    AnyFloor,
    BelowMostFloor,
    MostFloor,
    FloorAtSent,
    TooLargeFloor,
    Neighbours,
    FirstAndLast,
    InLastSymbol,
    ThreeAlike,
    TwoPairs,
    PairAround,
    PairsInTwoSymbols,
    ByMasks,
    OfFewNumbers,
    InTwoSymbols,
    SameSeeds,
    SameMasks,
    MaskZero,
    ByOneBit,
    Exchanged,
    ApartOfFewNumbers,
    BesideNumber,
    BesideSurplus,
    BesideEnd,
    BesideHeader,
    NothingLost,
    SomeLost,
    AllLost,
    BitAlone,
    ReasonAlone,
    UnknownReason,
    OtherLength,
    ToTheTop,
    FullRises,
    FullStays,
    WrongBesideFull,
    NoBlock,
    WrongNoBlock,
    NoBlockBesideFull,
    NoBlockOtherLength,
    OfReceive,
}
const KINDS: [(&str, &str); 69] = [
    ("compare", "none differ"),
    ("compare", "all differ"),
    ("compare", "no list"),
    ("compare", "short list"),
    ("compare", "list torn at its end"),
    ("compare", "exact list"),
    ("compare", "longer list"),
    ("part", "zero"),
    ("part", "inside the floor"),
    ("part", "at the floor"),
    ("part", "beyond the floor"),
    ("part", "beyond a lower end"),
    ("part", "at a lower end"),
    ("part", "inside a lower end"),
    ("part", "inside an upper end"),
    ("part", "at an upper end"),
    ("part", "beyond an upper end"),
    ("part", "infinite"),
    ("part", "NaN"),
    ("part", "as sent"),
    ("part", "wrong where two packets meet in a slot"),
    ("other level", "decides alike"),
    ("other level", "inner on a line"),
    ("other level", "outer on a line"),
    ("other level", "decides otherwise"),
    ("floor", "+0.0"),
    ("floor", "the least"),
    ("floor", "small"),
    ("floor", "any"),
    ("floor", "below the largest"),
    ("floor", "the largest"),
    ("floor", "just what was sent"),
    ("floor", "too large by a step"),
    ("twins", "neighbours"),
    ("twins", "a symbol's first and last"),
    ("twins", "in the last symbol"),
    ("twins", "three alike"),
    ("twins", "two pairs in a symbol"),
    ("twins", "a pair around another"),
    ("twins", "pairs in two symbols"),
    ("twins", "one seed, two masks equal"),
    ("twins", "of few numbers"),
    ("apart", "in two symbols"),
    ("apart", "same seeds"),
    ("apart", "same masks"),
    ("apart", "mask 0 like another"),
    ("apart", "by one bit"),
    ("apart", "seed and mask exchanged"),
    ("apart", "of few numbers"),
    ("twins beside", "a bad number"),
    ("twins beside", "surplus bytes"),
    ("twins beside", "an early end"),
    ("twins beside", "a header's fault"),
    ("totals", "nothing lost"),
    ("totals", "some lost"),
    ("totals", "all lost"),
    ("totals", "a bit alone"),
    ("totals", "a reason alone"),
    ("totals", "an unknown reason"),
    ("totals", "a list of another length"),
    ("totals", "one becomes full"),
    ("totals", "a full one would rise"),
    ("totals", "a full one need not rise"),
    ("totals", "a wrong receipt beside a full one"),
    ("no block", "right"),
    ("no block", "a wrong receipt"),
    ("no block", "beside a full total"),
    ("no block", "a list of another length"),
    ("receipt", "as received"),
];

#[derive(Default)]
pub struct Tally {
    /// How often each number came from each call at each place.
    came: BTreeMap<(usize, u32, usize), u64>,
    /// Which of them came in which mode, and whether with a level that is too large for modes 2 to 4.
    in_mode: BTreeSet<(usize, u8, u32, usize, bool)>,
    /// Two slots that were made alike, with all other slots apart, while a case is about them.
    pub pair: Option<(usize, usize)>,
    /// These cases, by call, mode and the two slots, and whether 46 came.
    pairs: BTreeSet<(usize, u8, usize, usize, bool)>,
    /// By mode.
    reasons: [[u64; 16]; 5],
    kinds: BTreeMap<usize, u64>,
    cases: u64,
    differences: u64,
}

impl Tally {
    /// One case: what both say, and what else was compared. `tests` are named by what is wrong where they don't hold.
    pub fn case(
        &mut self, call: Call, given: Given, label: &str, library: impl Into<Answer>, plain: impl Into<Answer>, tests: &[(&str, bool)],
    ) {
        let (library, plain): (Answer, Answer) = (library.into(), plain.into());
        self.cases += 1;
        *self.came.entry((call as usize, plain.number, plain.place)).or_default() += 1;
        if let Some(mode) = given.mode {
            self.in_mode.insert((call as usize, mode, plain.number, plain.place, given.large));
            self.pairs.extend(self.pair.map(|(u, t)| (call as usize, mode, u, t, plain.number == 46)));
        }
        let wrong: Vec<&str> = tests.iter().filter(|t| !t.1).map(|t| t.0).collect();
        if library != plain || !wrong.is_empty() {
            let (name, said) = (CALLS[call as usize].0, |answer: Answer| format!("says {} at {}", answer.number, answer.place));
            self.difference(&format!("{name}, {label}: library {}, plain {}; {}", said(library), said(plain), wrong.join(", ")));
        }
    }

    /// Counts a difference where what the plain program says isn't what is known beforehand.
    pub fn known(&mut self, label: &str, plain: Answer, known: Answer) {
        if plain != known {
            self.difference(&format!("{label}: the plain program itself says {plain:?}, not {known:?}"));
        }
    }

    pub fn reasons(&mut self, mode: u8, reasons: &[u8]) {
        reasons.iter().for_each(|&reason| self.reasons[mode as usize][reason as usize] += 1);
    }

    pub fn kind(&mut self, kind: Kind) {
        *self.kinds.entry(kind as usize).or_default() += 1;
    }

    pub fn difference(&mut self, text: &str) {
        self.differences += 1;
        if self.differences <= SHOWN as u64 {
            println!("case {}: {text}", self.cases);
        }
    }

    /// How often a number came from a call, at any place.
    fn count(&self, call: usize, number: u32) -> u64 {
        self.came.range((call, number, 0)..(call, number + 1, 0)).map(|came| came.1).sum()
    }

    /// What came and can't arise: a number that isn't the call's, or a place where there is none.
    fn strangers(&self) -> Vec<String> {
        let can_arise = |&&(call, number, place): &&(usize, u32, usize)| {
            let (_, of_profile, own) = CALLS[call];
            let named = of_profile.contains(&number) && OF_VALUE.contains(&number);
            (of_profile.contains(&number) || own.contains(&number)) && (place != 0) == named
        };
        let strange = self.came.keys().filter(|came| !can_arise(came));
        strange.map(|(call, number, place)| format!("number {number} at {place} came from {}", CALLS[*call].0)).collect()
    }

    /// What each call must have said at some time, and didn't.
    fn missing(&self) -> Vec<String> {
        let mut missing = Vec::new();
        for (c, (name, of_profile, own)) in CALLS.iter().enumerate() {
            let numbers = of_profile.iter().chain(*own).filter(|&&n| self.count(c, n) == 0);
            missing.extend(numbers.map(|n| format!("number {n} never came from {name}")));
            if of_profile.is_empty() {
                continue;
            }
            let places = PLACES.iter().filter(|(number, place)| !self.came.contains_key(&(c, *number, *place)));
            missing.extend(places.map(|(number, place)| format!("number {number} at {place} never came from {name}")));
            missing.extend((0..5).flat_map(|mode| self.missing_in(c, mode)));
        }
        missing
    }

    /// The same by mode: the call's own numbers, a bad seed as the last used and, in a value, as the first and the last unused one, a bad floor, each
    /// slot that has one before it in its symbol, every two slots made alike, and a level that modes 0 and 1 can send, but modes 2 to 4 can't.
    fn missing_in(&self, c: usize, mode: u8) -> Vec<String> {
        let (name, of_profile, own) = CALLS[c];
        let after = 53 + 4 * SLOTS[mode as usize];
        let unused = if of_profile == OF_VALUE && mode > 0 { vec![after, 241] } else { vec![] };
        let came = |number: u32, place: usize| [false, true].iter().any(|&large| self.in_mode.contains(&(c, mode, number, place, large)));
        let of_profile = [(44, after - 4), (45, after + 3)].into_iter().chain(unused.into_iter().map(|place| (44, place)));
        let slots = 0..SLOTS[mode as usize];
        let repeats = slots.clone().filter(|t| t % 7 != 0).map(|t| (46, t));
        let due = own.iter().map(|&number| (number, 0)).chain(of_profile).chain(repeats);
        let mut missing: Vec<String> = due.filter(|&(number, place)| !came(number, place))
            .map(|(number, place)| format!("number {number} at {place} never came from {name} in mode {mode}")).collect();
        for (u, t) in slots.clone().flat_map(|t| (0..t).map(move |u| (u, t))).filter(|&(u, t)| !self.pairs.contains(&(c, mode, u, t, u / 7 == t / 7))) {
            missing.push(format!("slots {u} and {t} were never made alike for {name} in mode {mode}"));
        }
        let (number, place) = if mode < 2 { (0, 0) } else { (41, 38) };
        if !self.in_mode.contains(&(c, mode, number, place, true)) {
            missing.push(format!("a level above {LARGEST:08x} never gave {number} from {name} in mode {mode}"));
        }
        missing
    }

    /// The kinds with how often they came.
    fn kinds(&self) -> impl Iterator<Item = (&'static str, &'static str, u64)> + '_ {
        KINDS.iter().enumerate().map(|(i, &(group, kind))| (group, kind, self.kinds.get(&i).copied().unwrap_or(0)))
    }

    fn missing_kinds(&self) -> Vec<String> {
        let reasons = (0..5).flat_map(|mode| REASONS.map(|reason| (mode, reason))).filter(|&(mode, reason)| self.reasons[mode][reason] == 0);
        let reasons = reasons.map(|(mode, reason)| format!("reason {reason} never came in mode {mode}"));
        let kinds = self.kinds().filter(|kind| kind.2 == 0);
        reasons.chain(kinds.map(|(group, kind, _)| format!("{group}: {kind} never came"))).collect()
    }

    /// Prints the counts and the last line. True when nothing differed, everything that can arise has arisen, and nothing else.
    pub fn report(&mut self) -> bool {
        println!("number        {}", NUMBERS.map(|n| format!("{n:>7}")).concat());
        for (c, (name, ..)) in CALLS.iter().enumerate() {
            println!("{name:<14}{}", NUMBERS.map(|n| format!("{:>7}", self.count(c, n))).concat());
        }
        for (mode, counts) in self.reasons.iter().enumerate() {
            let reasons = REASONS.map(|reason| format!(" {reason}: {}", counts[reason]));
            println!("reasons in {mode} {}", reasons.join(","));
        }
        for group in ["compare", "part", "other level", "floor", "twins", "apart", "twins beside", "totals", "no block", "receipt"] {
            let kinds: Vec<String> = self.kinds().filter(|kind| kind.0 == group).map(|(_, kind, count)| format!(" {kind}: {count}")).collect();
            println!("{group:<13}{}", kinds.join(","));
        }
        for text in [self.missing(), self.missing_kinds(), self.strangers()].concat() {
            self.difference(&text);
        }
        println!("outside: {} cases, {} differences", self.cases, self.differences);
        self.differences == 0
    }
}
