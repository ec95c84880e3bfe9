//! The tests of receiving: clean grids, marks, other levels, every kind of fault in random packets and at their ends, parts at the ends of the
//! doubtful ranges and next to them, garbage elsewhere, refusals. check_floor.rs says where these ranges end.
//!
//! Where a fault is made so that its reason is known beforehand, that is compared too; so the plain receiver is tested as well.

use crate::check_floor::{edge_parts, ends};
use crate::check_profile::{damaged, edge_profiles, random_profile, written, KS, MODES};
use crate::check_send::{near, often_right};
use crate::check_tools::{Call, Given, Kind, Random, Room, Tally, LARGEST};
use crate::plain::{self, Answer, Block, Profile, Rate, CELLS, ENTERING, PACKET, PACKETS, POINTS};
use crate::plain::{ACCEPTED, CHECK_WORD, CODED_BITS, DOUBTFUL, MARKED, RESERVED};
use crate::library;

/// Stand among reasons for a packet destroyed in such a way that any reason may come of it, and for one to three wrong bits.
const DESTROYED: u8 = 0;
const FEW: u8 = 1;
const FAULTS: [u8; 7] = [MARKED, DOUBTFUL, CHECK_WORD, RESERVED, CODED_BITS, DESTROYED, FEW];
/// Both zeros and NaNs of both signs, quiet and signalling.
const DOUBTS: [u32; 8] = [0, 0x8000_0000, 0, 0x8000_0000, 0x7FC0_0000, 0xFFC0_0000, 0x7F80_0001, 0xFFFF_FFFF];
/// Infinity, the largest, the smallest normal, and subnormal numbers.
const STRENGTHS: [u32; 6] = [0x7F80_0000, 0x7F7F_FFFF, 0x0080_0000, 0x007F_FFFF, 0x0000_0001, 0x3F80_0000];

/// The float after a positive one, and the one before it.
fn after(x: f32) -> f32 {
    f32::from_bits(x.to_bits() + 1)
}

fn before(x: f32) -> f32 {
    f32::from_bits(x.to_bits() - 1)
}

fn is_qam(profile: &Profile) -> bool {
    profile.part_bits() == 2
}

/// A positive part of any size that decides as the inner level or as the outer one does; in QPSK there is one level. The first and the last of these
/// come more often.
fn strength(random: &mut Random, profile: &Profile, is_inner: bool) -> f32 {
    let (ends, inner, outer) = (ends(profile), profile.level, 3.0 * profile.level);
    let (level, first, last) = match ends.line {
        None => (inner, ends.floor + 1, 0x7F80_0000),
        Some((low, _)) if is_inner => (inner, ends.floor + 1, low - 1),
        Some((_, high)) => (outer, high + 1, 0x7F80_0000),
    };
    let any = first + random.below((last - first) as usize + 1) as u32;
    let special = random.pick(&STRENGTHS).clamp(first, last);
    f32::from_bits(random.pick(&[level.to_bits(), before(level).to_bits(), first, last, any, special]))
}

/// The reason when just these bits of a packet are wrong, one to three of them: three wrong bits are too few to make another check word right.
fn reason_of(rate: Rate, wrong: &[usize]) -> u8 {
    let length = rate.length();
    // Output 4q + c of the bit interleaver is input (L/4)c + q.
    let coded: Vec<usize> = wrong.iter().map(|b| length / 4 * (b % 4) + b / 4).collect();
    let hits = |mut bits: std::ops::Range<usize>| bits.any(|i| coded.contains(&rate.place(i)));
    if hits(0..992) {
        CHECK_WORD
    } else if hits(992..ENTERING) {
        RESERVED
    } else if coded.is_empty() {
        ACCEPTED
    } else {
        CODED_BITS
    }
}

/// What a receive is given, and what is known beforehand of its answer.
#[derive(Clone)]
pub struct Receiving {
    label: &'static str,
    pub profile: Profile,
    pub bytes: Vec<u8>,
    pub marks: u16,
    pub firsts: Vec<f32>,
    pub seconds: Vec<f32>,
    room: Room<u8>,
    /// What each packet's reason must be, when it is known and the call gets as far as judging.
    reasons: [Option<u8>; PACKETS],
    /// The data that must come back at 0, when the block was made of codewords.
    data: Option<Vec<u8>>,
}

impl Receiving {
    /// A grid of these 16 packets, each with the faults listed for it.
    fn new(random: &mut Random, label: &'static str, profile: Profile, block: &Block, faults: &[Vec<u8>; PACKETS]) -> Receiving {
        let mut new = Receiving::sent(random, label, profile, block, faults);
        if random.percent(30) {
            new.strengthen(random);
        }
        for (p, list) in faults.iter().enumerate() {
            new.reasons[p] = new.spoil(random, p, list);
        }
        if random.percent(50) {
            new.garbage_elsewhere(random);
        }
        new
    }

    /// The packets' own cells, coded as they should be; only check words and reserved bits may be wrong in them.
    fn sent(random: &mut Random, label: &'static str, profile: Profile, block: &Block, faults: &[Vec<u8>; PACKETS]) -> Receiving {
        let cells = CELLS * profile.symbols();
        let room = Room::new(random, profile.data_length());
        let (mut firsts, mut seconds) = (vec![0.0; cells], vec![0.0; cells]);
        let mut packets = [[0; ENTERING]; PACKETS];
        for (p, packet) in block.iter().enumerate() {
            let any = 1 + random.below(0xFFFF) as u16;
            let turned = if faults[p].contains(&CHECK_WORD) { random.pick(&[1, 0x8000, 0xFFFF, any]) } else { 0 };
            let reserved = if faults[p].contains(&RESERVED) { random.pick(&[1, 2, 3]) } else { 0 };
            packets[p] = plain::packet_bits(packet, plain::check_word(packet) ^ turned, reserved);
        }
        plain::put_block(&profile, &packets, &(0..profile.symbols()), &mut firsts, &mut seconds);
        Receiving { label, profile, bytes: written(&profile), marks: 0, firsts, seconds, room, reasons: [Some(ACCEPTED); PACKETS], data: None }
    }

    /// The part that carries bit b of packet p.
    fn part(&mut self, p: usize, b: usize) -> &mut f32 {
        let (width, size) = (self.profile.part_bits(), self.profile.slot_bits());
        let place = p * self.bits() + b;
        let (symbol, number) = plain::slot_place(place / size);
        let cell = CELLS * symbol + plain::point_cell(number, place % size / (2 * width));
        if place / width % 2 == 0 { &mut self.firsts[cell] } else { &mut self.seconds[cell] }
    }

    /// Bits of a packet.
    fn bits(&self) -> usize {
        self.profile.rate().length()
    }

    /// The first bit of each part of a packet.
    fn parts(&self) -> std::iter::StepBy<std::ops::Range<usize>> {
        (0..self.bits()).step_by(self.profile.part_bits())
    }

    /// Turns a bit over: a part's sign, or in 16QAM with its first bit the size.
    fn turn(&mut self, random: &mut Random, p: usize, b: usize) {
        let (profile, part) = (self.profile, *self.part(p, b));
        let is_size = is_qam(&profile) && b % 2 == 0;
        *self.part(p, b) = if is_size { strength(random, &profile, part.abs() > 2.0 * profile.level).copysign(part) } else { -part };
    }

    /// Other values that decide alike in a share of all parts.
    fn strengthen(&mut self, random: &mut Random) {
        let (share, profile, parts) = (random.pick(&[1, 20, 100]), self.profile, self.parts());
        for (p, b) in (0..PACKETS).flat_map(|p| parts.clone().map(move |b| (p, b))) {
            if random.percent(share) {
                let part = self.part(p, b);
                *part = strength(random, &profile, part.abs() < 2.0 * profile.level).copysign(*part);
            }
        }
    }

    /// The faults that show in the cells or the marks. The reason that the packet must have, if it is known.
    fn spoil(&mut self, random: &mut Random, p: usize, faults: &[u8]) -> Option<u8> {
        if faults.contains(&DESTROYED) {
            self.destroy(random, p);
        }
        let wrong = if faults.contains(&FEW) { self.turn_few(random, p) } else { Vec::new() };
        if faults.contains(&CODED_BITS) {
            self.turn_parity(random, p);
        }
        if faults.contains(&DOUBTFUL) {
            for _ in 0..random.pick(&[1, 1, 1, 2, 50]) {
                let b = random.below(self.bits());
                *self.part(p, b) = self.doubt(random);
            }
        }
        if faults.contains(&MARKED) {
            self.marks |= 1 << p;
        }
        match faults {
            [FEW] => Some(reason_of(self.profile.rate(), &wrong)),
            _ if faults.contains(&DESTROYED) || faults.contains(&FEW) => None,
            _ => Some(faults.iter().copied().min().unwrap_or(ACCEPTED)),
        }
    }

    /// A part that no bits can be read from: zero, NaN, or in one of the doubtful ranges, at times at an end.
    fn doubt(&self, random: &mut Random) -> f32 {
        let ends = ends(&self.profile);
        let (low, high) = ends.line.unwrap_or((0, ends.floor));
        let [any, around] = [(0, ends.floor), (low, high)].map(|(first, last)| first + random.below((last - first) as usize + 1) as u32);
        let size = random.pick(&[0, ends.floor, any, low, high, around]) | random.pick(&[0, 1 << 31]);
        let doubt = random.pick(&DOUBTS);
        f32::from_bits(random.pick(&[doubt, size, size]))
    }

    /// Turns one to three bits, wherever they are. Returns them.
    fn turn_few(&mut self, random: &mut Random, p: usize) -> Vec<usize> {
        let count = 1 + random.below(3);
        let wrong = random.some(count, self.bits());
        wrong.iter().for_each(|&b| self.turn(random, p, b));
        wrong
    }

    /// Turns bits that aren't among the 994, so that only the comparison with the packet's own coded bits can find it.
    fn turn_parity(&mut self, random: &mut Random, p: usize) {
        let (rate, length) = (self.profile.rate(), self.bits());
        let mut is_data = vec![false; length];
        (0..ENTERING).for_each(|i| is_data[rate.place(i)] = true);
        let parity: Vec<usize> = (0..length).filter(|&i| !is_data[i]).collect();
        let count = random.pick(&[1, 1, 1, 2, 10, parity.len() * 9 / 10]);
        for i in random.some(count, parity.len()) {
            self.turn(random, p, plain::interleaved(length, parity[i]));
        }
    }

    /// Any bit patterns, any numbers, all signs turned, all signs +, all parts of one size; or just some bits turned, wherever they are.
    fn destroy(&mut self, random: &mut Random, p: usize) {
        let (kind, level) = (random.below(10), self.profile.level);
        for b in self.parts() {
            let other = random.float();
            let part = self.part(p, b);
            *part = match kind {
                0 => other,
                1 => other.to_bits() as f32 - 2e9,
                2 => -*part,
                3 => part.abs(),
                4 => level.copysign(*part),
                _ => *part,
            };
        }
        let count = if kind < 5 { 0 } else { random.pick(&[1, 1, 2, 3, 10, 100, self.bits() - 1]) };
        for b in random.some(count, self.bits()) {
            self.turn(random, p, b);
        }
    }

    /// Any bit patterns in all cells that aren't the block's own: the receiver must not look at them.
    fn garbage_elsewhere(&mut self, random: &mut Random) {
        let mut own = vec![false; self.firsts.len()];
        for (t, i) in (0..self.profile.slots()).flat_map(|t| (0..POINTS).map(move |i| (t, i))) {
            let (symbol, number) = plain::slot_place(t);
            own[CELLS * symbol + plain::point_cell(number, i)] = true;
        }
        for cell in (0..own.len()).filter(|&cell| !own[cell]) {
            (self.firsts[cell], self.seconds[cell]) = (random.float(), random.float());
        }
    }

    /// The same grid received with another profile, and the reason that all packets must then have; where it isn't known, nor is what comes back.
    pub fn under(self, profile: &Profile, reason: Option<u8>) -> Receiving {
        Receiving { bytes: written(profile), reasons: [reason; PACKETS], data: self.data.filter(|_| reason.is_some()), ..self }
    }

    /// One of these parts in each packet of a grid as sent, beginning with the `from`th: the packet is accepted where the part decides as the one that
    /// was sent, and else the bits that it decides to say why not.
    pub fn put_parts(&mut self, random: &mut Random, tally: &mut Tally, parts: &[(Kind, f32, Option<Vec<u8>>)], from: usize) {
        let profile = self.profile;
        for p in 0..PACKETS {
            let (kind, part, bits) = &parts[(from + p) % parts.len()];
            let b = profile.part_bits() * random.below(self.parts().len());
            let sent = std::mem::replace(self.part(p, b), *part);
            let (_, _, sent) = parts.iter().find(|(kind, part, _)| matches!(kind, Kind::AsSent) && *part == sent).expect("a part that is sent");
            let wrong = |bits: &Vec<u8>| (0..bits.len()).filter(|&i| Some(bits[i]) != sent.as_ref().map(|sent| sent[i])).map(|i| b + i).collect();
            let wrong: Option<Vec<usize>> = bits.as_ref().map(wrong);
            self.reasons[p] = Some(wrong.map_or(DOUBTFUL, |wrong| reason_of(profile.rate(), &wrong)));
            if is_qam(&profile) {
                tally.kind(*kind);
            }
        }
    }

    /// Gives the lists and the data room other lengths.
    pub fn resize(mut self, random: &mut Random, data: usize, firsts: usize, seconds: usize) -> Receiving {
        self.firsts.resize(firsts, self.profile.level);
        self.seconds.resize(seconds, self.profile.level);
        self.room = Room::new(random, data);
        self
    }

    /// Runs both programs and compares what they say and write. Returns what the plain program says.
    pub fn compare(&self, tally: &mut Tally) -> Answer {
        let (mut room, mut own_room) = (self.room.clone(), self.room.clone());
        let library = library::receive(&self.bytes, self.marks, &self.firsts, &self.seconds, room.lent());
        let plain = plain::receive_bytes(&self.bytes, self.marks, &self.firsts, &self.seconds, own_room.lent());
        let zero = plain.lost == 0 && plain.reasons == [0; PACKETS];
        let judged = matches!(plain.number, 0 | 9 | 10);
        let known = self.reasons.iter().zip(plain.reasons).all(|(known, reason)| known.is_none() || *known == Some(reason));
        let back = self.data.as_ref().is_none_or(|data| own_room.lent() == data);
        let tests = [
            ("lost masks differ", library.lost == plain.lost),
            ("reasons differ", library.reasons == plain.reasons),
            ("data differ", room.same(&own_room)),
            ("a refusal changed lent memory", library.number == 0 || room.same(&self.room)),
            ("plain: mask or reasons not zero", judged || zero),
            ("plain: a reason isn't the known one", !judged || known),
            ("plain: the data sent didn't come back", plain.number != 0 || back),
        ];
        tally.case(Call::Receive, Given::bytes(&self.bytes), self.label, library.answer(), plain.answer(), &tests);
        if judged {
            tally.reasons(self.profile.mode, &plain.reasons);
        }
        plain.answer()
    }
}

fn no_faults() -> [Vec<u8>; PACKETS] {
    Default::default()
}

fn codewords(random: &mut Random, profile: &Profile) -> (Vec<u8>, Block) {
    let data = random.bytes(profile.data_length());
    let block = plain::block_of(profile.k, &data);
    (data, block)
}

/// Codewords, or codewords with bytes altered here and there, or any 16 packets; with the data in the first case.
fn random_block(random: &mut Random, profile: &Profile) -> (Option<Vec<u8>>, Block) {
    let (data, mut block) = codewords(random, profile);
    match random.below(10) {
        0..=5 => return (Some(data), block),
        6 | 7 => {
            for _ in 0..random.pick(&[1, 1, 2, 5]) {
                block[random.below(PACKETS)][random.below(PACKET)] ^= 1 << random.below(8);
            }
        }
        _ => block.as_flattened_mut().iter_mut().for_each(|byte| *byte = random.next() as u8),
    }
    (None, block)
}

/// Faults in none, some, just r, one more, or any number of packets; at times two in one packet.
fn random_faults(random: &mut Random, r: usize) -> [Vec<u8>; PACKETS] {
    let count = match random.below(20) {
        0..=2 => 0,
        3..=9 => 1 + random.below(r),
        10..=14 => r,
        15..=17 => r + 1,
        _ => random.below(PACKETS + 1),
    };
    let mut faults = no_faults();
    for p in random.some(count, PACKETS) {
        faults[p].push(random.pick(&FAULTS));
        if random.percent(25) {
            faults[p].push(random.pick(&FAULTS));
        }
    }
    faults
}

/// A grid of any block, with any faults.
pub fn any_grid(random: &mut Random, mode: u8, k: u8) -> Receiving {
    let profile = random_profile(random, mode, k);
    let (data, block) = random_block(random, &profile);
    let faults = random_faults(random, profile.r());
    let mut receiving = Receiving::new(random, "faults", profile, &block, &faults);
    receiving.data = data;
    receiving
}

/// A grid of codewords as sent, nothing else in it.
pub fn clean_grid(random: &mut Random, label: &'static str, profile: Profile) -> Receiving {
    let (data, block) = codewords(random, &profile);
    Receiving { data: Some(data), ..Receiving::sent(random, label, profile, &block, &no_faults()) }
}

/// The same with any profile of a mode.
fn any_clean_grid(random: &mut Random, label: &'static str, mode: u8, k: u8) -> Receiving {
    let profile = random_profile(random, mode, k);
    clean_grid(random, label, profile)
}

/// Grids as sent, with the least and the largest level.
fn edge_cases(random: &mut Random, tally: &mut Tally, mode: u8, k: u8) {
    for profile in edge_profiles(random, mode, k) {
        clean_grid(random, "the least or the largest level", profile).compare(tally);
    }
}

fn fault_cases(random: &mut Random, tally: &mut Tally, mode: u8, k: u8) {
    for _ in 0..350 {
        any_grid(random, mode, k).compare(tally);
    }
}

/// Grids as sent, with any marks; in modes 0 and 1 received under a profile whose D, which doesn't matter there, is another and allows the floor.
fn marked_cases(random: &mut Random, tally: &mut Tally, mode: u8, k: u8) {
    for i in 0..50 {
        let profile = random_profile(random, mode, k);
        let (data, block) = codewords(random, &profile);
        let mut receiving = Receiving::new(random, "marks", profile, &block, &no_faults());
        receiving.marks = if i < 10 { 0 } else { random.next() as u16 & random.next() as u16 & random.next() as u16 };
        (0..PACKETS).filter(|p| receiving.marks >> p & 1 == 1).for_each(|p| receiving.reasons[p] = Some(MARKED));
        let level = random_profile(random, mode, k).level;
        if mode < 2 && profile.floor + profile.floor <= level {
            receiving.bytes = written(&Profile { level, ..profile });
        }
        receiving.data = Some(data);
        receiving.compare(tally);
    }
}

/// Levels to receive a grid of 16QAM with that was sent with another, and what must come of it for every packet, if it is known: the line stays
/// between D and what is sent for 3D, it goes to either of them, or beyond.
fn other_levels(random: &mut Random, sent: f32) -> Vec<(Kind, f32, Option<u8>)> {
    let (low, high) = (sent / 2.0, 3.0 * sent / 2.0);
    let any = f32::from_bits(low.to_bits() + 1 + random.below((high.to_bits() - low.to_bits() - 1) as usize) as u32);
    let levels = [
        (Kind::DecidesAlike, after(low), Some(ACCEPTED)),
        (Kind::DecidesAlike, any, Some(ACCEPTED)),
        (Kind::DecidesAlike, before(high), Some(ACCEPTED)),
        (Kind::InnerOnLine, low, Some(DOUBTFUL)),
        (Kind::OuterOnLine, high, Some(DOUBTFUL)),
        (Kind::DecidesOtherwise, before(low), None),
        (Kind::DecidesOtherwise, after(high), None),
    ];
    levels.into_iter().filter(|level| level.1.is_normal() && level.1.to_bits() <= LARGEST).collect()
}

/// The floor is +0.0, so that the ranges around the lines are these.
fn level_cases(random: &mut Random, tally: &mut Tally, mode: u8, k: u8) {
    for _ in 0..2 {
        let profile = Profile { floor: 0.0, ..random_profile(random, mode, k) };
        let sent = clean_grid(random, "another level", profile);
        for (kind, level, reason) in other_levels(random, profile.level) {
            sent.clone().under(&Profile { level, ..profile }, reason).compare(tally);
            tally.kind(kind);
        }
    }
}

/// Parts at the ends of the doubtful ranges in grids of any profile.
fn edge_part_cases(random: &mut Random, tally: &mut Tally, mode: u8, k: u8) {
    for _ in 0..6 {
        let mut receiving = any_clean_grid(random, "parts at the ends of the doubtful ranges", mode, k);
        let parts = edge_parts(&receiving.profile);
        let from = random.below(parts.len());
        receiving.put_parts(random, tally, &parts, from);
        receiving.compare(tally);
    }
}

/// A packet's first and last bits and those at the ends of the slots in which it lies, by turns.
fn end_bits(profile: &Profile, p: usize) -> Vec<usize> {
    let (length, size) = (profile.rate().length(), profile.slot_bits());
    let inside = (1..length).filter(|b| (p * length + b) % size == 0);
    [0, 1, length - 2, length - 1].into_iter().chain(inside.flat_map(|b| [b - 1, b])).collect()
}

/// A doubtful part or a wrong bit at the ends of every second packet: the others are accepted, also where they share a slot with these.
fn end_cases(random: &mut Random, tally: &mut Tally, mode: u8) {
    for (which, is_doubt, turn) in (0..32).map(|n| (n % 2, n / 2 % 2 == 0, n / 4)) {
        let k = random.pick(&KS);
        let mut receiving = any_clean_grid(random, "faults at a packet's ends", mode, k);
        let profile = receiving.profile;
        let mut some = false;
        for p in (which..PACKETS).step_by(2) {
            let Some(&b) = end_bits(&profile, p).get(turn) else { continue };
            some = true;
            if is_doubt {
                *receiving.part(p, b) = receiving.doubt(random);
                receiving.reasons[p] = Some(DOUBTFUL);
            } else {
                receiving.turn(random, p, b);
                receiving.reasons[p] = Some(reason_of(profile.rate(), &[b]));
            }
            let meets = |b: usize| (p * profile.rate().length() + b) % profile.slot_bits() != 0;
            if (b < 2 && meets(0)) || (b + 2 >= profile.rate().length() && meets(profile.rate().length())) {
                tally.kind(Kind::Meeting);
            }
        }
        if some {
            receiving.compare(tally);
        }
    }
}

/// One byte altered in an otherwise valid packet, every packet in turn: 10, and 9 or 0 with other packets marked.
fn altered_cases(random: &mut Random, tally: &mut Tally, mode: u8, k: u8) {
    let profile = random_profile(random, mode, k);
    let r = profile.r();
    for (p, counts) in (0..PACKETS).flat_map(|p| [[0, r - 1], [r, r + 1]].map(|counts| (p, counts))) {
        let marked = random.pick(&counts);
        let (_, mut block) = codewords(random, &profile);
        let any = random.below(PACKET);
        block[p][random.pick(&[0, any, PACKET - 1])] ^= 1 + random.below(255) as u8;
        let mut faults = no_faults();
        let others: Vec<usize> = (0..PACKETS).filter(|&other| other != p).collect();
        random.some(marked, others.len()).into_iter().for_each(|i| faults[others[i]].push(MARKED));
        Receiving::new(random, "an altered byte", profile, &block, &faults).compare(tally);
    }
}

/// Every combination of near lengths.
fn near_cases(random: &mut Random, tally: &mut Tally, mode: u8, k: u8) {
    let profile = random_profile(random, mode, k);
    let (_, block) = codewords(random, &profile);
    let receiving = Receiving::new(random, "near lengths", profile, &block, &no_faults());
    let cells = CELLS * profile.symbols();
    for (data, firsts) in near(profile.data_length()).into_iter().flat_map(|d| near(cells).map(|f| (d, f))) {
        for seconds in near(cells) {
            receiving.clone().resize(random, data, firsts, seconds).compare(tally);
        }
    }
}

/// Anything wrong at random: profile, lengths, packets.
fn wrong_cases(random: &mut Random, tally: &mut Tally, mode: u8, k: u8) {
    for _ in 0..100 {
        let profile = random_profile(random, mode, k);
        let (_, block) = random_block(random, &profile);
        let faults = random_faults(random, profile.r());
        let mut receiving = Receiving::new(random, "anything wrong", profile, &block, &faults);
        let cells = CELLS * profile.symbols();
        let [data, firsts, seconds] = [profile.data_length(), cells, cells].map(|right| often_right(random, right));
        receiving = receiving.resize(random, data, firsts, seconds);
        if random.percent(50) {
            receiving.bytes = damaged(random, &profile);
            receiving.reasons = [None; PACKETS];
        }
        receiving.compare(tally);
    }
}

pub fn run(random: &mut Random, tally: &mut Tally) {
    for (mode, k) in MODES.into_iter().flat_map(|mode| KS.map(|k| (mode, k))) {
        edge_cases(random, tally, mode, k);
        fault_cases(random, tally, mode, k);
        marked_cases(random, tally, mode, k);
        altered_cases(random, tally, mode, k);
        near_cases(random, tally, mode, k);
        wrong_cases(random, tally, mode, k);
        edge_part_cases(random, tally, mode, k);
        if mode >= 2 {
            level_cases(random, tally, mode, k);
        }
    }
    MODES.into_iter().for_each(|mode| end_cases(random, tally, mode));
}
