//! Twin scrambling, by document 02's Req 08 and by what flo.h says of 46: two slots of one symbol with the same seed and the same mask are refused by
//! every call that takes a profile, and the first slot that repeats one is named. Every two slots of every mode, slots that are just not alike,
//! several that are, twins beside other faults, and profiles of few different numbers.
//!
//! What must be said is known beforehand in all of these cases, since the slots are made alike or kept apart here; only with few numbers it is found,
//! by sorting, and so in another way than the plain program's.

use crate::check_pieces::{ask_case, feed_case, spare};
use crate::check_places::{each_call, expect_value, headers, Spot, SOME};
use crate::check_profile::{expect, random_profile, starts, written, KS, MODES};
use crate::check_receive::clean_grid;
use crate::check_send::{right_lengths, Sending};
use crate::check_tools::{same, Call, Given, Kind, Random, Room, Tally, SLOTS};
use crate::plain::{self, Answer, Came, Profile, CELLS, CELLS_MISSING, CELL_LENGTH, DATA_LENGTH, NO_SUCH_STATE, NO_SUCH_SYMBOL, PACKETS, STATE};
use crate::plain::{ENDS_INSIDE, FIELD_DUE, OTHER_TAG, TOO_MANY_CELLS, TWIN_SLOTS};
use crate::library;

// ---- slots that are alike, and slots that aren't

/// Which symbol a slot is in, and which mask it has.
fn symbol(t: usize) -> usize {
    t / 7
}

fn mask_of(t: usize) -> usize {
    1 + t % 7
}

fn slots(profile: &Profile) -> usize {
    SLOTS[profile.mode as usize]
}

/// The slots of each symbol; the last has fewer than seven.
fn symbols(profile: &Profile) -> Vec<Vec<usize>> {
    let all: Vec<usize> = (0..slots(profile)).collect();
    all.chunks(7).map(|slots| slots.to_vec()).collect()
}

/// The first slot that has the seed and the mask of an earlier one in its symbol. When all are sorted, slots that are alike stand side by side, and
/// each but the first of them repeats one.
pub fn first_repeat(profile: &Profile) -> Option<usize> {
    let mut all: Vec<[usize; 4]> =
        (0..slots(profile)).map(|t| [symbol(t), profile.masks[mask_of(t)] as usize, profile.seeds[t] as usize, t]).collect();
    all.sort();
    all.windows(2).filter(|two| two[0][..3] == two[1][..3]).map(|two| two[1][3]).min()
}

fn twins_at(place: usize) -> Answer {
    Answer { number: TWIN_SLOTS, place }
}

/// States that all differ.
fn different(random: &mut Random, count: usize) -> Vec<u32> {
    let mut states = Vec::new();
    while states.len() < count {
        let state = 1 + random.below((1 << 20) - 1) as u32;
        if !states.contains(&state) {
            states.push(state);
        }
    }
    states
}

/// A profile whose masks and seeds all differ.
fn apart(random: &mut Random, mode: u8) -> Profile {
    let k = random.pick(&KS);
    let mut profile = random_profile(random, mode, k);
    let (states, slots) = (different(random, 56), slots(&profile));
    profile.masks.copy_from_slice(&states[..8]);
    profile.seeds[..slots].copy_from_slice(&states[8..8 + slots]);
    profile
}

/// Gives slot t the seed of slot u, and makes their masks one, with every mask that was one with either.
fn make_alike(profile: &mut Profile, u: usize, t: usize) {
    let (kept, gone) = (profile.masks[mask_of(u)], profile.masks[mask_of(t)]);
    profile.masks.iter_mut().filter(|mask| **mask == gone).for_each(|mask| *mask = kept);
    profile.seeds[t] = profile.seeds[u];
}

fn alike(profile: &Profile, pairs: &[(usize, usize)]) -> Profile {
    let mut other = *profile;
    pairs.iter().for_each(|&(u, t)| make_alike(&mut other, u, t));
    other
}

/// The bytes of a profile of which masks and seeds may be any: masks begin at byte 3, seeds at byte 53.
fn bytes_of(value: &Profile) -> Vec<u8> {
    let mut right = *value;
    right.masks = [1, 2, 3, 4, 5, 6, 7, 8];
    (0..slots(value)).for_each(|t| right.seeds[t] = 1 + t as u32);
    let mut bytes = written(&right);
    let masks = value.masks.iter().enumerate().map(|(i, mask)| (3 + 4 * i, mask));
    let seeds = value.seeds[..slots(value)].iter().enumerate().map(|(t, seed)| (53 + 4 * t, seed));
    masks.chain(seeds).for_each(|(place, state)| bytes[place..place + 4].copy_from_slice(&state.to_be_bytes()));
    bytes
}

// ---- what must come

/// Read and written, with what is known.
fn both(tally: &mut Tally, label: &str, value: &Profile, known: Answer) {
    expect(tally, known, label, &bytes_of(value));
    expect_value(tally, known, label, value);
}

/// Refused by every call, with all else right and with all else wrong.
fn refused(random: &mut Random, tally: &mut Tally, spare: &[f32], label: &str, value: &Profile, place: usize) {
    both(tally, label, value, twins_at(place));
    each_call(random, tally, spare, value, &bytes_of(value), twins_at(place));
}

/// Not refused by any call for its profile: what is wrong besides has its turn, in each call something else each time.
fn goes_on(random: &mut Random, tally: &mut Tally, spare: &[f32], label: &'static str, value: &Profile) {
    let (bytes, [data, cells, _]) = (bytes_of(value), right_lengths(value, None));
    both(tally, label, value, 0.into());
    let say = |tally: &mut Tally, number: u32, plain: Answer| tally.known(label, plain, number.into());
    let (lengths, number) = random.pick(&[([data + 1, cells, cells], DATA_LENGTH), ([data, cells, cells - 1], CELL_LENGTH)]);
    let plain = Sending::new(random, label, bytes.clone(), None, lengths).compare(tally);
    say(tally, number, plain);
    let last = cells / CELLS;
    let wrong = [([data - 1, CELLS, CELLS], 0, DATA_LENGTH), ([data, CELLS + 1, CELLS], 0, CELL_LENGTH), ([data, CELLS, CELLS], last, NO_SUCH_SYMBOL)];
    let (lengths, symbol, number) = random.pick(&wrong);
    let plain = Sending::new(random, label, bytes.clone(), Some(symbol), lengths).compare(tally);
    say(tally, number, plain);
    let (lengths, number) = random.pick(&[([data + 1, cells], DATA_LENGTH), ([data, cells - 1], CELL_LENGTH)]);
    let (mut room, list) = (Room::new(random, lengths[0]), &spare[..lengths[1]]);
    let before = room.clone();
    let library = library::receive(&bytes, 0, list, list, room.lent());
    let zero = library.lost == 0 && library.reasons == [0; PACKETS] && room.same(&before);
    tally.case(Call::Receive, Given::bytes(&bytes), label, library.answer(), number, &[("a refusal wrote something", zero)]);
    let zeros = [0; STATE];
    let (state, count, other, number) = random.pick(&[
        (&zeros[..], 0, 0, 0),
        (&zeros, 1, 1, 0),
        (&zeros, 1, 2, CELL_LENGTH),
        (&zeros, cells + 1, cells + 1, TOO_MANY_CELLS),
        (&zeros[1..], 1, 1, NO_SUCH_STATE),
    ]);
    let plain = feed_case(random, tally, &bytes, state, (&spare[..count], &spare[..other]));
    say(tally, number, plain);
    let wrong = [(&zeros[..], data, CELLS_MISSING), (&zeros, data + 1, DATA_LENGTH), (&zeros[1..], data, NO_SUCH_STATE)];
    let (state, length, number) = random.pick(&wrong);
    let plain = ask_case(random, tally, &bytes, state, length);
    say(tally, number, plain);
}

/// Sent, received and fed with nothing wrong.
fn done(random: &mut Random, tally: &mut Tally, label: &'static str, value: &Profile) {
    let plain = Sending::new(random, label, bytes_of(value), None, right_lengths(value, None)).compare(tally);
    tally.known(label, plain, 0.into());
    let any = random.below(value.symbols());
    let plain = Sending::new(random, label, bytes_of(value), Some(any), right_lengths(value, Some(any))).compare(tally);
    tally.known(label, plain, 0.into());
    let grid = clean_grid(random, label, *value);
    let plain = grid.compare(tally);
    tally.known(label, plain, 0.into());
    let mut came = Came::nothing();
    came.feed(value, &grid.firsts, &grid.seconds);
    let plain = ask_case(random, tally, &bytes_of(value), came.state(), value.data_length());
    if !matches!(plain.number, 0 | 9) {
        tally.difference("ask, slots that are apart: neither 0 nor too many marks");
    }
}

// ---- two slots

/// Every two slots made alike, all others apart: twins in one symbol, and nothing in two.
fn every_pair(random: &mut Random, tally: &mut Tally, spare: &[f32], mode: u8) {
    const LABEL: &str = "two slots made alike";
    let all = SLOTS[mode as usize];
    for (u, t) in (0..all).flat_map(|t| (0..t).map(move |u| (u, t))) {
        let value = alike(&apart(random, mode), &[(u, t)]);
        tally.pair = Some((u, t));
        if symbol(u) == symbol(t) {
            refused(random, tally, spare, LABEL, &value, t);
        } else {
            goes_on(random, tally, spare, LABEL, &value);
        }
        tally.pair = None;
        if symbol(u) != symbol(t) {
            tally.kind(Kind::InTwoSymbols);
            if random.percent(5) {
                done(random, tally, LABEL, &value);
            }
            continue;
        }
        if u + 1 == t {
            tally.kind(Kind::Neighbours);
        }
        if mask_of(u) == 1 && (mask_of(t) == 7 || t + 1 == all) {
            tally.kind(Kind::FirstAndLast);
        }
        if symbol(t) == symbol(all - 1) {
            tally.kind(Kind::InLastSymbol);
        }
    }
}

/// One seed in all slots of a symbol, in each symbol and in all of them: twins exactly where two masks of slots that are there are equal, and no slot
/// has mask 0. With all seeds apart no two equal masks are anything.
fn every_two_masks(random: &mut Random, tally: &mut Tally, spare: &[f32], mode: u8) {
    const LABEL: &str = "two masks made equal";
    for (a, b) in (0..8).flat_map(|b| (0..b).map(move |a| (a, b))) {
        let mut right = apart(random, mode);
        right.masks[b] = right.masks[a];
        goes_on(random, tally, spare, LABEL, &right);
        tally.kind(Kind::SameMasks);
        for symbol in symbols(&right) {
            let (mut value, seed) = (right, right.seeds[symbol[0]]);
            symbol.iter().for_each(|&t| value.seeds[t] = seed);
            if a > 0 && b <= symbol.len() {
                both(tally, LABEL, &value, twins_at(symbol[0] + b - 1));
                tally.kind(Kind::ByMasks);
            } else {
                both(tally, LABEL, &value, 0.into());
            }
        }
        let mut value = right;
        value.seeds[..slots(&right)].fill(right.seeds[0]);
        if a > 0 {
            refused(random, tally, spare, LABEL, &value, b - 1);
        } else {
            goes_on(random, tally, spare, LABEL, &value);
            tally.kind(Kind::MaskZero);
        }
    }
}

/// Equal seeds, equal masks, and numbers that differ by one bit, are exchanged, or have equal sums: all of it is allowed.
fn just_apart(random: &mut Random, tally: &mut Tally, spare: &[f32], mode: u8) {
    const LABEL: &str = "slots that are just apart";
    let right = apart(random, mode);
    let (mut one_seed, mut again, masks) = (right, right, [right.masks[0]; 8]);
    one_seed.seeds[..slots(&right)].fill(right.seeds[0]);
    (7..slots(&right)).for_each(|t| again.seeds[t] = right.seeds[t % 7]); // all symbols as the first
    for value in [one_seed, again, Profile { masks, ..right }, Profile { masks, ..again }] {
        goes_on(random, tally, spare, LABEL, &value);
        done(random, tally, LABEL, &value);
        tally.kind(if value.masks == masks { Kind::SameMasks } else { Kind::SameSeeds });
    }
    for bit in 0..20 {
        let (u, t) = any_pair(random, mode);
        let twins = alike(&right, &[(u, t)]);
        for (mask, seed) in [(0, 1 << bit), (1 << bit, 0), (1 << bit, 1 << bit)] {
            let mut value = twins;
            value.masks[mask_of(t)] ^= mask;
            value.seeds[t] ^= seed;
            // Zero isn't a state.
            if value.masks[mask_of(t)] != 0 && value.seeds[t] != 0 {
                goes_on(random, tally, spare, LABEL, &value);
                tally.kind(Kind::ByOneBit);
            }
        }
        let two = different(random, 2);
        let (mut exchanged, mut sums) = (twins, twins);
        (exchanged.masks[mask_of(u)], exchanged.seeds[u], exchanged.masks[mask_of(t)], exchanged.seeds[t]) = (two[0], two[1], two[1], two[0]);
        goes_on(random, tally, spare, LABEL, &exchanged);
        tally.kind(Kind::Exchanged);
        (sums.masks[mask_of(u)], sums.seeds[u], sums.masks[mask_of(t)], sums.seeds[t]) = (500_000, 600_001 + bit, 500_001 + bit, 600_000);
        goes_on(random, tally, spare, LABEL, &sums);
    }
}

// ---- several

/// Two pairs in one symbol: the first slot that repeats is named, also where the other pair begins before it. Three alike: the second.
fn several_in_symbol(random: &mut Random, tally: &mut Tally, spare: &[f32], mode: u8) {
    let right = apart(random, mode);
    for symbol in symbols(&right) {
        let pairs: Vec<(usize, usize)> = symbol.iter().flat_map(|&t| (symbol[0]..t).map(move |u| (u, t))).collect();
        for (i, &(u, t)) in pairs.iter().enumerate() {
            for &(v, w) in pairs[i + 1..].iter().filter(|(v, w)| ![u, t].contains(v) && ![u, t].contains(w)) {
                // By any masks, and by one mask in all slots.
                for masks in [right.masks, [right.masks[3]; 8]] {
                    both(tally, "two pairs in a symbol", &alike(&Profile { masks, ..right }, &[(u, t), (v, w)]), twins_at(t.min(w)));
                }
                tally.kind(Kind::TwoPairs);
                if v < u && t < w || u < v && w < t {
                    tally.kind(Kind::PairAround);
                }
            }
            for &third in symbol.iter().filter(|&&third| third > t) {
                both(tally, "three alike", &alike(&right, &[(u, t), (u, third)]), twins_at(t));
                tally.kind(Kind::ThreeAlike);
            }
        }
        if let [first, second, third, fourth, ..] = symbol[..] {
            refused(random, tally, spare, "a pair around another", &alike(&right, &[(first, fourth), (second, third)]), third);
            refused(random, tally, spare, "three alike", &alike(&right, &[(first, third), (first, fourth)]), third);
        }
        // All slots from one on: the one after it is the first that repeats.
        for (i, &first) in symbol.iter().enumerate().filter(|(i, _)| i + 1 < symbol.len()) {
            let pairs: Vec<(usize, usize)> = symbol[i + 1..].iter().map(|&t| (first, t)).collect();
            both(tally, "all alike from one on", &alike(&right, &pairs), twins_at(first + 1));
        }
    }
    let all = Profile { masks: [77; 8], seeds: std::array::from_fn(|t| if t < slots(&right) { 1 } else { 0 }), ..right };
    refused(random, tally, spare, "all slots alike", &all, 1);
}

/// Pairs in two symbols and more: the first of them counts, whichever is made first; pairs across symbols beside them don't.
fn in_several_symbols(random: &mut Random, tally: &mut Tally, spare: &[f32], mode: u8) {
    const LABEL: &str = "pairs in several symbols";
    let pair = |random: &mut Random, symbol: &[usize]| {
        let t = 1 + random.below(symbol.len() - 1);
        (symbol[random.below(t)], symbol[t])
    };
    for round in 0..300 {
        let mut right = apart(random, mode);
        right.masks = [right.masks, [right.masks[0]; 8]][round % 2];
        let symbols = symbols(&right);
        let count = 2 + random.below(symbols.len() - 1);
        let mut pairs: Vec<(usize, usize)> = random.some(count, symbols.len()).into_iter().map(|y| pair(random, &symbols[y])).collect();
        let first = pairs.iter().map(|pair| pair.1).min().unwrap();
        if round % 3 == 0 {
            // A slot of the first symbol and one of the last, which aren't in the pairs.
            let free = |y: usize| symbols[y].iter().copied().find(|t| !pairs.iter().any(|(u, v)| u == t || v == t));
            pairs.extend(free(0).zip(free(symbols.len() - 1)));
        }
        let value = alike(&right, &pairs);
        both(tally, LABEL, &value, twins_at(first));
        tally.kind(Kind::PairsInTwoSymbols);
        if round % 20 == 0 {
            refused(random, tally, spare, LABEL, &value, first);
        }
    }
}

// ---- twins beside other faults

/// Any two slots of one symbol.
fn any_pair(random: &mut Random, mode: u8) -> (usize, usize) {
    let later: Vec<usize> = (0..SLOTS[mode as usize]).filter(|t| t % 7 != 0).collect();
    let t = random.pick(&later);
    (t - 1 - random.below(t % 7), t)
}

/// A profile with these made alike.
fn any_twins(random: &mut Random, mode: u8) -> (Profile, usize, usize) {
    let (u, t) = any_pair(random, mode);
    (alike(&apart(random, mode), &[(u, t)]), u, t)
}

/// Each other bad number comes first, in a value and in bytes. A level that only modes 2 to 4 refuse is none in the others.
fn beside_numbers(random: &mut Random, tally: &mut Tally, spare: &[f32], mode: u8) {
    const LABEL: &str = "twins and a bad number";
    for spot in SOME {
        for _ in 0..3 {
            let (twins, _, t) = any_twins(random, mode);
            // The floor +0.0, which every level allows.
            let (mut value, all) = (Profile { floor: 0.0, ..twins }, SLOTS[mode as usize]);
            let (mut bytes, bad) = (bytes_of(&value), random.pick(spot.bad(all)));
            let known = if spot.is_bad_in(mode) { spot.answer(all) } else { twins_at(t) };
            spot.set(&mut value, bad);
            expect_value(tally, known, LABEL, &value);
            if spot.is_written(all) {
                spot.put(all, &mut bytes, bad);
                each_call(random, tally, spare, &twins, &bytes, known);
            }
            tally.kind(Kind::BesideNumber);
        }
    }
    // The twins' own numbers are bad: two seeds of zero, two masks of 2^20.
    let (twins, u, t) = any_twins(random, mode);
    for (masks, seed, known) in [(None, 0, Spot::Seed(u)), (Some(1 << 20), twins.seeds[t], Spot::Mask(mask_of(u)))] {
        let mut value = twins;
        (value.seeds[u], value.seeds[t]) = (seed, seed);
        if let Some(mask) = masks {
            (value.masks[mask_of(u)], value.masks[mask_of(t)]) = (mask, mask);
        }
        both(tally, LABEL, &value, known.answer(SLOTS[mode as usize]));
    }
}

/// Surplus bytes of any number, an early end at every byte, and a fault in each header come first too.
fn beside_bytes(random: &mut Random, tally: &mut Tally, spare: &[f32], mode: u8) {
    let (twins, all) = (any_twins(random, mode).0, SLOTS[mode as usize]);
    let bytes = bytes_of(&twins);
    for count in (1..12).chain([40, 255]) {
        let number = if count < 3 { ENDS_INSIDE } else { OTHER_TAG };
        for tag in [0, 5, 6, 7, random.next() as u8] {
            let mut more = random.bytes(count);
            more[0] = tag;
            expect(tally, number.into(), "twins and surplus bytes", &[&bytes[..], &more].concat());
            if tag == 7 && count < 5 {
                each_call(random, tally, spare, &twins, &[&bytes[..], &more].concat(), number.into());
            }
            tally.kind(Kind::BesideSurplus);
        }
    }
    for cut in 0..bytes.len() {
        let number = if starts(all).contains(&cut) { FIELD_DUE } else { ENDS_INSIDE };
        expect(tally, number.into(), "twins and an early end", &bytes[..cut]);
        if [0, 50, starts(all)[5], bytes.len() - 1].contains(&cut) {
            each_call(random, tally, spare, &twins, &bytes[..cut], number.into());
        }
        tally.kind(Kind::BesideEnd);
    }
    for (bytes, number) in (0..6).flat_map(|f| headers(&bytes, f, all)) {
        expect(tally, number.into(), "twins and a header's fault", &bytes);
        tally.kind(Kind::BesideHeader);
    }
}

/// A grid as twins themselves would be sent, and the state that it leaves: receiving it would be done, and isn't. A state half full isn't fed.
fn otherwise_done(random: &mut Random, tally: &mut Tally, mode: u8) {
    const LABEL: &str = "a grid as twins would be sent";
    for own in symbols(&apart(random, mode)) {
        let t = own[1 + random.below(own.len() - 1)];
        let value = alike(&apart(random, mode), &[(own[0], t)]);
        let (bytes, known, data) = (bytes_of(&value), twins_at(t), random.bytes(value.data_length()));
        let packets = plain::block_of(value.k, &data).map(|packet| plain::packet_bits(&packet, plain::check_word(&packet), 0));
        let cells = CELLS * value.symbols();
        let (mut firsts, mut seconds) = (vec![0.0; cells], vec![0.0; cells]);
        plain::put_block(&value, &packets, &(0..value.symbols()), &mut firsts, &mut seconds);
        let (mut half, mut full) = (Came::nothing(), Came::nothing());
        half.feed(&value, &firsts[..cells / 2], &seconds[..cells / 2]);
        full.feed(&value, &firsts, &seconds);

        let given = Given::bytes(&bytes);
        let (mut room, mut asked_room) = (Room::new(random, data.len()), Room::new(random, data.len()));
        let (before, asked_before) = (room.clone(), asked_room.clone());
        let received = library::receive(&bytes, 0, &firsts, &seconds, room.lent());
        let mut state = full.state().to_vec();
        let asked = library::ask(&bytes, 0, &mut state, asked_room.lent());
        for (call, came, kept) in [(Call::Receive, received, room.same(&before)), (Call::Ask, asked, asked_room.same(&asked_before))] {
            let zero = came.lost == 0 && came.reasons == [0; PACKETS];
            tally.case(call, given, LABEL, came.answer(), known, &[("data were written", kept), ("mask or reasons aren't zero", zero)]);
        }
        let mut fed = half.state().to_vec();
        let rest = cells / 2..cells;
        let library = library::feed(&bytes, &mut fed, &firsts[rest.clone()], &seconds[rest]);
        let kept = same(&fed, half.state()) && same(&state, full.state());
        tally.case(Call::Feed, given, LABEL, library, known, &[("a state changed", kept)]);
    }
}

// ---- few different numbers

/// Masks and seeds of a small stock, so that both are common, twins and none.
fn of_few(random: &mut Random, tally: &mut Tally, spare: &[f32], mode: u8) {
    const LABEL: &str = "few different numbers";
    for round in 0..3000 {
        let (of_masks, of_seeds) = (random.pick(&[1, 2, 3, 8]), random.pick(&[4, 7, 10, 30, 100, 300, 1000]));
        let stock = match round % 3 {
            0 => (1..1001).collect(),
            1 => (1..1001).map(|i| i << 10).collect(),
            _ => different(random, 1000),
        };
        let mut value = apart(random, mode);
        value.masks.iter_mut().for_each(|mask| *mask = random.pick(&stock[..of_masks]));
        (0..slots(&value)).for_each(|t| value.seeds[t] = random.pick(&stock[..of_seeds]));
        let repeat = first_repeat(&value);
        both(tally, LABEL, &value, repeat.map_or(0.into(), twins_at));
        tally.kind(if repeat.is_some() { Kind::OfFewNumbers } else { Kind::ApartOfFewNumbers });
        if round % 10 == 0 {
            match repeat {
                Some(t) => each_call(random, tally, spare, &value, &bytes_of(&value), twins_at(t)),
                None => goes_on(random, tally, spare, LABEL, &value),
            }
        }
    }
}

pub fn run(random: &mut Random, tally: &mut Tally) {
    let spare = spare(random);
    for mode in MODES {
        every_pair(random, tally, &spare, mode);
        every_two_masks(random, tally, &spare, mode);
        just_apart(random, tally, &spare, mode);
        several_in_symbol(random, tally, &spare, mode);
        in_several_symbols(random, tally, &spare, mode);
        beside_numbers(random, tally, &spare, mode);
        beside_bytes(random, tally, &spare, mode);
        otherwise_done(random, tally, mode);
        of_few(random, tally, &spare, mode);
    }
}
