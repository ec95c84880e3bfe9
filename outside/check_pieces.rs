//! The tests of feeding and asking: grids cut in every way, with early questions, refused pieces and spoilt states between the pieces; cells whose
//! parts lie at the ends of the doubtful ranges and next to them.
//!
//! After every call the state is compared with the plain program's byte for byte; at a grid's end the answer is also compared with both
//! programs' for the whole grid.

use crate::check_floor::edge_parts;
use crate::check_profile::{damaged, edge_profiles, random_profile, written, KS, MODES};
use crate::check_receive::{any_grid, clean_grid, Receiving};
use crate::check_send::often_right;
use crate::check_tools::{Call, Given, Random, Room, Tally};
use crate::library;
use crate::plain::{self, Answer, Came, Profile, Received, CELLS, PACKETS, STATE};

/// More parts than the longest piece has.
const SPARE: usize = 1 << 17;

/// Parts of any bit patterns.
pub fn spare(random: &mut Random) -> Vec<f32> {
    (0..SPARE).map(|_| random.float()).collect()
}

type Piece<'a> = (&'a [f32], &'a [f32]);

fn lent(random: &mut Random, bytes: &[u8]) -> Room<u8> {
    let mut room = Room::new(random, bytes.len());
    room.lent().copy_from_slice(bytes);
    room
}

/// Feeds the library with a piece; `plain` is what the plain program says, `right` the state that it has then. Afterwards the library's state is
/// that one too, so that a mistake is counted where it is made and not in all that follows.
fn compare_feed(tally: &mut Tally, label: &str, profile: &[u8], state: &mut Room<u8>, piece: Piece, plain: Answer, right: &[u8]) {
    let before = state.clone();
    let library = library::feed(profile, state.lent(), piece.0, piece.1);
    let mut own = before.clone();
    own.lent().copy_from_slice(right);
    let tests = [
        ("states differ", state.same(&own)),
        ("a refusal changed the state", library.number == 0 || state.same(&before)),
    ];
    tally.case(Call::Feed, Given::bytes(profile), label, library, plain, &tests);
    *state = own;
}

/// Asks the library; `ask` asks the plain program. Returns the library's answer and the data that it wrote.
fn compare_ask(
    tally: &mut Tally, label: &str, profile: &[u8], marks: u16, state: &mut Room<u8>, room: &Room<u8>, ask: impl FnOnce(&mut [u8]) -> Received,
) -> (Received, Room<u8>) {
    let (mut data, mut own, before) = (room.clone(), room.clone(), state.clone());
    let library = library::ask(profile, marks, state.lent(), data.lent());
    let plain = ask(own.lent());
    let judged = matches!(plain.number, 0 | 9 | 10);
    let tests = [
        ("lost masks differ", library.lost == plain.lost),
        ("reasons differ", library.reasons == plain.reasons),
        ("data differ", data.same(&own)),
        ("a refusal changed lent memory", library.number == 0 || data.same(room)),
        ("asking changed the state", state.same(&before)),
        ("plain: mask or reasons not zero", judged || (plain.lost == 0 && plain.reasons == [0; PACKETS])),
    ];
    tally.case(Call::Ask, Given::bytes(profile), label, library.answer(), plain.answer(), &tests);
    if judged {
        tally.reasons(profile[45], &plain.reasons);
    }
    *state = before;
    (library, data)
}

/// A grid on its way to the library, and what the plain program has of it.
struct Feeding<'a> {
    profile: Profile,
    bytes: Vec<u8>,
    marks: u16,
    firsts: Vec<f32>,
    seconds: Vec<f32>,
    came: Came,
    state: Room<u8>,
    /// Parts of any bit patterns, for pieces that are refused.
    spare: &'a [f32],
}

impl<'a> Feeding<'a> {
    fn new(random: &mut Random, spare: &'a [f32], grid: Receiving) -> Feeding<'a> {
        let state = lent(random, &[0; STATE]);
        let (bytes, came) = (written(&grid.profile), Came::nothing());
        Feeding { profile: grid.profile, bytes, marks: grid.marks, firsts: grid.firsts, seconds: grid.seconds, came, state, spare }
    }

    /// Any grid, at times with noise, at times nothing but that.
    fn any(random: &mut Random, spare: &'a [f32], mode: u8, k: u8) -> Feeding<'a> {
        let grid = any_grid(random, mode, k);
        let mut new = Feeding::new(random, spare, grid);
        match random.below(10) {
            0 => new.noise(random),
            1 => new.firsts.iter_mut().chain(&mut new.seconds).for_each(|part| *part = random.float()),
            _ => (),
        }
        new
    }

    /// Noise on every part: none of it, a little of it or much of it turns a sign.
    fn noise(&mut self, random: &mut Random) {
        let most = self.profile.level * random.pick(&[0.5, 0.999, 1.0002, 1.01, 2.0]);
        for part in self.firsts.iter_mut().chain(&mut self.seconds) {
            *part += most * (random.below(20001) as f32 / 10000.0 - 1.0);
        }
    }

    fn rest(&self) -> usize {
        self.firsts.len() - self.came.cells()
    }

    fn feed(&mut self, tally: &mut Tally, label: &str, piece: Piece) {
        let plain = self.came.feed(&self.profile, piece.0, piece.1);
        compare_feed(tally, label, &self.bytes, &mut self.state, piece, plain.into(), self.came.state());
    }

    /// Feeds the next cells of the grid.
    fn next(&mut self, tally: &mut Tally, count: usize) {
        let next = self.came.cells()..self.came.cells() + count;
        let piece = (&self.firsts[next.clone()], &self.seconds[next]);
        let plain = self.came.feed(&self.profile, piece.0, piece.1);
        compare_feed(tally, "the next piece", &self.bytes, &mut self.state, piece, plain.into(), self.came.state());
    }

    fn ask(&mut self, random: &mut Random, tally: &mut Tally, label: &str, marks: u16, length: usize) {
        let room = Room::new(random, length);
        let (came, profile) = (&self.came, &self.profile);
        compare_ask(tally, label, &self.bytes, marks, &mut self.state, &room, |data| came.ask(profile, marks, data));
    }

    /// Pieces that don't fit, by one cell or by many, among them lengths at which a position of 16 bits comes round again. None may be taken.
    fn refused(&mut self, random: &mut Random, tally: &mut Tally) {
        let (here, rest, spare) = (self.came.cells(), self.rest(), self.spare);
        let any = 1 + random.below(rest + 100);
        let many = random.pick(&[1, 1, 1, 2, any, CELLS, (1 << 16) - here - rest, (1 << 16) - rest, 1 << 16]) + rest;
        self.feed(tally, "a piece past the end", (&spare[..many], &spare[SPARE - many..]));
        let (one, other) = random.pick(&[(0, 1), (1, 0), (any, any - 1), (rest, rest + 1), (rest + 1, rest), (many, 0), (many, many - 1)]);
        self.feed(tally, "unequal lists", (&spare[..one], &spare[SPARE - other..]));
    }

    /// Questions with the right room and with any; a piece of nothing, and pieces that are refused. None of them may change anything.
    fn between(&mut self, random: &mut Random, tally: &mut Tally) {
        let (right, marks) = (self.profile.data_length(), random.next() as u16 & random.next() as u16);
        self.ask(random, tally, "an early question", marks, right);
        let length = random.pick(&[0, 1, right - 1, right + 1, 122 * 8, 122 * 12, 122 * 14]);
        self.ask(random, tally, "a question with any room", marks, length);
        self.feed(tally, "nothing", (&[], &[]));
        self.refused(random, tally);
    }

    /// All cells have come: the answer is both programs' for the whole grid, again and again and with other marks.
    fn at_end(&mut self, random: &mut Random, tally: &mut Tally) {
        let any = random.next() as u16 & random.next() as u16 & random.next() as u16;
        for marks in [self.marks, 0, any] {
            let room = Room::new(random, self.profile.data_length());
            let (came, profile) = (&self.came, &self.profile);
            let (asked, data) =
                compare_ask(tally, "all cells fed", &self.bytes, marks, &mut self.state, &room, |data| came.ask(profile, marks, data));
            let (mut whole, mut own) = (room.clone(), room);
            let received = library::receive(&self.bytes, marks, &self.firsts, &self.seconds, whole.lent());
            let plain = plain::receive_bytes(&self.bytes, marks, &self.firsts, &self.seconds, own.lent());
            for (other, room, name) in [(received, whole, "flo_receive"), (plain, own, "the plain program")] {
                if asked != other || !data.same(&room) {
                    tally.difference(&format!("ask, all cells fed: not the answer of {name} for the whole grid"));
                }
            }
        }
    }
}

/// How a grid is cut: into pieces of one size, or of any sizes.
#[derive(Clone, Copy)]
enum Cutting {
    Even(usize),
    Mixed,
}

impl Cutting {
    /// The next piece's cells. At the end every second grid has a piece that leaves one cell to come.
    fn next(self, random: &mut Random, here: usize, rest: usize) -> usize {
        let to_end = CELLS - here % CELLS;
        let any = random.below(rest + 1);
        let size = match self {
            Cutting::Even(size) => size,
            Cutting::Mixed => random.pick(&[0, 1, 2 + any % 10, 64, CELLS, to_end, to_end - 1, to_end + 1, any, any, rest]),
        };
        let size = size.min(rest);
        if size == rest && rest > 1 && random.percent(50) { rest - 1 } else { size }
    }

    /// In how many of a hundred steps something else comes between; some dozen times a grid.
    fn share(self) -> usize {
        match self {
            Cutting::Even(size) => (size / 16).clamp(1, 100),
            Cutting::Mixed => 60,
        }
    }
}

fn cut_case(random: &mut Random, tally: &mut Tally, mut feeding: Feeding, cutting: Cutting) {
    feeding.between(random, tally);
    while feeding.rest() > 0 {
        let size = cutting.next(random, feeding.came.cells(), feeding.rest());
        feeding.next(tally, size);
        if feeding.rest() == 1 || random.percent(cutting.share()) {
            feeding.between(random, tally);
        }
    }
    feeding.at_end(random, tally);
    feeding.between(random, tally);
    feeding.at_end(random, tally);
}

fn cut_cases(random: &mut Random, tally: &mut Tally, spare: &[f32], mode: u8) {
    for size in [10, 63, 64, 65, 1000, 4095, 4096, 4097, 2 * CELLS, 7 * CELLS, 7 * CELLS] {
        let k = random.pick(&KS);
        let feeding = Feeding::any(random, spare, mode, k);
        cut_case(random, tally, feeding, Cutting::Even(size));
    }
    for k in KS.into_iter().cycle().take(48) {
        let feeding = Feeding::any(random, spare, mode, k);
        cut_case(random, tally, feeding, Cutting::Mixed);
    }
    for profile in edge_profiles(random, mode, 12) {
        let grid = clean_grid(random, "the least or the largest level", profile);
        let feeding = Feeding::new(random, spare, grid);
        cut_case(random, tally, feeding, Cutting::Mixed);
    }
}

/// A grid in three pieces, the last of one cell, and asked for: the answer is that for the whole grid.
pub fn fed_case(random: &mut Random, tally: &mut Tally, spare: &[f32], grid: Receiving) {
    let mut feeding = Feeding::new(random, spare, grid);
    let first = random.below(feeding.rest());
    feeding.next(tally, first);
    feeding.next(tally, feeding.rest() - 1);
    feeding.next(tally, 1);
    feeding.at_end(random, tally);
}

/// Cells with every two of the parts at the ends of the doubtful ranges and next to them: the bytes that they leave are known beforehand.
pub fn state_case(random: &mut Random, tally: &mut Tally, profile: &Profile) {
    let parts = edge_parts(profile);
    let cells: Vec<(usize, usize)> = (0..parts.len()).flat_map(|i| (0..parts.len()).map(move |j| (i, j))).collect();
    let (firsts, seconds): (Vec<f32>, Vec<f32>) = cells.iter().map(|&(i, j)| (parts[i].1, parts[j].1)).unzip();
    let decision = |i: usize| match parts[i].2.as_deref() {
        Some([sign]) => *sign,
        Some([size, sign]) => 2 * size + sign,
        _ => 2 * profile.part_bits() as u8,
    };
    let base = 1 + 2 * profile.part_bits() as u8;
    let mut known = vec![0; STATE];
    known[..2].copy_from_slice(&(cells.len() as u16).to_be_bytes());
    known[2..].iter_mut().zip(&cells).for_each(|(byte, &(i, j))| *byte = decision(i) + base * decision(j));
    let mut came = Came::nothing();
    let plain = came.feed(profile, &firsts, &seconds);
    if plain != 0 || came.state() != known {
        tally.difference("feed, parts at the ends: the plain program's state isn't the known one");
    }
    let mut state = lent(random, &[0; STATE]);
    compare_feed(tally, "parts at the ends", &written(profile), &mut state, (&firsts, &seconds), plain.into(), &known);
}

// ---- states from elsewhere: the plain program says by its own test whether any cells leave them

fn moved(state: &[u8], position: usize) -> Vec<u8> {
    let mut other = state.to_vec();
    other[..2].copy_from_slice(&(position as u16).to_be_bytes());
    other
}

fn with_byte(state: &[u8], cell: usize, byte: u8) -> Vec<u8> {
    let mut other = state.to_vec();
    other[2 + cell] = byte;
    other
}

/// The state itself, and changed in one thing: its length, its position, a byte of a cell. Some of them are good.
fn changed(random: &mut Random, state: &[u8], here: usize, cells: usize) -> Vec<Vec<u8>> {
    let mut all = vec![state.to_vec()];
    for length in [0, 1, 2, 3, 2 + cells, STATE - 1, STATE + 1, STATE + CELLS, 2 * STATE] {
        let mut other = state.to_vec();
        other.resize(length, 0);
        all.push(other);
    }
    let (between, any) = (cells + 1 + random.below(7 * CELLS + 1 - cells), random.below(1 << 16));
    let swapped = (here as u16).swap_bytes() as usize;
    let other = CELLS * random.pick(&[2, 3, 4, 5]);
    for position in [0, here + 1, here + 2, cells, cells + 1, between, other, other + 1, 7 * CELLS, 7 * CELLS + 1, 65535, any, swapped] {
        all.push(moved(state, position));
    }
    if here > 0 {
        all.push(moved(state, here - 1));
        all.push(moved(&with_byte(state, here - 1, 0), here - 1));
        let come = random.below(here);
        for (cell, byte) in [0, here - 1, come].into_iter().flat_map(|cell| [0, 8, 9, 10, 24, 25, 26, 128, 255].map(|byte| (cell, byte))) {
            all.push(with_byte(state, cell, byte));
        }
    }
    if here < 7 * CELLS {
        let unseen = here + random.below(7 * CELLS - here);
        let places = [here, cells - 1, cells, 7 * CELLS - 1, unseen].into_iter().filter(|&cell| (here..7 * CELLS).contains(&cell));
        for (cell, byte) in places.flat_map(|cell| [1, 2, 8, 9, 24, 25, 255].map(|byte| (cell, byte))) {
            all.push(with_byte(state, cell, byte));
        }
    }
    all
}

/// States of random bytes: of any, of those that a cell can have, and with the bytes of unseen cells zero, which are good ones: the first in every
/// mode, the second in modes 2 to 4.
fn random_states(random: &mut Random, here: usize) -> Vec<Vec<u8>> {
    let bytes: Vec<u8> = random.bytes(STATE);
    let mut states = vec![bytes.clone(), moved(&bytes, here)];
    for most in [9, 25] {
        let decisions: Vec<u8> = bytes.iter().map(|byte| byte % most).collect();
        let mut good = moved(&decisions, here);
        good[2 + here..].fill(0);
        states.extend([moved(&decisions, here), good]);
    }
    states
}

/// Feeds any piece to a state and asks with it, both with any profile. Returns what the plain program says to either.
pub fn strange_case(random: &mut Random, tally: &mut Tally, spare: &[f32], profile: &[u8], state: &[u8], data: usize) -> [Answer; 2] {
    let here = if let [high, low, ..] = state { u16::from_be_bytes([*high, *low]) as usize } else { 0 };
    let rest = (random.pick(&[2, 3, 4, 5, 7]) * CELLS).saturating_sub(here);
    let any = random.below(rest + 1);
    let count = random.pick(&[0, 1, 1, 2, any, any, rest, rest + 1, CELLS]);
    let other = if random.percent(80) { count } else { random.pick(&[0, 1, count + 1, rest]) };
    let piece = (&spare[..count], &spare[SPARE - other..]);
    [feed_case(random, tally, profile, state, piece), ask_case(random, tally, profile, state, data)]
}

/// Feeds a piece to any state with any profile. Returns what the plain program says.
pub fn feed_case(random: &mut Random, tally: &mut Tally, profile: &[u8], state: &[u8], piece: Piece) -> Answer {
    let (mut room, mut right) = (lent(random, state), state.to_vec());
    let plain = plain::feed_bytes(profile, &mut right, piece.0, piece.1);
    compare_feed(tally, "any state", profile, &mut room, piece, plain, &right);
    plain
}

/// Asks with any state and any profile. Returns what the plain program says.
pub fn ask_case(random: &mut Random, tally: &mut Tally, profile: &[u8], state: &[u8], data: usize) -> Answer {
    let (mut room, marks) = (lent(random, state), random.next() as u16 & random.next() as u16);
    let (data, mut plain) = (Room::new(random, data), Answer::from(0));
    compare_ask(tally, "any state", profile, marks, &mut room, &data, |data| {
        let asked = plain::ask_bytes(profile, marks, state, data);
        plain = asked.answer();
        asked
    });
    plain
}

/// A state that some of a random grid's cells leave.
fn some_state(random: &mut Random, mode: u8, k: u8, here: usize) -> Vec<u8> {
    let grid = any_grid(random, mode, k);
    let mut came = Came::nothing();
    assert_eq!(came.feed(&grid.profile, &grid.firsts[..here], &grid.seconds[..here]), 0);
    came.state().to_vec()
}

/// States of this mode, good and spoilt, with another profile of this mode and with one of another, which may have more symbols or fewer.
fn strange_cases(random: &mut Random, tally: &mut Tally, spare: &[f32], mode: u8) {
    let k = random.pick(&KS);
    let cells = CELLS * random_profile(random, mode, k).symbols();
    let (any, full) = (random.below(cells), CELLS * random.pick(&[2, 3, 4, 5]).min(cells / CELLS));
    for here in [0, 1, any, full, cells - 1, cells] {
        let state = some_state(random, mode, k, here);
        let mut states = changed(random, &state, here, cells);
        states.extend(random_states(random, here));
        for (state, is_own) in states.iter().flat_map(|state| [true, false].map(|is_own| (state, is_own))) {
            let mode = if is_own { mode } else { random.pick(&MODES) };
            let k = random.pick(&KS);
            let profile = random_profile(random, mode, k);
            let data = if random.percent(85) { profile.data_length() } else { often_right(random, profile.data_length()) };
            strange_case(random, tally, spare, &written(&profile), state, data);
        }
    }
}

/// Anything wrong at random, the profile too: which number is the first that fits?
fn wrong_cases(random: &mut Random, tally: &mut Tally, spare: &[f32], mode: u8, k: u8) {
    let cells = CELLS * random_profile(random, mode, k).symbols();
    for _ in 0..9 {
        let here = random.below(cells + 1);
        let state = some_state(random, mode, k, here);
        let changed = changed(random, &state, here, cells);
        for _ in 0..12 {
            let profile = random_profile(random, mode, k);
            let bytes = if random.percent(70) { damaged(random, &profile) } else { written(&profile) };
            let state = if random.percent(50) { &state } else { &changed[random.below(changed.len())] };
            let data = often_right(random, profile.data_length());
            strange_case(random, tally, spare, &bytes, state, data);
        }
    }
}

pub fn run(random: &mut Random, tally: &mut Tally) {
    let spare = spare(random);
    for mode in MODES {
        cut_cases(random, tally, &spare, mode);
        strange_cases(random, tally, &spare, mode);
        KS.into_iter().for_each(|k| wrong_cases(random, tally, &spare, mode, k));
        for _ in 0..30 {
            let profile = random_profile(random, mode, 12);
            state_case(random, tally, &profile);
        }
    }
    for (mode, k) in [(0, 12), (2, 14), (4, 8)] {
        let feeding = Feeding::any(random, &spare, mode, k);
        cut_case(random, tally, feeding, Cutting::Even(1));
    }
}
