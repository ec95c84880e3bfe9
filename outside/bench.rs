//! The benchmark: time per block of the C library and of the plain Rust program, side by side in one run, in every mode and also per bit; then the
//! outer parity of ten thousand blocks by both; then the library's time for a grid that is fed in pieces, beside its own time for the whole grid;
//! then both programs' for comparing two grids. `run-bench` compiles and runs it.

#[allow(dead_code)]
mod library;
#[allow(dead_code, unused_imports)]
mod plain;

use plain::{Profile, BLOCK, CELLS, DIFFERENCE, PACKET, PACKETS, STATE};
use std::hint::black_box;
use std::time::{Duration, Instant};

const MODES: [u8; 5] = [0, 1, 2, 3, 4];
const SAMPLES: usize = 401;
/// A sample repeats its call for at least this long: much longer than the clock's steps, much shorter than the turns in which the
/// machine gives other processes time, so that most samples, and with them the median, see none of those.
const SAMPLE: Duration = Duration::from_micros(100);

/// One block's input and the memory lent for its result. Each program gets its own.
struct Bench {
    profile: Vec<u8>,
    k: u8,
    r: usize,
    /// Coded bits of the block.
    coded: usize,
    data: Vec<u8>,
    firsts: Vec<f32>,
    seconds: Vec<f32>,
    room: Vec<u8>,
    block: Vec<u8>,
    state: Vec<u8>,
}

impl Bench {
    /// Fixed numbers that look random; the grid and the block are as sent.
    fn new(mode: u8, k: u8) -> Bench {
        let mut profile = Profile { level: 1.0, mode, k, ..Profile::ZERO };
        let slots = profile.slots();
        let number = |i: usize| 1 + (i as u32 + 1).wrapping_mul(2_654_435_761) % ((1 << 20) - 1);
        (0..8).for_each(|i| profile.masks[i] = number(i));
        (0..slots).for_each(|t| profile.seeds[t] = number(100 + t));
        let data: Vec<u8> = (0..PACKET * k as usize).map(|i| number(1000 + i) as u8).collect();
        let cells = CELLS * profile.symbols();
        let (mut firsts, mut seconds) = (vec![0.0; cells], vec![0.0; cells]);
        assert_eq!(plain::send(&profile, &data, &mut firsts, &mut seconds).number, 0);
        let (_, bytes, count) = plain::write_profile(&profile);
        let block = plain::block_of(k, &data).as_flattened().to_vec();
        assert_eq!(block.len(), BLOCK);
        let (r, coded) = (profile.r(), PACKETS * profile.rate().length());
        Bench { profile: bytes[..count].to_vec(), k, r, coded, room: data.clone(), data, firsts, seconds, block, state: vec![0; STATE] }
    }
}

/// What is timed: a name, and the call of either program. Each returns its number, which must be 0.
type Job = (&'static str, fn(&mut Bench) -> u32, fn(&mut Bench) -> u32);

const JOBS: [Job; 3] = [
    (
        "send",
        |b| library::send(&b.profile, &b.data, &mut b.firsts, &mut b.seconds).number,
        |b| plain::send_bytes(&b.profile, &b.data, &mut b.firsts, &mut b.seconds).number,
    ),
    (
        "receive, none lost",
        |b| library::receive(&b.profile, 0, &b.firsts, &b.seconds, &mut b.room).number,
        |b| plain::receive_bytes(&b.profile, 0, &b.firsts, &b.seconds, &mut b.room).number,
    ),
    (
        "receive, r marked",
        |b| library::receive(&b.profile, marks(b.r), &b.firsts, &b.seconds, &mut b.room).number,
        |b| plain::receive_bytes(&b.profile, marks(b.r), &b.firsts, &b.seconds, &mut b.room).number,
    ),
];

/// The same in every mode.
const PARITY: Job = ("outer parity", |b| library::parity(b.k, &mut b.block), |b| plain::parity(b.k, &mut b.block));

/// r packets, all of them data: every second one, as far as that goes.
fn marks(r: usize) -> u16 {
    if r == 8 { 0x00FF } else { (0x5555 & ((1u32 << (2 * r)) - 1)) as u16 }
}

/// How often a call fits into a sample.
fn repeats<T>(bench: &mut T, call: fn(&mut T) -> u32) -> u32 {
    let start = Instant::now();
    let mut count = 0;
    while count == 0 || start.elapsed() < SAMPLE {
        assert_eq!(call(black_box(&mut *bench)), 0, "the call must be done");
        count += 1;
    }
    count
}

/// Microseconds per call over one sample.
fn sample<T>(bench: &mut T, call: fn(&mut T) -> u32, repeats: u32) -> f64 {
    let start = Instant::now();
    for _ in 0..repeats {
        black_box(call(black_box(&mut *bench)));
    }
    start.elapsed().as_secs_f64() * 1e6 / repeats as f64
}

fn median(mut times: Vec<f64>) -> f64 {
    times.sort_by(f64::total_cmp);
    times[times.len() / 2]
}

/// Times both programs in turn, so that whatever else the machine does falls on both.
fn time<T>(for_library: &mut T, for_plain: &mut T, by_library: fn(&mut T) -> u32, by_plain: fn(&mut T) -> u32) -> (f64, f64) {
    let (many, own_many) = (repeats(for_library, by_library), repeats(for_plain, by_plain));
    let (mut library, mut plain) = (Vec::new(), Vec::new());
    for _ in 0..SAMPLES {
        library.push(sample(for_library, by_library, many));
        plain.push(sample(for_plain, by_plain, own_many));
    }
    (median(library), median(plain))
}

/// Blocks and rounds of Req 03's measure.
const BLOCKS: usize = 10_000;
const ROUNDS: usize = 9;

/// Blocks one after the other, each with data of its own; their parity is still zero.
fn many_blocks(k: u8) -> Vec<u8> {
    let mut state = 1u32;
    let mut next = || {
        state = state.wrapping_mul(1_664_525).wrapping_add(1_013_904_223);
        (state >> 24) as u8
    };
    (0..BLOCKS * BLOCK).map(|i| if i % BLOCK < PACKET * k as usize { next() } else { 0 }).collect()
}

/// Microseconds a block for the parity of all of them.
fn time_parity(k: u8, blocks: &mut [u8], parity: fn(u8, &mut [u8]) -> u32) -> f64 {
    let start = Instant::now();
    let numbers = blocks.chunks_exact_mut(BLOCK).map(|block| parity(black_box(k), block)).max();
    let time = start.elapsed();
    assert_eq!(numbers, Some(0), "every block must be done");
    time.as_secs_f64() * 1e6 / BLOCKS as f64
}

fn print_parity() {
    println!();
    println!("Outer parity of {BLOCKS} different blocks, {ROUNDS} rounds, both programs in turn: microseconds a block, the median round's (the");
    println!("least to the most), and the ratio of the medians (of a round's two times, the least to the most).");
    println!("{:<5}{:<5}{:>24}{:>24}{:>24}", "K", "r", "library", "plain", "ratio");
    for k in [8, 12, 14] {
        let (mut for_library, mut for_plain) = (many_blocks(k), many_blocks(k));
        let (mut library, mut plain) = (Vec::new(), Vec::new());
        for _ in 0..ROUNDS {
            library.push(time_parity(k, &mut for_library, library::parity));
            plain.push(time_parity(k, &mut for_plain, plain::parity));
        }
        assert!(for_library == for_plain, "both programs must make the same parity");
        let ratios: Vec<f64> = library.iter().zip(&plain).map(|(ours, theirs)| ours / theirs).collect();
        let (ours, theirs) = (median(library.clone()), median(plain.clone()));
        let [ours, theirs, ratio] = [with_ends(ours, &library), with_ends(theirs, &plain), with_ends(ours / theirs, &ratios)];
        println!("{k:<5}{:<5}{ours:>24}{theirs:>24}{ratio:>24}", 16 - k);
    }
}

/// A figure, with the least and the most of those it stands for.
fn with_ends(figure: f64, of: &[f64]) -> String {
    let (least, most) = of.iter().fold((f64::MAX, 0.0f64), |(least, most), &x| (least.min(x), most.max(x)));
    format!("{figure:.2} ({least:.2} to {most:.2})")
}

/// Zeroes the state, feeds the grid in pieces of N cells, and asks once.
fn fed<const N: usize>(b: &mut Bench) -> u32 {
    b.state.fill(0);
    for (firsts, seconds) in b.firsts.chunks(N).zip(b.seconds.chunks(N)) {
        let number = library::feed(&b.profile, &mut b.state, firsts, seconds).number;
        if number != 0 {
            return number;
        }
    }
    library::ask(&b.profile, 0, &mut b.state, &mut b.room).number
}

/// A grid received whole, and in pieces: a name, the calls, and in every how many rounds it is timed, since small pieces take long.
const CUTTINGS: [(&str, fn(&mut Bench) -> u32, usize); 5] = [
    ("receive, none lost", |b| library::receive(&b.profile, 0, &b.firsts, &b.seconds, &mut b.room).number, 1),
    ("fed whole", fed::<{ 7 * CELLS }>, 1),
    ("fed 4096 by 4096", fed::<CELLS>, 1),
    ("fed 64 by 64", fed::<64>, 8),
    ("fed cell by cell", fed::<1>, 40),
];

/// Times all cuttings in turn: microseconds a grid.
fn time_cuttings(mode: u8, k: u8) -> [f64; CUTTINGS.len()] {
    let mut benches = CUTTINGS.map(|_| Bench::new(mode, k));
    let mut times = CUTTINGS.map(|_| Vec::new());
    let many: Vec<u32> = (0..CUTTINGS.len()).map(|i| repeats(&mut benches[i], CUTTINGS[i].1)).collect();
    for round in 0..SAMPLES {
        for i in (0..CUTTINGS.len()).filter(|&i| round % CUTTINGS[i].2 == 0) {
            times[i].push(sample(&mut benches[i], CUTTINGS[i].1, many[i]));
        }
    }
    times.map(median)
}

fn print_cuttings() {
    println!();
    println!("A grid in pieces, library alone: microseconds a grid, zeroing the state and asking once included, and as multiples of receive.");
    println!("Samples in turn as above; of the smaller pieces only in every {}th and {}th turn.", CUTTINGS[3].2, CUTTINGS[4].2);
    println!("{:<6}{:<5}{:<20}{:>10}{:>10}", "mode", "K", "", "time", "times");
    for mode in MODES {
        let times = time_cuttings(mode, 12);
        for (cutting, time) in CUTTINGS.iter().zip(times) {
            println!("{mode:<6}{:<5}{:<20}{time:>10.1}{:>10.2}", 12, cutting.0, time / times[0]);
        }
    }
}

/// Two grids of 7 symbols as bit patterns, the list lent for their differences, and how many there are. Each program gets its own.
#[derive(Clone, PartialEq)]
struct Pair {
    a: [Vec<u32>; 2],
    b: [Vec<u32>; 2],
    list: Vec<u32>,
    count: u64,
}

impl Pair {
    /// A grid as sent, and the same with the second part's sign turned over in one of n cells, here and there; in none for n = 0.
    fn new(n: u32, list: usize) -> Pair {
        let sent = Bench::new(0, 12);
        let a = [sent.firsts, sent.seconds].map(|parts| parts.iter().map(|part| part.to_bits()).collect::<Vec<u32>>());
        let (mut b, mut state) = (a.clone(), 1u32);
        for part in &mut b[1] {
            state = state.wrapping_mul(1_664_525).wrapping_add(1_013_904_223);
            if n > 0 && (state >> 8) % n == 0 {
                *part ^= 1 << 31;
            }
        }
        Pair { a, b, list: vec![0; list], count: 0 }
    }
}

fn compared_by_library(p: &mut Pair) -> u32 {
    let (number, count) = library::compare(&p.a[0], &p.a[1], &p.b[0], &p.b[1], &mut p.list);
    p.count = count;
    number
}

fn compared_by_plain(p: &mut Pair) -> u32 {
    let (number, count) = plain::compare(&p.a[0], &p.a[1], &p.b[0], &p.b[1], &mut p.list);
    p.count = count;
    number
}

/// Comparing: a name, of how many cells one differs, and for how many there is room in the list.
const COMPARISONS: [(&str, u32, usize); 5] = [
    ("the same", 0, 7 * CELLS),
    ("1 in 1000 differs", 1000, 7 * CELLS),
    ("1 in 10 differs", 10, 7 * CELLS),
    ("all differ", 1, 7 * CELLS),
    ("all differ, no list", 1, 0),
];

fn print_comparisons() {
    println!();
    println!("Two grids of 7 symbols compared: microseconds a pair, samples in turn as above. The list has room for all cells, but in");
    println!("the last line it has none.");
    println!("{:<22}{:>10}{:>10}{:>10}{:>8}", "", "count", "library", "plain", "ratio");
    for (name, n, room) in COMPARISONS {
        let (mut for_library, mut for_plain) = (Pair::new(n, DIFFERENCE * room), Pair::new(n, DIFFERENCE * room));
        let (library, plain) = time(&mut for_library, &mut for_plain, compared_by_library, compared_by_plain);
        assert!(for_library == for_plain, "both programs must find the same differences");
        println!("{name:<22}{:>10}{library:>10.1}{plain:>10.1}{:>8.2}", for_plain.count, library / plain);
    }
}

/// Times a job by both programs; the library's time also in nanoseconds per coded bit and per bit of data, so that modes can be compared.
fn print_job(mode: u8, k: u8, job: &Job) {
    let mut for_library = Bench::new(mode, k);
    let (library, plain) = time(&mut for_library, &mut Bench::new(mode, k), job.1, job.2);
    let [coded, data] = [for_library.coded, 8 * for_library.data.len()].map(|bits| 1000.0 * library / bits as f64);
    println!("{mode:<6}{k:<5}{:<20}{library:>10.1}{plain:>10.1}{:>8.2}{coded:>12.2}{data:>12.2}", job.0, library / plain);
}

fn main() {
    println!("Time per block in microseconds, median of {SAMPLES} samples of {} or more, both programs in turn.", SAMPLE.as_micros());
    println!("Buffers, the same for both: each program has its own, reused from call to call and not cleared in between, so they");
    println!("hold the previous call's result and are warm in the caches. Every call but outer parity reads the profile's bytes anew.");
    println!("The last two columns are the library's time in nanoseconds per coded bit of the block and per bit of its data.");
    println!("{:<6}{:<5}{:<20}{:>10}{:>10}{:>8}{:>12}{:>12}", "mode", "K", "", "library", "plain", "ratio", "coded bit", "data bit");
    for (mode, k) in MODES.into_iter().flat_map(|mode| [8, 12, 14].map(|k| (mode, k))) {
        JOBS.iter().for_each(|job| print_job(mode, k, job));
        if mode == 0 {
            print_job(mode, k, &PARITY);
        }
    }
    print_parity();
    print_cuttings();
    print_comparisons();
}
