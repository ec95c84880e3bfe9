//! Part of plain.rs: field, outer code, check word, turbo code and bit interleaver, by document 01's text and, for rate 2/3, source document 000's
//! tables of puncturing.

use super::{BAD_K, BLOCK, CODED, DATA_LENGTH, DONE, ENTERING, PACKET, PACKETS};

// ---- GF(256) by logarithms

/// Stands for the logarithm of zero: with it any sum of two logarithms falls among the zeros of EXP.
const LOG_ZERO: u16 = 512;
static EXP: [u8; 1025] = powers();
static LOG: [u16; 256] = logarithms();

const fn powers() -> [u8; 1025] {
    let mut exp = [0; 1025];
    let mut power = 1u16;
    let mut i = 0;
    while i < 510 {
        exp[i] = power as u8;
        power <<= 1;
        if power >= 256 {
            power ^= 0b1_0001_1101;
        }
        i += 1;
    }
    exp
}

const fn logarithms() -> [u16; 256] {
    let exp = powers();
    let mut log = [LOG_ZERO; 256];
    let mut i = 0;
    while i < 255 {
        log[exp[i] as usize] = i as u16;
        i += 1;
    }
    log
}

pub fn product(a: u8, b: u8) -> u8 {
    EXP[(LOG[a as usize] + LOG[b as usize]) as usize]
}

fn inverse(a: u8) -> u8 {
    if a == 0 { 0 } else { EXP[255 - LOG[a as usize] as usize] }
}

/// target += factor × source, byte by byte.
fn add_multiple(target: &mut [u8], factor: u8, source: &[u8]) {
    let log = LOG[factor as usize];
    for (t, s) in target.iter_mut().zip(source) {
        *t ^= EXP[(log + LOG[*s as usize]) as usize];
    }
}

// ---- the outer code

pub type Block = [[u8; PACKET]; PACKETS];

/// The generator's coefficients below its highest, as powers of α, highest first.
fn generator(k: u8) -> Option<&'static [u16]> {
    match k {
        8 => Some(&[44, 231, 70, 235, 70, 231, 44, 0]),
        12 => Some(&[201, 246, 201, 0]),
        14 => Some(&[152, 0]),
        _ => None,
    }
}

/// Fills packets k to 15 of a lent block of 1952 bytes.
pub fn parity(k: u8, block: &mut [u8]) -> u32 {
    let Some(generator) = generator(k) else { return BAD_K };
    if block.len() != BLOCK {
        return DATA_LENGTH;
    }
    let k = k as usize;
    for j in 0..PACKET {
        let mut rest = [0u8; 9]; // the remainder so far, highest power first; the last stays zero
        for p in 0..k {
            let factor = LOG[(block[PACKET * p + j] ^ rest[0]) as usize];
            for (i, &g) in generator.iter().enumerate() {
                rest[i] = rest[i + 1] ^ EXP[(factor + g) as usize];
            }
        }
        for p in k..PACKETS {
            block[PACKET * p + j] = rest[p - k];
        }
    }
    DONE
}

/// A parity-check equation for all columns at once: the unknown packets' coefficients, and the sum of the known packets.
#[derive(Clone, Copy)]
struct Equation {
    unknown: [u8; 8],
    sum: [u8; PACKET],
}

impl Equation {
    /// Says that α^root is a root of every column's polynomial.
    fn of_root(root: usize, unknown: &[usize], block: &Block) -> Equation {
        let mut equation = Equation { unknown: [0; 8], sum: [0; PACKET] };
        for (p, packet) in block.iter().enumerate() {
            let coefficient = EXP[root * (15 - p) % 255];
            match unknown.iter().position(|&u| u == p) {
                Some(i) => equation.unknown[i] = coefficient,
                None => add_multiple(&mut equation.sum, coefficient, packet),
            }
        }
        equation
    }

    fn add(&mut self, factor: u8, other: &Equation) {
        add_multiple(&mut self.unknown, factor, &other.unknown);
        add_multiple(&mut self.sum, factor, &other.sum);
    }
}

/// Restores the packets of the lost mask (at most r of them) by Gauss elimination of the r parity-check equations. False when some
/// column has no codeword that agrees with the other packets.
pub fn restore(k: u8, lost: u16, block: &mut Block) -> bool {
    let r = PACKETS - k as usize;
    let unknown: Vec<usize> = (0..PACKETS).filter(|p| lost >> p & 1 == 1).collect();
    let mut rows: Vec<Equation> = (0..r).map(|i| Equation::of_root(128 - r / 2 + i, &unknown, block)).collect();
    for c in 0..unknown.len() {
        let pivot = (c..r).find(|&i| rows[i].unknown[c] != 0).expect("any r columns are independent");
        rows.swap(c, pivot);
        let mut row = Equation { unknown: [0; 8], sum: [0; PACKET] };
        row.add(inverse(rows[c].unknown[c]), &rows[c]);
        for other in &mut rows {
            other.add(other.unknown[c], &row);
        }
        rows[c] = row;
    }
    for (&p, row) in unknown.iter().zip(&rows) {
        block[p] = row.sum;
    }
    rows[unknown.len()..].iter().all(|row| row.sum == [0; PACKET])
}

// ---- packets and their check word

static CHECK: [u16; 256] = check_table();

/// Remainders of each byte times x^16 by x^16 + x^12 + x^5 + 1.
const fn check_table() -> [u16; 256] {
    let mut table = [0; 256];
    let mut i = 0;
    while i < 2048 {
        let rest = if i % 8 == 0 { (i as u16 / 8) << 8 } else { table[i / 8] };
        table[i / 8] = if rest >> 15 == 1 { rest << 1 ^ 0x1021 } else { rest << 1 };
        i += 1;
    }
    table
}

pub fn check_word(data: &[u8]) -> u16 {
    !data.iter().fold(0xFFFF, |rest, b| rest << 8 ^ CHECK[(rest >> 8) as usize ^ *b as usize])
}

/// The bits that enter the turbo code: data, a check word and the two reserved bits, highest bits first.
pub fn packet_bits(data: &[u8; PACKET], check: u16, reserved: u8) -> [u8; ENTERING] {
    let mut bits = [0; ENTERING];
    for (eight, byte) in bits.chunks_exact_mut(8).zip(data) {
        for (i, bit) in eight.iter_mut().enumerate() {
            *bit = byte >> (7 - i) & 1;
        }
    }
    for i in 0..16 {
        bits[976 + i] = (check >> (15 - i) & 1) as u8;
    }
    bits[992] = reserved >> 1 & 1;
    bits[993] = reserved & 1;
    bits
}

/// Highest bit first.
pub fn number_of(bits: &[u8]) -> u16 {
    bits.iter().fold(0, |number, bit| number << 1 | *bit as u16)
}

// ---- the turbo code and the bit interleaver

const D: [usize; 32] = [
    27, 3, 1, 15, 13, 17, 23, 13, 9, 3, 15, 3, 13, 1, 13, 29, 21, 19, 1, 3, 29, 17, 25, 29, 9, 13, 23, 13, 13, 1, 13, 13,
];

/// The turbo interleaver's address for counter m, before the test against the length.
pub const fn address(m: usize) -> usize {
    let low = m % 32;
    let reversed = (low as u8).reverse_bits() as usize >> 3;
    32 * reversed + D[low] * (m / 32 + 1) % 32
}

static ADDRESSES: [u16; ENTERING] = kept_addresses();

const fn kept_addresses() -> [u16; ENTERING] {
    let mut kept = [0; ENTERING];
    let (mut m, mut i) = (0, 0);
    while i < ENTERING {
        if address(m) < ENTERING {
            kept[i] = address(m) as u16;
            i += 1;
        }
        m += 1;
    }
    kept
}

/// One encoder's register: feedback 1 + D^2 + D^3, parity 1 + D + D^3.
#[derive(Default)]
pub struct Encoder {
    one: u8,
    two: u8,
    three: u8,
}

impl Encoder {
    /// Takes a bit in and gives Y0.
    pub fn step(&mut self, x: u8) -> u8 {
        let input = x ^ self.two ^ self.three;
        let y = input ^ self.one ^ self.three;
        (self.one, self.two, self.three) = (input, self.one, self.two);
        y
    }

    /// One period of the ending: X is the feedback bit, so that zero enters the register.
    fn end(&mut self) -> (u8, u8) {
        let x = self.two ^ self.three;
        (x, self.step(x))
    }
}

#[derive(Clone, Copy, PartialEq, Debug)]
pub enum Rate {
    Third,
    Half,
    TwoThirds,
}

impl Rate {
    /// Coded bits of a packet.
    pub fn length(self) -> usize {
        match self {
            Rate::Third => 3000,
            Rate::Half => 2000,
            Rate::TwoThirds => 1500,
        }
    }

    /// Coded bits before the endings.
    fn body(self) -> usize {
        match self {
            Rate::Third => 3 * ENTERING,
            Rate::Half => 2 * ENTERING,
            Rate::TwoThirds => 6 * (ENTERING / 4) + 3,
        }
    }

    /// Where bit i of the 994 stands among the coded bits.
    pub fn place(self, i: usize) -> usize {
        match self {
            Rate::Third => 3 * i,
            Rate::Half => 2 * i,
            Rate::TwoThirds => 6 * (i / 4) + [0, 2, 3, 4][i % 4],
        }
    }
}

/// Both encoders and the bits that they read: each step gives X, Y0 and Y'0 of the next bit.
struct Turbo<'a> {
    bits: &'a [u8; ENTERING],
    i: usize,
    first: Encoder,
    second: Encoder,
}

impl Turbo<'_> {
    fn step(&mut self) -> [u8; 3] {
        let i = self.i;
        self.i += 1;
        [self.bits[i], self.first.step(self.bits[i]), self.second.step(self.bits[ADDRESSES[i] as usize])]
    }

    /// Four bits in: X Y0, X, X, X Y'0. Where fewer come, the pattern breaks off.
    fn two_thirds(&mut self, body: &mut [u8]) {
        for out in body.chunks_mut(6) {
            [out[0], out[1], _] = self.step();
            [out[2], _, _] = self.step();
            if let [_, _, _, third, fourth, y2] = out {
                [*third, _, _] = self.step();
                [*fourth, _, *y2] = self.step();
            }
        }
    }
}

/// The turbo code's bits in the order of its data output.
fn turbo(bits: &[u8; ENTERING], rate: Rate, coded: &mut [u8]) {
    let mut turbo = Turbo { bits, i: 0, first: Encoder::default(), second: Encoder::default() };
    let (body, ends) = coded.split_at_mut(rate.body());
    match rate {
        Rate::Third => body.chunks_exact_mut(3).for_each(|out| out.copy_from_slice(&turbo.step())),
        Rate::Half => {
            for out in body.chunks_exact_mut(4) {
                [out[0], out[1], _] = turbo.step();
                [out[2], _, out[3]] = turbo.step();
            }
        }
        Rate::TwoThirds => turbo.two_thirds(body),
    }
    let [(x, y), (x1, y1), (x2, y2)] = [(); 3].map(|_| turbo.first.end());
    let [(v, w), (v1, w1), (v2, w2)] = [(); 3].map(|_| turbo.second.end());
    match rate {
        Rate::Third => ends.copy_from_slice(&[x, x, y, x1, x1, y1, x2, x2, y2, v, v, w, v1, v1, w1, v2, v2, w2]),
        Rate::Half => ends.copy_from_slice(&[x, y, x1, y1, x2, y2, v, w, v1, w1, v2, w2]),
        Rate::TwoThirds => ends.copy_from_slice(&[x, y, x1, x2, y2, v, v1, w1, v2]),
    }
}

/// Where the bit interleaver of length L sends its input i: output 4q + c is input (L/4)c + q.
pub fn interleaved(length: usize, i: usize) -> usize {
    let (c, q) = (i / (length / 4), i % (length / 4));
    4 * q + c
}

/// The packet as it is cut into slots, before scrambling.
pub fn encode(bits: &[u8; ENTERING], rate: Rate, out: &mut [u8]) {
    let mut coded = [0; CODED];
    turbo(bits, rate, &mut coded[..rate.length()]);
    let rows = rate.length() / 4;
    for (q, row) in out.chunks_exact_mut(4).enumerate() {
        for (c, bit) in row.iter_mut().enumerate() {
            *bit = coded[rows * c + q];
        }
    }
}
