"""An independent sender and receiver, written from the text of document 01 and of document 02's Req 01, 02 and 04 to 09 alone, with source document
000's tables of puncturing and of 16QAM as they are printed (a state's bytes and the places of totals are flo.h's), and in another way than the crates:
whole lists, integers as polynomials, no tables shared with them. The vectors under outside/ and crates/*/stdout that say so come from here.

    python3 outside/flo.py NAME      prints the vectors of that name (the names are at the end of this file)
"""
import struct
import sys
from fractions import Fraction

# ---- modes, by documents 01 and 02: rate, bits of a point, slots of a block (which are also its seeds), symbols of a grid

MODES = {0: ("1/3", 2, 48, 7), 1: ("1/2", 2, 32, 5), 2: ("1/3", 4, 24, 4), 3: ("1/2", 4, 16, 3), 4: ("2/3", 4, 12, 2)}

def rate_of(mode):
    return MODES[mode][0]

def is_qam(mode):
    return MODES[mode][1] == 4

def slots_of(mode):
    return MODES[mode][2]

# ---- GF(256): carry-less products, reduced by x^8 + x^4 + x^3 + x^2 + 1

def gf_mul(a, b):
    product = 0
    for i in range(8):
        if b >> i & 1:
            product ^= a << i
    for i in range(14, 7, -1):
        if product >> i & 1:
            product ^= 0b100011101 << (i - 8)
    return product

def gf_pow(a, k):
    answer = 1
    for _ in range(k):
        answer = gf_mul(answer, a)
    return answer

# ---- the outer code: from the roots, so that the printed generators are not used at all

def generator(r):
    poly = [1]  # highest power first
    for e in range(128 - r // 2, 128 + r // 2):
        root = gf_pow(2, e)
        shifted = poly + [0]
        scaled = [0] + [gf_mul(c, root) for c in poly]
        poly = [s ^ t for s, t in zip(shifted, scaled)]
    return poly

def parity(data, r):
    g = generator(r)
    left = list(data) + [0] * r
    for i in range(len(data)):
        factor = left[i]
        for j, c in enumerate(g):
            left[i + j] ^= gf_mul(factor, c)
    return left[-r:]

# ---- packets and their check word

def check_word(data):
    return check_of("".join(f"{b:08b}" for b in data))

def check_of(bits):
    """Of bits as text: long division of (the bits, the first sixteen of them flipped) * x^16 by x^16 + x^12 + x^5 + 1."""
    value = int(bits, 2) << 16
    value ^= 0xFFFF << len(bits)
    for i in range(len(bits) + 15, 15, -1):
        if value >> i & 1:
            value ^= 0x11021 << (i - 16)
    return value ^ 0xFFFF

def packet_bits(data):
    text = "".join(f"{b:08b}" for b in data) + f"{check_word(data):016b}" + "00" + "000000"
    return [int(c) for c in text]

# ---- the turbo code

D = [27, 3, 1, 15, 13, 17, 23, 13, 9, 3, 15, 3, 13, 1, 13, 29,
     21, 19, 1, 3, 29, 17, 25, 29, 9, 13, 23, 13, 13, 1, 13, 13]

def addresses(length=994):
    kept = []
    for m in range(1024):
        low, high = m % 32, m // 32
        address = 32 * int(f"{low:05b}"[::-1], 2) + D[low] * (high + 1) % 32
        if address < length:
            kept.append(address)
    return kept

def encoder(bits):
    """Y0 of each bit; then (X, Y0) of the three periods that end it."""
    register = [0, 0, 0]  # D, D^2, D^3
    y = []
    for b in bits:
        a = b ^ register[1] ^ register[2]
        y.append(a ^ register[0] ^ register[2])
        register = [a, register[0], register[1]]
    ends = []
    for _ in range(3):
        ends.append((register[1] ^ register[2], register[0] ^ register[2]))
        register = [0, register[0], register[1]]
    return y, ends

# Source document 000's tables 3.2.6.20.2.1-1 and -2 without the rows of Y1 and Y'1, which are never sent: for each rate the rows of X, Y0, X' and
# Y'0. They are read from top to bottom, then from left to right.
PUNCTURING = {"1/2": "11 10 00 01", "1/3": "11 11 00 11", "2/3": "1111 1000 0000 0001"}
TAILS = {"1/2": "111000 111000 000111 000111", "1/3": "111000 111000 000111 000111", "2/3": "111000 101000 000111 000010"}

def sent_periods(rows, periods):
    """The bits of each period that the rows let through; a row is gone through again and again, and the last time as far as there are periods."""
    rows = rows.split()
    return [bit for i, four in enumerate(periods) for row, bit in zip(rows, four) if row[i % len(row)] == "1"]

def turbo(bits, rate, second=None):
    if second is None:
        second = [bits[a] for a in addresses(len(bits))]
    y, ends = encoder(bits)
    y2, ends2 = encoder(second)
    body = sent_periods(PUNCTURING[rate], zip(bits, y, second, y2))
    tail = sent_periods(TAILS[rate], [(x, p, 0, 0) for x, p in ends] + [(0, 0, x, p) for x, p in ends2])
    if rate == "1/3":  # X and X' are sent twice
        tail = [bit for x, p in zip(tail[::2], tail[1::2]) for bit in (x, x, p)]
    return body + tail

def interleave(bits):
    rows = len(bits) // 4
    columns = [bits[c * rows:(c + 1) * rows] for c in range(4)]
    return [columns[c][q] for q in range(rows) for c in range(4)]

def coded_packet(data, mode):
    return interleave(turbo(packet_bits(data)[:994], rate_of(mode)))

# ---- slots, scrambling, cells

def scrambling(seed, mask, n):
    state, out = seed, []
    for _ in range(n):
        out.append(bin(state & mask).count("1") % 2)
        state = state * 2 % 2 ** 20 + ((state >> 19 ^ state >> 16) & 1)
    return out

def interlace(k):
    cells = [c for c in range(48 + k, 4096, 8) if c != 2048]
    return cells[:500]

def places():
    """Of points 0 to 499, by Req 01: 0 to 511, each with its nine bits reversed, without those of 500 and above."""
    reversed_bits = [int(f"{i:09b}"[::-1], 2) for i in range(512)]
    return [place for place in reversed_bits if place < 500]

def point_cells(k):
    """The cells of points 0 to 499 of slot number k."""
    cells = interlace(k)
    return [cells[place] for place in places()]

def block(data, k):
    packets = [list(data[122 * p:122 * p + 122]) for p in range(k)]
    extra = [[] for _ in range(16 - k)]
    for j in range(122):
        for i, b in enumerate(parity([packets[p][j] for p in range(k)], 16 - k)):
            extra[i].append(b)
    return packets + extra

# Source document 000's table 3.2.6.20.7.2-1: s3 s2 s1 s0, then m_Q, then m_I, which is the first part.
QAM_TABLE = """
0000  3A  3A    0100   A  3A    1100  -A  3A    1000 -3A  3A
0001  3A   A    0101   A   A    1101  -A   A    1001 -3A   A
0011  3A  -A    0111   A  -A    1111  -A  -A    1011 -3A  -A
0010  3A -3A    0110   A -3A    1110  -A -3A    1010 -3A -3A
"""

def qam_points():
    words = QAM_TABLE.split()
    return {tuple(int(s) for s in reversed(bits)): (first, second) for bits, second, first in zip(words[::3], words[1::3], words[2::3])}

def rounded(value):
    """The f32 nearest to a number, as Python has it."""
    try:
        return struct.unpack(">f", struct.pack(">f", value))[0]
    except OverflowError:
        return float("inf") if value > 0 else float("-inf")

def points(level, mode):
    """The parts that each bits of a point give. A product with 3 has at most 26 binary digits, so that Python's is exact before it is rounded."""
    if not is_qam(mode):
        return {(s0, s1): (-level if s0 else level, -level if s1 else level) for s0 in (0, 1) for s1 in (0, 1)}
    sizes = {"A": level, "-A": -level, "3A": rounded(3 * level), "-3A": rounded(-3 * level)}
    return {bits: (sizes[first], sizes[second]) for bits, (first, second) in qam_points().items()}

def send(profile, data):
    """A grid as a list of symbols, each a list of 4096 (first, second). A profile is (masks, level, mode, K, seeds, floor)."""
    masks, level, mode, k, seeds, _ = profile
    bits = [b for p in block(data, k) for b in coded_packet(p, mode)]
    _, width, slots, symbols = MODES[mode]
    length, point_of = 500 * width, points(level, mode)
    assert len(bits) == length * slots
    grid = [[(0.0, 0.0)] * 4096 for _ in range(symbols)]
    for t in range(slots):
        number = 1 + t % 7
        noise = scrambling(seeds[t], masks[number], length)
        slot = [a ^ b for a, b in zip(bits[length * t:length * t + length], noise)]
        for i, c in enumerate(point_cells(number)):
            grid[t // 7][c] = point_of[tuple(slot[width * i:width * i + width])]
    return grid

def write_profile(profile):
    """The first fields where not all are given."""
    states = lambda numbers: b"".join(struct.pack(">I", number) for number in numbers)
    float_bytes, byte = lambda number: struct.pack(">f", number), lambda number: bytes([number])
    out = b""
    for tag, (value_of, value) in enumerate(zip((states, float_bytes, byte, byte, states, float_bytes), profile), 1):
        out += bytes([tag]) + struct.pack(">H", len(value_of(value))) + value_of(value)
    return out

# ---- two grids side by side, Req 05

def patterns(file):
    """The bit patterns (first, second) of each cell of a file of cells as send writes it."""
    symbols = [struct.unpack_from(">8192I", file, at) for at in range(0, len(file), 32768)]
    return [cell for symbol in symbols for cell in zip(symbol[:4096], symbol[4096:])]

def compare(a, b):
    """Of two such files: the number, and the lines that the program compare prints at 0."""
    if len(a) != len(b):
        return 18, []
    if len(a) % 32768:
        return 7, []
    cells = enumerate(zip(patterns(a), patterns(b)))
    lines = [f"{i // 4096} {i % 4096} " + " ".join(f"{bits:08x}" for bits in one + other) for i, (one, other) in cells if one != other]
    return 0, lines + [str(len(lines))]

# ---- totals over blocks, Req 09

BLOCKS = 0, 9, 10
LOST = 11, 12, 13, 14, 15

def add(totals, number, lost, reasons):
    """The number that adding what receiving answered gets; at 0 the list of 128 totals has risen, else it is as it was."""
    if number not in BLOCKS:
        return 0
    if len(totals) != 128 or any(reason not in (0,) + LOST for reason in reasons) or [int(reason != 0) for reason in reasons] != bits_of(lost):
        return 23
    rising = [8 * p for p, reason in enumerate(reasons) if reason == 0]
    for p, reason in enumerate(reasons):
        if reason != 0:
            rising += [8 * p + (1 if number == 0 else 2), 8 * p + 3 + LOST.index(reason)]
    if any(totals[place] == 2 ** 64 - 1 for place in rising):
        return 19
    for place in rising:
        totals[place] += 1
    return 0

def bits_of(mask):
    """Bit 0 first; sixteen, or as many as the mask has."""
    return [int(c) for c in reversed(f"{mask:016b}")]

def report(number, lost, reasons):
    """The lines that the program receive prints."""
    return [f"{number} {lost}"] + [f"{p} {reason}" for p, reason in enumerate(reasons)]

def totals_lines(reports):
    """The lines that the program totals prints of reports (number, lost, reasons), none of them refused. Each total is counted over all blocks."""
    blocks = [(number, reasons) for number, _, reasons in reports if number in BLOCKS]
    lines = []
    for p in range(16):
        came = [(number == 0, reasons[p]) for number, reasons in blocks]
        restored, undelivered = (sum(done == is_done and reason != 0 for done, reason in came) for is_done in (True, False))
        by_reason = [[reason for _, reason in came].count(reason) for reason in LOST]
        lines.append(" ".join(map(str, [p, len(came) - restored - undelivered, restored, undelivered, *by_reason])))
    return lines + [str(len(blocks))]

# ---- restoring: each packet is a sum of data packets; the kept ones are solved for these by elimination, all columns at once

def restore(k, lost, data):
    """The number of document 01's table, and the block after it."""
    if k not in (8, 12, 14):
        return 43, data
    if len(data) != 1952:
        return 6, data
    kept = [p for p in range(16) if not lost >> p & 1]
    if len(kept) < k:
        return 9, data
    units = [[int(i == j) for j in range(k)] for i in range(k)]
    codewords = [unit + parity(unit, 16 - k) for unit in units]
    rows = [[codeword[p] for codeword in codewords] + data[122 * p:122 * p + 122] for p in kept]
    for i in range(k):
        pivot = next(row for row in rows[i:] if row[i])
        rows.remove(pivot)
        scale = gf_pow(pivot[i], 254)
        pivot = [gf_mul(scale, v) for v in pivot]
        rows = [[v ^ gf_mul(row[i], w) for v, w in zip(row, pivot)] for row in rows]
        rows.insert(i, pivot)
    if any(any(row) for row in rows[k:]):
        return 10, data
    return 0, sum(block(sum((row[k:] for row in rows[:k]), []), k), [])

# ---- crates/vectors/stdout

def formula(n):
    return [(i * i * 7 + i * 13 + 5) % 251 for i in range(n)]

def word(values, width):
    """The check word of numbers of this many bits each."""
    return f"{check_of(''.join(f'{v:0{width}b}' for v in values)):04x}"

def differing(a, b):
    return sum(x != y for x, y in zip(a, b))

def digits(bits):
    return "".join(map(str, bits))

def hexes(values):
    return " ".join(f"{v:02x}" for v in values)

def packet_lines():
    yield "packet digits", word(b"123456789", 8)
    for name, data in ("zeros", [0] * 122), ("ones", [255] * 122), ("formula", formula(122)):
        bits = packet_bits(data)
        yield "packet", name, word(bits, 1), *map(digits, (bits[:16], bits[968:976], bits[976:992], bits[992:]))
    bits = packet_bits(formula(122))
    for flipped in 0, 975, 976, 991, 992, 993, 994:
        wrong = bits[:flipped] + [1 - bits[flipped]] + bits[flipped + 1:]
        data = [int(digits(wrong[8 * j:8 * j + 8]), 2) for j in range(122)]
        right = wrong[976:992] == packet_bits(data)[976:992]
        yield "packet flipped", flipped, int(right), int(wrong[992:994] == [0, 0]), hexes([data[0], data[121]])

def field_lines():
    pairs = zip([0, 1, 2, 128, 255, 73, 56, 207, 238, 245, 94, 235], [7, 255, 128, 2, 255, 73, 207, 56, 245, 94, 235, 238])
    yield "field products", hexes(gf_mul(a, b) for a, b in pairs)
    yield "field table", word([gf_mul(17 * a, b) for a in range(16) for b in range(256)], 8)
    for a in 2, 3, 0:
        yield "field powers", hexes(gf_pow(a, k) for k in (0, 1, 8, 44, 70, 152, 201, 231, 235, 246, 254, 255))
    inverses = [next((b for b in range(256) if gf_mul(a, b) == 1), 0) for a in range(256)]
    yield "field inverses", hexes(inverses[a] for a in (0, 1, 2, 3, 73, 254, 255)), word(inverses, 8)

def outer_lines():
    for k in 8, 12, 14:
        packets = block(formula(1952), k)
        yield "parity", k, 0, word(sum(packets[k:], []), 8)
        for p in range(k, 16):
            yield "parity packet", k, p, hexes(packets[p][j] for j in (0, 1, 2, 121))
    for k, lost, altered in [(14, 0, 1952), (14, 0x24, 1952), (14, 0x8001, 1952), (14, 0x224, 1952), (14, 0, 1708), (14, 0, 1951), (14, 0, 5),
                             (14, 0x4, 1951), (14, 0x24, 1951), (12, 0xF, 1952), (12, 0x8812, 1952), (12, 0x9812, 1952), (12, 0x802, 700),
                             (8, 0xFF, 1952), (8, 0xFF00, 1952), (8, 0xAAAA, 1952), (8, 0x1FF, 1952), (8, 0x7F, 1951), (8, 0, 976)]:
        sent = sum(block(formula(1952), k), [])
        given = [b ^ (1 if i == altered else 90 if lost >> (i // 122) & 1 else 0) for i, b in enumerate(sent)]
        number, back = restore(k, lost, given)
        yield "restore", k, f"{lost:04x}", altered, number, differing(sent, back), differing(given, back), word(back, 8)
    for k, n in (0, 1952), (7, 1952), (10, 1952), (16, 1952), (255, 1951), (8, 1951), (12, 1951), (12, 1953), (14, 1953):
        yield "refused", k, n, *[restore(k, 0, [1] * n)[0]] * 2, 0

def data_places(rate):
    """Where the 994 bits stand among the coded ones: X of each period is numbered, and nothing else."""
    numbers = sent_periods(PUNCTURING[rate], [(i, None, None, None) for i in range(994)])
    return [at for at, number in enumerate(numbers) if number is not None]

def judged(bits, mode=1):
    """The reason and the bytes of a packet's decided bits: the rule read from the receiver's side."""
    rows = len(bits) // 4
    straight = [bits[4 * q + c] for c in range(4) for q in range(rows)]
    x = [straight[at] for at in data_places(rate_of(mode))]
    data = [int(digits(x[8 * j:8 * j + 8]), 2) for j in range(122)]
    if x[976:992] != packet_bits(data)[976:992]:
        return 13, [0] * 122
    if x[992:994] != [0, 0]:
        return 14, [0] * 122
    return (0, data) if coded_packet(data, mode) == bits else (15, [0] * 122)

def coded_line(name, mode, number, bits):
    return "coded", name, mode, number, word(bits, 1), digits(bits[:32]), digits(bits[-32:])

def coded_lines():
    for name, data in [("zeros", [0] * 122), ("ones", [255] * 122), ("formula", formula(122))]:
        for mode in MODES:
            yield coded_line(name, mode, 0, coded_packet(data, mode))
    yield coded_line("short", 1, 6, [0] * 2000)
    yield coded_line("room", 0, 6, [0] * 2999)
    yield coded_line("mode", 5, 42, [0] * 2000)
    for mode in 1, 4:
        sent = coded_packet(formula(122), mode)
        end = len(sent)
        column, row = divmod(data_places(rate_of(mode))[992], end // 4)
        reserved = 4 * row + column
        for flipped in (end, end), (0, end), (4, end), (end - 1, end), (reserved, end), (0, reserved):
            bits = sent + [0]
            for at in flipped:
                bits[at] ^= 1
            reason, data = judged(bits[:end], mode)
            yield "judged", *flipped, reason, word(data, 8)

def slot_lines():
    for seed in 1, 0xFFFFF, 0x12345:
        for mask in 0x00001, 0x80000, 0x5A5A5:
            bits = scrambling(seed, mask, 1000)
            yield "scrambler", f"{seed:05x} {mask:05x}", word(bits, 1), digits(bits[:21])
    noise = scrambling(0x12345, 0x5A5A5, 12)
    yield "scrambler doubtful", digits(2 if i % 3 == 2 else i % 3 ^ noise[i] for i in range(12))

def cell_lines():
    for mode, shown, edged in ((0, (0, 1, 5, 6, 7), (0, 6)), (1, (0, 3, 4, 5), (4,)), (2, (0, 2, 3, 4), (3,)), (3, (0, 1, 2, 3), (2,)),
                               (4, (0, 1, 2), (1,))):
        carried = {(t // 7, c): (t, i) for t in range(slots_of(mode)) for i, c in enumerate(point_cells(1 + t % 7))}
        for symbol in shown:
            row = [carried.get((symbol, c)) for c in range(4096)]
            yield "cells", mode, symbol, 4096 - row.count(None), word([(p[0] * 500 + p[1]) % 251 + 1 if p else 0 for p in row], 8)
        for symbol in edged:
            for c in 48, 49, 2040, 2041, 2048, 2049, 2056, 4041, 4047, 4048, 4049:
                yield "cell", mode, symbol, c, *carried.get((symbol, c), ["nothing"])

def nearest(exact):
    """The f32 nearest to a positive fraction; of two that are equally near the one with an even last digit. It is used only where what comes out is
    finite."""
    exponent = -126
    while Fraction(2) ** (exponent + 1) <= exact:
        exponent += 1
    step = Fraction(2) ** (exponent - 23)
    return float(round(exact / step) * step)

def around_line(level, floor):
    """The first and the last doubtful part around twice the level: the exact ends, rounded once."""
    return tuple(nearest(2 * Fraction(level) + sign * Fraction(floor)) for sign in (-1, 1))

def decision(part, level=None, floor=0.0):
    """Without a level that of QPSK. In 16QAM the nearest of what is sent, exactly and not rounded, in the order of flo.h's numbers; doubtful are the
    parts around the middle of two, as far as the floor says. Python compares floats exactly."""
    size = abs(part)
    if level is None:
        return 2 if part != part or size <= floor else 0 if part > 0 else 1
    first, last = around_line(level, floor)
    if part != part or size <= floor or first <= size <= last:
        return 4
    part = Fraction(min(max(part, -4 * level), 4 * level))
    return min(range(4), key=lambda d: abs(part - (3, -3, 1, -1)[d] * Fraction(level)))

def pattern(part):
    """Of a NaN it is the one with only the highest of its digits set."""
    return struct.pack(">f", part).hex() if part == part else "7fc00000"

def decision_lines():
    for bits in (0, 0x80000000, 1, 0x80000001, 0x3F800000, 0xBF800000, 0x7F7FFFFF, 0xFF7FFFFF, 0x7F800000, 0xFF800000,
                 0x7FC00000, 0xFFC00001, 0x7F800001, 0xFFFFFFFF):
        part = of_pattern(bits)
        yield "decide", f"{bits:08x}", decision(part), pattern(part)
    level = struct.unpack(">f", bytes.fromhex("3f3504f3"))[0]
    for s0 in 0, 1:
        for s1 in 0, 1:
            point = points(level, 0)[s0, s1]
            yield "point", s0, s1, *map(pattern, point), *map(decision, point)
    yield from qam_decision_lines(level)
    yield from floor_lines()

def of_pattern(bits):
    return struct.unpack(">f", struct.pack(">I", bits))[0]

def qam_decision_lines(level):
    """At a level between, at the least and at the largest: zeros, infinities, NaNs, what is sent, and both lines, with the parts next to them."""
    for at in level, of_pattern(0x00800000), of_pattern(0x7EAAAAAA):
        line, sizes = int(pattern(2 * at), 16), (int(pattern(at), 16), int(pattern(rounded(3 * at)), 16))
        for bits in (0, 1, line - 1, line, line + 1, *sizes, 0x7F800000, 0x7FC00000, 0x7F800001):
            for signed in bits, bits + 0x80000000:
                part = of_pattern(signed)
                yield "decide two", pattern(at), f"{signed:08x}", decision(part, at), pattern(part)
    for bits, point in sorted(points(level, 2).items()):
        yield "point four", *bits, *map(pattern, point), *(decision(part, level) for part in point)

# Levels, some with a floor of their own: 1.5, 1.0, the f32 after it, the least, the largest. At the second level's floor 2D - floor isn't what
# D + (D - floor) gives with two roundings. At most floors of the third the ends aren't what the rounded 3D gives; at its largest 2D + floor isn't what
# D + (D + floor) gives.
FLOOR_LEVELS = (0x3FC00000, ()), (0x3F800000, (0x33A00000,)), (0x3F800001, (0x3E800000,)), (0x00800000, ()), (0x7EAAAAAA, ())

def most_floor(level):
    """The bits of the largest floor that a level, given by its bits, allows. It is found digit by digit."""
    bits = 0
    for digit in range(30, -1, -1):
        bits += 2 ** digit if bits + 2 ** digit in Floors(level) else 0
    return bits

def floor_ends(mode, level, floor):
    """The bits of the positive ends of the doubtful ranges, rising and each once: the floor and, in 16QAM, those around twice the level."""
    around = around_line(of_pattern(level), of_pattern(floor)) if is_qam(mode) else ()
    return [floor] + sorted({int(pattern(end), 16) for end in around})

def floor_line(mode, level, floor, bits):
    part = of_pattern(bits)
    decided = decision(part, of_pattern(level) if is_qam(mode) else None, of_pattern(floor))
    return "decide floor", mode, f"{level:08x} {floor:08x} {bits:08x}", decided, pattern(part)

def floor_lines():
    """At floors of +0.0, the smallest subnormal, the largest that the level allows with the one before it, and the level's own: each end of each range
    and the parts next to it. Then, at the largest floor, what is sent, infinities and NaNs. All with both signs."""
    signed = lambda bits: (bits, bits + 0x80000000)
    for level, own in FLOOR_LEVELS:
        most = most_floor(level)
        for floor in (0, 1, most - 1, most, *own):
            for mode in 0, 2:
                for end in floor_ends(mode, level, floor):
                    for bits in range(max(end - 1, 0), end + 2):
                        yield from (floor_line(mode, level, floor, both) for both in signed(bits))
        triple = int(pattern(rounded(3 * of_pattern(level))), 16)
        for mode, sent in (0, (level,)), (2, (level, triple)):
            for bits in (*sent, 0x7F800000, 0x7FC00000):
                yield from (floor_line(mode, level, most, both) for both in signed(bits))

def vectors():
    yield from packet_lines()
    yield from field_lines()
    yield from outer_lines()
    yield from coded_lines()
    kept = addresses()
    yield "interleaver", word(kept, 10), *kept[:5], *kept[-5:]
    yield from slot_lines()
    yield from cell_lines()
    yield from decision_lines()

# ---- crates/profiles: a table of good and damaged profiles

FIELDS = 6

def field(tag, mode, level):
    """The number that names the field, how many numbers it has, the bytes of each, and which of them are right. Mode and level (by its bits) are those
    read before."""
    states = range(1, 2 ** 20)
    return {1: (40, 8, 4, states), 2: (41, 1, 4, range(0x0080_0000, 0x7F80_0000)), 3: (42, 1, 1, MODES), 4: (43, 1, 1, (8, 12, 14)),
            5: (44, slots_of(mode), 4, states), 6: (45, 1, 4, Floors(level))}[tag]

class Floors:
    """The floors that a level allows, by their bits: +0.0 or positive and finite, and twice the floor, exactly, at most the level."""
    def __init__(self, level):
        self.level = level

    def __contains__(self, floor):
        return floor < 0x7F80_0000 and 2 * Fraction(of_pattern(floor)) <= Fraction(of_pattern(self.level))

def is_sent(level, mode):
    """Whether the mode can send such a level, given by its bits: 16QAM's larger one must be finite too."""
    return not is_qam(mode) or rounded(3 * of_pattern(level)) != float("inf")

def repeating_slots(masks, seeds):
    """The block slots that have the mask and the seed of an earlier one in their symbol, by Req 08; the seeds are those in use. A symbol takes the next
    seven of them, or what is left, and the masks from number 1 on."""
    symbols = [list(zip(masks[1:], seeds[start:start + 7])) for start in range(0, len(seeds), 7)]
    return [7 * y + i for y, slots in enumerate(symbols) for i, slot in enumerate(slots) if slot in slots[:i]]

def twins_answer(masks, seeds):
    """What is said where nothing else is wrong."""
    repeating = repeating_slots(masks, seeds)
    return (46, repeating[0]) if repeating else (0, 0)

def numbers_at(data, at, count):
    """So many numbers of four bytes, from a place on."""
    return list(struct.unpack_from(f">{count}I", data, at))

def read_profile(data):
    """What reading these bytes answers: the number, and where the first number outside its range begins, or the slot that repeats one."""
    at, mode, level = 0, 0, 0
    for tag in range(1, FIELDS + 1):
        named, count, size, right = field(tag, mode, level)
        if at == len(data):
            return 5, 0
        if len(data) - at < 3:
            return 1, 0
        if data[at] != tag:
            return 2, 0
        if data[at + 1] * 256 + data[at + 2] != count * size:
            return 3, 0
        if len(data) - at - 3 < count * size:
            return 1, 0
        for place in range(at + 3, at + 3 + count * size, size):
            if int.from_bytes(data[place:place + size], "big") not in right:
                return named, place
        if tag == 2:
            level = int.from_bytes(data[at + 3:at + 7], "big")
            of_level = at + 3
        if tag == 3:
            mode = data[at + 3]
            if not is_sent(level, mode):
                return 41, of_level
        at += 3 + count * size
    left = len(data) - at
    if left > 0:
        return 1 if left < 3 else 2, 0
    return twins_answer(numbers_at(data, 3, 8), numbers_at(data, 53, slots_of(mode)))

def with_numbers(data, *numbers):
    """With other numbers where mode, K or a number of four bytes begins."""
    for at, number in numbers:
        size = 1 if at in (45, 49) else 4
        data = data[:at] + number.to_bytes(size, "big") + data[at + size:]
    return data

def floor_field(mode):
    """Where the floor's field begins: where a profile without it ends."""
    return len(write_profile(([1] * 8, 1.0, mode, 8, [1] * slots_of(mode))))

def faulty_profiles(good):
    """Numbers outside their range, the first, one between and the last of each field: alone, two of them, and beside faults of headers. The second
    level is outside it in 16QAM only. Of the floors one is -0.0, of the other the double is just above the level."""
    floor = floor_field(good[45])
    middle, last = 53 + (floor - 53) // 8 * 4, floor - 4
    bad = [(3, 0), (15, 2 ** 20), (31, 2 ** 32 - 1), (38, 0x7F80_0000), (45, 5), (38, 0x7EAA_AAAB), (49, 9), (53, 0), (middle, 2 ** 20),
           (last, 2 ** 31), (floor + 3, 0x8000_0000), (floor + 3, 0x3F40_0001)]
    for i, one in enumerate(bad):
        wrong = with_numbers(good, one)
        yield wrong
        yield from (with_numbers(wrong, two) for two in bad[:i])
        yield from (wrong[:-1], wrong[:50], wrong[:floor], wrong + b"\7", wrong + b"\7\0\0", b"\0" + wrong[1:], wrong[:2] + b"\0" + wrong[3:],
                    wrong[:50] + b"\6" + wrong[51:], wrong[:floor] + b"\7" + wrong[floor + 1:], wrong[:floor + 2] + b"\5" + wrong[floor + 3:])

def floored_profiles(good):
    """Floors at and beyond the ends of what is right, with the profile's own level and with others. The last level is right in QPSK only, and there
    the double of the first floor that is too large is infinite."""
    floor = floor_field(good[45]) + 3
    for bits in (0, 1, 2, 0x007F_FFFF, 0x0080_0000, 0x3F3F_FFFF, 0x3F40_0000, 0x3F40_0001, 0x3FC0_0000, 0x7EFF_FFFF, 0x7F00_0000, 0x7F7F_FFFF,
                 0x7F80_0000, 0x7F80_0001, 0x7FC0_0000, 0x8000_0000, 0x8000_0001, 0xBE80_0000, 0xFF80_0000, 0xFFFF_FFFF):
        yield with_numbers(good, (floor, bits))
    for level in 0x0080_0000, 0x0080_0001, 0x0080_0003, 0x00FF_FFFF, 0x0100_0001, 0x3F80_0001, 0x7EAA_AAAA, 0x7F7F_FFFF:
        most = most_floor(level)
        yield from (with_numbers(good, (38, level), (floor, bits)) for bits in (0, most - 1, most, most + 1, most + 2, 0x8000_0000))

def alike(good, *groups):
    """With the slots of each group made alike: they get its first one's seed, and all masks that these slots use become one."""
    used = sorted({1 + t % 7 for group in groups for t in group})
    mask, seeds = numbers_at(good, 3 + 4 * used[0], 1)[0], [(t, numbers_at(good, 53 + 4 * group[0], 1)[0]) for group in groups for t in group]
    return with_numbers(good, *((3 + 4 * number, mask) for number in used), *((53 + 4 * t, seed) for t, seed in seeds))

def with_seeds(good, seed_of):
    """With the seed that each block slot shall have."""
    return with_numbers(good, *((53 + 4 * t, seed_of(t)) for t in range(slots_of(good[45]))))

def twin_profiles(good):
    """Two slots alike in the first symbol, in the second and in the last, which is shorter in every mode: its first two, its last two, its first and
    its last, two between. Then what is allowed, several alike at once, and twins beside other faults. All masks of `good` differ, and all seeds."""
    used = slots_of(good[45])
    last = (used - 1) // 7 * 7
    in_symbol = [(0, 1), (0, 6), (5, 6), (2, 4), (7, 8), (9, 10), (10, 11), (12, 13), (7, 13), (last, last + 1), (last, used - 1), (used - 2, used - 1)]
    in_two = [(6, 7), (0, 7), (5, 13), (6, 8), (0, used - 1), (last - 1, last), (last - 7, last), (1, last + 1), (last - 1, used - 1)]
    yield from (alike(good, pair) for pairs in (in_symbol, in_two) for pair in sorted(set(pairs)) if pair[1] < used)
    yield from twin_masks(good, last, used)
    yield from near_twins(good)
    for groups in (((0, 3, 5),), (range(7),), (range(used),), ((0, 6), (2, 4)), ((0, 3), (1, 2)), ((0, 2), (1, 3)), ((4, 5), (1, 6)), ((3, 4), (7, 8)),
                   ((0, 6), (8, 9)), ((2, 3), (last, used - 1)), ((0, 7), (last, used - 1)), ((6, 7), (5, 11), (8, 9))):
        yield alike(good, *groups)
    yield from twins_beside(alike(good, (2, 4)), good)
    yield from twins_beside(alike(good, (used - 2, used - 1)), good)

def twin_masks(good, last, used):
    """One seed in all slots, which is allowed while all masks differ, and also where one is mask 0's, which no slot uses; any two others that are equal
    make twins in the first symbol. Then one seed in the last symbol alone: its masks are the first ones. Then one mask in all slots."""
    same = with_seeds(good, lambda t: 4711)
    equal = lambda data, a, b: with_numbers(data, (3 + 4 * b, numbers_at(data, 3 + 4 * a, 1)[0]))
    yield same
    yield from (equal(same, a, b) for a in range(8) for b in range(a + 1, 8))
    in_last, there = with_seeds(good, lambda t: 4711 if t >= last else 9000 + t), used - last
    yield in_last
    yield from (equal(in_last, a, b) for a, b in ((there - 1, there), (1, there), (1, there + 1), (there, there + 1)))
    one_mask = with_numbers(good, *((3 + 4 * i, 0x5A5A5) for i in range(8)))
    yield one_mask
    yield with_seeds(one_mask, lambda t: 1 + t % 7)
    yield with_seeds(one_mask, lambda t: 1 + t % 6)
    yield with_seeds(one_mask, lambda t: 1 + t % 8)
    yield with_seeds(good, lambda t: 1 + t % 7)

def near_twins(good):
    """Allowed: slots 1 and 3 with one mask and seeds that differ in one bit, or with one seed and such masks; with mask and seed exchanged; with equal
    sums. The largest state and the least are numbers like others. Then what shows only when another last seed is written: in mode 0 the last slot has
    a twin then, or just its seed in the last symbol, or its seed and its mask in another one."""
    slots = lambda mask, seed, other_mask, other_seed: with_numbers(good, (11, mask), (57, seed), (19, other_mask), (65, other_seed))
    for bit in (0, 1, 7, 8, 15, 16, 19):
        yield slots(0x12345, 0x54321, 0x12345, 0x54321 ^ 1 << bit)
        yield slots(0x12345, 0x54321, 0x12345 ^ 1 << bit, 0x54321)
    yield slots(0x12345, 0x54321, 0x54321, 0x12345)
    yield slots(0x12345, 0x54321, 0x12346, 0x54320)
    for mask, seed in (1, 1), (1, 2 ** 20 - 1), (2 ** 20 - 1, 1), (2 ** 20 - 1, 2 ** 20 - 1):
        yield slots(mask, seed, mask, seed)
    if good[45] == 0:
        yield with_numbers(good, (11, 38 * 7), (27, 38 * 7), (53 + 4 * 43, 1))
        yield with_numbers(good, (53 + 4 * 43, 1))
        yield with_numbers(good, (11, 38 * 7), (27, 38 * 7), (53 + 4 * 36, 1))
        yield with_numbers(good, (31, 38 * 7), (27, 38 * 7), (53 + 4 * 41, 1))

def twins_beside(twins, good):
    """Each other fault has its turn before twins: numbers outside their range, surplus bytes, an early end, a wrong header. The second level is right
    in QPSK."""
    floor = floor_field(good[45])
    for fault in ((3, 0), (31, 2 ** 20), (38, 0), (45, 5), (38, 0x7EAA_AAAB), (49, 9), (53, 0), (61, 2 ** 20), (69, 0), (floor - 4, 2 ** 31),
                  (floor + 3, 0x8000_0000), (floor + 3, 0x3F40_0001)):
        yield with_numbers(twins, fault)
    for surplus in b"\0", b"\7", b"\0\0", b"\6\0", b"\0\0\0", b"\6\0\0", b"\6\0\4\0\0\0\0", b"\7\0\4\0\0\0\0", bytes(40):
        yield twins + surplus
    yield from (twins[:cut] for cut in (0, 35, 50, floor - 1, floor, floor + 1, floor + 3, len(twins) - 1))
    for at, byte in (0, 2), (50, 6), (52, 1), (floor, 7), (floor + 2, 5):
        yield twins[:at] + bytes([byte]) + twins[at + 1:]

def good_profile(mode, k):
    """Its floor is the smallest subnormal, which every level allows."""
    seeds = [2 ** 20 - 1 - 977 * t for t in range(slots_of(mode))]
    return write_profile(([(37 * i + 1) % 2 ** 20 for i in range(8)], 1.5, mode, k, seeds, of_pattern(1)))

def profile_table():
    for mode, k in (0, 14), (1, 8), (0, 8), (1, 12), (2, 14), (3, 8), (4, 12):
        good = good_profile(mode, k)
        yield good
        floor = floor_field(mode)
        starts = [0, 35, 42, 46, 50, floor, len(good)]
        for at in starts:
            for cut in range(max(0, at - 1), min(len(good), at + 4)):
                yield good[:cut]
            for extra in (b"\0", b"\0\0", b"\6\0\0", b"\6\0\4\0\0\0\0", b"\6\0\4\x80\0\0\0", b"\7\0\0", b"\7\0\4\0\0\0\0"):
                yield good[:at] + extra
            for place in range(at, min(len(good), at + 4)):
                for other in (0, 1, 6, 7, 255):
                    yield good[:place] + bytes([other]) + good[place + 1:]
        for level in (0, 0x8000_0000, 1, 0x007F_FFFF, 0x0080_0000, 0x7EAA_AAA9, 0x7EAA_AAAA, 0x7EAA_AAAB, 0x7EAA_AAAC, 0x7F00_0000, 0x7F7F_FFFF,
                      0x7F80_0000, 0x7FC0_0000, 0xBF80_0000, 0xFFFF_FFFF):
            yield with_numbers(good, (38, level))
        for at, number in (3, 0), (3, 2 ** 20), (31, 2 ** 20 - 1), (31, 2 ** 32 - 1), (53, 0), (53, 2 ** 20), (floor - 4, 0), (floor - 4, 2 ** 20):
            yield with_numbers(good, (at, number))
        for at, number in [(45, n) for n in (0, 1, 2, 3, 4, 5, 255)] + [(49, n) for n in (0, 7, 8, 12, 13, 14, 15, 16)]:
            yield with_numbers(good, (at, number))
        yield from faulty_profiles(good)
        yield from floored_profiles(good)
        yield from twin_profiles(good)
        for other in MODES:
            if other != mode:
                yield with_numbers(good_profile(other, k), (45, 5))
                yield with_numbers(good_profile(other, k), (45, mode))

def seeds_answer(masks, seeds, mode):
    """What writing answers to 48 seeds, where all other numbers are right: those that the mode does not use are to be zero. The place of a seed is
    where the profile ends if it is written with the seeds before it, and no floor."""
    used = slots_of(mode)
    wrong = [t for t, seed in enumerate(seeds) if (not 0 < seed < 2 ** 20 if t < used else seed != 0)]
    return (44, len(write_profile(([1] * 8, 1.0, mode, 8, seeds[:wrong[0]])))) if wrong else twins_answer(masks, seeds[:used])

def seeds_in(data):
    """The 48 seeds of a right profile's bytes, but for the last, which is 1."""
    used = slots_of(data[45])
    return (numbers_at(data, 53, used) + [0] * (48 - used))[:47] + [1]

def profiles():
    for data in profile_table():
        number, place = read_profile(data)
        if number != 0:
            yield number, place, ""
        else:
            yield number, place, 0, 0, len(data), "same", *seeds_answer(numbers_at(data, 3, 8), seeds_in(data), data[45])

def profiles_stdin():
    for data in profile_table():
        sys.stdout.buffer.write(struct.pack(">H", len(data)) + data)
    return ()

# ---- the order of points by itself: its check word, as rules/proofs/Tables.antt has it, and its first and last places

def place_lines():
    order = places()
    yield "places", word(order, 9), *order[:8], *order[-3:]

# ---- states of Req 02 by themselves: after the first cells of a grid, the check word of the first 4300 bytes; outside/check_examples.rs has them too

def state(cells, level=None):
    """Of QPSK without a level, of 16QAM with it."""
    base = 3 if level is None else 5
    decided = [decision(a, level) + base * decision(b, level) for a, b in cells]
    return [len(cells) // 256, len(cells) % 256] + decided + [0] * (28672 - len(cells))

def state_cells(mode):
    profile = [37 * i + 1 for i in range(8)], 1.5, mode, 8, [977 * t + 1 for t in range(slots_of(mode))], 0.0
    return sum(send(profile, formula(976)), [])

def state_lines():
    cells = state_cells(1)
    for count in 0, 50, 255, 256, 4200:
        yield "state", count, word(state(cells[:count])[:4300], 8)
    for mode in 2, 3, 4:
        cells = state_cells(mode)
        for count in 0, 50, 255, 256, 4200:
            yield "state of mode", mode, count, word(state(cells[:count], 1.5)[:4300], 8)

# ---- short rows by themselves, what the second encoder reads given with them: the coded bits as a number, the first one highest

ROWS = ("010010", "000100"), ("010100", "111001"), ("110110", "011100"), ("111001", "011100")

def row_lines():
    for rate in PUNCTURING:
        for row, second in ROWS:
            coded = turbo([int(bit) for bit in row], rate, [int(bit) for bit in second])
            yield "row", rate, row, second, len(coded), f"{int(digits(coded), 2):x}"

NAMES = {"vectors": vectors, "profiles": profiles, "profiles-stdin": profiles_stdin, "places": place_lines, "state": state_lines, "rows": row_lines}

if __name__ == "__main__":
    if len(sys.argv) != 2 or sys.argv[1] not in NAMES:
        sys.exit(__doc__ + "    names: " + " ".join(NAMES))
    for line in NAMES[sys.argv[1]]():
        print(*line)
