/* The C library as a user has it: include/flo.h, the library, nothing else of this repository. tests/c-library compiles this file as C99 and as C++11
   and runs both. The last line is 'N passed, M failed'; exit 0 when nothing failed. */
#ifndef _GNU_SOURCE
#define _GNU_SOURCE
#endif
#include "flo.h"

#include <math.h>
#include <pthread.h>
#include <stdio.h>
#include <string.h>
#include <sys/mman.h>

enum { MODES = 5, THREADS = 5, TURNS = 40, CELLS = FLO_MOST_SYMBOLS * FLO_SYMBOL_CELLS, PAINT = 0xA5, WRONG_PLACE = 1000, SURPLUS = 8 };

static int passed, failed;

static void test(const char *what, int is_right) {
    if (is_right) {
        passed++;
    } else {
        failed++;
        printf("failed: %s\n", what);
    }
}

/* Of each mode: the bits of a packet, the bits that a part carries, the slots of a block. */
static const struct figures {
    unsigned packet_bits, part_bits, slots;
} figures[MODES] = {{3000, 1, 48}, {2000, 1, 32}, {3000, 2, 24}, {2000, 2, 16}, {1500, 2, 12}};

/* ---- one block: what goes into it and all that comes out of it */

struct block {
    uint8_t mode, k;
    uint8_t profile[FLO_MOST_PROFILE + SURPLUS];
    size_t profile_length;
    uint8_t data[FLO_MOST_DATA];
    size_t data_length;
    float firsts[CELLS], seconds[CELLS];
    size_t cells;
    uint8_t received[FLO_MOST_DATA];
    uint16_t lost;
    uint8_t reasons[FLO_PACKETS];
    uint8_t state[FLO_STATE];
    size_t place; /* painted before each call */
    size_t due;   /* where the profile's first bad number begins, or the slot that has a twin before it, if there is one */
    uint64_t totals[FLO_TOTALS];
};

/* The number of a call that was given b->place; WRONG_PLACE where it didn't write there what is due. */
static uint32_t placed(struct block *b, uint32_t number) {
    const size_t place = b->place, due = number >= FLO_BAD_MASK && number <= FLO_TWIN_SLOTS ? b->due : 0;
    memset(&b->place, PAINT, sizeof b->place);
    return place == due ? number : (uint32_t)WRONG_PLACE;
}

struct value {
    uint32_t masks[FLO_MASKS];
    float level;
    uint8_t mode, k;
    uint32_t seeds[FLO_SEEDS];
    float floor;
};

/* A float and its bits. */
static float float_of(uint32_t bits) {
    float value;
    memcpy(&value, &bits, sizeof value);
    return value;
}

static uint32_t bits_of(float value) {
    uint32_t bits;
    memcpy(&bits, &value, sizeof bits);
    return bits;
}

static struct value good_value(const struct block *b) {
    struct value v;
    unsigned i;
    for (i = 0; i < FLO_MASKS; i++) v.masks[i] = i * 130003 % 1048575 + 1;
    for (i = 0; i < FLO_SEEDS; i++) v.seeds[i] = i < figures[b->mode].slots ? i * 21001 % 1048575 + 1 : 0;
    v.level = 0.5f;
    v.mode = b->mode;
    v.k = b->k;
    v.floor = 0.0f;
    return v;
}

static uint32_t write_value(struct block *b, const struct value *v) {
    return placed(b, flo_write_profile(v->masks, v->level, v->mode, v->k, v->seeds, v->floor, b->profile, &b->profile_length, &b->place));
}

static uint32_t write_profile(struct block *b) {
    const struct value v = good_value(b);
    return write_value(b, &v);
}

/* A block of its own for each mode, k and number. */
static void begin(struct block *b, int mode, int k, unsigned number) {
    size_t i;
    memset(b, PAINT, sizeof *b);
    b->mode = (uint8_t)mode;
    b->k = (uint8_t)k;
    b->data_length = (size_t)k * FLO_PACKET_BYTES;
    b->cells = (size_t)FLO_SYMBOLS(mode) * FLO_SYMBOL_CELLS;
    b->due = 0;
    for (i = 0; i < b->data_length; i++) b->data[i] = (uint8_t)(i * 73 + i / 251 + number * 17);
    write_profile(b);
}

static uint32_t send_block(struct block *b) {
    return placed(b, flo_send(b->profile, b->profile_length, b->data, b->data_length, b->firsts, b->cells, b->seconds, b->cells, &b->place));
}

static uint32_t send_symbol(struct block *b, size_t symbol, float *firsts, float *seconds) {
    return placed(b, flo_send_symbol(b->profile, b->profile_length, b->data, b->data_length, symbol, firsts, FLO_SYMBOL_CELLS, seconds,
                                     FLO_SYMBOL_CELLS, &b->place));
}

static uint32_t receive(struct block *b, uint16_t marks) {
    return placed(b, flo_receive(b->profile, b->profile_length, marks, b->firsts, b->cells, b->seconds, b->cells, b->received, b->data_length,
                                 &b->lost, b->reasons, &b->place));
}

/* Feeds any lists to any state. */
static uint32_t feed_lists(struct block *b, uint8_t *state, size_t length, const float *firsts, size_t one, const float *seconds, size_t other) {
    return placed(b, flo_feed(b->profile, b->profile_length, state, length, firsts, one, seconds, other, &b->place));
}

/* Feeds cells of the block's grid. */
static uint32_t feed(struct block *b, size_t from, size_t count) {
    return feed_lists(b, b->state, FLO_STATE, b->firsts + from, count, b->seconds + from, count);
}

/* Feeds the whole grid from the beginning, in pieces of this size. */
static int feed_all(struct block *b, size_t size) {
    size_t from;
    memset(b->state, 0, FLO_STATE);
    for (from = 0; from < b->cells; from += size)
        if (feed(b, from, size < b->cells - from ? size : b->cells - from) != FLO_DONE) return 0;
    return 1;
}

/* Asks with any state. */
static uint32_t ask_state(struct block *b, uint16_t marks, const uint8_t *state, size_t length, size_t data_length) {
    return placed(b, flo_ask(b->profile, b->profile_length, marks, state, length, b->received, data_length, &b->lost, b->reasons, &b->place));
}

static uint32_t ask(struct block *b, uint16_t marks) {
    return ask_state(b, marks, b->state, FLO_STATE, b->data_length);
}

static int came_back(const struct block *b) {
    return memcmp(b->data, b->received, b->data_length) == 0;
}

static int is_painted(const void *memory, size_t bytes) {
    const uint8_t *byte = (const uint8_t *)memory;
    while (bytes > 0 && byte[bytes - 1] == PAINT) bytes--;
    return bytes == 0;
}

static int no_answer(const struct block *b) {
    unsigned p, sum = b->lost;
    for (p = 0; p < FLO_PACKETS; p++) sum += b->reasons[p];
    return sum == 0;
}

/* ---- where a packet is */

/* The place of a point among its slot's cells: the numbers 0 to 511 with their nine bits reversed, those below 500 in that order. */
static unsigned place_of(unsigned point) {
    unsigned i, bit, kept = 0;
    for (i = 0; i < 512; i++) {
        unsigned place = 0;
        for (bit = 0; bit < 9; bit++) place = 2 * place + (i >> bit & 1);
        if (place < 500 && kept++ == point) return place;
    }
    return 0;
}

/* The part that carries a bit of packet p as it goes out (after the bit interleaver). The packets follow one another through the slots; a slot has
   500 points, each a cell, and the first half of a point's bits is its first part's. */
static float *part_of(struct block *b, unsigned p, unsigned bit) {
    const unsigned width = figures[b->mode].part_bits, size = 1000 * width, at = figures[b->mode].packet_bits * p + bit;
    const unsigned slot = at / size, place = place_of(at % size / (2 * width));
    const unsigned cell = slot / 7 * FLO_SYMBOL_CELLS + 49 + slot % 7 + 8 * place;
    return at / width % 2 == 0 ? &b->firsts[cell] : &b->seconds[cell];
}

/* Turns a bit over in a grid as sent: the part's sign, or with the first of two bits its size, which is 0.5 or 1.5. */
static void turn_over(struct block *b, unsigned p, unsigned bit) {
    float *part = part_of(b, p, bit);
    if (figures[b->mode].part_bits == 1 || bit % 2 == 1) *part = -*part;
    else if (*part == 1.5f || *part == -1.5f) *part /= 3.0f;
    else *part *= 3.0f;
}

/* The bit that goes out for a coded bit, before the bit interleaver. */
static unsigned outgoing(const struct block *b, unsigned coded) {
    const unsigned rows = figures[b->mode].packet_bits / 4;
    return 4 * (coded % rows) + coded / rows;
}

/* The coded bit that is data bit i, where i is a multiple of 4: each pattern has four data bits or fewer. The one after it is a parity bit. */
static unsigned coded_of(const struct block *b, unsigned i) {
    return figures[b->mode].packet_bits * i / 1000;
}

/* Packet p of one grid in the place of another's. */
static void copy_packet(struct block *to, struct block *from, unsigned p) {
    unsigned bit;
    for (bit = 0; bit < figures[to->mode].packet_bits; bit++) *part_of(to, p, bit) = *part_of(from, p, bit);
}

/* ---- the tests */

static struct block one, other;

static void test_round_trip(int mode, int k) {
    static float firsts[FLO_SYMBOL_CELLS], seconds[FLO_SYMBOL_CELLS];
    const uint16_t marked = (uint16_t)((1u << (FLO_PACKETS - k)) - 1);
    size_t symbol;
    int same = 1;
    begin(&one, mode, k, 0);
    test("a profile's length", one.profile_length == 60 + 4 * (size_t)figures[mode].slots);
    test("a block is sent", send_block(&one) == FLO_DONE);
    for (symbol = 0; symbol < (size_t)FLO_SYMBOLS(mode); symbol++) {
        same = same && send_symbol(&one, symbol, firsts, seconds) == FLO_DONE;
        same = same && memcmp(firsts, one.firsts + symbol * FLO_SYMBOL_CELLS, sizeof firsts) == 0;
        same = same && memcmp(seconds, one.seconds + symbol * FLO_SYMBOL_CELLS, sizeof seconds) == 0;
    }
    test("each symbol alone is that part of the grid", same);
    test("no symbol after the last", send_symbol(&one, symbol, firsts, seconds) == FLO_NO_SUCH_SYMBOL);
    test("it is received", receive(&one, 0) == FLO_DONE && came_back(&one) && no_answer(&one));
    memset(one.received, PAINT, sizeof one.received);
    test("as many packets as may be lost come back", receive(&one, marked) == FLO_DONE && came_back(&one) && one.lost == marked);
}

static void test_damage(int mode, int k) {
    begin(&one, mode, k, 1);
    send_block(&one);
    *part_of(&one, 0, 8) = 0.0f;
    turn_over(&one, 15, outgoing(&one, coded_of(&one, 992)));
    test("two packets are damaged, and found", receive(&one, 0) == FLO_DONE && one.lost == 0x8001 && came_back(&one));
    test("a doubtful bit, a reserved bit", one.reasons[0] == FLO_DOUBTFUL && one.reasons[15] == FLO_RESERVED_BITS && one.reasons[7] == FLO_ACCEPTED);

    send_block(&one);
    turn_over(&one, 5, outgoing(&one, coded_of(&one, 100)));
    turn_over(&one, 6, outgoing(&one, coded_of(&one, 100) + 1));
    test("two packets are damaged, and found", receive(&one, 0) == FLO_DONE && one.lost == 0x0060 && came_back(&one));
    test("a data bit, a parity bit", one.reasons[5] == FLO_CHECK_WORD && one.reasons[6] == FLO_CODED_BITS);

    memset(one.received, PAINT, sizeof one.received);
    test("too many are lost", receive(&one, 0xFF80) == FLO_TOO_MANY_LOST && one.lost == 0xFFE0);
    test("the reasons are given", one.reasons[4] == FLO_ACCEPTED && one.reasons[5] == FLO_CHECK_WORD && one.reasons[7] == FLO_MARKED);
    test("the data room keeps what it held", is_painted(one.received, sizeof one.received));

    send_block(&one);
    begin(&other, mode, k, 2);
    send_block(&other);
    copy_packet(&one, &other, 3);
    test("a good packet of another block", receive(&one, 0) == FLO_NO_CODEWORD && no_answer(&one));
    test("the data room keeps what it held", is_painted(one.received, sizeof one.received));
    test("it is lost by a mark", receive(&one, 8) == FLO_DONE && came_back(&one) && one.lost == 8 && one.reasons[3] == FLO_MARKED);
}

/* The scrambling sequence's bit at this place of a slot. */
static unsigned noise(uint32_t seed, uint32_t mask, unsigned place) {
    uint32_t sum = 0;
    while (place-- > 0) seed = (seed << 1 & 0xFFFFF) | ((seed >> 19 ^ seed >> 16) & 1);
    for (seed &= mask; seed != 0; seed >>= 1) sum ^= seed & 1;
    return sum;
}

/* Every fourth data bit of each data packet, where its part is: its sign says it, or its size, where the larger one is 0. */
static void test_points(int mode, int k) {
    const unsigned width = figures[mode].part_bits, size = 1000 * width;
    struct value v;
    unsigned p, i;
    int right = 1;
    begin(&one, mode, k, 14);
    v = good_value(&one);
    send_block(&one);
    for (p = 0; p < (unsigned)k; p++) {
        for (i = 0; i < 976; i += 4) {
            const unsigned bit = outgoing(&one, coded_of(&one, i)), at = figures[mode].packet_bits * p + bit, slot = at / size;
            const unsigned data = one.data[p * FLO_PACKET_BYTES + i / 8] >> (7 - i % 8) & 1;
            const unsigned sent = data ^ noise(v.seeds[slot], v.masks[1 + slot % 7], at % size);
            const float part = *part_of(&one, p, bit);
            right = right && sent == (unsigned)(width == 1 || bit % 2 == 1 ? part < 0.0f : part == 0.5f || part == -0.5f);
        }
    }
    test("the parts say the data's bits", right);
}

/* Packets 4 and 6 are damaged where packet 5 begins and ends: in modes 2 and 4 they share slots with it. Packet 5 is none the worse for it. */
static void test_neighbours(int mode, int k) {
    const unsigned last = figures[mode].packet_bits - 1;
    begin(&one, mode, k, 10);
    send_block(&one);
    *part_of(&one, 4, last) = NAN;
    turn_over(&one, 6, 0);
    test("the packets before and after one are damaged", receive(&one, 0) == FLO_DONE && one.lost == 0x0050 && came_back(&one));
    test("a doubtful last bit, a wrong first bit", one.reasons[4] == FLO_DOUBTFUL && one.reasons[6] == FLO_CHECK_WORD);
    send_block(&one);
    turn_over(&one, 4, last);
    *part_of(&one, 6, 0) = -0.0f;
    test("the other way round", receive(&one, 0) == FLO_DONE && one.lost == 0x0050 && came_back(&one));
    test("a wrong last bit, a doubtful first bit", one.reasons[4] == FLO_CODED_BITS && one.reasons[6] == FLO_DOUBTFUL);
}

/* Parts on the lines that decide, at 0 and, in modes 2 to 4, at 1 and -1 (the level is 0.5), next to them and far away, and what they decide to, as
   the bytes of a state number it; in modes 0 and 1 only the sign counts. */
static const struct {
    float part;
    int decision;
} lines[] = {
    {1.5f, 0},         {1.00000012f, 0}, {INFINITY, 0}, {-1.5f, 1},         {-1.00000012f, 1}, {-INFINITY, 1}, {0.5f, 2},
    {0.99999994f, 2},  {1e-40f, 2},      {-0.5f, 3},    {-0.99999994f, 3},  {-1e-40f, 3},      {0.0f, 4},      {-0.0f, 4},
    {NAN, 4},          {1.0f, 4},        {-1.0f, 4},
};
enum { LINES = sizeof lines / sizeof lines[0] };

static int decision_of(int mode, unsigned line) {
    if (mode >= 2) return lines[line].decision;
    return lines[line].part > 0.0f ? 0 : lines[line].part < 0.0f ? 1 : 2;
}

/* Each of them in the place of each of a packet's first parts: the packet is lost exactly when it isn't decided as what was sent. */
static void test_lines(int mode, int k) {
    unsigned bit, i, j;
    begin(&one, mode, k, 11);
    send_block(&one);
    for (bit = 0; bit < 16; bit += figures[mode].part_bits) {
        float *part = part_of(&one, 3, bit);
        const float sent = *part;
        for (j = 0; j < LINES && lines[j].part != sent;) j++;
        test("a part is as sent", j < LINES);
        for (i = 0; i < LINES && j < LINES; i++) {
            const int same = decision_of(mode, i) == decision_of(mode, j), doubtful = decision_of(mode, i) == (mode >= 2 ? 4 : 2);
            *part = lines[i].part;
            test("a part on a line or beside it", receive(&one, 0) == FLO_DONE && came_back(&one) && one.lost == (same ? 0 : 8) &&
                                                      (one.reasons[3] == FLO_DOUBTFUL) == doubtful);
        }
        *part = sent;
    }
}

/* A grid in pieces of one size and asked for is what it is whole: the number, the answers, the data. */
static int fed_as_whole(struct block *b, size_t size, uint16_t marks) {
    static uint8_t received[FLO_MOST_DATA], reasons[FLO_PACKETS];
    uint32_t number;
    uint16_t lost;
    memset(b->received, PAINT, sizeof b->received);
    number = receive(b, marks);
    lost = b->lost;
    memcpy(received, b->received, sizeof received);
    memcpy(reasons, b->reasons, sizeof reasons);
    memset(b->received, PAINT, sizeof b->received);
    memset(b->reasons, PAINT, sizeof b->reasons);
    return feed_all(b, size) && ask(b, marks) == number && b->lost == lost && memcmp(b->reasons, reasons, sizeof reasons) == 0 &&
           memcmp(b->received, received, sizeof received) == 0;
}

static void test_pieces(int mode, int k) {
    static const size_t sizes[] = {1, 63, 64, 1000, FLO_SYMBOL_CELLS, CELLS}; /* the first takes long, and is tried with one k */
    struct block *b = &one;
    size_t i;
    begin(b, mode, k, 5);
    send_block(b);
    for (i = k == 14 ? 0 : 1; i < sizeof sizes / sizeof sizes[0]; i++) test("a grid in pieces", fed_as_whole(b, sizes[i], 0) && came_back(b));
    *part_of(b, 0, 8) = 0.0f;
    turn_over(b, 15, 700);
    for (i = 2; i < sizeof sizes / sizeof sizes[0]; i++) {
        test("a damaged grid in pieces", fed_as_whole(b, sizes[i], 0) && came_back(b) && b->lost == 0x8001);
        test("too many are lost", fed_as_whole(b, sizes[i], 0xFF80) && b->lost == 0xFF81 && b->reasons[0] == FLO_DOUBTFUL);
    }
    test("asked again, with other marks", ask(b, 0) == FLO_DONE && came_back(b) && ask(b, 0x01FF) == FLO_TOO_MANY_LOST && ask(b, 0) == FLO_DONE);
    begin(&other, mode, k, 6);
    send_block(&other);
    copy_packet(&other, b, 3);
    test("a good packet of another block", fed_as_whole(&other, 5000, 0) && ask(&other, 0) == FLO_NO_CODEWORD);
}

/* What the bytes of a state say, and that a call which is refused or only asks leaves them. */
static void test_state(int mode, int k) {
    static const float firsts[] = {1.0f, -1.25f, -0.0f, 0.25f, NAN}, seconds[] = {0.5f, 0.5f, 0.0f, -3.0f, -INFINITY};
    static const uint8_t bytes[2][7] = {{0, 5, 0, 1, 8, 3, 5}, {0, 5, 4 + 10, 1 + 10, 4 + 20, 2 + 5, 4 + 5}};
    static uint8_t state[FLO_STATE];
    static float many[65536]; /* five cells and so many more are five again, to a count of 16 bits */
    struct block *b = &one;
    const size_t cells = (size_t)FLO_SYMBOLS(mode) * FLO_SYMBOL_CELLS;
    begin(b, mode, k, 7);
    memset(b->state, 0, FLO_STATE);
    memset(state, 0, sizeof state);
    memcpy(state, bytes[mode >= 2], sizeof bytes[0]);
    test("five cells", feed_lists(b, b->state, FLO_STATE, firsts, 5, seconds, 5) == FLO_DONE);
    test("their bytes", memcmp(b->state, state, FLO_STATE) == 0);
    test("an empty piece", feed_lists(b, b->state, FLO_STATE, NULL, 0, NULL, 0) == FLO_DONE);
    test("unequal lists", feed_lists(b, b->state, FLO_STATE, firsts, 2, seconds, 3) == FLO_CELLS_LENGTH);
    test("one list empty", feed_lists(b, b->state, FLO_STATE, firsts, 2, NULL, 0) == FLO_CELLS_LENGTH);
    send_block(b);
    test("a cell too many", feed(b, 4, cells - 4) == FLO_TOO_MANY_CELLS);
    test("far too many", feed_lists(b, b->state, FLO_STATE, many, 65536, many, 65536) == FLO_TOO_MANY_CELLS);
    test("too early a question", ask(b, 0xFFFF) == FLO_CELLS_MISSING && no_answer(b) && is_painted(b->received, sizeof b->received));
    b->data_length -= 1;
    test("and with too short a room", ask(b, 0xFFFF) == FLO_DATA_LENGTH && no_answer(b) && is_painted(b->received, sizeof b->received));
    b->data_length += 1;
    test("they are kept", memcmp(b->state, state, FLO_STATE) == 0);
    test("all but one", feed(b, 5, cells - 6) == FLO_DONE && ask(b, 0) == FLO_CELLS_MISSING && feed(b, cells - 2, 2) == FLO_TOO_MANY_CELLS);
    test("all", feed(b, cells - 1, 1) == FLO_DONE && ask(b, 0) == FLO_DONE && came_back(b) && feed(b, 0, 1) == FLO_TOO_MANY_CELLS);
    test("all have come", b->state[0] == cells / 256 && b->state[1] == 0);
}

/* This much of the state is refused, by feeding and by asking, and kept. Other things are wrong too, but their turn is later. */
static int no_such_state(struct block *b, uint8_t *state, size_t length) {
    static uint8_t kept[FLO_STATE + 1];
    uint8_t *lent = length == 0 ? NULL : state;
    memcpy(kept, state, sizeof kept);
    b->lost = 0xA5A5;
    memset(b->reasons, PAINT, sizeof b->reasons);
    return feed_lists(b, lent, length, b->firsts, 1, b->seconds, 2) == FLO_NO_SUCH_STATE &&
           ask_state(b, 0xFFFF, lent, length, 1) == FLO_NO_SUCH_STATE && no_answer(b) && memcmp(kept, state, sizeof kept) == 0;
}

/* A byte of the state changed, and put back. */
static int no_such_byte(struct block *b, uint8_t *state, size_t place, int byte) {
    const uint8_t was = state[place];
    int refused;
    state[place] = (uint8_t)byte;
    refused = no_such_state(b, state, FLO_STATE);
    state[place] = was;
    return refused;
}

/* The bytes of all pairs of parts on the lines and beside them. */
static void test_state_lines(int mode, int k) {
    static float firsts[LINES * LINES], seconds[LINES * LINES];
    static uint8_t state[FLO_STATE];
    struct block *b = &one;
    unsigned i;
    begin(b, mode, k, 12);
    memset(b->state, 0, FLO_STATE);
    memset(state, 0, sizeof state);
    for (i = 0; i < LINES * LINES; i++) {
        firsts[i] = lines[i % LINES].part;
        seconds[i] = lines[i / LINES].part;
        state[2 + i] = (uint8_t)(decision_of(mode, i % LINES) + (mode >= 2 ? 5 : 3) * decision_of(mode, i / LINES));
    }
    state[0] = (uint8_t)(LINES * LINES / 256);
    state[1] = (uint8_t)(LINES * LINES % 256);
    test("cells on the lines", feed_lists(b, b->state, FLO_STATE, firsts, LINES * LINES, seconds, LINES * LINES) == FLO_DONE);
    test("the bytes of cells on the lines", memcmp(b->state, state, FLO_STATE) == 0);
}

static void test_spoilt(int mode, int k) {
    static uint8_t state[FLO_STATE + 1];
    struct block *b = &one;
    const size_t cells = (size_t)FLO_SYMBOLS(mode) * FLO_SYMBOL_CELLS;
    const int most = mode >= 2 ? 24 : 8; /* what a cell's byte can be */
    int other_mode;
    begin(b, mode, k, 8);
    send_block(b);
    memset(b->state, 0, FLO_STATE);
    test("half a symbol", feed(b, 0, 2048) == FLO_DONE);
    memset(state, 0, sizeof state);
    memcpy(state, b->state, FLO_STATE);
    test("a state that is too short", no_such_state(b, state, FLO_STATE - 1) && no_such_state(b, state, 2) && no_such_state(b, state, 0));
    test("a state that is too long", no_such_state(b, state, FLO_STATE + 1));
    test("a byte that no cell leaves", no_such_byte(b, state, 2, most + 1) && no_such_byte(b, state, 2 + 2047, most + 8) &&
                                           no_such_byte(b, state, 1000, 255));
    test("a byte of a cell to come", no_such_byte(b, state, 2 + 2048, 1) && no_such_byte(b, state, 1 + cells, most));
    test("the state's last byte", no_such_byte(b, state, FLO_STATE - 1, 1));
    test("fewer cells than have bytes", no_such_byte(b, state, 0, 7));
    test("more cells than there are", no_such_byte(b, state, 0, (int)(cells / 256) + 1) && no_such_byte(b, state, 0, 255));
    test("the state itself", feed_lists(b, state, FLO_STATE, b->firsts + 2048, cells - 2048, b->seconds + 2048, cells - 2048) == FLO_DONE);
    memcpy(b->state, state, FLO_STATE);
    test("a copy of the state", ask(b, 0) == FLO_DONE && came_back(b));
    for (other_mode = 0; other_mode < MODES; other_mode++) {
        const int fits = FLO_SYMBOLS(other_mode) > FLO_SYMBOLS(mode) && (other_mode >= 2) == (mode >= 2);
        if (other_mode == mode) continue;
        b->mode = (uint8_t)other_mode;
        write_profile(b);
        test("a full state in another mode", fits ? ask(b, 0) == FLO_CELLS_MISSING : no_such_state(b, state, FLO_STATE));
    }
}

/* The profile as it is now is refused by this number: by all calls, with the lent memory kept and the answers zero. */
static int is_refused(struct block *b, uint32_t number) {
    uint32_t masks[FLO_MASKS], seeds[FLO_SEEDS], sum = 0;
    uint8_t mode = PAINT, k = PAINT;
    float level = 1.0f, floor = 1.0f;
    unsigned i;
    memset(masks, PAINT, sizeof masks);
    memset(seeds, PAINT, sizeof seeds);
    if (placed(b, flo_read_profile(b->profile, b->profile_length, masks, &level, &mode, &k, seeds, &floor, &b->place)) != number) return 0;
    sum = bits_of(level) | bits_of(floor);
    for (i = 0; i < FLO_MASKS; i++) sum |= masks[i];
    for (i = 0; i < FLO_SEEDS; i++) sum |= seeds[i];
    b->lost = 0xA5A5;
    memset(b->reasons, PAINT, sizeof b->reasons);
    if (receive(b, 0xFFFF) != number || !no_answer(b)) return 0;
    b->lost = 0xA5A5;
    memset(b->reasons, PAINT, sizeof b->reasons);
    if (ask(b, 0xFFFF) != number || !no_answer(b)) return 0;
    return sum == 0 && mode == 0 && k == 0 && send_block(b) == number && send_symbol(b, 0, b->firsts, b->seconds) == number &&
           feed(b, 0, 1) == number &&
           is_painted(b->firsts, sizeof b->firsts) && is_painted(b->seconds, sizeof b->seconds) && is_painted(b->received, sizeof b->received) &&
           is_painted(b->state, sizeof b->state);
}

static void test_refusals(int mode, int k) {
    static uint8_t block[FLO_BLOCK_BYTES + 1];
    struct block *b = &one;

    begin(b, mode, k, 3);
    b->profile_length -= 1;
    test("a profile that ends inside a field", is_refused(b, FLO_CUT_IN_FIELD));
    begin(b, mode, k, 3);
    b->profile[0] = 2;
    test("a wrong tag", is_refused(b, FLO_WRONG_TAG));
    begin(b, mode, k, 3);
    b->profile[2] = 33;
    test("a wrong length", is_refused(b, FLO_WRONG_LENGTH));
    begin(b, mode, k, 3);
    b->profile_length = 35;
    test("a profile that ends between fields", is_refused(b, FLO_FIELD_MISSING));
    begin(b, mode, k, 3);
    b->profile_length -= 7;
    test("a profile without a floor", is_refused(b, FLO_FIELD_MISSING));
    begin(b, mode, k, 3);
    b->profile[b->profile_length - 5] = 5;
    test("a wrong length of the floor", is_refused(b, FLO_WRONG_LENGTH));
    begin(b, mode, k, 3);
    b->profile_length += 2;
    test("two bytes after the floor", is_refused(b, FLO_CUT_IN_FIELD));
    b->profile_length += 1;
    test("three bytes after the floor", is_refused(b, FLO_WRONG_TAG));
    memcpy(b->profile + b->profile_length - 3, "\7\0\4", 3);
    b->profile_length += 4;
    test("a field after the floor", is_refused(b, FLO_WRONG_TAG));

    begin(b, mode, k, 3);
    b->data_length -= 1;
    test("data a byte short", send_block(b) == FLO_DATA_LENGTH && receive(b, 0xFFFF) == FLO_DATA_LENGTH && no_answer(b));
    b->data_length += 2;
    test("data a byte long", send_block(b) == FLO_DATA_LENGTH && receive(b, 0xFFFF) == FLO_DATA_LENGTH && no_answer(b));
    b->data_length -= 1;
    b->cells -= 1;
    test("cells that are too few", send_block(b) == FLO_CELLS_LENGTH && receive(b, 0xFFFF) == FLO_CELLS_LENGTH && no_answer(b));
    test("lent memory is kept", is_painted(b->firsts, sizeof b->firsts) && is_painted(b->received, sizeof b->received));

    memset(block, PAINT, sizeof block);
    test("parity of another k", flo_parity(9, block, FLO_BLOCK_BYTES) == FLO_BAD_K);
    test("parity of another length", flo_parity(b->k, block, FLO_BLOCK_BYTES + 1) == FLO_DATA_LENGTH);
    test("the block is kept", is_painted(block, sizeof block));
    test("parity", flo_parity(b->k, block, FLO_BLOCK_BYTES) == FLO_DONE && is_painted(block, (size_t)k * FLO_PACKET_BYTES));
}

/* ---- numbers outside their range: which one is it, and where */

/* In the order of their tests: the number that names it, the byte where it begins, and what stands there. Unused seeds begin at 181, 149, 117 and 101
   in modes 1 to 4; the floor's place is each mode's own. The level whose triple is just not finite is a fault in modes 2 to 4 only. */
enum { TOO_LARGE = 0x7EAAAAAB, OF_FLOOR = 0 };
static const size_t floor_places[MODES] = {248, 184, 152, 120, 104};
static const struct fault {
    uint32_t number;
    size_t place;
    uint32_t bad;
} faults[] = {
    {FLO_BAD_MASK, 3, 0}, {FLO_BAD_MASK, 15, 1048576}, {FLO_BAD_MASK, 31, 0xFFFFFFFF},
    {FLO_BAD_LEVEL, 38, 0}, {FLO_BAD_LEVEL, 38, 0xBF000000}, {FLO_BAD_LEVEL, 38, 0x007FFFFF}, /* zero, -0.5, subnormal */
    {FLO_BAD_LEVEL, 38, 0x7F800000}, {FLO_BAD_LEVEL, 38, 0x7FC00000},                         /* infinity, NaN */
    {FLO_BAD_MODE, 45, 5}, {FLO_BAD_LEVEL, 38, TOO_LARGE}, {FLO_BAD_K, 49, 9},
    {FLO_BAD_SEED, 53, 0}, {FLO_BAD_SEED, 97, 0}, {FLO_BAD_SEED, 101, 1048576}, {FLO_BAD_SEED, 113, 1048576}, {FLO_BAD_SEED, 117, 0xFFFFFFFF},
    {FLO_BAD_SEED, 145, 1048577}, {FLO_BAD_SEED, 149, 0x80000000}, {FLO_BAD_SEED, 177, 1048576}, {FLO_BAD_SEED, 181, 1048576},
    {FLO_BAD_SEED, 213, 0x80000001}, {FLO_BAD_SEED, 241, 0xFFFFFFFF},
    {FLO_BAD_FLOOR, OF_FLOOR, 0x80000000}, {FLO_BAD_FLOOR, OF_FLOOR, 0x3E800001}, {FLO_BAD_FLOOR, OF_FLOOR, 0x7FC00000}, /* -0.0, above 0.25, NaN */
};
enum { FAULTS = sizeof faults / sizeof faults[0] };

static int is_fault(int mode, const struct fault *f) {
    return mode >= 2 || f->bad != TOO_LARGE;
}

static size_t place_in(int mode, const struct fault *f) {
    return f->place == OF_FLOOR ? floor_places[mode] : f->place;
}

/* Whether the bytes have this number: unused seeds aren't written. */
static int is_written(int mode, const struct fault *f) {
    return f->number != FLO_BAD_SEED || f->place < 53 + 4 * (size_t)figures[mode].slots;
}

static void spoil_value(struct value *v, const struct fault *f) {
    if (f->place == OF_FLOOR) v->floor = float_of(f->bad);
    else if (f->place < 35) v->masks[(f->place - 3) / 4] = f->bad;
    else if (f->place == 38) v->level = float_of(f->bad);
    else if (f->place == 45) v->mode = (uint8_t)f->bad;
    else if (f->place == 49) v->k = (uint8_t)f->bad;
    else v->seeds[(f->place - 53) / 4] = f->bad;
}

static void spoil_bytes(struct block *b, const struct fault *f) {
    const size_t place = place_in(b->mode, f), size = place == 45 || place == 49 ? 1 : 4;
    size_t i;
    for (i = 0; i < size; i++) b->profile[place + i] = (uint8_t)(f->bad >> 8 * (size - 1 - i));
}

/* The value is refused by this number at this place, and nothing is written. */
static int is_unwritten(struct block *b, const struct value *v, uint32_t number, size_t place) {
    uint32_t sum = 0;
    unsigned i;
    memset(b->profile, PAINT, sizeof b->profile);
    b->profile_length = 7;
    b->due = place;
    if (write_value(b, v) != number || b->profile_length != 0) return 0;
    for (i = 0; i < FLO_MOST_PROFILE; i++) sum |= b->profile[i];
    return sum == 0;
}

/* A value with two bad numbers, which may be one, and its bytes: the first is named. Bytes have no unused seeds. */
static void test_pair(struct block *b, int mode, int k, const struct fault *first, const struct fault *second) {
    struct value v;
    begin(b, mode, k, 9);
    v = good_value(b);
    spoil_value(&v, second);
    spoil_value(&v, first);
    test("a bad number of a value", is_unwritten(b, &v, first->number, place_in(mode, first)));
    begin(b, mode, k, 9);
    if (!is_written(mode, first)) return;
    if (is_written(mode, second)) spoil_bytes(b, second);
    spoil_bytes(b, first);
    b->due = place_in(mode, first);
    test("a bad number of a profile", is_refused(b, first->number));
}

static void test_faults(int mode, int k) {
    struct block *b = &one;
    unsigned i, j;
    for (i = 0; i < FAULTS; i++)
        for (j = i; j < FAULTS; j++)
            if (is_fault(mode, &faults[i])) test_pair(b, mode, k, &faults[i], &faults[j]);
    for (i = 0; i < FAULTS; i++) {
        const size_t place = place_in(mode, &faults[i]), of_floor = floor_places[mode];
        begin(b, mode, k, 9);
        if (!is_written(mode, &faults[i]) || !is_fault(mode, &faults[i])) continue;
        spoil_bytes(b, &faults[i]);
        b->due = place;
        b->profile[of_floor - 3] = 7;
        test("a bad number and the last field's tag", is_refused(b, place < of_floor ? faults[i].number : (uint32_t)FLO_WRONG_TAG));
        b->profile[50] = 6;
        test("a bad number and the seeds' tag", is_refused(b, place < 50 ? faults[i].number : (uint32_t)FLO_WRONG_TAG));
        b->profile[2] = 33;
        test("a bad number and the first field's length", is_refused(b, FLO_WRONG_LENGTH));
    }
    for (i = figures[mode].slots; i < FLO_SEEDS; i++) {
        struct value v;
        begin(b, mode, k, 9);
        v = good_value(b);
        v.seeds[i] = 1;
        v.seeds[47] = 2;
        test("an unused seed that isn't zero", is_unwritten(b, &v, FLO_BAD_SEED, 53 + 4 * (size_t)i));
    }
}

/* Levels at the ends of what a mode can send: they are written, read and sent, in modes 2 to 4 with their triples, or refused. */
static void test_levels(int mode, int k) {
    static const uint32_t levels[] = {0x00800000, 0x7EAAAAA9, 0x7EAAAAAA, TOO_LARGE, 0x7F000000, 0x7F7FFFFF};
    static const uint32_t triples[] = {0x01400000, 0x7F7FFFFE, 0x7F7FFFFF, 0, 0, 0};
    struct block *b = &one;
    unsigned i, c;
    for (i = 0; i < sizeof levels / sizeof levels[0]; i++) {
        struct value v;
        uint32_t bits;
        size_t inner = 0, outer = 0, silent = 0;
        begin(b, mode, k, 13);
        v = good_value(b);
        v.level = float_of(levels[i]);
        if (mode >= 2 && triples[i] == 0) {
            test("a level whose triple isn't finite", is_unwritten(b, &v, FLO_BAD_LEVEL, 38));
            continue;
        }
        test("a level that can be sent", write_value(b, &v) == FLO_DONE && send_block(b) == FLO_DONE);
        for (c = 0; c < 2 * b->cells; c++) {
            bits = bits_of(c < b->cells ? b->firsts[c] : b->seconds[c - b->cells]);
            inner += (bits & 0x7FFFFFFF) == levels[i];
            outer += mode >= 2 && (bits & 0x7FFFFFFF) == triples[i];
            silent += bits == 0;
        }
        test("its parts", inner > 0 && (outer > 0) == (mode >= 2) && inner + outer == 1000 * (size_t)figures[mode].slots &&
                              inner + outer + silent == 2 * b->cells);
        test("they come back", receive(b, 0) == FLO_DONE && came_back(b) && no_answer(b));
    }
}

/* ---- floors, all values by hand */

/* Levels, and the largest floor that each allows. The last level is too large for modes 2 to 4. */
static const struct {
    uint32_t level, most;
} halves[] = {
    {0x00800000, 0x00400000}, {0x00800001, 0x00400000}, {0x00800002, 0x00400001}, {0x00FFFFFF, 0x007FFFFF}, {0x01000000, 0x00800000},
    {0x3F800000, 0x3F000000}, {0x3F800001, 0x3F000001}, {0x7EAAAAAA, 0x7E2AAAAA}, {0x7F7FFFFF, 0x7EFFFFFF},
};
enum { HALVES = sizeof halves / sizeof halves[0] };

/* Whether this floor is written, read and sent with, and a grid as sent loses nothing; or refused by all calls, where it isn't allowed. */
static int is_judged(int mode, int k, uint32_t level, uint32_t floor, int is_allowed) {
    struct block *b = &one;
    struct value v, back;
    size_t i;
    begin(b, mode, k, 15);
    v = good_value(b);
    v.level = float_of(level);
    v.floor = float_of(floor);
    if (!is_allowed) {
        if (!is_unwritten(b, &v, FLO_BAD_FLOOR, floor_places[mode])) return 0;
        v.floor = 0.0f;
        b->due = 0;
        if (write_value(b, &v) != FLO_DONE) return 0;
        for (i = 0; i < 4; i++) b->profile[floor_places[mode] + i] = (uint8_t)(floor >> (24 - 8 * i));
        b->due = floor_places[mode];
        return is_refused(b, FLO_BAD_FLOOR);
    }
    if (write_value(b, &v) != FLO_DONE || b->profile_length != floor_places[mode] + 4) return 0;
    for (i = 0; i < 4; i++)
        if (b->profile[floor_places[mode] + i] != (uint8_t)(floor >> (24 - 8 * i))) return 0;
    if (placed(b, flo_read_profile(b->profile, b->profile_length, back.masks, &back.level, &back.mode, &back.k, back.seeds, &back.floor,
                                   &b->place)) != FLO_DONE) return 0;
    if (bits_of(back.floor) != floor || bits_of(back.level) != level || back.mode != mode || memcmp(back.seeds, v.seeds, sizeof v.seeds) != 0) return 0;
    if (send_block(b) != FLO_DONE || receive(b, 0) != FLO_DONE || !came_back(b) || !no_answer(b)) return 0;
    memset(b->received, PAINT, sizeof b->received);
    return feed_all(b, 5000) && ask(b, 0) == FLO_DONE && came_back(b) && no_answer(b);
}

static void test_floors(int mode, int k) {
    /* negative ones and -0.0, infinities, NaNs, and the first whose double is infinite */
    static const uint32_t bad[] = {0x80000000, 0x80000001, 0xBE800000, 0xFF800000, 0x7F800000, 0x7FC00000, 0x7F800001, 0xFFFFFFFF, 0x7F000000};
    unsigned i, j;
    for (i = 0; i < HALVES - (mode >= 2); i++) {
        const uint32_t level = halves[i].level, most = halves[i].most;
        test("the floor +0.0", is_judged(mode, k, level, 0, 1));
        test("the smallest floor", is_judged(mode, k, level, 1, 1));
        test("floors up to half the level", is_judged(mode, k, level, most - 1, 1) && is_judged(mode, k, level, most, 1));
        test("a floor above half the level", is_judged(mode, k, level, most + 1, 0) && is_judged(mode, k, level, level, 0));
        for (j = 0; j < sizeof bad / sizeof bad[0]; j++) test("a floor that no level allows", is_judged(mode, k, level, bad[j], 0));
    }
}

/* Levels and floors, and the ends of the doubtful range around twice the level. 33A00000 is 1.25 * 2^-24: 2 less that is nearer to the float before 2
   than to 2, and 2 and that is nearer to 2. In three rows D is the float after 1: three times it isn't exact, but twice it is. In the least level's
   rows with 1 and 3 the sums lie in the middle of two floats, and the even one is taken, as with 7EAAAAAA. */
static const struct range {
    uint32_t level, floor, low, high;
} ranges[] = {
    {0x3F800000, 0x00000000, 0x40000000, 0x40000000}, {0x3F800000, 0x00000001, 0x40000000, 0x40000000},
    {0x3F800000, 0x3E800000, 0x3FE00000, 0x40100000}, {0x3F800000, 0x3F000000, 0x3FC00000, 0x40200000},
    {0x3F800000, 0x33A00000, 0x3FFFFFFF, 0x40000000}, {0x3F800000, 0x34000001, 0x3FFFFFFF, 0x40000001},
    {0x3F800001, 0x00000000, 0x40000001, 0x40000001}, {0x3F800001, 0x3E800000, 0x3FE00002, 0x40100001},
    {0x3F800001, 0x3F000001, 0x3FC00002, 0x40200001}, {0x00800000, 0x00000001, 0x00FFFFFF, 0x01000000},
    {0x00800000, 0x00000003, 0x00FFFFFD, 0x01000002}, {0x00800000, 0x00400000, 0x00C00000, 0x01200000},
    {0x7EAAAAAA, 0x7E2AAAAA, 0x7EFFFFFF, 0x7F555554},
};
enum { RANGES = sizeof ranges / sizeof ranges[0], ENDS = 3, PARTS = 2 * (3 * ENDS + 3) };

/* The parts to try: each end, the float before it and the one after it, the level, infinity, NaN; all with both signs. Before +0.0 comes itself. */
static uint32_t part_at(const struct range *r, unsigned i) {
    const uint32_t ends[ENDS] = {r->floor, r->low, r->high}, others[3] = {r->level, 0x7F800000, 0x7FC00000}, sign = i % 2 * 0x80000000u;
    uint32_t end;
    i /= 2;
    if (i >= 3 * ENDS) return others[i - 3 * ENDS] | sign;
    end = ends[i / 3];
    return (i % 3 == 2 ? end + 1 : i % 3 == 1 || end == 0 ? end : end - 1) | sign;
}

/* What a part decides to, as the bytes of a state number it. Without its sign a float's bits grow with it, and NaN's are above all others. */
static int decided(int mode, const struct range *r, uint32_t bits) {
    const uint32_t size = bits & 0x7FFFFFFF, sign = bits >> 31;
    if (mode < 2) return size <= r->floor || size > 0x7F800000 ? 2 : (int)sign;
    if (size <= r->floor || size > 0x7F800000 || (size >= r->low && size <= r->high)) return 4;
    return (int)(size < r->low ? 2 + sign : sign);
}

static void begin_range(struct block *b, int mode, int k, const struct range *r) {
    struct value v;
    begin(b, mode, k, 16);
    v = good_value(b);
    v.level = float_of(r->level);
    v.floor = float_of(r->floor);
    test("a profile with a floor", write_value(b, &v) == FLO_DONE && send_block(b) == FLO_DONE);
}

/* Each part in the place of one of a packet's parts: the packet is lost exactly when it isn't decided as what was sent. */
static void test_range(int mode, int k, const struct range *r) {
    struct block *b = &one;
    unsigned i;
    begin_range(b, mode, k, r);
    for (i = 0; i < PARTS; i++) {
        const uint32_t bits = part_at(r, i);
        const unsigned bit = i * 14 % 1400;
        float *part = part_of(b, 3, bit);
        const float sent = *part;
        const int same = decided(mode, r, bits) == decided(mode, r, bits_of(sent)), doubtful = decided(mode, r, bits) == (mode >= 2 ? 4 : 2);
        *part = float_of(bits);
        test("a part at an end of a range or beside it", receive(b, 0) == FLO_DONE && came_back(b) && b->lost == (same ? 0 : 8) &&
                                                            (b->reasons[3] == FLO_DOUBTFUL) == doubtful);
        *part = sent;
    }
}

/* The same parts, first by first and second by second, as cells of a state; and one of them in a grid that is fed and asked for. */
static void test_range_state(int mode, int k, const struct range *r) {
    static float firsts[PARTS * PARTS], seconds[PARTS * PARTS];
    static uint8_t state[FLO_STATE];
    struct block *b = &one;
    unsigned i;
    begin_range(b, mode, k, r);
    memset(b->state, 0, FLO_STATE);
    memset(state, 0, sizeof state);
    for (i = 0; i < PARTS * PARTS; i++) {
        const uint32_t first = part_at(r, i % PARTS), second = part_at(r, i / PARTS);
        firsts[i] = float_of(first);
        seconds[i] = float_of(second);
        state[2 + i] = (uint8_t)(decided(mode, r, first) + (mode >= 2 ? 5 : 3) * decided(mode, r, second));
    }
    state[0] = (uint8_t)(PARTS * PARTS / 256);
    state[1] = (uint8_t)(PARTS * PARTS % 256);
    test("cells at the ends", feed_lists(b, b->state, FLO_STATE, firsts, PARTS * PARTS, seconds, PARTS * PARTS) == FLO_DONE);
    test("the bytes of cells at the ends", memcmp(b->state, state, FLO_STATE) == 0);
    *part_of(b, 5, 100) = -float_of(r->floor);
    if (mode >= 2) *part_of(b, 6, 100) = float_of(r->high);
    test("a grid with them in pieces", feed_all(b, 3000) && ask(b, 0) == FLO_DONE && came_back(b) && b->lost == (mode >= 2 ? 0x60 : 0x20));
}

static void test_ranges(int mode, int k) {
    unsigned i;
    for (i = 0; i < RANGES; i++) {
        test_range(mode, k, &ranges[i]);
        test_range_state(mode, k, &ranges[i]);
    }
}

/* ---- two slots of one symbol with the same seed and the same mask: slot t is in symbol t / 7 and has mask 1 + t % 7 */

/* Slot t gets the seed of slot u, and its mask becomes that one's. */
static void make_alike(struct value *v, unsigned u, unsigned t) {
    v->seeds[t] = v->seeds[u];
    v->masks[1 + t % 7] = v->masks[1 + u % 7];
}

static void put_number(struct block *b, size_t place, uint32_t number) {
    unsigned i;
    for (i = 0; i < 4; i++) b->profile[place + i] = (uint8_t)(number >> (24 - 8 * i));
}

/* Begins a block, with the value's masks and seeds put into its profile's bytes. */
static void begin_with(struct block *b, int mode, int k, const struct value *v) {
    unsigned i;
    begin(b, mode, k, 17);
    for (i = 0; i < FLO_MASKS; i++) put_number(b, 3 + 4 * (size_t)i, v->masks[i]);
    for (i = 0; i < figures[mode].slots; i++) put_number(b, 53 + 4 * (size_t)i, v->seeds[i]);
}

static struct value value_of(int mode, int k) {
    begin(&one, mode, k, 17);
    return good_value(&one);
}

/* The value and its bytes are refused for slot t: by all calls, with all else right, and with all else wrong, whose turn is later. */
static int has_twins(int mode, int k, const struct value *v, unsigned t) {
    static const float many[CELLS + 1] = {0};
    static const uint8_t zeros[FLO_STATE] = {0};
    const uint32_t due = FLO_TWIN_SLOTS;
    struct block *b = &one;
    int refused;
    begin(b, mode, k, 17);
    if (!is_unwritten(b, v, due, t)) return 0;
    begin_with(b, mode, k, v);
    b->due = t;
    if (!is_refused(b, due)) return 0;
    b->data_length -= 1;
    b->cells -= 1;
    refused = send_block(b) == due && send_symbol(b, 99, b->firsts, b->seconds) == due && receive(b, 0) == due && ask(b, 0) == due &&
              ask_state(b, 0, b->state, 7, b->data_length) == due && feed_lists(b, b->state, 7, many, 1, many, 2) == due;
    b->data_length += 1;
    refused = refused && receive(b, 0) == due && send_block(b) == due;
    b->cells += 1;
    refused = refused && send_symbol(b, 99, b->firsts, b->seconds) == due;
    memset(b->state, 0, FLO_STATE); /* so that feeding and asking get further */
    refused = refused && ask(b, 0) == due && ask_state(b, 0, b->state, FLO_STATE, b->data_length - 1) == due && feed(b, 0, 1) == due &&
              feed_lists(b, b->state, FLO_STATE, NULL, 0, NULL, 0) == due && feed_lists(b, b->state, FLO_STATE, many, 1, many, 2) == due &&
              feed_lists(b, b->state, FLO_STATE, many, b->cells + 1, many, b->cells + 1) == due;
    return refused && memcmp(b->state, zeros, FLO_STATE) == 0 && is_painted(b->firsts, sizeof b->firsts) &&
           is_painted(b->seconds, sizeof b->seconds) && is_painted(b->received, sizeof b->received);
}

/* The value is written, and read back as it was. */
static int is_kept(struct block *b, int mode, int k, const struct value *v) {
    struct value back;
    begin(b, mode, k, 17);
    memset(&back, PAINT, sizeof back);
    return write_value(b, v) == FLO_DONE &&
           placed(b, flo_read_profile(b->profile, b->profile_length, back.masks, &back.level, &back.mode, &back.k, back.seeds, &back.floor,
                                      &b->place)) == FLO_DONE &&
           memcmp(back.masks, v->masks, sizeof v->masks) == 0 && memcmp(back.seeds, v->seeds, sizeof v->seeds) == 0;
}

/* And all calls are done with it. */
static int is_fine(int mode, int k, const struct value *v) {
    static float firsts[FLO_SYMBOL_CELLS], seconds[FLO_SYMBOL_CELLS];
    struct block *b = &one;
    if (!is_kept(b, mode, k, v) || send_block(b) != FLO_DONE || receive(b, 0) != FLO_DONE || !came_back(b) || !no_answer(b)) return 0;
    if (send_symbol(b, 1, firsts, seconds) != FLO_DONE || memcmp(firsts, b->firsts + FLO_SYMBOL_CELLS, sizeof firsts) != 0) return 0;
    memset(b->received, PAINT, sizeof b->received);
    return feed_all(b, 5000) && ask(b, 0) == FLO_DONE && came_back(b) && no_answer(b);
}

/* Every two slots of every mode made alike, all others apart. Of those in two symbols some are also sent and received: slots that follow one another,
   the first and the last, and those of one number. */
static void test_two_slots(int mode, int k) {
    const unsigned slots = figures[mode].slots;
    unsigned u, t;
    for (t = 1; t < slots; t++) {
        for (u = 0; u < t; u++) {
            struct value v = value_of(mode, k);
            make_alike(&v, u, t);
            if (u / 7 == t / 7) test("two slots of a symbol alike", has_twins(mode, k, &v, t));
            else if (u + 1 == t || (u == 0 && t + 1 == slots) || u + 7 == t) test("slots of two symbols alike", is_fine(mode, k, &v));
            else test("slots of two symbols alike", is_kept(&one, mode, k, &v));
        }
    }
}

/* Two masks equal: nothing while all seeds differ. With one seed in all slots it is twins in the first symbol, unless one of the masks is mask 0, which
   no slot has; with one seed in the last symbol only where its slots have these masks. */
static void test_two_masks(int mode, int k) {
    const unsigned slots = figures[mode].slots, last = slots / 7 * 7;
    unsigned x, y, t;
    for (y = 1; y < FLO_MASKS; y++) {
        for (x = 0; x < y; x++) {
            struct value v = value_of(mode, k);
            v.masks[y] = v.masks[x];
            test("two equal masks", is_kept(&one, mode, k, &v));
            for (t = last; t < slots; t++) v.seeds[t] = v.seeds[last];
            if (x > 0 && y <= slots - last) test("one seed in the last symbol", has_twins(mode, k, &v, last + y - 1));
            else test("one seed in the last symbol, other masks", is_kept(&one, mode, k, &v));
            for (t = 0; t < slots; t++) v.seeds[t] = v.seeds[0];
            if (x > 0) test("one seed and two equal masks", has_twins(mode, k, &v, y - 1));
            else test("one seed, and mask 0 like another", is_fine(mode, k, &v));
        }
    }
}

/* Equal seeds, equal masks, a symbol like another: all fine. So are numbers that differ in one bit, are exchanged, or have equal sums. */
static void test_not_twins(int mode, int k) {
    const unsigned slots = figures[mode].slots;
    struct value v = value_of(mode, k), w;
    unsigned i;
    for (i = 0; i < slots; i++) v.seeds[i] = 12345;
    test("one seed, all masks different", is_fine(mode, k, &v));
    v = value_of(mode, k);
    for (i = 0; i < FLO_MASKS; i++) v.masks[i] = 12345;
    test("one mask, all seeds different", is_fine(mode, k, &v));
    for (i = 0; i < slots; i++) v.seeds[i] = 1 + i % 7;
    test("one mask, all symbols alike", is_fine(mode, k, &v));
    v = value_of(mode, k);
    make_alike(&v, 2, 5);
    for (i = 0; i < 20; i++) {
        w = v;
        w.seeds[5] ^= (uint32_t)1 << i;
        test("seeds that differ in a bit", w.seeds[5] == 0 || is_kept(&one, mode, k, &w));
        w = v;
        w.masks[6] ^= (uint32_t)1 << i;
        test("masks that differ in a bit", w.masks[6] == 0 || is_kept(&one, mode, k, &w));
    }
    w = v;
    w.masks[3] = w.seeds[5] = 4711;
    w.seeds[2] = w.masks[6] = 815;
    test("seed and mask exchanged", is_kept(&one, mode, k, &w));
    w.masks[3] = 1000;
    w.seeds[2] = 2001;
    w.masks[6] = 1001;
    w.seeds[5] = 2000;
    test("equal sums", is_kept(&one, mode, k, &w));
    w.masks[3] = w.masks[6] = w.seeds[2] = w.seeds[5] = 1;
    test("the least numbers", has_twins(mode, k, &w, 5));
    w.masks[3] = w.masks[6] = w.seeds[2] = w.seeds[5] = 1048575;
    test("the largest numbers", has_twins(mode, k, &w, 5));
}

/* Several alike at once, all with one mask: pairs of slots, which are made alike in this order, and the slot that is named. Slot 50 stands for the last
   one, 51 for the one before it; these two are in one symbol. */
static const struct {
    unsigned pairs[3][2], named;
} several[] = {
    {{{0, 3}, {0, 5}, {0, 5}}, 3},  {{{0, 6}, {2, 4}, {2, 4}}, 4},   {{{0, 3}, {1, 2}, {1, 2}}, 2},   {{{0, 2}, {1, 3}, {1, 3}}, 2},
    {{{4, 5}, {1, 6}, {1, 6}}, 5},  {{{7, 8}, {3, 6}, {3, 6}}, 6},   {{{3, 4}, {8, 9}, {51, 50}}, 4}, {{{51, 50}, {7, 9}, {8, 10}}, 9},
    {{{0, 7}, {6, 8}, {51, 50}}, 50}, {{{0, 50}, {9, 11}, {51, 6}}, 11}, {{{5, 6}, {6, 7}, {7, 8}}, 6}, {{{6, 7}, {7, 8}, {1, 9}}, 8},
};

static void test_several(int mode, int k) {
    const unsigned slots = figures[mode].slots;
    unsigned i, j;
    struct value v;
    for (i = 0; i < sizeof several / sizeof several[0]; i++) {
        v = value_of(mode, k);
        for (j = 0; j < FLO_MASKS; j++) v.masks[j] = 77;
        for (j = 0; j < 3; j++) {
            const unsigned u = several[i].pairs[j][0], t = several[i].pairs[j][1];
            make_alike(&v, u >= 50 ? slots + 49 - u : u, t >= 50 ? slots + 49 - t : t);
        }
        test("several slots alike", has_twins(mode, k, &v, several[i].named >= 50 ? slots + 49 - several[i].named : several[i].named));
    }
    for (j = 0; j < slots; j++) v.seeds[j] = 77;
    test("all slots alike", has_twins(mode, k, &v, 1));
}

/* Twins beside another fault: that one is named, in a value and in bytes. What is no fault in modes 0 and 1 leaves them. */
static void test_twins_beside(int mode, int k, unsigned u, unsigned t) {
    static const uint8_t more[3][SURPLUS] = {{6, 0, 4, 0, 0, 0, 0, 0}, {7, 0, 4, 0, 0, 0, 0, 0}, {0, 0, 0, 0, 0, 0, 0, 0}};
    struct block *b = &one;
    struct value twins = value_of(mode, k), v;
    size_t i, length;
    make_alike(&twins, u, t);
    for (i = 0; i < FAULTS; i++) {
        const uint32_t number = is_fault(mode, &faults[i]) ? faults[i].number : (uint32_t)FLO_TWIN_SLOTS;
        const size_t place = is_fault(mode, &faults[i]) ? place_in(mode, &faults[i]) : t;
        v = twins;
        spoil_value(&v, &faults[i]);
        begin(b, mode, k, 17);
        test("twins and a bad number of a value", is_unwritten(b, &v, number, place));
        begin_with(b, mode, k, &twins);
        if (!is_written(mode, &faults[i])) continue;
        spoil_bytes(b, &faults[i]);
        b->due = place;
        test("twins and a bad number of a profile", is_refused(b, number));
    }
    v = twins;
    v.seeds[u] = v.seeds[t] = 0;
    begin(b, mode, k, 17);
    test("twins that are bad seeds", is_unwritten(b, &v, FLO_BAD_SEED, 53 + 4 * (size_t)u));
    begin_with(b, mode, k, &v);
    b->due = 53 + 4 * (size_t)u;
    test("twins that are bad seeds", is_refused(b, FLO_BAD_SEED));
    begin_with(b, mode, k, &twins);
    length = b->profile_length;
    for (i = 1; i <= 3 * SURPLUS; i++) {
        const size_t surplus = (i - 1) % SURPLUS + 1;
        memcpy(b->profile + length, more[(i - 1) / SURPLUS], SURPLUS);
        b->profile_length = length + surplus;
        test("twins and surplus bytes", is_refused(b, surplus < 3 ? FLO_CUT_IN_FIELD : FLO_WRONG_TAG));
    }
    for (i = 0; i < length; i++) {
        const int between = i == 0 || i == 35 || i == 42 || i == 46 || i == 50 || i + 7 == length;
        b->profile_length = i;
        if (!between && i + 8 <= length && i % 16 != 0) continue;
        test("twins in a profile that is cut", is_refused(b, between ? FLO_FIELD_MISSING : FLO_CUT_IN_FIELD));
    }
    b->profile_length = length;
    b->profile[length - 5] = 5;
    test("twins and the floor's length", is_refused(b, FLO_WRONG_LENGTH));
    b->profile[length - 7] = 7;
    test("twins and the floor's tag", is_refused(b, FLO_WRONG_TAG));
}

/* The grid of a profile whose slots u and t have one mask, received when the seeds are one too: of a packet or two other bits would come, and the data
   would still be restored. It isn't, nor is it asked for, and a state that it would be fed to is kept. */
static void test_twins_received(int mode, int k, unsigned u, unsigned t) {
    struct block *b = &one;
    struct value v = value_of(mode, k);
    static uint8_t zeros[FLO_STATE];
    v.masks[1 + t % 7] = v.masks[1 + u % 7];
    begin(b, mode, k, 17);
    test("one mask", write_value(b, &v) == FLO_DONE && send_block(b) == FLO_DONE && feed_all(b, CELLS));
    put_number(b, 53 + 4 * (size_t)t, v.seeds[t] ^ 1);
    test("another seed", receive(b, 0) == FLO_DONE && came_back(b) && b->lost != 0 && ask(b, 0) == FLO_DONE && came_back(b));
    put_number(b, 53 + 4 * (size_t)t, v.seeds[u]);
    b->due = t;
    memset(b->received, PAINT, sizeof b->received);
    test("the same seed", receive(b, 0) == FLO_TWIN_SLOTS && no_answer(b) && is_painted(b->received, sizeof b->received));
    b->lost = 0xA5A5;
    memset(b->reasons, PAINT, sizeof b->reasons);
    test("the same seed, asked", ask(b, 0) == FLO_TWIN_SLOTS && no_answer(b) && is_painted(b->received, sizeof b->received));
    memset(b->state, 0, FLO_STATE);
    test("the same seed, fed", feed(b, 0, b->cells) == FLO_TWIN_SLOTS && memcmp(b->state, zeros, FLO_STATE) == 0);
}

static void test_twins(int mode, int k) {
    const unsigned slots = figures[mode].slots;
    test_two_slots(mode, k);
    test_two_masks(mode, k);
    test_not_twins(mode, k);
    test_several(mode, k);
    test_twins_beside(mode, k, 2, 4);
    test_twins_beside(mode, k, slots - 2, slots - 1);
    test_twins_received(mode, k, 0, 6);
    test_twins_received(mode, k, slots - 2, slots - 1);
}

/* ---- two grids side by side */

static struct pair {
    uint32_t firsts_a[CELLS], seconds_a[CELLS], firsts_b[CELLS], seconds_b[CELLS];
    size_t cells;
    uint32_t differences[CELLS * FLO_DIFFERENCE + FLO_DIFFERENCE]; /* painted before each call, as the count is */
    uint64_t count, behind;
} two;

enum { DIFFERENCES = sizeof two.differences / sizeof two.differences[0] };

/* Twice the same grid. */
static void begin_pair(size_t symbols) {
    uint32_t i;
    two.cells = symbols * FLO_SYMBOL_CELLS;
    for (i = 0; i < CELLS; i++) {
        two.firsts_a[i] = two.firsts_b[i] = i * 2654435761u;
        two.seconds_a[i] = two.seconds_b[i] = ~i * 40503u;
    }
}

/* Compares lists of any lengths, the empty ones without an address. */
static uint32_t compare_lengths(size_t one, size_t second, size_t third, size_t fourth, size_t length) {
    memset(two.differences, PAINT, sizeof two.differences);
    memset(&two.count, PAINT, sizeof two.count);
    memset(&two.behind, PAINT, sizeof two.behind);
    return flo_compare(one ? two.firsts_a : NULL, one, second ? two.seconds_a : NULL, second, third ? two.firsts_b : NULL, third,
                       fourth ? two.seconds_b : NULL, fourth, length ? two.differences : NULL, length, &two.count);
}

static uint32_t compare(size_t length) {
    return compare_lengths(two.cells, two.cells, two.cells, two.cells, length);
}

/* The list's difference of this number is that cell, with what both grids have in it. */
static int is_listed(size_t number, uint32_t symbol, uint32_t cell) {
    const size_t i = (size_t)symbol * FLO_SYMBOL_CELLS + cell;
    const uint32_t six[FLO_DIFFERENCE] = {symbol, cell, two.firsts_a[i], two.seconds_a[i], two.firsts_b[i], two.seconds_b[i]};
    return memcmp(two.differences + number * FLO_DIFFERENCE, six, sizeof six) == 0;
}

/* Behind so many differences the list is as it was: the next number is painted, and each is as the one before it. So is what follows the count. */
static int is_kept_behind(size_t number) {
    const uint32_t *rest = two.differences + number * FLO_DIFFERENCE;
    const size_t length = DIFFERENCES - number * FLO_DIFFERENCE;
    return is_painted(&two.behind, sizeof two.behind) && is_painted(rest, sizeof *rest) &&
           memcmp(rest, rest + 1, (length - 1) * sizeof *rest) == 0;
}

/* Both zeros, a subnormal, both ones, both infinities, and NaNs: quiet, of another payload, signalling, of the other sign. */
static const uint32_t patterns[] = {0,          0x80000000, 1,          0x3F800000, 0xBF800000, 0x7F800000,
                                    0xFF800000, 0x7FC00000, 0x7FC00001, 0x7F800001, 0xFFC00000, 0xFFFFFFFF};
enum { PATTERNS = sizeof patterns / sizeof patterns[0] };

static void test_patterns(void) {
    static const uint32_t cells[] = {0, FLO_SYMBOL_CELLS - 1, FLO_SYMBOL_CELLS, 2 * FLO_SYMBOL_CELLS - 1};
    unsigned i;
    begin_pair(2);
    for (i = 0; i < 8 * PATTERNS * PATTERNS; i++) {
        const uint32_t cell = cells[i % 4], a = patterns[i / 8 % PATTERNS], b = patterns[i / 8 / PATTERNS];
        const size_t due = a != b;
        uint32_t *const of_a = i / 4 % 2 == 0 ? two.firsts_a : two.seconds_a, *const of_b = i / 4 % 2 == 0 ? two.firsts_b : two.seconds_b;
        of_a[cell] = a;
        of_b[cell] = b;
        test("a pattern against another", compare(DIFFERENCES) == FLO_DONE && two.count == due && is_kept_behind(due) &&
                                              (due == 0 || is_listed(0, cell / FLO_SYMBOL_CELLS, cell % FLO_SYMBOL_CELLS)));
        of_b[cell] = a;
    }
}

static void test_compare(void) {
    static const uint32_t six[FLO_DIFFERENCE] = {1, 0, 0x3F800000, 0, 0x3F800000, 0x80000000};
    size_t length;
    begin_pair(2);
    test("the same grids", compare(DIFFERENCES) == FLO_DONE && two.count == 0 && is_kept_behind(0));
    two.firsts_a[FLO_SYMBOL_CELLS] = two.firsts_b[FLO_SYMBOL_CELLS] = 0x3F800000;
    two.seconds_a[FLO_SYMBOL_CELLS] = 0;
    two.seconds_b[FLO_SYMBOL_CELLS] = 0x80000000;
    test("+0.0 and -0.0", compare(DIFFERENCES) == FLO_DONE && two.count == 1 && is_kept_behind(1) && memcmp(two.differences, six, sizeof six) == 0);
    two.firsts_b[FLO_SYMBOL_CELLS - 1] ^= 1;
    two.firsts_b[2 * FLO_SYMBOL_CELLS - 1] = two.seconds_a[2 * FLO_SYMBOL_CELLS - 1];
    two.seconds_b[2 * FLO_SYMBOL_CELLS - 1] = two.firsts_a[2 * FLO_SYMBOL_CELLS - 1];
    for (length = 0; length <= 3 * FLO_DIFFERENCE + 7; length++) {
        const size_t listed = length / FLO_DIFFERENCE < 3 ? length / FLO_DIFFERENCE : 3;
        test("all are counted", compare(length) == FLO_DONE && two.count == 3);
        test("those that fit are listed", (listed < 1 || is_listed(0, 0, FLO_SYMBOL_CELLS - 1)) && (listed < 2 || is_listed(1, 1, 0)) &&
                                              (listed < 3 || is_listed(2, 1, FLO_SYMBOL_CELLS - 1)) && is_kept_behind(listed));
    }
}

static void test_all_differ(void) {
    uint32_t i;
    int listed = 1;
    begin_pair(FLO_MOST_SYMBOLS);
    for (i = 0; i < CELLS; i++) *(i % 2 == 0 ? &two.firsts_b[i] : &two.seconds_b[i]) ^= 1u << i % 32;
    test("all cells differ", compare(CELLS * FLO_DIFFERENCE) == FLO_DONE && two.count == CELLS && is_kept_behind(CELLS));
    for (i = 0; i < CELLS; i++) listed = listed && is_listed(i, i / FLO_SYMBOL_CELLS, i % FLO_SYMBOL_CELLS);
    test("all are listed", listed);
    test("all but one are listed", compare(CELLS * FLO_DIFFERENCE - 1) == FLO_DONE && two.count == CELLS && is_kept_behind(CELLS - 1));
    test("none is listed", compare(0) == FLO_DONE && two.count == CELLS && is_kept_behind(0));
    test("the same lists as A and B", flo_compare(two.firsts_a, CELLS, two.seconds_b, CELLS, two.firsts_a, CELLS, two.seconds_b, CELLS,
                                                  two.differences, DIFFERENCES, &two.count) == FLO_DONE && two.count == 0 && is_kept_behind(0));
    test("the same list four times", flo_compare(two.firsts_a, CELLS, two.firsts_a, CELLS, two.firsts_a, CELLS, two.firsts_a, CELLS, NULL, 0,
                                                 &two.count) == FLO_DONE && two.count == 0);
}

/* Lists of these lengths get this number, the count is zero and the list is as it was. All cells differ, so that a count would be seen. */
static int is_turned_down(uint32_t number, size_t one, size_t second, size_t third, size_t fourth) {
    return compare_lengths(one, second, third, fourth, DIFFERENCES) == number && two.count == 0 && is_kept_behind(0) &&
           compare_lengths(one, second, third, fourth, 0) == number && two.count == 0;
}

static void test_lengths(void) {
    static const size_t lengths[] = {0, 1, FLO_SYMBOL_CELLS / 2, FLO_SYMBOL_CELLS - 1, FLO_SYMBOL_CELLS, FLO_SYMBOL_CELLS + 1, CELLS - 1, CELLS};
    enum { LENGTHS = sizeof lengths / sizeof lengths[0] };
    unsigned i, j;
    begin_pair(FLO_MOST_SYMBOLS);
    for (i = 0; i < CELLS; i++) two.firsts_b[i] ^= 1;
    for (i = 0; i < LENGTHS; i++) {
        const size_t n = lengths[i];
        const uint32_t number = n % FLO_SYMBOL_CELLS == 0 ? FLO_DONE : FLO_CELLS_LENGTH;
        test("whole symbols or not", compare_lengths(n, n, n, n, 0) == number && two.count == (number == FLO_DONE ? n : 0));
        test("not whole symbols", number == FLO_DONE || is_turned_down(number, n, n, n, n));
        for (j = 0; j < LENGTHS; j++) {
            const size_t m = lengths[j];
            if (i == j) continue;
            test("one list of another length", is_turned_down(FLO_LENGTHS_DIFFER, m, n, n, n) && is_turned_down(FLO_LENGTHS_DIFFER, n, m, n, n) &&
                                                   is_turned_down(FLO_LENGTHS_DIFFER, n, n, m, n) && is_turned_down(FLO_LENGTHS_DIFFER, n, n, n, m));
            test("two of one and two of another", is_turned_down(FLO_LENGTHS_DIFFER, n, n, m, m) && is_turned_down(FLO_LENGTHS_DIFFER, n, m, n, m) &&
                                                      is_turned_down(FLO_LENGTHS_DIFFER, n, m, m, n));
        }
    }
    test("empty grids", compare_lengths(0, 0, 0, 0, DIFFERENCES) == FLO_DONE && two.count == 0 && is_kept_behind(0));
}

/* ---- totals over blocks */

struct receipt {
    uint32_t number;
    uint16_t lost;
    uint8_t reasons[FLO_PACKETS];
};

enum { OF_POSITION = FLO_TOTALS / FLO_PACKETS, BLOCKS = 3, RECEIPTS = 4000 };
static const uint32_t of_block[BLOCKS] = {FLO_DONE, FLO_TOO_MANY_LOST, FLO_NO_CODEWORD};

/* The lent totals with what lies around them, and beside them what is due there. */
static struct month {
    uint64_t before[FLO_TOTALS], totals[FLO_TOTALS], behind[FLO_TOTALS];
} month, known;

static void begin_month(uint64_t total) {
    unsigned i;
    memset(&month, PAINT, sizeof month);
    for (i = 0; i < FLO_TOTALS; i++) month.totals[i] = total;
    known = month;
}

/* Sets one total. */
static void set_total(unsigned place, uint64_t total) {
    month.totals[place] = known.totals[place] = total;
}

static int is_block(uint32_t number) {
    return number == of_block[0] || number == of_block[1] || number == of_block[2];
}

/* The totals that a right receipt raises for packet p: one where it was accepted, or else two, the first of them that of its reason. */
static unsigned raised(const struct receipt *r, unsigned p, unsigned places[2]) {
    places[0] = places[1] = OF_POSITION * p;
    if (r->reasons[p] == FLO_ACCEPTED) return 1;
    places[0] += 3u + r->reasons[p] - FLO_MARKED;
    places[1] += r->number == FLO_DONE ? 1 : 2;
    return 2;
}

static int is_raised(const struct receipt *r, unsigned place) {
    unsigned places[2];
    return raised(r, place / OF_POSITION, places) == 2 ? place == places[0] || place == places[1] : place == places[0];
}

/* Adding a receipt answers this number, at 0 a block's totals have risen, and all else is as it was, what lies around the reasons too. */
static int is_added(const struct receipt *r, uint32_t number) {
    uint8_t lent[3 * FLO_PACKETS], before[sizeof lent];
    unsigned place;
    memset(lent, PAINT, sizeof lent);
    memcpy(lent + FLO_PACKETS, r->reasons, FLO_PACKETS);
    memcpy(before, lent, sizeof lent);
    for (place = 0; place < FLO_TOTALS; place++) known.totals[place] += number == FLO_DONE && is_block(r->number) && is_raised(r, place);
    return flo_add(month.totals, FLO_TOTALS, r->number, r->lost, lent + FLO_PACKETS) == number && memcmp(&month, &known, sizeof month) == 0 &&
           memcmp(lent, before, sizeof lent) == 0;
}

/* Sixteen bits that look like any, the same in every run. */
static unsigned draw(void) {
    static uint32_t state = 2025;
    state = state * 1664525u + 1013904223u;
    return state >> 16;
}

/* A right receipt of these lost packets, with any reasons for them. */
static struct receipt receipt_of(uint32_t number, unsigned lost) {
    struct receipt r;
    unsigned p;
    r.number = number;
    r.lost = (uint16_t)lost;
    for (p = 0; p < FLO_PACKETS; p++) r.reasons[p] = (uint8_t)(lost >> p & 1 ? FLO_MARKED + draw() % 5 : 0);
    return r;
}

/* The reports of three blocks, the second that of document 01, and the totals by hand. */
static void test_add(void) {
    static const struct receipt done = {FLO_DONE, 0x8001, {12, 0, 0, 0, 0, 0, 0, 0, 0, 0, 0, 0, 0, 0, 0, 14}};
    static const struct receipt nine = {FLO_TOO_MANY_LOST, 548, {0, 0, 11, 0, 0, 11, 0, 0, 0, 11, 0, 0, 0, 0, 0, 0}};
    static const struct receipt ten = {FLO_NO_CODEWORD, 0x8200, {0, 0, 0, 0, 0, 0, 0, 0, 0, 13, 0, 0, 0, 0, 0, 15}};
    static const uint64_t other[OF_POSITION] = {3, 0, 0, 0, 0, 0, 0, 0}, first[OF_POSITION] = {2, 1, 0, 0, 1, 0, 0, 0};
    static const uint64_t marked[OF_POSITION] = {2, 0, 1, 1, 0, 0, 0, 0}, ninth[OF_POSITION] = {1, 0, 2, 1, 0, 1, 0, 0};
    static const uint64_t last[OF_POSITION] = {1, 1, 1, 0, 0, 0, 1, 1};
    unsigned p;
    begin_month(0);
    test("the first block", is_added(&done, FLO_DONE));
    test("the second block", is_added(&nine, FLO_DONE));
    test("the third block", is_added(&ten, FLO_DONE));
    for (p = 0; p < FLO_PACKETS; p++) {
        const uint64_t *due = p == 0 ? first : p == 2 || p == 5 ? marked : p == 9 ? ninth : p == 15 ? last : other;
        test("their totals", memcmp(month.totals + OF_POSITION * p, due, sizeof other) == 0);
    }
    begin_month(0);
    test("reasons that can't be written", flo_add(month.totals, FLO_TOTALS, nine.number, nine.lost, nine.reasons) == FLO_DONE);
    test("the number of full totals and that of wrong receipts", FLO_TOTAL_FULL == 19 && FLO_DISAGREE == 23 && FLO_TOTALS == 128);
}

/* Right receipts, wrong ones and ones that are no block's; then in the other direction. The sums are those of the blocks that were made. */
static void test_sequence(void) {
    static struct receipt receipts[RECEIPTS];
    static uint32_t numbers[RECEIPTS];
    static uint64_t totals[FLO_TOTALS];
    unsigned i, p, blocks = 0;
    int same = 1;
    begin_month(0);
    for (i = 0; i < RECEIPTS; i++) {
        const unsigned kind = draw() % 6, lost = draw() % 8 == 0 ? draw() % 2 * 0xFFFF : draw();
        receipts[i] = receipt_of(of_block[draw() % BLOCKS], lost);
        numbers[i] = FLO_DONE;
        if (kind == 0) receipts[i].number = 11 + draw() % 40 + 256 * (draw() % 3);
        if (kind == 1) receipts[i].lost ^= (uint16_t)(1 + draw() % 0xFFFF);
        if (kind == 2) receipts[i].reasons[draw() % FLO_PACKETS] = (uint8_t)(16 + draw() % 240);
        if (kind == 1 || kind == 2) numbers[i] = FLO_DISAGREE;
        blocks += kind > 2;
        same = same && is_added(&receipts[i], numbers[i]);
    }
    test("a sequence of receipts", same);
    memcpy(totals, month.totals, sizeof totals);
    for (p = 0; p < FLO_PACKETS; p++) {
        const uint64_t *eight = totals + OF_POSITION * p;
        test("each block is counted once", eight[0] + eight[1] + eight[2] == blocks);
        test("each loss has one reason", eight[3] + eight[4] + eight[5] + eight[6] + eight[7] == eight[1] + eight[2]);
    }
    begin_month(0);
    for (i = RECEIPTS; i > 0; i--) same = same && is_added(&receipts[i - 1], numbers[i - 1]);
    test("in the other direction", same && memcmp(totals, month.totals, sizeof totals) == 0);
}

/* Every reason of one packet, with its bit and without it, beside others that are right. */
static void test_reasons(uint32_t number, unsigned p, unsigned others) {
    struct receipt r = receipt_of(number, others);
    unsigned reason, bit;
    int right = 1;
    begin_month(draw());
    for (reason = 0; reason < 256; reason++) {
        for (bit = 0; bit < 2; bit++) {
            const int agree = bit == 1 ? reason >= FLO_MARKED && reason <= FLO_CODED_BITS : reason == FLO_ACCEPTED;
            r.reasons[p] = (uint8_t)reason;
            r.lost = (uint16_t)((others & ~(1u << p)) | bit << p);
            right = right && is_added(&r, agree ? FLO_DONE : FLO_DISAGREE);
        }
    }
    test("a reason with its bit and without it", right);
}

static void test_disagree(void) {
    unsigned i, p, lost;
    for (i = 0; i < BLOCKS; i++) {
        const struct receipt r = receipt_of(of_block[i], 0x3C5A);
        int right = 1;
        for (p = 0; p < FLO_PACKETS; p++) {
            test_reasons(of_block[i], p, 0);
            test_reasons(of_block[i], p, 0xFFFF);
            test_reasons(of_block[i], p, draw());
        }
        begin_month(7);
        for (lost = 0; lost <= 0xFFFF; lost++) {
            struct receipt turned = r;
            turned.lost = (uint16_t)lost;
            right = right && is_added(&turned, lost == r.lost ? FLO_DONE : FLO_DISAGREE);
        }
        test("every mask with the same reasons", right);
    }
}

/* A receipt twice, with one total at the top or one below it, and all others low; between them a wrong one and one that is no block's. */
static int is_judged_full(const struct receipt *r, unsigned place, uint64_t total) {
    struct receipt wrong = *r, none = *r;
    const int rises = is_raised(r, place);
    wrong.lost ^= (uint16_t)(1u << draw() % FLO_PACKETS);
    none.number = FLO_CELLS_LENGTH;
    begin_month(draw());
    set_total(place, total);
    return is_added(&wrong, FLO_DISAGREE) && is_added(r, rises && total == UINT64_MAX ? FLO_TOTAL_FULL : FLO_DONE) &&
           is_added(&wrong, FLO_DISAGREE) && is_added(&none, FLO_DONE) && is_added(r, rises ? FLO_TOTAL_FULL : FLO_DONE);
}

static void test_full(void) {
    unsigned place, i, reason;
    for (place = 0; place < FLO_TOTALS; place++) {
        for (i = 0; i < BLOCKS; i++) {
            int right = 1;
            for (reason = FLO_MARKED - 1; reason <= FLO_CODED_BITS; reason++) {
                const unsigned p = place / OF_POSITION, is_lost = reason >= FLO_MARKED;
                struct receipt r = receipt_of(of_block[i], (draw() & ~(1u << p)) | is_lost << p);
                r.reasons[p] = (uint8_t)(is_lost ? reason : 0);
                right = right && is_judged_full(&r, place, UINT64_MAX) && is_judged_full(&r, place, UINT64_MAX - 1);
            }
            test("a total at the top", right);
        }
    }
}

/* All at the top but those that rise, which get there; then all but one of these one below it. Then totals where the next number needs a bit more. */
static void test_all_full(uint32_t number, unsigned lost) {
    const struct receipt r = receipt_of(number, lost);
    unsigned place, bits;
    int right = 1;
    begin_month(UINT64_MAX);
    for (place = 0; place < FLO_TOTALS; place++)
        if (is_raised(&r, place)) set_total(place, UINT64_MAX - 1);
    test("those at the top don't rise", is_added(&r, FLO_DONE));
    test("all are at the top", is_added(&r, FLO_TOTAL_FULL));
    for (place = 0; place < FLO_TOTALS; place++) {
        begin_month(UINT64_MAX - 1);
        set_total(place, UINT64_MAX);
        right = right && is_added(&r, is_raised(&r, place) ? FLO_TOTAL_FULL : FLO_DONE);
    }
    test("one is at the top, the others one below it", right);
    begin_month(UINT64_MAX - 1);
    test("all are one below the top", is_added(&r, FLO_DONE) && is_added(&r, FLO_TOTAL_FULL));
    for (bits = 1; bits < 64; bits++) {
        begin_month(((uint64_t)1 << bits) - 1);
        test("totals need a bit more", is_added(&r, FLO_DONE) && is_added(&r, FLO_DONE));
    }
}

/* A number that is no block's: right otherwise, wrong, and with reasons that nobody gave; with low totals and with full ones. */
static int is_passed_over(uint32_t number) {
    const struct receipt right = receipt_of(number, draw());
    struct receipt wrong = right;
    int same = 1, turn;
    wrong.reasons[draw() % FLO_PACKETS] = 99;
    wrong.lost = (uint16_t)draw();
    for (turn = 0; turn < 2; turn++) {
        begin_month(turn == 0 ? 0 : UINT64_MAX);
        same = same && is_added(&right, FLO_DONE) && is_added(&wrong, FLO_DONE) && flo_add(NULL, 0, number, wrong.lost, wrong.reasons) == FLO_DONE;
    }
    return same;
}

static void test_no_block(void) {
    unsigned i, bit;
    uint32_t number;
    for (number = 0; number < 70; number++) test("a number that is no block's", is_block(number) || is_passed_over(number));
    for (i = 0; i < BLOCKS; i++) {
        for (bit = 0; bit < 32; bit++) {
            number = of_block[i] ^ (uint32_t)1 << bit;
            test("a number near a block's", is_block(number) || is_passed_over(number));
        }
        test("a number of other signs or upper bits", is_passed_over(~of_block[i]) && is_passed_over(of_block[i] | 0xFFFFFF00) &&
                                                          (of_block[i] == 0 || is_passed_over(0 - of_block[i])));
    }
}

/* Lists of other lengths are refused after what is no block, and before a full total; nothing in them or behind them moves. */
static void test_totals_lengths(void) {
    static const size_t lengths[] = {1, 8, 16, 64, 120, 126, 127, 129, 130, 136, 255, 256, 384, 1000, 1024, 65536, 65536 + FLO_TOTALS, 0};
    static uint64_t lent[65536 + 3 * FLO_TOTALS];
    const size_t count = sizeof lent / sizeof lent[0];
    size_t i, j;
    for (i = 0; i < sizeof lengths / sizeof lengths[0]; i++) {
        for (j = 0; j < 2 * BLOCKS; j++) {
            const struct receipt r = receipt_of(of_block[j % BLOCKS], draw());
            uint64_t *const list = lengths[i] == 0 ? NULL : lent + FLO_TOTALS;
            memset(lent, j < BLOCKS ? PAINT : 0xFF, sizeof lent);
            test("a list of another length", flo_add(list, lengths[i], r.number, r.lost, r.reasons) == FLO_DISAGREE &&
                                                 flo_add(list, lengths[i], r.number, r.lost ^ 1u, r.reasons) == FLO_DISAGREE);
            test("and what is no block", flo_add(list, lengths[i], FLO_BAD_K, r.lost, r.reasons) == FLO_DONE &&
                                             flo_add(list, lengths[i], FLO_DISAGREE, r.lost ^ 1u, r.reasons) == FLO_DONE);
            test("it is as it was", memcmp(lent, lent + 1, (count - 1) * sizeof *lent) == 0 && *(uint8_t *)lent == (j < BLOCKS ? PAINT : 0xFF));
        }
    }
}

static void test_totals(void) {
    unsigned i;
    test_add();
    test_sequence();
    test_disagree();
    test_full();
    for (i = 0; i < BLOCKS; i++) {
        test_all_full(of_block[i], 0);
        test_all_full(of_block[i], 0xFFFF);
        test_all_full(of_block[i], 0x5A3C);
    }
    test_no_block();
    test_totals_lengths();
}

/* Adds what a call answered of this block: the number that is due, the lost mask and the reasons. */
static int is_counted(const struct block *b, uint32_t number, uint32_t due) {
    struct receipt r;
    r.number = number;
    r.lost = b->lost;
    memcpy(r.reasons, b->reasons, sizeof r.reasons);
    return number == due && is_added(&r, FLO_DONE);
}

/* A block that is received, one that isn't, and what is refused, each whole and in pieces: packet 3 is another block's, and then marked. */
static void test_received(int mode, int k) {
    static const uint64_t others[OF_POSITION] = {6, 0, 0, 0, 0, 0, 0, 0}, third[OF_POSITION] = {2, 2, 2, 4, 0, 0, 0, 0};
    struct block *b = &one;
    begin(&other, mode, k, 16);
    send_block(&other);
    begin(b, mode, k, 17);
    send_block(b);
    copy_packet(b, &other, 3);
    begin_month(0);
    test("a block that isn't received", is_counted(b, receive(b, 0), FLO_NO_CODEWORD));
    test("one that is", is_counted(b, receive(b, 8), FLO_DONE));
    test("too many lost", is_counted(b, receive(b, 0x01FF), FLO_TOO_MANY_LOST));
    feed_all(b, 1000);
    test("in pieces", is_counted(b, ask(b, 0), FLO_NO_CODEWORD) && is_counted(b, ask(b, 8), FLO_DONE) &&
                          is_counted(b, ask(b, 0x01FF), FLO_TOO_MANY_LOST));
    memset(b->state, 0, FLO_STATE);
    test("asked too early", is_counted(b, ask(b, 8), FLO_CELLS_MISSING));
    b->data_length -= 1;
    test("too short a room", is_counted(b, receive(b, 8), FLO_DATA_LENGTH));
    b->profile_length -= 1;
    test("a profile that is cut", is_counted(b, receive(b, 8), FLO_CUT_IN_FIELD));
    test("the totals of packet 3", memcmp(month.totals + OF_POSITION * 3, third, sizeof third) == 0);
    test("those of packet 9", memcmp(month.totals + OF_POSITION * 9, others, sizeof others) == 0);
}

/* ---- several threads at once: each has a block of its own, sends and receives it again and again, and must find what it found alone */

struct worker {
    struct block alone, now;
    int is_right;
};

static int same_block(const struct block *a, const struct block *b) {
    return memcmp(a, b, sizeof *a) == 0;
}

/* The block as it was received, so often that threads which shared something would meet. */
static int add_often(struct block *b) {
    int i;
    memset(b->totals, 0, sizeof b->totals);
    for (i = 0; i < RECEIPTS; i++)
        if (flo_add(b->totals, FLO_TOTALS, FLO_DONE, b->lost, b->reasons) != FLO_DONE) return 0;
    return b->totals[FLO_TOTALS - OF_POSITION + 1] == RECEIPTS;
}

static int run_block(struct block *b, int number) {
    begin(b, number % MODES, number < 2 ? 8 : 14, (unsigned)number);
    if (send_block(b) != FLO_DONE) return 0;
    turn_over(b, (unsigned)number, 500);
    if (receive(b, 0x8000) != FLO_DONE || !came_back(b)) return 0;
    return feed_all(b, 3000) && ask(b, 0x8000) == FLO_DONE && came_back(b) && add_often(b);
}

static void *work(void *memory) {
    struct worker *w = (struct worker *)memory;
    int turn, number = w->is_right;
    w->is_right = 1;
    for (turn = 0; turn < TURNS; turn++) w->is_right = w->is_right && run_block(&w->now, number) && same_block(&w->now, &w->alone);
    return NULL;
}

static void test_threads(void) {
    static struct worker workers[THREADS];
    pthread_t threads[THREADS];
    int i;
    for (i = 0; i < THREADS; i++) test("alone", run_block(&workers[i].alone, i));
    for (i = 0; i < THREADS; i++) {
        workers[i].is_right = i;
        if (pthread_create(&threads[i], NULL, work, &workers[i]) != 0) {
            test("a thread", 0);
            return;
        }
    }
    for (i = 0; i < THREADS; i++) {
        pthread_join(threads[i], NULL);
        test("beside other threads as alone", workers[i].is_right);
    }
}

/* ---- the stack: each call on a thread whose stack has FLO_STACK bytes and nothing below them */

static struct block small;

static void *nothing(void *number) {
    return number;
}

static void *call_send(void *number) {
    *(uint32_t *)number = send_block(&small);
    return number;
}

static void *call_send_symbol(void *number) {
    *(uint32_t *)number = send_symbol(&small, 0, small.firsts, small.seconds);
    return number;
}

static void *call_receive(void *number) {
    *(uint32_t *)number = receive(&small, (uint16_t)((1u << (FLO_PACKETS - small.k)) - 1));
    return number;
}

static void *call_feed(void *number) {
    memset(small.state, 0, FLO_STATE);
    *(uint32_t *)number = feed(&small, 0, small.cells);
    return number;
}

static void *call_ask(void *number) {
    *(uint32_t *)number = ask(&small, (uint16_t)((1u << (FLO_PACKETS - small.k)) - 1));
    return number;
}

static void *call_read_profile(void *number) {
    static uint32_t masks[FLO_MASKS], seeds[FLO_SEEDS];
    static float level, floor;
    static uint8_t mode, k;
    *(uint32_t *)number =
        placed(&small, flo_read_profile(small.profile, small.profile_length, masks, &level, &mode, &k, seeds, &floor, &small.place));
    return number;
}

static void *call_write_profile(void *number) {
    *(uint32_t *)number = write_profile(&small);
    return number;
}

static void *call_parity(void *number) {
    static uint8_t block[FLO_BLOCK_BYTES];
    *(uint32_t *)number = flo_parity(small.k, block, FLO_BLOCK_BYTES);
    return number;
}

static void *call_compare(void *number) {
    begin_pair(FLO_MOST_SYMBOLS);
    two.firsts_b[CELLS - 1] ^= 1;
    *(uint32_t *)number = compare(DIFFERENCES);
    return number;
}

static void *call_add(void *number) {
    const struct receipt r = receipt_of(FLO_NO_CODEWORD, 0x5A5A);
    begin_month(0);
    *(uint32_t *)number = flo_add(month.totals, FLO_TOTALS, r.number, r.lost, r.reasons);
    return number;
}

/* How many bytes of such a stack a thread wrote to; 0 where it couldn't be made or the call was refused. Below the stack nothing may be touched. */
static size_t stack_of(void *(*call)(void *)) {
    const size_t below = 65536;
    uint32_t number = FLO_DONE;
    pthread_attr_t attr;
    pthread_t thread;
    size_t untouched = 0;
    uint8_t *room = (uint8_t *)mmap(NULL, below + FLO_STACK, PROT_READ | PROT_WRITE, MAP_PRIVATE | MAP_ANONYMOUS, -1, 0);
    if (room == (uint8_t *)MAP_FAILED || mprotect(room, below, PROT_NONE) != 0) return 0;
    memset(room + below, PAINT, FLO_STACK);
    if (pthread_attr_init(&attr) != 0 || pthread_attr_setstack(&attr, room + below, FLO_STACK) != 0) return 0;
    if (pthread_create(&thread, &attr, call, &number) != 0) return 0;
    pthread_join(thread, NULL);
    pthread_attr_destroy(&attr);
    while (untouched < FLO_STACK && room[below + untouched] == PAINT) untouched++;
    munmap(room, below + FLO_STACK);
    return number == FLO_DONE ? FLO_STACK - untouched : 0;
}

static void test_stack(void) {
    static const struct {
        const char *name;
        void *(*call)(void *);
    } calls[] = {
        {"flo_send", call_send},
        {"flo_send_symbol", call_send_symbol},
        {"flo_receive", call_receive},
        {"flo_feed", call_feed},
        {"flo_ask", call_ask},
        {"flo_read_profile", call_read_profile},
        {"flo_write_profile", call_write_profile},
        {"flo_parity", call_parity},
        {"flo_compare", call_compare},
        {"flo_add", call_add},
    };
    static const uint8_t ks[] = {8, 12, 14};
    const size_t thread = stack_of(nothing);
    size_t i, j;
    printf("stack in bytes, beside the %lu of a thread that does nothing:", (unsigned long)thread);
    for (i = 0; i < sizeof calls / sizeof calls[0]; i++) {
        size_t most = 0;
        for (j = 0; j < 3 * MODES; j++) {
            size_t used;
            begin(&small, (int)(j % MODES), ks[j / MODES], 4);
            send_block(&small);
            feed_all(&small, CELLS);
            used = stack_of(calls[i].call);
            test(calls[i].name, used > 0);
            if (used > most) most = used;
        }
        printf(" %s %lu", calls[i].name, (unsigned long)(most - thread));
    }
    printf("\n");
}

int main(void) {
    static const int ks[] = {8, 12, 14};
    int i, mode;
    test("the sizes agree", FLO_BLOCK_BYTES == FLO_PACKETS * FLO_PACKET_BYTES && FLO_MOST_DATA == 14 * FLO_PACKET_BYTES &&
                                FLO_MOST_SYMBOLS == FLO_SYMBOLS(0) && FLO_STATE == 2 + CELLS && FLO_DIFFERENCE == 6 && FLO_MOST_PROFILE == 252);
    test("the number of twins", FLO_TWIN_SLOTS == 46);
    for (i = 0; i < 3 * MODES; i++) {
        test_round_trip(i % MODES, ks[i / MODES]);
        test_points(i % MODES, ks[i / MODES]);
        test_damage(i % MODES, ks[i / MODES]);
        test_neighbours(i % MODES, ks[i / MODES]);
        test_refusals(i % MODES, ks[i / MODES]);
        test_pieces(i % MODES, ks[i / MODES]);
        test_state(i % MODES, ks[i / MODES]);
        test_spoilt(i % MODES, ks[i / MODES]);
        test_received(i % MODES, ks[i / MODES]);
    }
    for (mode = 0; mode < MODES; mode++) {
        test_faults(mode, ks[mode % 3]);
        test_levels(mode, ks[mode % 3]);
        test_lines(mode, ks[mode % 3]);
        test_state_lines(mode, ks[mode % 3]);
        test_floors(mode, ks[mode % 3]);
        test_ranges(mode, ks[mode % 3]);
        test_twins(mode, ks[mode % 3]);
    }
    test_compare();
    test_patterns();
    test_all_differ();
    test_lengths();
    test_totals();
    test_threads();
    test_stack();
    printf("%d passed, %d failed\n", passed, failed);
    return failed != 0;
}
