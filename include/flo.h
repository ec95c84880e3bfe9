/* The card as a C library, for C99 and C++11. docs/GUIDE.md says what a block, a packet, a symbol and a cell are, what each number usually means,
   and how to make the library and link it.

   Lists pass as pointer and length. No pointer may be null, except with length 0, and what is written through must not overlap anything else
   that is passed.

   What a call writes is of two kinds:
   - Answers, which come back through the result pointers: `place` of every call that has a profile; `lost` and `reasons` of flo_receive and
     flo_ask; `masks`, `level`, `mode`, `k`, `seeds` and `floor` of flo_read_profile; `profile` and `count` of flo_write_profile; `count` of flo_compare. They
     are written at every return, whatever they held before: on a refusal with zeros, except that flo_receive and flo_ask still say at 9 and 10 which
     packets are lost and why, and that `place` says at 40 to 46 what is at fault in the profile.
   - Lent memory: the cell lists of a send, the `state` of flo_feed, the `data` of flo_receive and flo_ask, the `block` of flo_parity, the
     `differences` of flo_compare, the `totals` of flo_add. On a refusal it keeps what it held.

   A call keeps nothing for the next one (what flo_feed has to remember is in the caller's state), and the library has no memory of its own and asks
   for none. Calls may run on several threads at once, as long as none writes what another one reads or writes. The library calls memcpy, memmove and
   memset and nothing else. */
#ifndef FLO_H
#define FLO_H

#include <stddef.h>
#include <stdint.h>

#ifdef __cplusplus
extern "C" {
#endif

/* Sizes. Each of the two cell lists of a whole grid has FLO_SYMBOLS(mode) * FLO_SYMBOL_CELLS floats, and the data k * FLO_PACKET_BYTES bytes. */
#define FLO_SYMBOL_CELLS 4096                     /* cells of a symbol */
#define FLO_MOST_SYMBOLS 7                        /* symbols of the largest grid */
/* symbols of a grid, for modes 0 to 4: QPSK with rates 1/3 and 1/2, 16QAM with rates 1/3, 1/2 and 2/3 */
#define FLO_SYMBOLS(mode) ((mode) == 0 ? 7 : (mode) == 1 ? 5 : (mode) == 2 ? 4 : (mode) == 3 ? 3 : 2)
#define FLO_PACKETS 16                            /* packets of a block: k of data, then the parity packets */
#define FLO_PACKET_BYTES 122                      /* bytes of a packet */
#define FLO_BLOCK_BYTES 1952                      /* bytes of a block's 16 packets */
#define FLO_MOST_DATA 1708                        /* bytes of the most data, at k = 14 */
#define FLO_MASKS 8                               /* scrambling masks of a profile */
#define FLO_SEEDS 48                              /* places for seeds in a profile as a value; modes 0 to 4 use 48, 32, 24, 16, 12, and the others are zero */
#define FLO_MOST_PROFILE 252                      /* bytes of the longest profile, in mode 0; in modes 1 to 4 it has 188, 156, 124, 108 */
#define FLO_STATE 28674                           /* bytes of flo_feed's state, in every mode: 2, and one for each cell of the largest grid */
#define FLO_DIFFERENCE 6                          /* numbers that flo_compare lists for a difference */
#define FLO_TOTALS 128                            /* numbers of flo_add's totals: eight for each of the 16 packet positions */

/* A thread with a stack of this many bytes can make every call. As measured on x86-64, a call takes at most 226,000 of them (docs/MEASURED.md). */
#define FLO_STACK 262144

/* Every call answers one of these numbers: the first that reading the profile finds (1, 2, 3, 5, 40 to 46), then the first that fits of the call's
   own, in the order in which the call's comment names them, else 0. Only FLO_DONE is a success.

   At 40 to 45 `place` is the byte of the profile, from 0, where the faulty number begins; of the masks and of the seeds it is the first faulty one's.
   The masks begin at bytes 3, 7, .. 31, the level at 38, mode and K are bytes 45 and 49, the seeds begin at bytes 53, 57, .. , and the floor at byte 248
   in mode 0, 184, 152, 120, 104 in modes 1 to 4. At 46 `place` is a block slot: the first one that has the same seed and the same mask as an earlier
   slot of its symbol. At every other number, 0 too, `place` is zero. The profile's numbers are tested in the order of its bytes; only the level is tested
   once more right after the mode (41, byte 38), since modes 2 to 4 also send three times the level, rounded once to a float, and that has to be finite.
   46 comes after all of these, and after bytes that are left over (1, 2).

   Which slots may not be alike: block slots 7 * y to 7 * y + 6 (in the last symbol those that there are) are symbol y's, slot t has seeds[t], and its mask
   is masks[1 + t % 7]. No two slots of one symbol may have equal seeds and equal masks. The same seed with another mask, the same mask with another
   seed, and both the same in another symbol are fine. */
enum flo_number {
    FLO_DONE = 0,
    FLO_CUT_IN_FIELD = 1,    /* the profile ends inside a field */
    FLO_WRONG_TAG = 2,       /* a tag other than the one due */
    FLO_WRONG_LENGTH = 3,    /* a field's declared length is wrong */
    FLO_FIELD_MISSING = 5,   /* the profile ends between fields with one due */
    FLO_DATA_LENGTH = 6,     /* the data isn't k * 122 bytes long (flo_parity: the block isn't 1952) */
    FLO_CELLS_LENGTH = 7,    /* a cell list isn't 4096 x symbols long, or 4096 for a single symbol (flo_feed: the two lists differ in length;
                                flo_compare: the lists aren't whole symbols) */
    FLO_NO_SUCH_SYMBOL = 8,  /* the symbol's number is outside the grid */
    FLO_TOO_MANY_LOST = 9,   /* more than 16 - k packets are lost */
    FLO_NO_CODEWORD = 10,    /* few enough are lost, but some accepted packet can't be right: in a column no codeword agrees */
    FLO_TOO_MANY_CELLS = 16, /* the piece reaches past the grid's end */
    FLO_CELLS_MISSING = 17,  /* the grid's last cell hasn't come yet */
    FLO_LENGTHS_DIFFER = 18, /* flo_compare: the four lists aren't all of one length */
    FLO_TOTAL_FULL = 19,     /* flo_add: a total would pass 2^64 - 1 */
    FLO_NO_SUCH_STATE = 22,  /* no feeding with this profile leaves such a state */
    FLO_DISAGREE = 23,       /* flo_add, of a received block: the lost mask and the reasons disagree, a reason is none of 0 and 11 to 15, or the
                                totals aren't 128 */
    FLO_BAD_MASK = 40,       /* a mask isn't from 1 to 2^20 - 1 */
    FLO_BAD_LEVEL = 41,      /* the level isn't positive, finite and normal, or modes 2 to 4 can't send it: its triple isn't finite */
    FLO_BAD_MODE = 42,       /* the mode isn't 0 to 4 */
    FLO_BAD_K = 43,          /* K isn't 8, 12 or 14 */
    FLO_BAD_SEED = 44,       /* a seed isn't from 1 to 2^20 - 1, or an unused one isn't zero */
    FLO_BAD_FLOOR = 45,      /* the floor is neither +0.0 nor positive and finite (-0.0 is bad), or floor + floor is more than the level */
    FLO_TWIN_SLOTS = 46      /* two slots of one symbol have the same seed and the same mask */
};

/* Why flo_receive and flo_ask hold a packet for lost: the first that fits. */
enum flo_reason {
    FLO_ACCEPTED = 0,        /* it isn't lost */
    FLO_MARKED = 11,         /* the caller marked it */
    FLO_DOUBTFUL = 12,       /* a part of its cells is in a doubtful range, or NaN: "What a part decides to", below */
    FLO_CHECK_WORD = 13,     /* its check word doesn't fit its data */
    FLO_RESERVED_BITS = 14,  /* its two reserved bits aren't zero */
    FLO_CODED_BITS = 15      /* its coded bits aren't those that its data gives */
};

/* What a part decides to. Doubtful are parts from -floor to floor, ends included; in modes 2 to 4 also those from 2 * level - floor to
   2 * level + floor and from -(2 * level + floor) to -(2 * level - floor), ends included, where twice the level is exact and each end is rounded
   once to a float; and NaN. At the floor +0.0 these are zero of either sign, twice the level, its negative, and NaN. Every other part decides:
   - In modes 0 and 1 to the bit 0 above the floor, 1 below its negative.
   - In modes 2 to 4 to two bits: 0 above the range around twice the level, 1 below the range around its negative, 2 between the ranges around zero and
     twice the level, 3 between those around minus twice the level and zero.
   What is sent is never doubtful, with any profile that isn't refused. */

/* Fills the whole grid: 0, the profile's, 6, 7. */
uint32_t flo_send(const uint8_t *profile, size_t profile_length, const uint8_t *data, size_t data_length, float *firsts, size_t firsts_length,
                  float *seconds, size_t seconds_length, size_t *place);

/* Fills two lists of 4096 with that part of the whole grid, symbols from 0: 0, the profile's, 6, 7, 8. */
uint32_t flo_send_symbol(const uint8_t *profile, size_t profile_length, const uint8_t *data, size_t data_length, size_t symbol, float *firsts,
                         size_t firsts_length, float *seconds, size_t seconds_length, size_t *place);

/* Receives a whole grid: 0, the profile's, 6, 7, 9, 10. Bit p of marks says that packet p is lost. At 0 the first k packets are written to data.
   Bit p of lost is set, and reasons[p] isn't 0, exactly when packet p is lost; all zero at every number but 0, 9 and 10. */
uint32_t flo_receive(const uint8_t *profile, size_t profile_length, uint16_t marks, const float *firsts, size_t firsts_length,
                     const float *seconds, size_t seconds_length, uint8_t *data, size_t data_length, uint16_t *lost, uint8_t reasons[16],
                     size_t *place);

/* A grid whose cells come in pieces. The state is the caller's: FLO_STATE bytes, all zero before a grid's first piece. Each flo_feed takes the cells
   that come next, in the grid's order (symbol after symbol), however many there are: one, none, the whole grid. Once the last has come, flo_ask
   answers what flo_receive would for the whole grid, however it was cut.

       memset(state, 0, FLO_STATE);
       for each piece: flo_feed(profile, profile_length, state, FLO_STATE, firsts, count, seconds, count, &place);
       flo_ask(profile, profile_length, marks, state, FLO_STATE, data, data_length, &lost, reasons, &place);

   A refused piece isn't taken, not even in part: put right, it can be fed again. Asking changes nothing: one may ask early, which is answered with
   FLO_CELLS_MISSING, then feed on, and ask again, with other marks too.

   What the bytes mean is fixed, so that a state can be copied, stored, and used on any machine:
   - Bytes 0 and 1: how many cells have come, high byte first.
   - Byte 2 + c: cell c of the grid, where cell i of symbol y is 4096 * y + i. Zero before it has come, then d1 + 3 * d2, where d1 is the decision of
     its first part and d2 that of its second: 0 or 1 as above, 2 doubtful. Cells that carry nothing have theirs too. In modes 1 to 4 the bytes after
     the grid's symbols stay zero.
   In modes 2 to 4 the byte is d1 + 5 * d2 instead, where a decision is 0 to 3 as above, 4 doubtful.
   Every other state, and one of another length, is FLO_NO_SUCH_STATE. Of the profile, the state depends on the mode, on the floor and, in modes 2 to 4,
   on the level; a state that was fed in another mode is noticed only where it has more cells than the grid, or a byte that the mode hasn't. */

/* Takes a piece, which may be empty: 0, the profile's, 22, 7, 16. At 0 its cells are in the state, at every other number the state is as it was. */
uint32_t flo_feed(const uint8_t *profile, size_t profile_length, uint8_t *state, size_t state_length, const float *firsts, size_t firsts_length,
                  const float *seconds, size_t seconds_length, size_t *place);

/* Receives the grid that was fed: 0, the profile's, 22, 6, 17, 9, 10. Marks, data, lost and reasons are as for flo_receive. */
uint32_t flo_ask(const uint8_t *profile, size_t profile_length, uint16_t marks, const uint8_t *state, size_t state_length, uint8_t *data,
                 size_t data_length, uint16_t *lost, uint8_t reasons[16], size_t *place);

/* Reads a profile: 0, the profile's. On a refusal all numbers are zero, level and floor +0.0. */
uint32_t flo_read_profile(const uint8_t *profile, size_t profile_length, uint32_t masks[8], float *level, uint8_t *mode, uint8_t *k,
                          uint32_t seeds[48], float *floor, size_t *place);

/* Writes a profile: 0, 40, 41, 42, 41 again, 43, 44, 45, 46, tested in this order; where the place is a byte, it is counted as if the value had been
   written out. An unused seed (mode 1 uses 32 of the 48) that isn't zero is 44 too, with the place where it would stand. The bytes after the written
   ones are zero; on a refusal all are, and the count is 0. */
uint32_t flo_write_profile(const uint32_t masks[8], float level, uint8_t mode, uint8_t k, const uint32_t seeds[48], float floor,
                           uint8_t profile[252], size_t *count, size_t *place);

/* Fills packets k to 15 of a block of 16 packets of 122 bytes with the outer parity of the k before them: 0, 43 where k isn't 8, 12 or 14, 6 where
   the block isn't 1952 bytes long. There is no profile here, and so no place. */
uint32_t flo_parity(uint8_t k, uint8_t *block, size_t block_length);

/* Compares two grids A and B: 0, 18, 7. Each is two lists of f32 bit patterns, the 32 bits of a float as memcpy takes them, and has any number of
   whole symbols (4096 cells), as many in all four lists; none is fine too. The four lists may share memory. Patterns are compared and not values:
   +0.0 and -0.0 differ, and a NaN equals only the same bits.
   At 0 `count` is how many cells differ, and `differences` lists them by rising symbol and cell, FLO_DIFFERENCE numbers each: symbol, cell, first and
   second part of A, first and second part of B. If the list is too short, it has the first differences that fit whole, what lies behind them keeps
   what it held, and `count` is still that of all. On a refusal `count` is 0. There is no profile here, and so no place. (A symbol's number is listed in
   32 bits; only of grids with more than 2^32 symbols that isn't the whole number.) */
uint32_t flo_compare(const uint32_t *firsts_a, size_t firsts_a_length, const uint32_t *seconds_a, size_t seconds_a_length, const uint32_t *firsts_b,
                     size_t firsts_b_length, const uint32_t *seconds_b, size_t seconds_b_length, uint32_t *differences, size_t differences_length,
                     uint64_t *count);

/* Adds what flo_receive or flo_ask answered (its number, lost mask and reasons) to totals over blocks: 0, 23, 19. The totals are the caller's:
   FLO_TOTALS numbers, all zero at the start. For packet position p they are, from totals[8 * p] on:
   - how often packet p was accepted (its reason was 0),
   - how often it was restored (lost, in a block that ended in 0),
   - how often it stayed undelivered (lost, in a block that ended in 9 or 10),
   - and how often each of the reasons 11, 12, 13, 14, 15 came, in this order.
   So from zeros on, for each position the first three add up to the number of received blocks, and the last five to the second and third; the order in
   which the blocks came doesn't matter.
   Any number other than 0, 9 and 10 is no received block: the answer is 0 and nothing is added, before any other test, so whatever the mask, the bytes of
   the reasons, the totals and their length are. Of a received block come first 23: the list hasn't FLO_TOTALS numbers, a bit of `lost` is set where the
   reason is 0 or isn't set where it isn't 0, or a reason is none of 0 and 11 to 15; then 19: one of the totals that would rise is 2^64 - 1. On a refusal
   no total moves. The number isn't held against how many are lost. What flo_receive and flo_ask answer is never refused with 23, if the list has
   FLO_TOTALS numbers. There is no profile here, and so no place. */
uint32_t flo_add(uint64_t *totals, size_t totals_length, uint32_t number, uint16_t lost, const uint8_t reasons[16]);

#ifdef __cplusplus
}
#endif

#endif
