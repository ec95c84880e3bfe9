/* The library's calls, carried to the process that FLO_FAR (a shell command) starts: an emulator with serve.c in it. See far.h. */
#include "far.h"

int pipe(int[2]);
int fork(void);
int dup2(int, int);
int close(int);
int execl(const char *, const char *, ...);
char *getenv(const char *);
void exit(int) __attribute__((noreturn));
void _exit(int) __attribute__((noreturn));
int puts(const char *);

static int to, from;

static void end(const char *why) {
    puts(why);
    exit(1);
}

static void start(void) {
    int there[2], back[2];
    const char *command = getenv("FLO_FAR");
    if (!command || pipe(there) || pipe(back)) end("outside: no FLO_FAR, or no pipes");
    int child = fork();
    if (child < 0) end("outside: no process for the library");
    if (child == 0) {
        dup2(there[0], 0);
        dup2(back[1], 1);
        close(there[1]);
        close(back[0]);
        execl("/bin/sh", "sh", "-c", command, (char *)0);
        _exit(127);
    }
    close(there[0]);
    close(back[1]);
    to = there[1];
    from = back[0];
}

struct list {
    const void *memory;
    u64 bytes;
    u64 back;
};

static const u64 NONE[NUMBERS];

static u32 carry(u64 call, const u64 numbers[NUMBERS], const struct list *lists, u64 count) {
    struct request request = { call, count, { numbers[0], numbers[1], numbers[2], numbers[3] }, { 0 }, { 0 } };
    u64 number;
    int ok;
    if (!to) start();
    for (u64 i = 0; i < count; i++) {
        request.bytes[i] = lists[i].bytes;
        request.back[i] = lists[i].back;
    }
    ok = whole_write(to, &request, sizeof request);
    for (u64 i = 0; i < count; i++) ok = ok && whole_write(to, lists[i].memory, lists[i].bytes);
    ok = ok && whole_read(from, &number, sizeof number);
    for (u64 i = 0; i < count; i++)
        if (lists[i].back) ok = ok && whole_read(from, (void *)lists[i].memory, lists[i].bytes);
    if (!ok) end("outside: the library's process ended in the middle of a call");
    if (number == WROTE_OUTSIDE) end("outside: the library writes outside the memory that is lent to it");
    return (u32)number;
}

u32 flo_send(const u8 *profile, u64 p, const u8 *data, u64 d, float *firsts, u64 f, float *seconds, u64 s, u64 *place) {
    const struct list lists[] = { { profile, p, 0 }, { data, d, 0 }, { firsts, 4 * f, 1 }, { seconds, 4 * s, 1 }, { place, 8, 1 } };
    return carry(SEND, NONE, lists, 5);
}

u32 flo_send_symbol(const u8 *profile, u64 p, const u8 *data, u64 d, u64 symbol, float *firsts, u64 f, float *seconds, u64 s,
                    u64 *place) {
    const struct list lists[] = { { profile, p, 0 }, { data, d, 0 }, { firsts, 4 * f, 1 }, { seconds, 4 * s, 1 }, { place, 8, 1 } };
    return carry(SEND_SYMBOL, (u64[NUMBERS]){ symbol }, lists, 5);
}

u32 flo_receive(const u8 *profile, u64 p, u16 marks, const float *firsts, u64 f, const float *seconds, u64 s, u8 *data, u64 d,
                u16 *lost, u8 *reasons, u64 *place) {
    const struct list lists[] = {
        { profile, p, 0 }, { firsts, 4 * f, 0 }, { seconds, 4 * s, 0 }, { data, d, 1 }, { lost, 2, 1 }, { reasons, 16, 1 }, { place, 8, 1 },
    };
    return carry(RECEIVE, (u64[NUMBERS]){ marks }, lists, 7);
}

u32 flo_feed(const u8 *profile, u64 p, u8 *state, u64 n, const float *firsts, u64 f, const float *seconds, u64 s, u64 *place) {
    const struct list lists[] = { { profile, p, 0 }, { state, n, 1 }, { firsts, 4 * f, 0 }, { seconds, 4 * s, 0 }, { place, 8, 1 } };
    return carry(FEED, NONE, lists, 5);
}

/* The state comes back too, though it is only read: the tests look whether it is as it was. */
u32 flo_ask(const u8 *profile, u64 p, u16 marks, const u8 *state, u64 n, u8 *data, u64 d, u16 *lost, u8 *reasons, u64 *place) {
    const struct list lists[] = {
        { profile, p, 0 }, { state, n, 1 }, { data, d, 1 }, { lost, 2, 1 }, { reasons, 16, 1 }, { place, 8, 1 },
    };
    return carry(ASK, (u64[NUMBERS]){ marks }, lists, 6);
}

u32 flo_read_profile(const u8 *profile, u64 p, u32 *masks, float *level, u8 *mode, u8 *k, u32 *seeds, float *floor, u64 *place) {
    const struct list lists[] = {
        { profile, p, 0 }, { masks, 32, 1 }, { level, 4, 1 }, { mode, 1, 1 }, { k, 1, 1 }, { seeds, 192, 1 }, { floor, 4, 1 }, { place, 8, 1 },
    };
    return carry(READ_PROFILE, NONE, lists, 8);
}

static u64 bits_of(float value) {
    union { float value; u32 bits; } both = { value };
    return both.bits;
}

u32 flo_write_profile(const u32 *masks, float level, u8 mode, u8 k, const u32 *seeds, float floor, u8 *profile, u64 *count, u64 *place) {
    const struct list lists[] = { { masks, 32, 0 }, { seeds, 192, 0 }, { profile, 252, 1 }, { count, 8, 1 }, { place, 8, 1 } };
    return carry(WRITE_PROFILE, (u64[NUMBERS]){ bits_of(level), mode, k, bits_of(floor) }, lists, 5);
}

u32 flo_parity(u8 k, u8 *block, u64 n) {
    const struct list lists[] = { { block, n, 1 } };
    return carry(PARITY, (u64[NUMBERS]){ k }, lists, 1);
}

u32 flo_compare(const u32 *firsts_a, u64 fa, const u32 *seconds_a, u64 sa, const u32 *firsts_b, u64 fb, const u32 *seconds_b, u64 sb,
                u32 *differences, u64 d, u64 *count) {
    const struct list lists[] = {
        { firsts_a, 4 * fa, 0 }, { seconds_a, 4 * sa, 0 }, { firsts_b, 4 * fb, 0 }, { seconds_b, 4 * sb, 0 }, { differences, 4 * d, 1 },
        { count, 8, 1 },
    };
    return carry(COMPARE, NONE, lists, 6);
}

/* The reasons come back too, though they are only read: the tests look whether they are as they were. */
u32 flo_add(u64 *totals, u64 t, u32 number, u16 lost, const u8 *reasons) {
    const struct list lists[] = { { totals, 8 * t, 1 }, { reasons, 16, 1 } };
    return carry(ADD, (u64[NUMBERS]){ number, lost }, lists, 2);
}
