/* Runs the library's calls for far.c: reads requests from standard input, answers on standard output. See far.h. */
#include "far.h"

u32 flo_send(const u8 *, u64, const u8 *, u64, float *, u64, float *, u64, u64 *);
u32 flo_send_symbol(const u8 *, u64, const u8 *, u64, u64, float *, u64, float *, u64, u64 *);
u32 flo_receive(const u8 *, u64, u16, const float *, u64, const float *, u64, u8 *, u64, u16 *, u8 *, u64 *);
u32 flo_feed(const u8 *, u64, u8 *, u64, const float *, u64, const float *, u64, u64 *);
u32 flo_ask(const u8 *, u64, u16, const u8 *, u64, u8 *, u64, u16 *, u8 *, u64 *);
u32 flo_read_profile(const u8 *, u64, u32 *, float *, u8 *, u8 *, u32 *, float *, u64 *);
u32 flo_write_profile(const u32 *, float, u8, u8, const u32 *, float, u8 *, u64 *, u64 *);
u32 flo_parity(u8, u8 *, u64);
u32 flo_compare(const u32 *, u64, const u32 *, u64, const u32 *, u64, const u32 *, u64, u32 *, u64, u64 *);
u32 flo_add(u64 *, u64, u32, u16, const u8 *);

/* Room for the lists of check_compare.rs's largest grids, 257 symbols. What no call has used takes no memory. */
enum { ROOM = 1 << 25, GUARD = 128, PATTERN = 0x5C };

/* All lists of a call, each at a multiple of 64 bytes and with a guard before and behind it. */
static _Alignas(64) u8 room[ROOM];
static u8 *lists[LISTS];

static void fill(u64 from, u64 to) {
    for (u64 i = from; i < to; i++) room[i] = PATTERN;
}

static int kept(u64 from, u64 to) {
    for (u64 i = from; i < to; i++)
        if (room[i] != PATTERN) return 0;
    return 1;
}

static u64 after(u64 end) {
    return (end + GUARD + 63) / 64 * 64;
}

/* Takes the lists in; 0 when they don't fit or the pipe ends. */
static int take(const struct request *request) {
    u64 end = 0;
    for (u64 i = 0; i < request->count; i++) {
        u64 start = after(end);
        if (request->bytes[i] > ROOM - 4096 || start + request->bytes[i] > ROOM - 4096) return 0;
        fill(end, start);
        lists[i] = room + start;
        if (!whole_read(0, lists[i], request->bytes[i])) return 0;
        end = start + request->bytes[i];
    }
    fill(end, after(end));
    return 1;
}

static int guards_kept(const struct request *request) {
    u64 end = 0;
    for (u64 i = 0; i < request->count; i++) {
        u64 start = (u64)(lists[i] - room);
        if (!kept(end, start)) return 0;
        end = start + request->bytes[i];
    }
    return kept(end, after(end));
}

static float float_of(u64 bits) {
    union { u32 bits; float value; } both = { (u32)bits };
    return both.value;
}

static u32 run(const struct request *request) {
    const u64 *n = request->bytes, *a = request->numbers;
    u8 **l = lists;
    u64 *place = (u64 *)l[request->count - 1]; /* the last list of every call that has one; of COMPARE it is the count */
    switch (request->call) {
    case SEND:
        return flo_send(l[0], n[0], l[1], n[1], (float *)l[2], n[2] / 4, (float *)l[3], n[3] / 4, place);
    case SEND_SYMBOL:
        return flo_send_symbol(l[0], n[0], l[1], n[1], a[0], (float *)l[2], n[2] / 4, (float *)l[3], n[3] / 4, place);
    case RECEIVE:
        return flo_receive(l[0], n[0], (u16)a[0], (float *)l[1], n[1] / 4, (float *)l[2], n[2] / 4, l[3], n[3], (u16 *)l[4], l[5], place);
    case FEED:
        return flo_feed(l[0], n[0], l[1], n[1], (float *)l[2], n[2] / 4, (float *)l[3], n[3] / 4, place);
    case ASK:
        return flo_ask(l[0], n[0], (u16)a[0], l[1], n[1], l[2], n[2], (u16 *)l[3], l[4], place);
    case READ_PROFILE:
        return flo_read_profile(l[0], n[0], (u32 *)l[1], (float *)l[2], l[3], l[4], (u32 *)l[5], (float *)l[6], place);
    case WRITE_PROFILE:
        return flo_write_profile((u32 *)l[0], float_of(a[0]), (u8)a[1], (u8)a[2], (u32 *)l[1], float_of(a[3]), l[2], (u64 *)l[3], place);
    case COMPARE:
        return flo_compare((u32 *)l[0], n[0] / 4, (u32 *)l[1], n[1] / 4, (u32 *)l[2], n[2] / 4, (u32 *)l[3], n[3] / 4, (u32 *)l[4], n[4] / 4, place);
    case ADD:
        return flo_add((u64 *)l[0], n[0] / 8, (u32)a[0], (u16)a[1], l[1]);
    default:
        return flo_parity((u8)a[0], l[0], n[0]);
    }
}

int main(void) {
    struct request request;
    while (whole_read(0, &request, sizeof request)) {
        if (request.count < 1 || request.count > LISTS || !take(&request)) return 1;
        u64 number = run(&request);
        if (!guards_kept(&request)) number = WROTE_OUTSIDE;
        if (!whole_write(1, &number, sizeof number)) return 1;
        for (u64 i = 0; i < request.count; i++)
            if (request.back[i] && !whole_write(1, lists[i], request.bytes[i])) return 1;
    }
    return 0;
}
