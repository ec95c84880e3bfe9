/* How the outside tests reach an x86-64 library from another kind of machine. far.c is linked into the tests in the library's place
   and carries every call over a pipe; serve.c is linked with the library itself and runs in a process of its own, as under an emulator.

   A request is a struct request: the call, its number arguments, and for each list its length in bytes and whether it comes back;
   then come the lists' bytes. An answer is one 64-bit number and the bytes of the lists that come back. Both sides have the same
   byte order. No header of the machine's is used, so that any clang can compile serve.c. */

typedef unsigned char u8;
typedef unsigned short u16;
typedef unsigned int u32;
typedef unsigned long u64;

enum { SEND, SEND_SYMBOL, RECEIVE, FEED, ASK, READ_PROFILE, WRITE_PROFILE, PARITY, COMPARE, ADD };
enum { LISTS = 8, NUMBERS = 4 };

/* Answered in the place of the call's number when the library wrote outside the lists. */
enum { WROTE_OUTSIDE = 1000 };

struct request {
    u64 call;
    u64 count;
    u64 numbers[NUMBERS];
    u64 bytes[LISTS];
    u64 back[LISTS];
};

long read(int, void *, u64);
long write(int, const void *, u64);

/* 1 when all of it went through the pipe, 0 when the pipe ended. */
static int whole_read(int from, void *memory, u64 bytes) {
    for (u64 done = 0; done < bytes;) {
        long some = read(from, (u8 *)memory + done, bytes - done);
        if (some <= 0) return 0;
        done += (u64)some;
    }
    return 1;
}

static int whole_write(int to, const void *memory, u64 bytes) {
    for (u64 done = 0; done < bytes;) {
        long some = write(to, (const u8 *)memory + done, bytes - done);
        if (some <= 0) return 0;
        done += (u64)some;
    }
    return 1;
}
