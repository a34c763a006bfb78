/* Calls the library as a C program does, over a pipe: serve [SECONDS]
 *
 * A request is words of 64 bits: the function's number, the numbers that it takes (of a struct its fields) and how many
 * elements each of its slices has; and then the slices' bytes. The answer is ANSWER words, and the slices that were lent to be
 * written, as they are left. All is little-endian, as the machine's own.
 *
 * Each slice stands at the end of a page, before a page that nothing may touch, and the bytes in front of it are watched: a byte
 * read or written behind a slice ends the program by a signal, and one written before it with status 3. A call that takes more
 * of the processor's time than SECONDS ends it by a signal too. */
#include "vrikshonem.h"

extern long read(int, void *, size_t);
extern long write(int, const void *, size_t);
extern void *memcpy(void *, const void *, size_t);
extern void *memset(void *, int, size_t);
extern void *mmap(void *, size_t, int, int, int, long);
extern int munmap(void *, size_t);
extern int mprotect(void *, size_t, int);
extern void _exit(int);
extern int atoi(const char *);
struct timer { long again, again_micros, first, first_micros; };
extern int setitimer(int, const struct timer *, struct timer *);

static double double_of(uint64_t bits) { double x; memcpy(&x, &bits, 8); return x; }
static uint64_t bits_of(double x) { uint64_t bits; memcpy(&bits, &x, 8); return bits; }

#include "served.h"

enum { UNREAD = 1, UNKNOWN = 2, TOUCHED = 3, UNSENT = 4, NO_ROOM = 5 };

static unsigned char input[1 << 16], output[1 << 16];
static size_t have, used, made;

static void flush(void) {
    for (size_t done = 0; done < made;) {
        long k = write(1, output + done, made - done);
        if (k <= 0) _exit(UNSENT);
        done += (size_t)k;
    }
    made = 0;
}

/* 0 where the input ended before. A caller that waits has its answers first. */
static int take(void *to, size_t n) {
    for (size_t done = 0; done < n;) {
        if (used == have) {
            flush();
            long got = read(0, input, sizeof input);
            if (got <= 0) return 0;
            used = 0, have = (size_t)got;
        }
        size_t k = have - used < n - done ? have - used : n - done;
        memcpy((unsigned char *)to + done, input + used, k);
        used += k, done += k;
    }
    return 1;
}

static void give(const void *from, size_t n) {
    for (size_t done = 0; done < n;) {
        if (made == sizeof output) flush();
        size_t k = sizeof output - made < n - done ? sizeof output - made : n - done;
        memcpy(output + made, (const unsigned char *)from + done, k);
        made += k, done += k;
    }
}

/* As large as a page of any machine; the bytes that are watched, and what they hold. */
enum { PAGE = 1 << 16, GUARD = 64, MARK = 0xA5 };
static struct { unsigned char *end; size_t size; } rooms[SLICES];

/* Where a slice of so many bytes stands: at its room's end. The room grows with the longest. */
static unsigned char *place(size_t slice, size_t bytes) {
    enum { NONE = 0, READ_WRITE = 3, PRIVATE_ANONYMOUS = 0x22 };
    size_t size = (bytes + GUARD + PAGE - 1) / PAGE * PAGE;
    if (size > rooms[slice].size) {
        if (rooms[slice].size) munmap(rooms[slice].end - rooms[slice].size, rooms[slice].size + PAGE);
        unsigned char *room = mmap(0, size + PAGE, NONE, PRIVATE_ANONYMOUS, -1, 0);
        if (room == (void *)-1 || mprotect(room, size, READ_WRITE) != 0) _exit(NO_ROOM);
        rooms[slice].end = room + size, rooms[slice].size = size;
    }
    unsigned char *at = rooms[slice].end - bytes;
    memset(at - GUARD, MARK, GUARD);
    return at;
}

static int is_touched(size_t slice, size_t bytes) {
    const unsigned char *at = rooms[slice].end - bytes;
    for (int k = 1; k <= GUARD; k++)
        if (at[-k] != MARK) return 1;
    return 0;
}

/* So much of the processor's time the next call has; then a signal comes. */
static void allow(int seconds) {
    enum { OF_WORK = 1 };
    const struct timer once = {0, 0, seconds, 0};
    if (seconds && setitimer(OF_WORK, &once, 0) != 0) _exit(NO_ROOM);
}

/* The rest of a request, and its answer; 0, or the status that the program ends with. */
static int serve(uint64_t function, int seconds) {
    uint64_t counts[SLICES];
    if (function >= sizeof shapes / sizeof shapes[0]) return UNKNOWN;
    const struct shape *shape = shapes + function;
    if (!take(w, shape->words * 8) || !take(counts, shape->slices * 8)) return UNREAD;
    for (size_t k = 0; k < shape->slices; k++) {
        if (counts[k] >> 40) return NO_ROOM; /* so that its bytes are a number too */
        size_t bytes = counts[k] * shape->slice[k].width;
        unsigned char *at = place(k, bytes);
        if (!take(at, bytes)) return UNREAD;
        /* the empty slice is a null pointer */
        slices[k].at = bytes ? at : 0, slices[k].count = counts[k];
    }
    memset(answer, 0, sizeof answer);
    allow(seconds);
    if (!call(function)) return UNKNOWN;
    give(answer, sizeof answer);
    for (size_t k = 0; k < shape->slices; k++) {
        size_t bytes = counts[k] * shape->slice[k].width;
        if (is_touched(k, bytes)) return TOUCHED;
        if (shape->slice[k].written) give(slices[k].at, bytes);
    }
    return 0;
}

int main(int count, char **words) {
    int seconds = count > 1 ? atoi(words[1]) : 0;
    uint64_t function;
    while (take(&function, sizeof function)) {
        int wrong = serve(function, seconds);
        if (wrong) return wrong;
    }
    flush();
    return 0;
}
