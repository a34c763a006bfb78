/* The interface for a machine that is not x86-64. The proved code exists for x86-64 alone, so each call here is sent to a
 * program of that code under the kit's emulator (tests/compare/serve.c, which says what is sent) and its answer handed
 * back. It computes nothing itself; where the answer cannot be had, the program that called is ended. It is for trying
 * and testing: slow, and one call at a time. */
#include <errno.h>
#include <pthread.h>
#include <stdio.h>
#include <stdlib.h>
#include <string.h>
#include <sys/socket.h>
#include <unistd.h>

#include "vrikshonem.h"

struct slice { const void *at; size_t count, width; int written; };

static uint64_t bits_of(double x) { uint64_t bits; memcpy(&bits, &x, 8); return bits; }
static double double_of(uint64_t bits) { double x; memcpy(&x, &bits, 8); return x; }

#include "emulated_calls.h"

static pthread_mutex_t turn = PTHREAD_MUTEX_INITIALIZER;
static int line = -1;
static pid_t owner;

static void fail(const char *why) {
    fprintf(stderr, "vrikshonem: %s; this machine reaches the x86-64 library through the kit's emulator only\n", why);
    abort();
}

static void start(void) {
    int ends[2];
    if (socketpair(AF_UNIX, SOCK_STREAM | SOCK_CLOEXEC, 0, ends) != 0) fail("no socket");
    pid_t child = fork();
    if (child < 0) fail("no process");
    if (child == 0) {
        /* Ctrl-C is for the program that calls; this one ends when nobody calls any more. */
        setpgid(0, 0);
        dup2(ends[1], 0);
        dup2(ends[1], 1);
        execl(RUN, RUN, SERVE, (char *)0);
        _exit(127);
    }
    close(ends[1]);
    line = ends[0], owner = getpid();
}

static void send_all(const void *bytes, size_t n) {
    for (size_t done = 0; done < n;) {
        /* A signal would end the program without a word. */
        ssize_t k = send(line, (const char *)bytes + done, n - done, MSG_NOSIGNAL);
        if (k < 0 && errno == EINTR) continue;
        if (k <= 0) fail("a call was not answered");
        done += (size_t)k;
    }
}

static void take_all(void *bytes, size_t n) {
    for (size_t done = 0; done < n;) {
        ssize_t k = read(line, (char *)bytes + done, n - done);
        if (k < 0 && errno == EINTR) continue;
        if (k <= 0) fail("a call was not answered");
        done += (size_t)k;
    }
}

static void ask(uint64_t function, const uint64_t *words, size_t word_count, const struct slice *slices, size_t slice_count,
                uint64_t *answer) {
    pthread_mutex_lock(&turn);
    int kept_errno = errno;
    /* Two processes on one line would take each other's answers. */
    if (owner != getpid()) start();
    send_all(&function, sizeof function);
    send_all(words, word_count * sizeof *words);
    for (size_t k = 0; k < slice_count; k++) {
        uint64_t count = slices[k].count;
        send_all(&count, sizeof count);
    }
    for (size_t k = 0; k < slice_count; k++) send_all(slices[k].at, slices[k].count * slices[k].width);
    take_all(answer, ANSWER * sizeof *answer);
    for (size_t k = 0; k < slice_count; k++)
        if (slices[k].written) take_all((void *)slices[k].at, slices[k].count * slices[k].width);
    errno = kept_errno;
    pthread_mutex_unlock(&turn);
}
