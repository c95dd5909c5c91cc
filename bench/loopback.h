// What the programs that measure links have in common: time, numbers of a command line, and connections over loopback.
// Each of them defines `PROGRAM`, its name, before it includes this file.
#include <arpa/inet.h>
#include <errno.h>
#include <fcntl.h>
#include <netinet/tcp.h>
#include <poll.h>
#include <stdint.h>
#include <stdio.h>
#include <stdlib.h>
#include <string.h>
#include <sys/prctl.h>
#include <sys/socket.h>
#include <time.h>
#include <unistd.h>

#define PIECE 65536

static inline void fail(const char *what) {
    fprintf(stderr, PROGRAM ": ");
    perror(what);
    exit(1);
}

static inline void refuse(const char *what) {
    fprintf(stderr, PROGRAM ": %s\n", what);
    exit(1);
}

// Seconds of the clock that Python's time.monotonic() reads too.
static inline double now(void) {
    struct timespec time;
    if (clock_gettime(CLOCK_MONOTONIC, &time) < 0) fail("clock_gettime");
    return time.tv_sec + time.tv_nsec * 1e-9;
}

// Waits for one of these, for so many seconds at most; with a time below 0 for as long as it takes.
static inline void wait_for(struct pollfd *these, size_t count, double seconds) {
    if (seconds > 1000) seconds = 1000;
    struct timespec time = {.tv_sec = (time_t)seconds, .tv_nsec = (long)((seconds - (time_t)seconds) * 1e9)};
    if (ppoll(these, count, seconds < 0 ? NULL : &time, NULL) < 0 && errno != EINTR) fail("ppoll");
}

// Has the system wake this program when it asked for it, and not some fifty microseconds later.
static inline void wake_exactly(void) {
    prctl(PR_SET_TIMERSLACK, 1);
}

// A number of the command line.
static inline long number(const char *word, const char *name, long least, long most) {
    char *end;
    long value = strtol(word, &end, 10);
    if (*word && !*end && least <= value && value <= most) return value;
    fprintf(stderr, PROGRAM ": %s has to be a number from %ld to %ld\n", name, least, most);
    exit(3);
}

static inline struct sockaddr_in loopback(int port) {
    struct sockaddr_in address = {.sin_family = AF_INET, .sin_port = htons(port)};
    address.sin_addr.s_addr = htonl(INADDR_LOOPBACK);
    return address;
}

// A connection keeps no bytes back, and blocks nobody.
static inline void make_prompt(int link) {
    int one = 1;
    setsockopt(link, IPPROTO_TCP, TCP_NODELAY, &one, sizeof one);
    if (fcntl(link, F_SETFL, O_NONBLOCK) < 0) fail("fcntl");
}

// A connection to a port, or -1.
static inline int dialled(int port) {
    struct sockaddr_in address = loopback(port);
    int link = socket(AF_INET, SOCK_STREAM, 0);
    if (link < 0) fail("socket");
    if (connect(link, (struct sockaddr *)&address, sizeof address) < 0) {
        close(link);
        return -1;
    }
    make_prompt(link);
    return link;
}

static inline int dial(int port) {
    int link = dialled(port);
    if (link < 0) fail("connect");
    return link;
}

// Bytes that wait to be written to a connection.
struct outgoing {
    char *bytes;
    size_t from, to, room;
};

// Room for so many more bytes, at `bytes + to`.
static inline void make_room(struct outgoing *out, size_t more) {
    if (out->from == out->to) out->from = out->to = 0;
    if (out->to + more <= out->room) return;
    memmove(out->bytes, out->bytes + out->from, out->to - out->from);
    out->to -= out->from;
    out->from = 0;
    while (out->to + more > out->room) out->room = out->room ? 2 * out->room : PIECE;
    out->bytes = realloc(out->bytes, out->room);
    if (!out->bytes) fail("realloc");
}

// Writes what the connection takes now.
static inline void put(int link, struct outgoing *out) {
    while (out->from < out->to) {
        ssize_t count = send(link, out->bytes + out->from, out->to - out->from, MSG_NOSIGNAL);
        if (count < 0 && errno == EAGAIN) return;
        if (count < 0) fail("send");
        out->from += count;
    }
}

// Latencies, each to a hundredth of a millisecond, up to forty seconds.
#define LATENCY 1e-5
#define LATENCIES 4000000
struct latencies {
    uint32_t *counts;
    size_t counted;
    double longest;
};

static inline void count_latency(struct latencies *all, double seconds) {
    if (!all->counts && !(all->counts = calloc(LATENCIES, sizeof *all->counts))) fail("calloc");
    size_t place = seconds > 0 ? seconds / LATENCY : 0;
    all->counts[place < LATENCIES ? place : LATENCIES - 1]++;
    all->counted++;
    if (seconds > all->longest) all->longest = seconds;
}

// The milliseconds within which this part of them lie.
static inline double within(const struct latencies *all, double part) {
    size_t place = 0, came = 0;
    while (place < LATENCIES && came < part * all->counted) came += all->counts[place++];
    return place * LATENCY * 1e3;
}

static inline void print_latencies(const struct latencies *all) {
    printf("counted %zu\np50_ms %.2f\np99_ms %.2f\nlongest_ms %.2f\n", all->counted, within(all, 0.5), within(all, 0.99),
           all->longest * 1e3);
}
