// Sends ZADDs to servers on loopback ports at a given rate, whether or not they keep up, and says how soon they were answered.
//
// Usage: writer KEY RATE SECONDS MEMBERS SEED PORT..
// RATE is how many requests a second are sent in all, to the ports in turn, RATE * SECONDS requests. Each sets one member of
// 16 bytes: one of MEMBERS, drawn from SEED, or where MEMBERS is 0 a new one each time, whose first half is SEED. Scores are
// drawn below a million. Where its standard input ends it sends no more. It ends when all is answered, and says on a line
// each: how many requests were `sent`, for how many `seconds`, the milliseconds from when a request was to be sent to its
// reply within which 50 and 99 of a hundred came, and the longest, and `late`, the longest time that a request waited to be
// sent because too many were not answered yet.
// Status 1 where a reply is an error, a connection ends, or nothing is answered for a minute; 3 where the words are wrong.
#define _GNU_SOURCE
#define PROGRAM "writer"
#include "loopback.h"

// Requests of a connection that are not answered, at most.
#define FLIGHT 65536
#define MOST_PORTS 64
// Requests are sent at the end of such a time, all that were to be sent in it.
#define TICK 2e-4
#define PATIENCE 60

struct connection {
    int link, is_in_line;
    struct outgoing out;
    double *wanted; // when those in flight were to be sent, a ring
    size_t sent, answered;
};

static struct connection connections[MOST_PORTS];
static size_t connection_count, total, sent, answered;
static uint64_t state, first_half;
static long members;
static const char *key;
static double rate, began, late, heard;
static struct latencies latencies;

// The next drawn number (splitmix64).
static uint64_t drawn(void) {
    uint64_t z = (state += 0x9e3779b97f4a7c15);
    z = (z ^ z >> 30) * 0xbf58476d1ce4e5b9;
    z = (z ^ z >> 27) * 0x94d049bb133111eb;
    return z ^ z >> 31;
}

static void add_request(struct connection *to, double wanted) {
    char member[32], score[16];
    uint32_t half = members ? drawn() % members : sent;
    sprintf(member, "%08x%08x", members ? 0 : (uint32_t)first_half, half);
    int digits = sprintf(score, "%d", (int)(drawn() % 1000000));
    make_room(&to->out, 128 + strlen(key));
    to->out.to += sprintf(to->out.bytes + to->out.to, "*4\r\n$4\r\nZADD\r\n$%zu\r\n%s\r\n$%d\r\n%s\r\n$16\r\n%s\r\n",
                          strlen(key), key, digits, score, member);
    to->wanted[to->sent++ % FLIGHT] = wanted;
    sent++;
}

// Adds the requests that are to be sent by now.
static void add_requests(double time) {
    size_t due = (time - began) * rate + 1;
    if (due > total) due = total;
    while (sent < due) {
        struct connection *to = &connections[sent % connection_count];
        double wanted = began + sent / rate;
        if (to->sent - to->answered == FLIGHT) {
            if (time - wanted > late) late = time - wanted;
            return;
        }
        add_request(to, wanted);
    }
}

// Reads the replies that have come, each a line.
static void take(struct connection *from) {
    static char room[PIECE];
    ssize_t count = recv(from->link, room, sizeof room, 0);
    if (count < 0 && errno == EAGAIN) return;
    if (count < 0) fail("recv");
    if (count == 0) refuse("a connection ended");
    double time = heard = now();
    for (char *at = room, *end = room + count; at < end;) {
        if (!from->is_in_line && *at == '-') refuse("an error was answered");
        char *line = memchr(at, '\n', end - at);
        from->is_in_line = !line;
        if (!line) return;
        count_latency(&latencies, time - from->wanted[from->answered++ % FLIGHT]);
        answered++;
        at = line + 1;
    }
}

static void run(void) {
    double last = 0;
    int may_end = 1;
    struct pollfd these[MOST_PORTS + 1];
    began = heard = now();
    for (double time = began; sent < total || answered < sent; time = now()) {
        add_requests(time);
        if (answered == sent) heard = time;
        if (time - heard > PATIENCE) refuse("nothing was answered for a minute");
        for (size_t at = 0; at < connection_count; at++) {
            struct connection *it = &connections[at];
            put(it->link, &it->out);
            these[at] = (struct pollfd){.fd = it->link, .events = POLLIN | (it->out.from < it->out.to ? POLLOUT : 0)};
        }
        these[connection_count] = (struct pollfd){.fd = may_end && sent < total ? 0 : -1, .events = POLLIN};
        double next = began + sent / rate, turn = last + TICK;
        last = now();
        if (next < turn) next = turn;
        wait_for(these, connection_count + 1, sent == total ? PATIENCE : next > last ? next - last : 0);
        if (these[connection_count].fd == 0 && these[connection_count].revents) {
            char word[64];
            may_end = read(0, word, sizeof word) > 0;
            if (!may_end) total = sent;
        }
        for (size_t at = 0; at < connection_count; at++) {
            if (these[at].revents & ~POLLOUT) take(&connections[at]);
        }
    }
    printf("sent %zu\nseconds %.3f\n", sent, now() - began);
    print_latencies(&latencies);
    printf("late_ms %.2f\n", late * 1e3);
}

int main(int argc, char **argv) {
    if (argc < 7 || argc - 6 > MOST_PORTS) {
        fprintf(stderr, "usage: writer KEY RATE SECONDS MEMBERS SEED PORT..\n");
        return 3;
    }
    key = argv[1];
    rate = number(argv[2], "RATE", 1, 100000000);
    total = rate * number(argv[3], "SECONDS", 1, 1000000);
    members = number(argv[4], "MEMBERS", 0, 1L << 32);
    state = first_half = number(argv[5], "SEED", 0, 1L << 32);
    connection_count = argc - 6;
    wake_exactly();
    for (size_t at = 0; at < connection_count; at++) {
        connections[at].link = dial(number(argv[6 + at], "PORT", 1, 65535));
        connections[at].wanted = malloc(FLIGHT * sizeof(double));
        if (!connections[at].wanted) fail("malloc");
    }
    run();
    return 0;
}
