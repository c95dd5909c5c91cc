// Asks servers on loopback ports again and again, and says how long it took.
//
// Usage: probe fresh FROM AT SECONDS PATIENCE LEAST SEED
//        probe calls PORT KEY
// `fresh` writes a member of its own at FROM every five milliseconds, and asks AT for those that it has not found yet every
// fifth of a millisecond, from LEAST microseconds after their write on. It says how many were found, within how many
// milliseconds from the write 50 and 99 of a hundred were there, and the longest, and how many were never there, PATIENCE
// seconds after the last write. `calls` sends ZADD and ZSCORE to PORT in turn, one a millisecond and each after the reply to
// the one before, until its standard input ends, and says the same of the replies; each is timed from when it was to be sent.
// Status 1 where a reply is an error or a connection ends, 3 where the words are wrong.
#define _GNU_SOURCE
#define PROGRAM "probe"
#include "loopback.h"

#define MARKS 5e-3
#define ASKS 2e-4
#define CALLS 1e-3
#define LONGEST_REPLY 30
// Marks that are asked for at once.
#define FLIGHT 64

// A connection whose replies are read by lines.
struct client {
    int link;
    struct outgoing out;
    char room[PIECE];
    size_t from, to;
};

static struct latencies latencies;

static struct client *client(int port) {
    struct client *it = calloc(1, sizeof *it);
    if (!it) fail("calloc");
    it->link = dial(port);
    return it;
}

static void request(struct client *to, size_t count, const char **words) {
    make_room(&to->out, 32);
    to->out.to += sprintf(to->out.bytes + to->out.to, "*%zu\r\n", count);
    for (size_t at = 0; at < count; at++) {
        make_room(&to->out, strlen(words[at]) + 32);
        to->out.to += sprintf(to->out.bytes + to->out.to, "$%zu\r\n%s\r\n", strlen(words[at]), words[at]);
    }
    put(to->link, &to->out);
}

// The next line, or NULL where it has not come whole.
static char *line(struct client *from) {
    char *end = memchr(from->room + from->from, '\n', from->to - from->from);
    if (!end) {
        memmove(from->room, from->room + from->from, from->to -= from->from);
        from->from = 0;
        ssize_t count = recv(from->link, from->room + from->to, sizeof from->room - from->to, 0);
        if (count < 0 && errno == EAGAIN) return NULL;
        if (count < 0) fail("recv");
        if (count == 0) refuse("a connection ended");
        from->to += count;
        end = memchr(from->room, '\n', from->to);
        if (!end) return NULL;
    }
    char *begin = from->room + from->from;
    if (*begin == '-') refuse("an error was answered");
    *end = 0;
    from->from = end + 1 - from->room;
    return begin;
}

// The next line, waited for.
static char *next_line(struct client *from) {
    for (char *it;;) {
        if ((it = line(from))) return it;
        struct pollfd these = {.fd = from->link, .events = POLLIN | (from->out.from < from->out.to ? POLLOUT : 0)};
        wait_for(&these, 1, LONGEST_REPLY);
        if (!these.revents) refuse("a request was not answered");
        put(from->link, &from->out);
    }
}

// Whether a member that was asked for is there: the score's line comes behind that of its length.
static int is_there(struct client *from) {
    if (!strncmp(next_line(from), "$-1", 3)) return 0;
    next_line(from);
    return 1;
}

static void rest_until(double time) {
    double left = time - now();
    if (left > 0) wait_for(NULL, 0, left);
}

struct mark {
    double written;
    char member[32];
    int is_found;
};

// Asks for the first marks that were not found; the first one that is not found then.
static size_t look(struct client *at, struct mark *marks, size_t first, size_t end) {
    struct mark *asked[FLIGHT];
    size_t count = 0;
    for (size_t mark = first; mark < end && count < FLIGHT; mark++) {
        if (!marks[mark].is_found) asked[count++] = &marks[mark];
    }
    for (size_t mark = 0; mark < count; mark++) request(at, 3, (const char *[]){"ZSCORE", "probe:0000", asked[mark]->member});
    for (size_t mark = 0; mark < count; mark++) {
        asked[mark]->is_found = is_there(at);
        if (asked[mark]->is_found) count_latency(&latencies, now() - asked[mark]->written);
    }
    while (first < end && marks[first].is_found) first++;
    return first;
}

static void measure_fresh(int from, int at, long seconds, long patience, double least, uint32_t seed) {
    struct client *writes = client(from), *asks = client(at);
    size_t most = seconds / MARKS, written = 0, due = 0, first = 0;
    struct mark *marks = calloc(most, sizeof *marks);
    if (!marks) fail("calloc");
    double began = now(), end = began + seconds + patience;
    for (double time = began; (written < most || first < written) && time < end; time = now()) {
        while (line(writes)) {
        }
        if (written < most && time >= began + written * MARKS) {
            struct mark *mark = &marks[written];
            sprintf(mark->member, "%08x%08zx", seed, written++);
            mark->written = time;
            request(writes, 4, (const char *[]){"ZADD", "probe:0000", "1", mark->member});
        }
        while (due < written && marks[due].written + least <= now()) due++;
        first = look(asks, marks, first, due);
        rest_until(time + ASKS);
    }
    size_t never = 0;
    for (size_t mark = 0; mark < written; mark++) never += !marks[mark].is_found;
    print_latencies(&latencies);
    printf("never %zu\n", never);
}

static void measure_calls(int port, const char *key) {
    struct client *it = client(port);
    double wanted = now();
    printf("begun\n");
    fflush(stdout);
    for (struct pollfd input = {.fd = 0, .events = POLLIN}; !input.revents; wait_for(&input, 1, 0)) {
        request(it, 4, (const char *[]){"ZADD", key, "1", "member"});
        next_line(it);
        count_latency(&latencies, now() - wanted);
        wanted = now() > wanted + CALLS ? now() : wanted + CALLS;
        rest_until(wanted);
        request(it, 3, (const char *[]){"ZSCORE", key, "member"});
        is_there(it);
        count_latency(&latencies, now() - wanted);
        wanted = now() > wanted + CALLS ? now() : wanted + CALLS;
        rest_until(wanted);
    }
    print_latencies(&latencies);
}

int main(int argc, char **argv) {
    wake_exactly();
    if (argc == 8 && !strcmp(argv[1], "fresh")) {
        measure_fresh(number(argv[2], "FROM", 1, 65535), number(argv[3], "AT", 1, 65535), number(argv[4], "SECONDS", 1, 100000),
                      number(argv[5], "PATIENCE", 1, 100000), number(argv[6], "LEAST", 0, 10000000) * 1e-6,
                      number(argv[7], "SEED", 0, UINT32_MAX));
    } else if (argc == 4 && !strcmp(argv[1], "calls")) {
        measure_calls(number(argv[2], "PORT", 1, 65535), argv[3]);
    } else {
        fprintf(stderr, "usage: probe fresh FROM AT SECONDS PATIENCE LEAST SEED\n       probe calls PORT KEY\n");
        return 3;
    }
    return 0;
}
