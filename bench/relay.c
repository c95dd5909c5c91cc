// Relays links over loopback, with a delay each way, and counts what they carry: bytes, and of links between sites of zqueue
// frames by kind and the operations in them.
//
// Usage: relay DELAY RATE PORT..
// For each PORT it listens on a port of its own, and connects each link that comes there on to PORT. The two are a pair, and
// pairs have numbers from 0 on. DELAY is how many microseconds each byte is under way, in each direction, RATE how many
// bytes a second a direction carries at most; 0 is as many as come. It says its ports on one line, and then does what lines
// of its standard input say, until they end. PAIR is a number, or `all`.
//
//   cut PAIR          ends the pair's links, and each new one at once
//   stall PAIR        reads and writes nothing, and keeps the links
//   go PAIR           carries again
//   delay PAIR DELAY  for what comes from now on
//   rate PAIR RATE    the same; what waited for its turn at an older rate is given at once
//   count             says its counters: a line for each, of the pair, its direction and name, and a number; then a full stop
//
// Each other line is answered by `done`. Direction `out` is from who dialled, `back` to it. Counters of a direction: `bytes`;
// `unread`, those of them that are no greeting and no frame; `operations`; `frames.K`, `bytes.K` and `largest.K`, of frames
// of kind K, with the four bytes of their length. Counters of a pair, in direction `link`: `accepted`; `open`; `since`, the
// time at which the latest one that was carried on was accepted.
// Status 3 where the words are wrong.
#define _GNU_SOURCE
#define PROGRAM "relay"
#include "loopback.h"

// Bytes that wait for one end at most: past it nothing more is taken for it.
#define WAITING (64u << 20)
#define KINDS 256
#define MOST_PAIRS 64
#define MOST_FRAME (1u << 30)

// A greeting is these bytes, a version and the words of that version; a secret adds a nonce and an answer to the peer's.
#define MAGIC "zq-peer\n"
#define NONCE 16
#define ANSWER 32

struct counters {
    uint64_t bytes, unread, operations, frames[KINDS], frame_bytes[KINDS], largest[KINDS];
};

enum stage { GREETING, OLD_WORDS, NEW_WORDS, RUN, LENGTH, HEAD, LOST };

// Finds frames in the bytes of one direction, as they come.
struct reader {
    enum stage stage;
    size_t held, wanted, skip;
    uint32_t length;
    unsigned char head[256];
};

struct piece {
    struct piece *next;
    double due;
    size_t size, given;
    char bytes[];
};

// One direction of a link.
struct way {
    int from, to;
    struct piece *first, *last;
    size_t waiting;
    double free; // when the last byte that was taken has left, at the pair's rate
    int has_ended, is_full;
    struct reader reader;
    struct counters *counters;
};

struct link {
    struct link *next;
    struct pair *pair;
    struct way ways[2];
    int is_over;
};

enum state { GOES, CUT, STALLED };

struct pair {
    int listener, port, onward;
    enum state state;
    double delay, rate, since;
    uint64_t accepted;
    struct counters counters[2];
};

static struct pair pairs[MOST_PAIRS];
static size_t pair_count;
static struct link *links;

static void want(struct reader *it, enum stage stage, size_t wanted) {
    it->stage = stage;
    it->wanted = wanted;
    it->held = 0;
}

static uint32_t number_at(const unsigned char *at) {
    return (uint32_t)at[0] << 24 | (uint32_t)at[1] << 16 | (uint32_t)at[2] << 8 | at[3];
}

static void begin_frames(struct reader *it, int has_secret) {
    it->skip = has_secret ? NONCE + ANSWER : 0;
    want(it, LENGTH, 4);
}

static void end_head(struct reader *it, struct counters *counters) {
    unsigned kind = it->head[0];
    uint64_t size = 4 + (uint64_t)it->length;
    counters->frames[kind]++;
    counters->frame_bytes[kind] += size;
    if (counters->largest[kind] < size) counters->largest[kind] = size;
    if (kind == 2 && it->held == 5) counters->operations += number_at(it->head + 1);
    // (at most 4,096: a number of two bytes, of seven bits each, the lowest first)
    if (kind == 11 && it->held == 5) counters->operations += (it->head[3] & 127) + (it->head[3] & 128 ? (it->head[4] & 127) << 7 : 0);
    it->skip = it->length - it->held;
    want(it, LENGTH, 4);
}

// The bytes that were wanted are there.
static void step(struct reader *it, struct counters *counters) {
    switch (it->stage) {
    case GREETING:
        if (memcmp(it->head, MAGIC, strlen(MAGIC))) {
            it->stage = LOST;
            counters->unread += it->held;
        } else if (it->head[strlen(MAGIC)]) {
            want(it, OLD_WORDS, 4); // site, heaps, rule, whether there is a secret
        } else {
            want(it, NEW_WORDS, 5); // lowest and highest version, site, heaps, rule
        }
        break;
    case OLD_WORDS:
        begin_frames(it, it->head[3]);
        break;
    case NEW_WORDS:
        want(it, RUN, 16 + 8 + 8 * (it->head[3] & 31) + 1); // run, start, a counter for each heap, whether there is a secret
        break;
    case RUN:
        begin_frames(it, it->head[it->held - 1]);
        break;
    case LENGTH:
        it->length = number_at(it->head);
        if (it->length > MOST_FRAME) {
            it->stage = LOST;
            counters->unread += it->held;
        } else if (it->length == 0) {
            want(it, LENGTH, 4);
        } else {
            want(it, HEAD, it->length < 5 ? it->length : 5);
        }
        break;
    case HEAD:
        end_head(it, counters);
        break;
    case LOST:
        break;
    }
}

static void hear(struct reader *it, struct counters *counters, const char *at, size_t size) {
    counters->bytes += size;
    while (size) {
        size_t most = it->skip ? it->skip : it->wanted - it->held, taken = size < most ? size : most;
        if (it->stage == LOST) {
            counters->unread += size;
            return;
        }
        if (it->skip) {
            it->skip -= taken;
        } else {
            memcpy(it->head + it->held, at, taken);
            it->held += taken;
            if (it->held == it->wanted) step(it, counters);
        }
        at += taken;
        size -= taken;
    }
}

// How much is taken at once, so that what is slow comes in drops.
static size_t most_at_once(const struct pair *pair) {
    double drop = pair->rate / 100;
    return pair->rate == 0 || drop > PIECE ? PIECE : drop < 128 ? 128 : drop;
}

static size_t most_waiting(const struct pair *pair) {
    double most = PIECE + pair->rate * (pair->delay + 0.1);
    return pair->rate == 0 || most > WAITING ? WAITING : most;
}

// When what is taken now has come.
static double due(struct way *way, const struct pair *pair, size_t size, double time) {
    if (way->free < time) way->free = time;
    if (pair->rate > 0) way->free += size / pair->rate;
    return way->free + pair->delay;
}

// Takes what has come from one end; whether it is there still.
static int take(struct way *way, const struct pair *pair) {
    static char room[PIECE];
    while (way->waiting < most_waiting(pair)) {
        ssize_t count = recv(way->from, room, most_at_once(pair), 0);
        if (count < 0) return errno == EAGAIN;
        if (count == 0) {
            way->has_ended = 1;
            return 1;
        }
        hear(&way->reader, way->counters, room, count);
        struct piece *piece = malloc(sizeof *piece + count);
        if (!piece) fail("malloc");
        *piece = (struct piece){.due = due(way, pair, count, now()), .size = count};
        memcpy(piece->bytes, room, count);
        if (way->last) way->last->next = piece;
        else way->first = piece;
        way->last = piece;
        way->waiting += count;
        if ((size_t)count < most_at_once(pair)) return 1;
    }
    return 1;
}

static void drop_first(struct way *way) {
    struct piece *piece = way->first;
    way->first = piece->next;
    if (!way->first) way->last = NULL;
    free(piece);
}

// Gives the other end what is due, as far as it is taken; whether the link goes on.
static int give(struct way *way) {
    way->is_full = 0;
    for (struct piece *piece; (piece = way->first) && piece->due <= now();) {
        ssize_t count = send(way->to, piece->bytes + piece->given, piece->size - piece->given, MSG_NOSIGNAL);
        if (count < 0 && errno == EAGAIN) {
            way->is_full = 1;
            return 1;
        }
        if (count < 0) return 0;
        way->waiting -= count;
        piece->given += count;
        if (piece->given == piece->size) drop_first(way);
    }
    return !way->has_ended || way->first;
}

static void accept_links(struct pair *pair) {
    for (int from; (from = accept(pair->listener, NULL, NULL)) >= 0;) {
        pair->accepted++;
        int onward = pair->state == CUT ? -1 : dialled(pair->onward);
        if (onward < 0) {
            close(from);
            continue;
        }
        make_prompt(from);
        pair->since = now();
        struct link *link = calloc(1, sizeof *link);
        if (!link) fail("calloc");
        *link = (struct link){.next = links, .pair = pair};
        for (int back = 0; back < 2; back++) {
            struct way *way = &link->ways[back];
            way->from = back ? onward : from;
            way->to = back ? from : onward;
            way->counters = &pair->counters[back];
            want(&way->reader, GREETING, strlen(MAGIC) + 1);
        }
        links = link;
    }
}

static void end_links(void) {
    for (struct link **at = &links; *at;) {
        struct link *link = *at;
        if (!link->is_over && link->pair->state != CUT) {
            at = &link->next;
            continue;
        }
        *at = link->next;
        for (int back = 0; back < 2; back++) {
            close(link->ways[back].from);
            while (link->ways[back].first) drop_first(&link->ways[back]);
        }
        free(link);
    }
}

static void carry(struct link *link, const short *ready) {
    for (int back = 0; back < 2; back++) {
        struct way *way = &link->ways[back];
        int is_there = !ready[back] || way->has_ended || take(way, link->pair);
        if (!is_there || !give(way)) {
            link->is_over = 1;
            return;
        }
    }
}

static void print_counters(void) {
    for (size_t at = 0; at < pair_count; at++) {
        uint64_t open = 0;
        for (struct link *link = links; link; link = link->next) open += link->pair == &pairs[at];
        printf("%zu link accepted %lu\n%zu link open %lu\n%zu link since %.6f\n", at, pairs[at].accepted, at, open, at,
               pairs[at].since);
        for (int back = 0; back < 2; back++) {
            const struct counters *it = &pairs[at].counters[back];
            const char *way = back ? "back" : "out";
            printf("%zu %s bytes %lu\n%zu %s unread %lu\n", at, way, it->bytes, at, way, it->unread);
            printf("%zu %s operations %lu\n", at, way, it->operations);
            for (int kind = 0; kind < KINDS; kind++) {
                if (!it->frames[kind]) continue;
                printf("%zu %s frames.%d %lu\n%zu %s bytes.%d %lu\n", at, way, kind, it->frames[kind], at, way, kind,
                       it->frame_bytes[kind]);
                printf("%zu %s largest.%d %lu\n", at, way, kind, it->largest[kind]);
            }
        }
    }
    printf(".\n");
}

// What is taken from now on goes at this rate, and what was taken before holds nothing up.
static void set_rate(struct pair *pair, double rate) {
    double time = now();
    pair->rate = rate;
    for (struct link *link = links; link; link = link->next) {
        if (link->pair != pair) continue;
        for (int back = 0; back < 2; back++) {
            link->ways[back].free = time;
            for (struct piece *piece = link->ways[back].first; piece; piece = piece->next) {
                if (piece->due > time + pair->delay) piece->due = time + pair->delay;
            }
        }
    }
}

static void command(char *line) {
    char *words[3] = {"", "", ""}, *rest;
    size_t count = 0;
    for (char *word = strtok_r(line, " ", &rest); word && count < 3; word = strtok_r(NULL, " ", &rest)) words[count++] = word;
    if (!strcmp(words[0], "count")) {
        print_counters();
        fflush(stdout);
        return;
    }
    int is_all = !strcmp(words[1], "all");
    size_t first = is_all ? 0 : number(words[1], "PAIR", 0, pair_count - 1), end = is_all ? pair_count : first + 1;
    for (size_t at = first; at < end; at++) {
        struct pair *pair = &pairs[at];
        if (!strcmp(words[0], "cut")) pair->state = CUT;
        else if (!strcmp(words[0], "stall")) pair->state = STALLED;
        else if (!strcmp(words[0], "go")) pair->state = GOES;
        else if (!strcmp(words[0], "delay")) pair->delay = number(words[2], "DELAY", 0, 100000000) * 1e-6;
        else if (!strcmp(words[0], "rate")) set_rate(pair, number(words[2], "RATE", 0, 1L << 40));
        else {
            fprintf(stderr, "relay: %s is no command\n", words[0]);
            exit(3);
        }
    }
    end_links();
    printf("done\n");
    fflush(stdout);
}

// Does what the lines say that have come; whether more may come.
static int hear_commands(void) {
    static char room[4096];
    static size_t held;
    ssize_t count = read(0, room + held, sizeof room - held - 1);
    if (count <= 0) return 0;
    held += count;
    room[held] = 0;
    for (char *end; (end = strchr(room, '\n'));) {
        *end = 0;
        command(room);
        held -= end + 1 - room;
        memmove(room, end + 1, held + 1);
    }
    return held + 1 < sizeof room;
}

static void listen_all(char **ports) {
    printf("ports");
    for (size_t at = 0; at < pair_count; at++) {
        struct pair *pair = &pairs[at];
        struct sockaddr_in address = loopback(0);
        socklen_t size = sizeof address;
        int one = 1;
        pair->onward = number(ports[at], "PORT", 1, 65535);
        pair->listener = socket(AF_INET, SOCK_STREAM, 0);
        setsockopt(pair->listener, SOL_SOCKET, SO_REUSEADDR, &one, sizeof one);
        if (pair->listener < 0 || bind(pair->listener, (struct sockaddr *)&address, size) < 0) fail("bind");
        if (listen(pair->listener, 128) < 0) fail("listen");
        if (getsockname(pair->listener, (struct sockaddr *)&address, &size) < 0) fail("getsockname");
        if (fcntl(pair->listener, F_SETFL, O_NONBLOCK) < 0) fail("fcntl");
        pair->port = ntohs(address.sin_port);
        printf(" %d", pair->port);
    }
    printf("\n");
    fflush(stdout);
}

// What is waited for at one end of a link: to read for the way that begins there, to write for the one that ends there.
static struct pollfd awaited(const struct way *in, const struct way *out, const struct pair *pair) {
    short events = (!in->has_ended && in->waiting < most_waiting(pair) ? POLLIN : 0) | (out->is_full ? POLLOUT : 0);
    return (struct pollfd){.fd = events ? in->from : -1, .events = events};
}

// Waits until something has come, or is due, or can be written, and carries it. Whether more commands may come.
static int turn(void) {
    size_t count = 1 + pair_count, at = 0;
    for (struct link *link = links; link; link = link->next) count += 2;
    struct pollfd these[count];
    double next = -1;
    these[at++] = (struct pollfd){.fd = 0, .events = POLLIN};
    for (size_t pair = 0; pair < pair_count; pair++) {
        these[at++] = (struct pollfd){.fd = pairs[pair].state == STALLED ? -1 : pairs[pair].listener, .events = POLLIN};
    }
    for (struct link *link = links; link; link = link->next, at += 2) {
        for (int back = 0; back < 2; back++) {
            const struct way *way = &link->ways[back];
            these[at + back] = awaited(way, &link->ways[1 - back], link->pair);
            if (link->pair->state == STALLED) these[at + back].fd = -1;
            else if (way->first && !way->is_full && (next < 0 || way->first->due < next)) next = way->first->due;
        }
    }
    double time = now();
    wait_for(these, count, next < 0 ? -1 : next < time ? 0 : next - time);
    at = 1 + pair_count;
    for (struct link *link = links; link; link = link->next, at += 2) {
        short ready[2] = {these[at].fd >= 0 && these[at].revents & ~POLLOUT, these[at + 1].fd >= 0 && these[at + 1].revents & ~POLLOUT};
        if (link->pair->state != STALLED) carry(link, ready);
    }
    end_links();
    for (size_t pair = 0; pair < pair_count; pair++) {
        if (these[1 + pair].fd >= 0 && these[1 + pair].revents) accept_links(&pairs[pair]);
    }
    return !these[0].revents || hear_commands();
}

int main(int argc, char **argv) {
    if (argc < 4 || argc - 3 > MOST_PAIRS) {
        fprintf(stderr, "usage: relay DELAY RATE PORT..\n");
        return 3;
    }
    double delay = number(argv[1], "DELAY", 0, 100000000) * 1e-6, rate = number(argv[2], "RATE", 0, 1L << 40);
    pair_count = argc - 3;
    for (size_t at = 0; at < pair_count; at++) pairs[at] = (struct pair){.delay = delay, .rate = rate};
    wake_exactly();
    listen_all(argv + 3);
    while (turn()) {
    }
    return 0;
}
