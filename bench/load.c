// Sends a stream of requests to a server on a loopback port over several connections, so many requests of a connection in
// flight, and prints the seconds from the first byte to the last reply, the seconds of processor time that this loader
// took for it, and how many replies there were.
//
// Usage: load STREAM PORT CONNECTIONS FLIGHT THREADS [SECONDS [PID]]
// Each connection is answered a PING first, and gets a part of the stream. It writes FLIGHT requests at once and the next
// ones when all are answered; where FLIGHT is 0 it writes all its requests as the server takes them.
// With SECONDS each connection sends its part over and over. After a fifth of a second replies are counted for so many
// seconds, and each line says one thing of them: how many came in a second, within how many milliseconds from the write
// 50, 99 and 99.9 of a hundred came, for what part of its threads' time this loader was busy and, with PID, how many
// microseconds of that process's processor time a request took.
// Status 1 where a reply is an error or a connection ends, 3 where the words are wrong.
#define _GNU_SOURCE
#include <arpa/inet.h>
#include <errno.h>
#include <fcntl.h>
#include <netinet/tcp.h>
#include <pthread.h>
#include <stdatomic.h>
#include <stdio.h>
#include <stdlib.h>
#include <string.h>
#include <sys/epoll.h>
#include <sys/socket.h>
#include <sys/stat.h>
#include <time.h>
#include <unistd.h>

#define PIECE 65536
#define EVENTS 512
#define PING "*1\r\n$4\r\nPING\r\n"
#define PONG "+PONG\r\n"
#define WARM_UP 200000 // microseconds
#define LATENCY 2e-6   // seconds: how exactly a latency is kept
#define LATENCIES 2000000

// What of a reply has come: a line's kind and number, or bytes of a text that are still to come.
struct reply {
    int kind, is_negative;
    long number, skip, parts;
};

struct connection {
    int link;
    size_t next, batch; // requests: the next to answer, the end of those in flight
    size_t first, end;  // requests of its part of the stream
    size_t written;     // bytes of the stream
    double sent;        // when those in flight were written
    struct reply reply;
};

static char *bytes;
static size_t *starts, requests, flight;
static struct connection *connections;
static long connection_count, thread_count, seconds;
static atomic_size_t by_latency[LATENCIES]; // counted replies
static pthread_barrier_t gate;
static atomic_int is_counted, is_over;

static void fail(const char *what) {
    perror(what);
    exit(1);
}

static void refuse(const char *what) {
    fprintf(stderr, "load: %s\n", what);
    exit(1);
}

static double read_clock(clockid_t clock) {
    struct timespec time;
    if (clock_gettime(clock, &time) < 0) fail("clock_gettime");
    return time.tv_sec + time.tv_nsec * 1e-9;
}

static double now(void) {
    return read_clock(CLOCK_MONOTONIC);
}

// The processor time of a process, in seconds. 0 is this loader.
static double busy(pid_t process) {
    clockid_t clock;
    if (clock_getcpuclockid(process, &clock)) refuse("there is no process PID");
    return read_clock(clock);
}

// A number of the command line.
static long number(const char *word, const char *name, long least, long most) {
    char *end;
    long value = strtol(word, &end, 10);
    if (*word && !*end && least <= value && value <= most) return value;
    fprintf(stderr, "load: %s has to be a number from %ld to %ld\n", name, least, most);
    exit(3);
}

// Reads the stream, and finds where each of its requests begins.
static void read_stream(const char *path) {
    int file = open(path, O_RDONLY);
    struct stat about;
    if (file < 0 || fstat(file, &about) < 0) fail(path);
    size_t size = about.st_size, at = 0, room = 1024;
    bytes = malloc(size + 1);
    for (ssize_t count; at < size; at += count) {
        count = read(file, bytes + at, size - at);
        if (count <= 0) fail(path);
    }
    close(file);
    bytes[size] = 0;
    starts = malloc(room * sizeof *starts);
    char *place = bytes;
    while (place < bytes + size) {
        if (requests + 2 > room) starts = realloc(starts, (room *= 2) * sizeof *starts);
        starts[requests++] = place - bytes;
        long words = strtol(place + 1, &place, 10);
        for (place += 2; words > 0; words--) {
            long length = strtol(place + 1, &place, 10);
            place += length + 4;
        }
    }
    starts[requests] = size;
}

static int dial(int port) {
    struct sockaddr_in address = {.sin_family = AF_INET, .sin_port = htons(port)};
    address.sin_addr.s_addr = htonl(INADDR_LOOPBACK);
    char pong[sizeof PONG] = "";
    int link = socket(AF_INET, SOCK_STREAM, 0), one = 1;
    if (link < 0 || connect(link, (struct sockaddr *)&address, sizeof address) < 0) fail("connect");
    setsockopt(link, IPPROTO_TCP, TCP_NODELAY, &one, sizeof one);
    if (send(link, PING, strlen(PING), MSG_NOSIGNAL) < 0 || recv(link, pong, strlen(PONG), MSG_WAITALL) < 0) fail("PING");
    if (strcmp(pong, PONG)) refuse("a PING was not answered");
    fcntl(link, F_SETFL, O_NONBLOCK);
    return link;
}

// A line of a reply has ended: how many replies are whole by it, 0 or 1.
static int line(struct reply *reply) {
    long number = reply->is_negative ? -reply->number : reply->number;
    if (reply->kind == '-') refuse("an error was answered");
    if (reply->kind == '$' && number >= 0) reply->skip = number + 2;
    reply->parts += (reply->kind == '*' && number > 0 ? number : 0) - 1;
    reply->kind = reply->is_negative = reply->number = 0;
    return reply->skip == 0 && reply->parts == 0;
}

// How many replies end in these bytes.
static size_t replies(struct reply *reply, const char *at, const char *end) {
    size_t whole = 0;
    while (at < end) {
        if (reply->skip) {
            long step = end - at < reply->skip ? end - at : reply->skip;
            at += step;
            reply->skip -= step;
            whole += reply->skip == 0 && reply->parts == 0;
        } else if (reply->kind == 0) {
            reply->kind = *at++;
            if (reply->parts == 0) reply->parts = 1;
        } else if (*at == '\n') {
            at++;
            whole += line(reply);
        } else {
            if (*at == '-') reply->is_negative = 1;
            if (*at >= '0' && *at <= '9') reply->number = reply->number * 10 + *at - '0';
            at++;
        }
    }
    return whole;
}

// Writes what is to go of the requests in flight; whether all of it went.
static int put(struct connection *to) {
    while (to->written < starts[to->batch]) {
        size_t left = starts[to->batch] - to->written;
        ssize_t count = send(to->link, bytes + to->written, left < PIECE ? left : PIECE, MSG_NOSIGNAL);
        if (count < 0 && errno == EAGAIN) return 0;
        if (count < 0) fail("send");
        to->written += count;
    }
    return 1;
}

// Puts the next requests in flight.
static int put_batch(struct connection *to) {
    size_t left = to->end - to->next;
    to->sent = now();
    to->batch = to->next + (flight && flight < left ? flight : left);
    return put(to);
}

static void watch(int poll, int how, struct connection *it, int is_written) {
    struct epoll_event event = {.events = EPOLLIN | (is_written ? 0 : EPOLLOUT), .data.ptr = it};
    if (epoll_ctl(poll, how, it->link, &event) < 0) fail("epoll_ctl");
}

// Reads what has come; whether all requests are answered. With seconds they begin again, until the time is over.
static int take(struct connection *from, char *room) {
    ssize_t count = recv(from->link, room, PIECE, 0);
    if (count == 0) refuse("a connection ended");
    if (count < 0 && errno != EAGAIN) fail("recv");
    size_t whole = count > 0 ? replies(&from->reply, room, room + count) : 0;
    from->next += whole;
    if (whole && is_counted) {
        size_t latency = (now() - from->sent) / LATENCY;
        by_latency[latency < LATENCIES ? latency : LATENCIES - 1] += whole;
    }
    if (is_over) return from->next == from->batch;
    if (from->next < from->end || !seconds) return from->next == from->end;
    from->next = from->batch = from->first;
    from->written = starts[from->first];
    return 0;
}

static void *drive(void *argument) {
    int left = 0, poll = epoll_create1(0);
    char *room = malloc(PIECE);
    struct epoll_event events[EVENTS];
    if (poll < 0) fail("epoll_create1");
    pthread_barrier_wait(&gate);
    for (long at = (long)argument; at < connection_count; at += thread_count) {
        struct connection *it = &connections[at];
        if (it->next == it->end) continue;
        watch(poll, EPOLL_CTL_ADD, it, put_batch(it));
        left++;
    }
    while (left) {
        int ready = epoll_wait(poll, events, EVENTS, -1);
        for (int at = 0; at < ready; at++) {
            struct connection *it = events[at].data.ptr;
            int was_written = it->written == starts[it->batch], is_written = was_written;
            if (events[at].events & EPOLLOUT) is_written = put(it);
            if (events[at].events & ~EPOLLOUT) {
                if (take(it, room)) {
                    close(it->link);
                    left--;
                    continue;
                }
                if (it->next == it->batch) is_written = put_batch(it);
            }
            if (is_written != was_written) watch(poll, EPOLL_CTL_MOD, it, is_written);
        }
    }
    free(room);
    close(poll);
    return NULL;
}

static void connect_all(int port) {
    connections = calloc(connection_count, sizeof *connections);
    for (long at = 0; at < connection_count; at++) {
        struct connection *it = &connections[at];
        it->link = dial(port);
        it->first = it->next = it->batch = requests * at / connection_count;
        it->end = requests * (at + 1) / connection_count;
        it->written = starts[it->next];
    }
}

// The milliseconds within which this part of the counted replies came.
static double within(double part, size_t counted) {
    size_t latency = 0, came = 0;
    while (latency < LATENCIES && came < part * counted) came += by_latency[latency++];
    return latency * LATENCY * 1e3;
}

// Counts replies for so many seconds, and says what it counted.
static void measure(long pid) {
    usleep(WARM_UP);
    double began = now(), spent = busy(0), served = busy(pid);
    is_counted = 1;
    sleep(seconds);
    is_counted = 0;
    double passed = now() - began;
    spent = busy(0) - spent;
    served = busy(pid) - served;
    is_over = 1;
    size_t counted = 0;
    for (size_t at = 0; at < LATENCIES; at++) counted += by_latency[at];
    if (counted == 0) refuse("nothing was answered in time");
    printf("requests_a_second %.0f\np50_ms %.3f\np99_ms %.3f\np999_ms %.3f\nloader_busy %.2f\n", counted / passed,
           within(0.5, counted), within(0.99, counted), within(0.999, counted), spent / passed / thread_count);
    if (pid) printf("server_us_a_request %.3f\n", served / counted * 1e6);
}

int main(int argc, char **argv) {
    if (argc < 6 || argc > 8) {
        fprintf(stderr, "usage: load STREAM PORT CONNECTIONS FLIGHT THREADS [SECONDS [PID]]\n");
        return 3;
    }
    int port = number(argv[2], "PORT", 1, 65535);
    connection_count = number(argv[3], "CONNECTIONS", 1, 1000000);
    flight = number(argv[4], "FLIGHT", 0, 1000000);
    thread_count = number(argv[5], "THREADS", 1, connection_count);
    seconds = argc > 6 ? number(argv[6], "SECONDS", 1, 1000) : 0;
    long pid = argc > 7 ? number(argv[7], "PID", 1, 1 << 22) : 0;
    read_stream(argv[1]);
    if (seconds && requests < (size_t)connection_count) refuse("there are fewer requests than connections");
    connect_all(port);
    pthread_t *threads = calloc(thread_count, sizeof *threads);
    pthread_barrier_init(&gate, NULL, thread_count + 1);
    for (long at = 0; at < thread_count; at++) {
        if (pthread_create(&threads[at], NULL, drive, (void *)at)) refuse("no thread");
    }
    double began = now(), spent = busy(0);
    pthread_barrier_wait(&gate);
    if (seconds) measure(pid);
    for (long at = 0; at < thread_count; at++) pthread_join(threads[at], NULL);
    if (!seconds) printf("%.6f %.6f %zu\n", now() - began, busy(0) - spent, requests);
    return 0;
}
