// Feeds two streams of requests, one after the other, to a program's standard input or to a server on a loopback port,
// and prints the seconds that the second one took, from its first byte to its last reply. Bytes are written and read as
// the other end is ready for them, so that both kinds of server bear the same load.
//
// Usage: feed FIRST SECOND program PATH WORD..
//        feed FIRST SECOND port NUMBER
//        feed FIRST SECOND stick PATH WORD..
// A stream is a file of requests. Behind it goes a PING with a word of its own, whose reply is the last one. A stick is a
// program that answers no PING: its second stream ends with its input, and its replies with the program.
#define _GNU_SOURCE
#include <arpa/inet.h>
#include <errno.h>
#include <fcntl.h>
#include <poll.h>
#include <stdio.h>
#include <stdlib.h>
#include <string.h>
#include <sys/socket.h>
#include <sys/stat.h>
#include <sys/wait.h>
#include <time.h>
#include <unistd.h>

#define PIECE 65536
#define LAST_REQUEST "*2\r\n$4\r\nPING\r\n$19\r\nthe-end-of-a-stream\r\n"
#define LAST_REPLY "$19\r\nthe-end-of-a-stream\r\n"

static void fail(const char *what) {
    perror(what);
    exit(1);
}

static double now(void) {
    struct timespec time;
    clock_gettime(CLOCK_MONOTONIC, &time);
    return time.tv_sec + time.tv_nsec * 1e-9;
}

// The bytes of a file, with the last request behind them.
static char *stream(const char *path, size_t *size) {
    int file = open(path, O_RDONLY);
    struct stat about;
    if (file < 0 || fstat(file, &about) < 0) fail(path);
    size_t read_so_far = 0, length = about.st_size, last = strlen(LAST_REQUEST);
    char *bytes = malloc(length + last);
    while (read_so_far < length) {
        ssize_t count = read(file, bytes + read_so_far, length - read_so_far);
        if (count <= 0) fail(path);
        read_so_far += count;
    }
    close(file);
    memcpy(bytes + length, LAST_REQUEST, last);
    *size = length + last;
    return bytes;
}

// Whether the bytes that came end with the last reply: `tail` keeps as many as it has.
static int is_last(char *tail, const char *bytes, size_t count) {
    size_t wanted = strlen(LAST_REPLY);
    if (count >= wanted) {
        memcpy(tail, bytes + count - wanted, wanted);
    } else {
        memmove(tail, tail + count, wanted - count);
        memcpy(tail + wanted - count, bytes, count);
    }
    return memcmp(tail, LAST_REPLY, wanted) == 0;
}

// The seconds from a stream's first byte to its last reply, or to the end of the replies where the input is to end too.
static double feed(const char *bytes, size_t size, int to, int from, int to_the_end) {
    static char replies[PIECE];
    char tail[sizeof LAST_REPLY] = {0};
    size_t sent = 0;
    double begin = now();
    for (;;) {
        struct pollfd ready[2] = {{from, POLLIN, 0}, {sent < size ? to : -1, POLLOUT, 0}};
        if (poll(ready, 2, -1) < 0) fail("poll");
        if (ready[1].revents) {
            ssize_t count = write(to, bytes + sent, size - sent < PIECE ? size - sent : PIECE);
            if (count < 0 && errno != EAGAIN) fail("write");
            if (count > 0) sent += count;
            if (sent == size && to_the_end) close(to);
        }
        if (ready[0].revents) {
            ssize_t count = read(from, replies, sizeof replies);
            if (count < 0 && errno != EAGAIN) fail("read");
            if (count == 0 && !to_the_end) fail("the replies ended");
            if (count == 0 || (count > 0 && !to_the_end && is_last(tail, replies, count))) return now() - begin;
        }
    }
}

static pid_t start(char **words, int *to, int *from) {
    int in[2], out[2];
    if (pipe2(in, O_CLOEXEC) < 0 || pipe2(out, O_CLOEXEC) < 0) fail("pipe");
    pid_t child = fork();
    if (child < 0) fail("fork");
    if (child == 0) {
        dup2(in[0], 0);
        dup2(out[1], 1);
        execv(words[0], words);
        fail(words[0]);
    }
    close(in[0]);
    close(out[1]);
    *to = in[1];
    *from = out[0];
    return child;
}

static int dial(int port) {
    struct sockaddr_in address = {.sin_family = AF_INET, .sin_port = htons(port)};
    address.sin_addr.s_addr = htonl(INADDR_LOOPBACK);
    int link = socket(AF_INET, SOCK_STREAM, 0);
    if (link < 0 || connect(link, (struct sockaddr *)&address, sizeof address) < 0) fail("connect");
    return link;
}

int main(int argc, char **argv) {
    if (argc < 5) {
        fprintf(stderr, "usage: feed FIRST SECOND program PATH WORD.. | port NUMBER | stick PATH WORD..\n");
        return 3;
    }
    size_t first_size, second_size;
    char *first = stream(argv[1], &first_size), *second = stream(argv[2], &second_size);
    int to, from, is_stick = strcmp(argv[3], "stick") == 0;
    pid_t child = 0;
    if (strcmp(argv[3], "port") == 0) {
        to = from = dial(atoi(argv[4]));
    } else {
        child = start(argv + 4, &to, &from);
    }
    fcntl(to, F_SETFL, O_NONBLOCK);
    fcntl(from, F_SETFL, O_NONBLOCK);
    if (first_size > strlen(LAST_REQUEST)) feed(first, first_size, to, from, 0);
    if (is_stick) second_size -= strlen(LAST_REQUEST);
    printf("%.6f\n", feed(second, second_size, to, from, is_stick));
    if (child && !is_stick) close(to);
    if (child) waitpid(child, NULL, 0);
    return 0;
}
