// A worker that pops one member after the other of keys at a server on a loopback port.
//
// Usage: popper COMMAND PORT [KEY..]
// COMMAND is ZPOPMIN or ZPOPNEAR. It pops the keys in turn over one connection, each call after the reply to the one before,
// and writes each member that it got on a line, at once. Where no key has a member it rests for a fifth of a millisecond.
// Each line of its standard input names one key more, or with a `-` before it one less, and is answered by the line `done`
// on standard error once that holds. It ends where its standard input ends.
// Status 1 where a reply is an error or the connection ends, 3 where the words are wrong.
#define _GNU_SOURCE
#define PROGRAM "popper"
#include "loopback.h"

#define MOST_KEYS 64
#define LONGEST 256
#define REST 2e-4

static char keys[MOST_KEYS][LONGEST];
static size_t key_count;
static FILE *replies;
static int server;

static void add_key(const char *key) {
    if (key_count == MOST_KEYS || strlen(key) >= LONGEST) refuse("too many keys, or too long a one");
    strcpy(keys[key_count++], key);
}

static void drop_key(const char *key) {
    for (size_t at = 0; at < key_count; at++) {
        if (!strcmp(keys[at], key)) strcpy(keys[at], keys[--key_count]);
    }
}

// The next line of a reply, without its end.
static void line(char *room) {
    if (!fgets(room, LONGEST, replies)) refuse("the connection ended");
    if (room[0] == '-') refuse(room);
    room[strcspn(room, "\r\n")] = 0;
}

// Pops a member of a key and tells it; whether there was one.
static int pop(const char *command, const char *key) {
    char room[2 * LONGEST], member[LONGEST];
    int size = sprintf(room, "*2\r\n$%zu\r\n%s\r\n$%zu\r\n%s\r\n", strlen(command), command, strlen(key), key);
    if (send(server, room, size, MSG_NOSIGNAL) != size) fail("send");
    line(room);
    if (room[0] != '*') refuse("a pop was not answered by an array");
    if (room[1] != '2') return 0;
    line(room);
    line(member);
    line(room);
    line(room);
    puts(member);
    return 1;
}

// Takes or leaves the keys that were named; whether more may be.
static int hear(void) {
    static char room[4096];
    static size_t held;
    ssize_t count = read(0, room + held, sizeof room - held - 1);
    if (count <= 0) return 0;
    room[held += count] = 0;
    for (char *end; (end = strchr(room, '\n'));) {
        *end = 0;
        if (room[0] == '-') drop_key(room + 1);
        else add_key(room);
        fputs("done\n", stderr);
        held -= end + 1 - room;
        memmove(room, end + 1, held + 1);
    }
    return 1;
}

int main(int argc, char **argv) {
    if (argc < 3) {
        fprintf(stderr, "usage: popper COMMAND PORT [KEY..]\n");
        return 3;
    }
    wake_exactly();
    setvbuf(stdout, NULL, _IOLBF, LONGEST);
    server = dial(number(argv[2], "PORT", 1, 65535));
    if (fcntl(server, F_SETFL, 0) < 0) fail("fcntl");
    replies = fdopen(dup(server), "r");
    if (!replies) fail("fdopen");
    for (int at = 3; at < argc; at++) add_key(argv[at]);
    struct pollfd input = {.fd = 0, .events = POLLIN};
    for (int may_go_on = 1; may_go_on;) {
        int has_popped = 0;
        for (size_t at = 0; at < key_count; at++) has_popped |= pop(argv[1], keys[at]);
        wait_for(&input, 1, has_popped ? 0 : REST);
        if (input.revents) may_go_on = hear();
    }
    return 0;
}
