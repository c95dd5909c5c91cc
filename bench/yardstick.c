/* The yardstick of reading: parses requests where they lie in the input buffer and refuses each of them.
   It checks no more than it needs to find the words, so it is a lower bound and no server. */
#include <stdint.h>
#include <string.h>
#include <unistd.h>

static char input[1 << 16], output[1 << 20], carry[1 << 21];
static const char refusal[] = "-ERR unknown command\r\n";

/* Reads a line's number after its mark; NULL where the line is not whole. */
static const char *number(const char *at, const char *end, long *value) {
    long n = 0;
    for (at++; at < end && *at != '\r'; at++) n = n * 10 + (*at - '0');
    if (end - at < 2) return NULL;
    *value = n;
    return at + 2;
}

/* The end of the request at the front, or NULL where it is not whole. */
static const char *request(const char *at, const char *end) {
    long words, length;
    if (at == end || !(at = number(at, end, &words))) return NULL;
    for (; words > 0; words--) {
        if (at == end || !(at = number(at, end, &length)) || end - at < length + 2) return NULL;
        at += length + 2;
    }
    return at;
}

static int put(const char *bytes, size_t length) {
    while (length > 0) {
        ssize_t n = write(1, bytes, length);
        if (n <= 0) return -1;
        bytes += n;
        length -= (size_t)n;
    }
    return 0;
}

int main(void) {
    size_t kept = 0;
    ssize_t got;
    while ((got = read(0, input, sizeof input)) > 0) {
        if (kept + (size_t)got > sizeof carry) return 2;
        memcpy(carry + kept, input, (size_t)got);
        const char *at = carry, *end = carry + kept + got, *next;
        size_t owed = 0;
        while ((next = request(at, end))) {
            memcpy(output + owed, refusal, sizeof refusal - 1);
            owed += sizeof refusal - 1;
            at = next;
        }
        if (put(output, owed)) return 4;
        kept = (size_t)(end - at);
        memmove(carry, at, kept);
    }
    return got < 0 ? 4 : 0;
}
