"""One heap's sorted sets as plain dictionaries, and what each command answers over them: a second reading of
docs/COMMANDS.md that shares no code with the program.

Members of a key go by score, and at equal scores by their bytes.
"""
import re

GREATEST = 9007199254740992
MOST_WORDS = 65536
LONGEST = 1048576

NULL = b"$-1\r\n"
UNKNOWN = b"-ERR unknown command\r\n"
WORDS = b"-ERR wrong number of arguments\r\n"
SYNTAX = b"-ERR syntax error\r\n"
FLAGS = b"-ERR flags exclude each other\r\n"
ONE_PAIR = b"-ERR INCR takes one pair\r\n"
SCORE = b"-ERR score is not a whole number in range\r\n"
WHOLE = b"-ERR value is not an integer\r\n"
NEGATIVE = b"-ERR count is negative\r\n"
BOUND = b"-ERR min or max is not a bound\r\n"
OUT_OF_RANGE = b"-ERR result out of range\r\n"
CLOSING = b"-ERR Protocol error\r\n"

SCORE_TEXT = re.compile(rb"([+-]?[0-9]+)(\.0+)?\Z")
WHOLE_TEXT = re.compile(rb"[+-]?[0-9]+\Z")


class Refused(Exception):
    """The words are no command; the reply says the first reason."""


def number(n):
    return b":%d\r\n" % n


def bulk(text):
    return b"$%d\r\n%s\r\n" % (len(text), text)


def array(texts):
    return b"*%d\r\n" % len(texts) + b"".join(bulk(text) for text in texts)


def score_of(text):
    """The value of a score's text."""
    found = SCORE_TEXT.match(text)
    if not found or abs(int(found.group(1))) > GREATEST:
        raise Refused(SCORE)
    return int(found.group(1))


def whole_of(text):
    """The value of a place or a count."""
    if not WHOLE_TEXT.match(text) or not -(1 << 63) <= int(text) < 1 << 63:
        raise Refused(WHOLE)
    return int(text)


def bound_of(text):
    """A bound, and whether it is left out itself."""
    is_out = text.startswith(b"(")
    rest = text[1:] if is_out else text
    if rest.lower() in (b"inf", b"+inf"):
        return float("inf"), is_out
    if rest.lower() == b"-inf":
        return -float("inf"), is_out
    try:
        return score_of(rest), is_out
    except Refused:
        raise Refused(BOUND) from None


def is_within(score, low, high):
    return (low[0] < score or (low[0] == score and not low[1])) and (score < high[0] or (score == high[0] and not high[1]))


class Plain:
    """The sets of one heap, and a method for each command."""

    def __init__(self):
        self.sets = {}

    def answer(self, words):
        """The bytes of the reply to a request of these words."""
        name = words[0].lower()
        method, least, most = COMMANDS.get(name, (None, 0, 0))
        if method is None:
            return UNKNOWN
        if not least <= len(words) <= most:
            return WORDS
        try:
            return method(self, *words[1:])
        except Refused as refused:
            return refused.args[0]

    def queue(self, key):
        """The pairs of a key in order."""
        return sorted((score, member) for member, score in self.sets.get(key, {}).items())

    def drop(self, key, member):
        """Whether the member was there. A key without members is not there."""
        members = self.sets.get(key, {})
        if member not in members:
            return False
        del members[member]
        if not members:
            del self.sets[key]
        return True

    def put(self, key, member, score):
        self.sets.setdefault(key, {})[member] = score

    def ping(self, message=None):
        return b"+PONG\r\n" if message is None else bulk(message)

    def zadd(self, key, *rest):
        known = {b"NX", b"XX", b"GT", b"LT", b"CH", b"INCR"}
        flags = set()
        at = 0
        while at < len(rest) and rest[at].upper() in known:
            flags.add(rest[at].upper())
            at += 1
        rest = rest[at:]
        if not rest or len(rest) % 2:
            raise Refused(SYNTAX)
        if (b"NX" in flags and flags & {b"XX", b"GT", b"LT"}) or {b"GT", b"LT"} <= flags:
            raise Refused(FLAGS)
        if b"INCR" in flags and len(rest) != 2:
            raise Refused(ONE_PAIR)
        scores = [score_of(text) for text in rest[::2]]
        if b"INCR" in flags:
            return self.raised(key, rest[1], scores[0], flags)
        counted = 0
        for score, member in zip(scores, rest[1::2]):
            old = self.sets.get(key, {}).get(member)
            if self.lets(old, score, flags):
                counted += old is None or (b"CH" in flags and old != score)
                self.put(key, member, score)
        return number(counted)

    def lets(self, old, new, flags):
        """Whether the flags let a member have a new score."""
        if old is None:
            return b"XX" not in flags
        return b"NX" not in flags and (b"GT" not in flags or new > old) and (b"LT" not in flags or new < old)

    def raised(self, key, member, increment, flags):
        old = self.sets.get(key, {}).get(member)
        new = increment if old is None else old + increment
        if not self.lets(old, new, flags):
            return NULL
        if abs(new) > GREATEST:
            return OUT_OF_RANGE
        self.put(key, member, new)
        return bulk(b"%d" % new)

    def zincrby(self, key, increment, member):
        return self.raised(key, member, score_of(increment), set())

    def zrem(self, key, *members):
        return number(sum(self.drop(key, member) for member in members))

    def delete(self, *keys):
        return number(sum(self.sets.pop(key, None) is not None for key in keys))

    def zscore(self, key, member):
        score = self.sets.get(key, {}).get(member)
        return NULL if score is None else bulk(b"%d" % score)

    def zcard(self, key):
        return number(len(self.sets.get(key, {})))

    def zcount(self, key, low, high):
        low, high = bound_of(low), bound_of(high)
        return number(sum(is_within(score, low, high) for score in self.sets.get(key, {}).values()))

    def zrank(self, key, member):
        return self.rank(self.queue(key), member)

    def zrevrank(self, key, member):
        return self.rank(self.queue(key)[::-1], member)

    def rank(self, pairs, member):
        for place, pair in enumerate(pairs):
            if pair[1] == member:
                return number(place)
        return NULL

    def zpopmin(self, key, count=b"1"):
        count = whole_of(count)
        if count < 0:
            raise Refused(NEGATIVE)
        popped = self.queue(key)[:count]
        for _, member in popped:
            self.drop(key, member)
        return array(with_scores(popped))

    def zpopnear(self, key):
        return self.zpopmin(key)

    def zrange(self, key, start, stop, *words):
        options = {}
        numbers = []
        words = list(words)
        while words:
            word = words.pop(0).upper()
            if word == b"LIMIT" and len(words) >= 2:
                options[word] = words[0], words[1]
                numbers += words[:2]
                del words[:2]
            elif word in (b"BYSCORE", b"REV", b"WITHSCORES"):
                options[word] = True
            else:
                raise Refused(SYNTAX)
        if b"LIMIT" in options and b"BYSCORE" not in options:
            raise Refused(SYNTAX)
        pairs = self.queue(key)
        if b"BYSCORE" in options:
            low, high = bound_of(start), bound_of(stop)
            for text in numbers:
                whole_of(text)
            if b"REV" in options:
                low, high = high, low
            pairs = [pair for pair in pairs if is_within(pair[0], low, high)]
            if b"REV" in options:
                pairs.reverse()
            if b"LIMIT" in options:
                pairs = limited(pairs, *map(whole_of, options[b"LIMIT"]))
        else:
            start, stop = whole_of(start), whole_of(stop)
            if b"REV" in options:
                pairs.reverse()
            pairs = placed(pairs, start, stop)
        return array(with_scores(pairs) if b"WITHSCORES" in options else [member for _, member in pairs])


def with_scores(pairs):
    return [text for score, member in pairs for text in (member, b"%d" % score)]


def limited(pairs, offset, count):
    """Leaves out the first, and gives so many: all where the count is negative, none where the offset is."""
    if offset < 0:
        return []
    return pairs[offset:] if count < 0 else pairs[offset:offset + count]


def placed(pairs, start, stop):
    """The pairs from one place to another, both included. Negative places count from the end."""
    size = len(pairs)
    start = max(start + size if start < 0 else start, 0)
    stop = min(stop + size if stop < 0 else stop, size - 1)
    return pairs[start:stop + 1] if start <= stop else []


MANY = MOST_WORDS
COMMANDS = {
    b"ping": (Plain.ping, 1, 2),
    b"zadd": (Plain.zadd, 4, MANY),
    b"zincrby": (Plain.zincrby, 4, 4),
    b"zrem": (Plain.zrem, 3, MANY),
    b"zscore": (Plain.zscore, 3, 3),
    b"zcard": (Plain.zcard, 2, 2),
    b"zcount": (Plain.zcount, 4, 4),
    b"zrank": (Plain.zrank, 3, 3),
    b"zrevrank": (Plain.zrevrank, 3, 3),
    b"zrange": (Plain.zrange, 4, MANY),
    b"zpopmin": (Plain.zpopmin, 2, 3),
    b"zpopnear": (Plain.zpopnear, 2, 2),
    b"del": (Plain.delete, 2, MANY),
}


class Fault(Exception):
    """The bytes begin no request."""


class Part(Exception):
    """The bytes end inside a request."""


def line_number(data, at, most):
    """A decimal without leading zeros, no greater than most, and the place behind its line's end."""
    value = None
    while True:
        if at == len(data):
            raise Part
        byte = data[at:at + 1]
        if byte == b"\r" and value is not None:
            break
        if not byte.isdigit() or value == 0:
            raise Fault
        value = (value or 0) * 10 + int(byte)
        if value > most:
            raise Fault
        at += 1
    return value, ended(data, at)


def ended(data, at):
    """The place behind a line's end that has to stand here."""
    for byte in b"\r\n":
        if at == len(data):
            raise Part
        if data[at] != byte:
            raise Fault
        at += 1
    return at


def mark(data, at, byte):
    if at == len(data):
        raise Part
    if data[at] != byte:
        raise Fault
    return at + 1


def request_at(data, at):
    """The words of the request that begins here, and the place behind it. Its bytes are within their limit in all streams that
    are made here."""
    count, at = line_number(data, mark(data, at, ord("*")), MOST_WORDS)
    words = []
    for _ in range(count):
        length, at = line_number(data, mark(data, at, ord("$")), LONGEST)
        if len(data) < at + length:
            raise Part
        words.append(data[at:at + length])
        at = ended(data, at + length)
    return words, at


def served(data):
    """The bytes that a session writes for this input, and its status."""
    plain = Plain()
    written = []
    at = 0
    try:
        while at < len(data):
            words, at = request_at(data, at)
            if words:
                written.append(plain.answer(words))
    except Part:
        return b"".join(written), 2
    except Fault:
        return b"".join(written) + CLOSING, 2
    return b"".join(written), 0
