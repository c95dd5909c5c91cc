"""Drawn texts of settings, and drawn command lines, each with what it has to be read as by a reading of its own: that of
Python's tomllib for settings, and a few patterns for command lines. bench/fuzz.py uses it.
"""
import contextlib
import re
import tomllib

KEYS = ["ports", "heaps", "workers", "connections", "clients", "timeout", "write_timeout", "output", "log_level", "seed", "rule"]
# The keys whose values are words, and these.
WORDS_OF = {"log_level": ("warn", "info", "debug"), "rule": ("HIGH", "LOW")}
LEAST_AND_MOST = {"heaps": (2, 16), "workers": (1, 64), "connections": (0, 1000000), "clients": (1, 1000000), "timeout": (0, 1000000),
                  "write_timeout": (0, 1000000), "output": (2**20, 2**40), "seed": (0, 2**63 - 1)}
IF_MISSING = {"heaps": 4, "workers": 4, "connections": 0, "clients": 10000, "timeout": 0, "write_timeout": 60, "output": 2**28,
              "log_level": "info", "seed": 1, "rule": "HIGH"}
VALUES = ["0", "1", "2", "4", "16", "17", "64", "65", "-1", "+7", "1000000", "1000001", "9223372036854775807", "9223372036854775808",
          "-9223372036854775808", "0x10", "0b11", "0o17", "1_0", "1__0", "007", "4.0", "1e1", "nan", "inf", "true", "false", '"HIGH"', '"LOW"',
          '"low"', '"info"', '"Info"', '""', "'HIGH'", '"\\u0041"', '"""HIGH"""', "[]", "{}", "1979-05-27", "07:32:00", "1979-05-27T07:32:00Z", "{a = 1}", "[1, [2]]"]
PORTS = ["7001", "7002", "1", "65535", "0", "65536", "-1", "7_003", "0x1b5a", '"7001"', "7001.0", "true", "[7001]"]
PIECES = ["\n", "\r\n", "\r", " ", "\t", "#", "=", "[", "]", "[[", "]]", ",", ".", '"', "'", '"""', "{", "}", "\\", "\0", "\x7f", "\ufeff", "é", "ports",
          "heaps = 3", "rule", "_", "-", "+", "1"]


def drawn_ports(draw):
    count = draw.choice([0, 1, 1, 1, 2, 2, 2, 3, 3, 4, 5, 63, 64, 65])
    if count > 8 or draw.randrange(6):
        ports = [str(7000 + place) for place in range(count)]
        if ports and draw.randrange(8) == 0:
            ports[draw.randrange(count)] = draw.choice(PORTS)
    else:
        ports = [draw.choice(PORTS) for _ in range(count)]
    return "[" + draw.choice([", ", ",", ",\n  "]).join(ports) + draw.choice(["", "", ","] if ports else [""]) + "]"


def drawn_value(draw, key):
    if draw.randrange(10) == 0:
        return draw.choice(VALUES)
    if key == "ports":
        return drawn_ports(draw)
    if key in WORDS_OF:
        return f'"{draw.choice(WORDS_OF[key])}"'
    least, most = LEAST_AND_MOST.get(key, (0, 9))
    return str(draw.choice([least, most, least - 1, most + 1, draw.randrange(least, most + 1)] + [draw.randrange(least, most + 1)] * 6))


def drawn_settings(draw):
    """The bytes of a text, most of them of one that is nearly settings."""
    keys = ["ports"] + [key for key in KEYS[1:] if draw.randrange(2)]
    if draw.randrange(6) == 0:
        keys.append(draw.choice(KEYS + ["port", "Ports", '"ports"', "'heaps'", "a.b", "ports.x", "zeal", '"a b"']))
    if draw.randrange(4) == 0:
        draw.shuffle(keys)
    if draw.randrange(12) == 0:
        keys.remove("ports")
    lines = [f"{key}{draw.choice([' = ', '=', '  =  '])}{drawn_value(draw, key.strip(chr(34)))}{draw.choice(['', '', '  # x'])}" for key in keys]
    if draw.randrange(20) == 0:
        lines.insert(draw.randrange(len(lines) + 1), draw.choice(["[serve]", "[[serve]]", "", "# only words"]))
    text = draw.choice(["\n", "\n", "\n", "\r\n"]).join(lines) + draw.choice(["", "\n"])
    return mutated(draw, text)


def mutated(draw, text):
    """The bytes of the text, of which a few characters and then a few bytes are changed in some draws."""
    for _ in range(draw.choice([0] * 9 + [1, 1, 2, 5])):
        at, until = sorted(draw.randrange(len(text) + 1) for _ in range(2))
        kind = draw.randrange(3)
        put = draw.choice(PIECES)
        text = text[:at] + put + text[at:] if kind == 0 else text[:at] + text[at + 1:] if kind == 1 else text[:at] + text[min(until, at + 6):]
    data = bytearray(text.encode())
    for _ in range(draw.choice([0] * 14 + [1, 3])):
        if data:
            data[draw.randrange(len(data))] = draw.randrange(256)
    return bytes(data)


def table_of(text):
    """The text's table, or `None`. Newer TOML than tomllib's takes a time without seconds."""
    for each in (text, re.sub(r"(?<!\d)(\d\d:\d\d)(?![:\d])", r"\1:00", text)):
        with contextlib.suppress(tomllib.TOMLDecodeError, RecursionError):
            return tomllib.loads(each)
    return None


def has_wide_number(value):
    """Whether a whole number stands anywhere in it that an i64 does not hold, which TOML need not take."""
    if isinstance(value, dict):
        return any(map(has_wide_number, value.values()))
    if isinstance(value, list):
        return any(map(has_wide_number, value))
    return type(value) is int and not -2**63 <= value < 2**63


def ports_in(value):
    if not isinstance(value, list):
        return "ports has a value of another kind", None
    if not 1 <= len(value) <= 64:
        return f"ports has {len(value)} entries", None
    for port in value:
        if type(port) is not int:
            return "ports has a value of another kind", None
        if not 1 <= port <= 65535:
            return "ports has a value out of range", None
    twice = [port for place, port in enumerate(value) if port in value[place + 1:]]
    return (f"ports has {twice[0]} twice", None) if twice else (None, value)


def rule_broken(key, value):
    if key in WORDS_OF:
        return f"{key} has a value of another kind" if not isinstance(value, str) else \
            None if value in WORDS_OF[key] else f"{key} has a value out of range"
    least, most = LEAST_AND_MOST[key]
    return f"{key} has a value of another kind" if type(value) is not int else None if least <= value <= most else f"{key} has a value out of range"


def settings_owed(data):
    """How the line has to begin that tells what these bytes are read as."""
    try:
        table = table_of(data.decode().removeprefix("\ufeff"))
    except UnicodeDecodeError:
        return "not UTF-8"
    if table is None or has_wide_number(table):
        return "line "
    unknown = sorted((key for key in table if key not in KEYS), key=str.encode)
    if unknown:
        return f'"{unknown[0]}" is not a key' if re.fullmatch(r"[\w .-]*", unknown[0], re.ASCII) else '"'
    if "ports" not in table:
        return "ports is missing"
    why, ports = ports_in(table["ports"])
    broken = [why] + [rule_broken(key, table[key]) for key in KEYS[1:] if key in table]
    broken = [why for why in broken if why]
    if broken:
        return broken[0] + ": it takes"
    values = [table.get(key, IF_MISSING[key]) for key in KEYS[1:]]
    return "settings " + " ".join(map(str, values + ports))


def is_settings_told(owed, line):
    """Whether the line tells what is owed. Settings are told whole, a refusal up to the words on what belongs there."""
    return line == owed if owed.startswith("settings ") else line.startswith(owed)


NUMBERS = ["0", "1", "2", "3", "00", "007", "+1", "-1", "", " 1", "1 ", "1.0", "0x1", "1e1", "18446744073709551615", "18446744073709551616",
           "99999999999999999999999", "1000001", "4294967296", "4294967297", "٣", "1\n", "١", "-0", "+", "-"]
WORDS = ["pipe", "serve", "drill", "Pipe", "pip", "pipes", "", "help", "--help", "-", "no/such/file", "\n", "é", "0"]


def drawn_words(draw):
    """The words of a command line, most of them nearly right. No drill has more than 3 rounds, so that it ends soon."""
    kind = draw.randrange(6)
    if kind < 3:
        words = ["drill", draw.choice(NUMBERS + ["1"] * 8), draw.choice(NUMBERS + ["0", "1", "2", "3"] * 4)]
    elif kind == 3:
        words = ["pipe"]
    elif kind == 4:
        words = ["serve", draw.choice(["no/such/file", "", ".", "no such file"])]
    else:
        words = [draw.choice(WORDS + NUMBERS) for _ in range(draw.randrange(5))]
    if draw.randrange(5) == 0:
        at = draw.randrange(len(words) + 1)
        words = words[:at] + [draw.choice(WORDS + NUMBERS)] + words[at:] if draw.randrange(2) else words[:max(at - 1, 0)] + words[at:]
    words = [word.encode() for word in words]
    if words and draw.randrange(12) == 0:
        at = draw.randrange(len(words))
        words[at] = words[at] + bytes([draw.randrange(128, 256)])
    return words


def is_number(text, most):
    return re.fullmatch(r"[0-9]+", text, re.ASCII) is not None and int(text) <= most


def words_owed(words):
    """The statuses with which the program may end that is given these words, and how its standard output has to begin."""
    try:
        texts = [word.decode() for word in words]
    except UnicodeDecodeError:
        return (3,), b"zqueue: usage\n"
    if texts == ["pipe"]:
        return (0,), b""
    if len(texts) == 2 and texts[0] == "serve":
        return (4,), b"zqueue: device\n"
    if len(texts) == 3 and texts[0] == "drill" and is_number(texts[1], 2**64 - 1) and is_number(texts[2], 1000000):
        return (0,), b"site 0 size "
    return (3,), b"zqueue: usage\n"


def is_short(words):
    """Whether the program ends soon: a drill of many rounds does not, and an argument has no byte 0."""
    rounds = [word for word in words[2:3] if words[0] == b"drill" and word.isdigit()]
    return all(int(word) <= 3 or int(word) > 1000000 for word in rounds) and not any(b"\0" in word for word in words)
