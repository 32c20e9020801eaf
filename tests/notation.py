"""A model of the notation of days, after docs/NOTATION.md: words to a stored day or to the mistakes in them, and a day to words.

It follows the page and not the grammar of crates/notation: a line is cut into words first, and then taken from the front."""

import re
import struct

OPTIONS = struct.Struct(">IIIIQ")
FRAME = struct.Struct(">BBHIQQ")
LARGEST_SMALL, LARGEST = 2**32 - 1, 2**64 - 1
LONGEST_WORD = 20
BLANKS = re.compile(rb"[ \t\r]+")
DIGITS = re.compile(rb"[0-9]+")
STORED = re.compile(rb"[0-9a-f]{48}\n")
LINES = re.compile(rb"[^\n]*\n|[^\n]+")

# What may stand at each place, as a mistake tells it.
START = "a time, or one of maximum, minimum, max-connecting, idle-limit"
VALUE = f"a number up to {LARGEST_SMALL}"
IDLE_LIMIT = f"a number up to {LARGEST}"
EVENT = "an event: check-out, warm, abandon, check-in, clear, ready, succeeded, failed, maintenance, fill, pin, return, take or close"
REQUEST = f"the number of a request, up to {LARGEST_SMALL}"
CONNECTION = f"the number of a connection, up to {LARGEST_SMALL}"
CAUSE = f"a cause, from 1 to {LARGEST_SMALL}"
MARKS = "errored or executing, each once at most, or let-go and a time"
LET_GO = f"the time it was let go, up to {LARGEST}"
TIMEOUT = "timeout, or the end of the line"
OPENED = "opened and a time, or the end of the line"
OPENED_AT = f"the time it was opened, up to {LARGEST}"
END = "the end of the line"
NO_OPTION = "an event: options stand before the first one"
OTHER_OPTION = "another option: this one was given before"

OPTION_NAMES = (b"maximum", b"minimum", b"max-connecting", b"idle-limit")
# the kind of each event, and what its number is of
EVENTS = {
    b"check-out": (1, REQUEST), b"warm": (2, REQUEST), b"abandon": (3, REQUEST), b"check-in": (4, CONNECTION), b"clear": (5, CAUSE),
    b"ready": (6, None), b"succeeded": (7, CONNECTION), b"failed": (9, CONNECTION), b"maintenance": (10, None), b"fill": (11, None),
    b"pin": (12, CONNECTION), b"return": (13, CONNECTION), b"take": (14, CONNECTION), b"close": (15, None),
}
NAMES = {kind: (name, number) for name, (kind, number) in EVENTS.items()} | {8: (b"succeeded", CONNECTION)}
MARKED = {b"errored": 1, b"executing": 2, b"let-go": 0}
IN_BACKGROUND = 8


class Mistake(Exception):
    pass


# ── Words to a day ─────────────────────────────────────────────────────────────────────────────────────────────────────────


def shown(word):
    text = "".join(chr(byte) if 33 <= byte <= 126 else "?" for byte in word[:LONGEST_WORD])
    return f"'{text}...'" if len(word) > LONGEST_WORD else f"'{text}'"


def number(most, least=0):
    def meaning(word):
        value = int(word) if DIGITS.fullmatch(word) else -1
        return value if least <= value <= most else None

    return meaning


class Words:
    """What is left of a line."""

    def __init__(self, line):
        self.left = [word for word in BLANKS.split(line.split(b"#", 1)[0]) if word]

    def take(self, expected, meaning):
        """What the next word means here."""
        if not self.left:
            raise Mistake(f"{expected}, found the end of the line")
        word = self.left.pop(0)
        value = meaning(word) if len(word) <= LONGEST_WORD else None
        if value is None:
            raise Mistake(f"{expected}, found {shown(word)}")
        return value

    def end(self):
        if self.left:
            self.take(END, lambda word: None)


def number_taken(line, expected):
    return line.take(expected, number(LARGEST_SMALL, 1 if expected is CAUSE else 0))


def mark_behind(flags):
    """A mark's flag, behind those that were given; 0 for let-go."""

    def meaning(word):
        flag = MARKED.get(word)
        return None if flag and flags & flag else flag

    return meaning


def event(line, now):
    """The 24 bytes of an event, behind its time."""
    kind, numbered = line.take(EVENT, EVENTS.get)
    flags = second = 0
    identity = number_taken(line, numbered) if numbered else 0
    if kind == 4:
        while mark := line.take(MARKS, mark_behind(flags)):
            flags |= mark
        second = line.take(LET_GO, number(LARGEST))
    elif kind == 5 and line.left:
        flags = line.take(TIMEOUT, {b"timeout": 1}.get)
    elif kind == 7 and line.left:
        kind = line.take(OPENED, {b"opened": IN_BACKGROUND}.get)
        second = line.take(OPENED_AT, number(LARGEST))
    line.end()
    return FRAME.pack(kind, flags, 0, identity, now, second)


class Day:
    """What the lines of a text have told so far."""

    def __init__(self):
        self.options, self.frames = {}, []

    def line(self, text):
        line = Words(text)
        if not line.left:
            return
        time = number(LARGEST)
        first = line.take(START, lambda word: word if word in OPTION_NAMES else time(word))
        if isinstance(first, int):
            self.frames.append(event(line, first))
            return
        value = line.take(IDLE_LIMIT, number(LARGEST)) if first == b"idle-limit" else number_taken(line, VALUE)
        line.end()
        if self.frames:
            raise Mistake(NO_OPTION)
        if first in self.options:
            raise Mistake(OTHER_OPTION)
        self.options[first] = value

    def text(self):
        options = OPTIONS.pack(0, *(self.options.get(name, 0) for name in OPTION_NAMES))
        return b"".join(part.hex().encode() + b"\n" for part in (options, *self.frames))


def written(text):
    """The stored day of a text, and its mistakes by their lines' numbers."""
    day, mistakes = Day(), {}
    for at, line in enumerate(text.split(b"\n"), 1):
        try:
            if line:
                day.line(line)
        except Mistake as mistake:
            mistakes[at] = f"expected {mistake}"
    return day.text(), mistakes


# ── A day to words ─────────────────────────────────────────────────────────────────────────────────────────────────────────


def option_lines(line):
    """The options of a stored line, as lines of words; None where it is malformed."""
    if not STORED.fullmatch(line):
        return None
    zero, *values = OPTIONS.unpack(bytes.fromhex(line.decode()))
    return None if zero else [b"%s %d" % pair for pair in zip(OPTION_NAMES, values) if pair[1]]


def event_line(line):
    """The event of a stored line as a line of words; None where it is malformed."""
    if not STORED.fullmatch(line):
        return None
    kind, flags, zero, identity, now, second = FRAME.unpack(bytes.fromhex(line.decode()))
    if kind not in NAMES:
        return None
    name, numbered = NAMES[kind]
    words = [b"%d" % now, name]
    if numbered:
        words.append(b"%d" % identity)
    if kind == 4:
        words += [mark for mark, flag in MARKED.items() if flags & flag] + [b"let-go", b"%d" % second]
    elif kind == 5 and flags == 1:
        words.append(b"timeout")
    elif kind == IN_BACKGROUND:
        words += [b"opened", b"%d" % second]
    told = b" ".join(words)
    # a number where none belongs, and a cause of 0, make a line malformed: the words do not give it back
    return told if written(told)[0].endswith(b"\n" + line) else None


def worded(day):
    """A stored day as words, and what of it they tell: its malformed lines left out, no options where those are malformed."""
    first, *rest = LINES.findall(day) or [b""]
    lines, kept = option_lines(first), [first]
    if lines is None:
        lines, kept = [], [Day().text()]
    for line in rest:
        told = event_line(line)
        if told is not None:
            lines.append(told)
            kept.append(line)
    return b"".join(line + b"\n" for line in lines), b"".join(kept)
