#!/usr/bin/env python3
"""A model of the pool that follows the description alone, for comparison with the oracle.

Its author had read the Rust too, so agreement says less about the text's clarity than a stranger's would.

usage: model.py [--budget N] [--used]   a day on standard input, its log on standard output
       model.py --many                  many days: a length on a line, then so many bytes; logs likewise
"""

import re
import struct
import sys
from collections import deque

NEW, READY, PAUSED, CLOSED = "New", "Ready", "Paused", "Closed"
FOR_REQUEST, IN_BACKGROUND, AVAILABLE, LENT, IN_USE, RETURNED = range(6)

DEFAULT_MAXIMUM, DEFAULT_MAX_CONNECTING = 10, 2
LARGEST, QUEUE = 64, 256
LAST_NEXT_ID, LAST_GENERATION, LARGEST_AGE = 4294967168, 4294967295, 4294967295
IDLE, STALE, ERROR, DROPPED, POOL_CLOSED = 1, 2, 3, 4, 5

LINE = re.compile(rb"[0-9a-f]{48}\n")
OPTIONS = struct.Struct(">IIIIQ")
FRAME = struct.Struct(">BBHIQQ")
RECORD = struct.Struct(">BBHIII")

# What each kind may carry: highest flags, an id, a second time.
FIELDS = {
    1: (0, True, False), 2: (0, True, False), 3: (0, True, False), 4: (3, True, True),
    5: (1, True, False), 6: (0, False, False), 7: (0, True, False), 8: (0, True, True),
    9: (0, True, False), 10: (0, False, False), 11: (0, False, False), 12: (0, True, False),
    13: (0, True, False), 14: (0, True, False), 15: (0, False, False),
}
# States that a kind needs of the connection it names.
NEEDS = {
    4: {LENT, IN_USE, RETURNED},
    7: {FOR_REQUEST},
    8: {IN_BACKGROUND},
    9: {FOR_REQUEST, IN_BACKGROUND},
    12: {LENT},
    13: {IN_USE},
    14: {IN_USE, RETURNED},
}


class Refused(Exception):
    pass


class Connection:
    def __init__(self, number, generation, state, now):
        self.number, self.generation, self.state = number, generation, state
        self.available_time = 0
        self.named = now


class Waiter:
    def __init__(self, request, warm):
        self.request, self.warm, self.abandoned = request, warm, False


class Pool:
    served_after = {1, 2, 4, 5, 6, 7, 8, 9, 10, 11}

    def __init__(self, maximum, minimum, max_connecting, idle_limit):
        maximum = maximum or DEFAULT_MAXIMUM
        max_connecting = max_connecting or DEFAULT_MAX_CONNECTING
        if not (maximum <= LARGEST and minimum <= maximum and max_connecting <= LARGEST):
            raise Refused(10)
        self.maximum, self.minimum = maximum, minimum
        self.max_connecting, self.idle_limit = max_connecting, idle_limit
        self.state, self.cause = NEW, 0
        self.generation, self.next_id, self.clock, self.last_request = 0, 1, 0, 0
        self.connections = {}
        self.available = deque()
        self.queue = deque()
        self.pending = 0
        self.serial = 0
        self.log = []

    # Refusals.

    def refuse(self, kind, flags, number, now, second):
        if now < self.clock:
            raise Refused(3)
        if self.state == CLOSED:
            if kind not in NEEDS:
                raise Refused(4)
        elif kind != 15:
            if self.next_id > LAST_NEXT_ID or kind == 5 and self.generation == LAST_GENERATION:
                raise Refused(5)
        if kind in (1, 2):
            if number <= self.last_request:
                raise Refused(6)
            if len(self.queue) >= QUEUE:
                raise Refused(7)
        if kind in NEEDS:
            connection = self.connections.get(number)
            state = connection.state if connection else None
            if kind == 12 and state in (IN_USE, RETURNED):
                raise Refused(12)
            if state not in NEEDS[kind]:
                raise Refused(8)
            if kind in (4, 8) and not connection.named <= second <= now:
                raise Refused(9)
        if kind == 3 and not any(w.request == number and not w.abandoned for w in self.queue):
            raise Refused(11)

    # Records.

    def put(self, kind, number=0, other=0, reason=0):
        self.log.append(RECORD.pack(kind, reason, 0, self.serial, number, other))
        self.serial = (self.serial + 1) % 2**32

    def close(self, connection, reason, other=0):
        self.put(4, connection.number, other, reason)
        del self.connections[connection.number]

    def reply(self, waiter, kind, other=0):
        if waiter.abandoned:
            self.put(21, waiter.request)
        else:
            self.put(kind, waiter.request, other)

    # Steps.

    def event(self, kind, flags, number, now, second):
        self.refuse(kind, flags, number, now, second)
        self.clock = now
        was_open = self.state != CLOSED
        connection = self.connections.get(number) if kind in NEEDS else None
        if connection:
            connection.named = now
        getattr(self, STEPS[kind])(flags, number, second, connection)
        if was_open and kind in self.served_after:
            self.service()

    def request(self, number, warm):
        self.last_request = number
        if self.state == READY:
            self.queue.append(Waiter(number, warm))
        else:
            self.put(19, number, self.cause if self.state == PAUSED else 0)

    def check_out(self, flags, number, second, connection):
        self.request(number, False)

    def warm(self, flags, number, second, connection):
        self.request(number, True)

    def abandon(self, flags, number, second, connection):
        for waiter in self.queue:
            if waiter.request == number:
                waiter.abandoned = True

    def check_in(self, flags, number, second, connection):
        if self.state == CLOSED:
            self.close(connection, POOL_CLOSED)
            return
        self.put(3, number)
        if flags & 1:
            self.close(connection, ERROR)
        elif self.stale(connection):
            self.close(connection, STALE)
        elif flags & 2:
            self.close(connection, DROPPED)
        else:
            self.to_the_back(connection, second)

    def clear(self, flags, number, second, connection):
        if flags:
            self.put(8, other=sum(map(self.lent, self.connections.values())))
        was_ready = self.state == READY
        self.generation += 1
        self.state, self.cause = PAUSED, number
        if was_ready:
            self.put(6, number, self.generation, reason=flags)
            while self.queue:
                self.reply(self.queue.popleft(), 19, number)

    def ready(self, flags, number, second, connection):
        if self.state != READY:
            self.state = READY
            self.put(5)

    def succeeded(self, flags, number, second, connection):
        self.pending -= 1
        self.put(2, number)
        connection.state = LENT

    def succeeded_in_background(self, flags, number, second, connection):
        self.pending -= 1
        self.put(2, number)
        if self.state == CLOSED:
            self.close(connection, POOL_CLOSED)
        else:
            self.to_the_back(connection, second)

    def failed(self, flags, number, second, connection):
        self.pending -= 1
        self.close(connection, ERROR)

    def maintenance(self, flags, number, second, connection):
        while self.available and (why := self.perished(self.available[0])):
            self.close(self.available.popleft(), *why)
        if self.state == READY:
            while len(self.connections) < self.minimum and self.pending < self.max_connecting:
                self.create(IN_BACKGROUND)

    def fill(self, flags, number, second, connection):
        pass

    def pin(self, flags, number, second, connection):
        connection.state = IN_USE

    def give_back(self, flags, number, second, connection):
        connection.state = RETURNED

    def take(self, flags, number, second, connection):
        connection.state = IN_USE

    def shut(self, flags, number, second, connection):
        while self.available:
            self.close(self.available.popleft(), POOL_CLOSED)
        while self.queue:
            self.reply(self.queue.popleft(), 20)
        self.put(7)
        self.state = CLOSED

    def stale(self, connection):
        return connection.generation != self.generation

    def idle(self, connection):
        """Its age, where that reaches the limit, else 0; a limit is at least 1."""
        age = self.clock - connection.available_time
        return age if self.idle_limit != 0 and age >= self.idle_limit else 0

    def perished(self, connection):
        """Why an available one is closed, and what its record then says; nothing of a healthy one."""
        if self.stale(connection):
            return STALE, 0
        if age := self.idle(connection):
            return IDLE, min(age, LARGEST_AGE)
        return None

    def lent(self, connection):
        return connection.state in (LENT, IN_USE, RETURNED)

    def to_the_back(self, connection, time):
        connection.state, connection.available_time = AVAILABLE, time
        self.available.append(connection)

    def create(self, state):
        connection = Connection(self.next_id, self.generation, state, self.clock)
        self.connections[connection.number] = connection
        self.next_id += 1
        self.pending += 1
        self.put(1, connection.number)
        return connection

    # The service stage.

    def service(self):
        room = len(self.connections) < self.maximum and self.pending < self.max_connecting
        if self.state != READY or not self.queue or not (self.available or room):
            return
        waiter = self.queue.popleft()
        if waiter.warm:
            if len(self.connections) >= self.minimum:
                self.reply(waiter, 18)
                return
        else:
            while self.available:
                connection = self.available.pop()
                if why := self.perished(connection):
                    self.close(connection, *why)
                else:
                    self.lend(connection, waiter)
                    return
        if len(self.connections) >= self.maximum:
            raise AssertionError("the description does not say what follows here")
        connection = self.create(FOR_REQUEST)
        self.reply(waiter, 17, connection.number)

    def lend(self, connection, waiter):
        if waiter.abandoned:
            self.to_the_back(connection, self.clock)
        else:
            connection.state, connection.named = LENT, self.clock
        self.reply(waiter, 16, connection.number)


STEPS = {
    1: "check_out", 2: "warm", 3: "abandon", 4: "check_in", 5: "clear", 6: "ready", 7: "succeeded",
    8: "succeeded_in_background", 9: "failed", 10: "maintenance", 11: "fill", 12: "pin",
    13: "give_back", 14: "take", 15: "shut",
}


def read_options(line, pool):
    if not LINE.fullmatch(line):
        raise Refused(2)
    zeros, *numbers = OPTIONS.unpack(bytes.fromhex(line[:48].decode()))
    if zeros:
        raise Refused(2)
    return pool(*numbers)


def read_frame(line):
    if not LINE.fullmatch(line):
        raise Refused(2)
    kind, flags, zeros, number, now, second = FRAME.unpack(bytes.fromhex(line[:48].decode()))
    if kind not in FIELDS:
        raise Refused(2)
    highest_flags, takes_id, takes_second = FIELDS[kind]
    if zeros or flags > highest_flags or second and not takes_second or number and not takes_id:
        raise Refused(2)
    if kind == 5 and number == 0:
        raise Refused(2)
    return kind, flags, number, now, second


def write_options(maximum=0, minimum=0, connecting=0, idle=0):
    return OPTIONS.pack(0, maximum, minimum, connecting, idle).hex().encode() + b"\n"


def write_frame(kind, number=0, now=0, second=0, flags=0):
    return FRAME.pack(kind, flags, 0, number, now, second).hex().encode() + b"\n"


def refused(refusal, line):
    return RECORD.pack(32, refusal.args[0], 0, 0, line % 2**32, 0)


def replay(lines, budget=None, pool=Pool):
    """Gives the records of a day, a list for each line, and at last the frames used."""
    lines = iter(lines)
    try:
        pool = read_options(next(lines, b""), pool)
    except Refused as refusal:
        yield [refused(refusal, 1)]
        return 0
    used = 0
    while budget is None or used < budget:
        line = next(lines, None)
        if line is None:
            break
        used += 1
        try:
            pool.event(*read_frame(line))
        except Refused as refusal:
            yield [refused(refusal, used + 1)]
        else:
            yield pool.log
            pool.log = []
    return used


def text(records):
    return b"".join(record.hex().encode() + b"\n" for record in records)


def split_lines(day):
    lines = day.split(b"\n")
    last = lines.pop()
    return [line + b"\n" for line in lines] + ([last] if last else [])


def whole(day, pool=Pool):
    return b"".join(map(text, replay(split_lines(day), pool=pool)))


def many():
    read, write = sys.stdin.buffer, sys.stdout.buffer
    while length := read.readline():
        log = whole(read.read(int(length)))
        write.write(b"%d\n%s" % (len(log), log))
        write.flush()


def main(words):
    if words == ["--many"]:
        return many()
    budget, report = None, False
    while words:
        word = words.pop(0)
        if word == "--used":
            report = True
        elif word == "--budget" and words and words[0].isdigit():
            budget = int(words.pop(0))
        else:
            sys.exit(print(__doc__, file=sys.stderr) or 2)
    # The iterator of a binary stream cuts at newlines only.
    days = replay(sys.stdin.buffer, budget)
    while True:
        try:
            sys.stdout.buffer.write(text(next(days)))
        except StopIteration as end:
            if report:
                sys.stdout.buffer.flush()
                print(f"frames used: {end.value}", file=sys.stderr)
            return


if __name__ == "__main__":
    main(sys.argv[1:])
