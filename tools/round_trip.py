#!/usr/bin/env python3
"""The stored round trips of the program round_trip, and what it prints for them: split, written, received and joined by the sentences of
document 01 and of document 02, 6/13 alone, and not by the program.

  round_trip.py input FILE     the items (a tag, a 16-bit big-endian length, a payload; crates/round_trip/src says what they hold)
  round_trip.py output FILE    what the program prints for items

A trip is a new receiver with just as many cells as the trip needs, the messages, and the datagrams: which pieces stand in each, and in
which order they come. All is from a fixed seed, so that a second run makes the same files.
"""
import itertools
import random
import sys

CONSOLE, CPP = 0, 1
TOP = 1 << 24
REACH = 2048
MAX_DATAGRAM = 1500
HEAD = 4
MIN_MTU, MAX_MTU = 61, 1500
OVERHEAD = 60        # what a chunk is less than the mtu
MAX_PIECES = 1024
PIECE_HEADER = 20
LONGEST = MAX_MTU - OVERHEAD    # the longest chunk


class Refused(Exception):
    """A refusal, with document 01's number."""


# ---- the sender

def data_of(seed, length):
    """The program's pattern."""
    out, x = bytearray(), seed
    for _ in range(length):
        x = (1664525 * x + 1013904223) % (1 << 32)
        out.append(x >> 24)
    return bytes(out)


def pieces_of(data, mtu):
    """"chunk mtu - 60. 16 mtu outside 61 to 1,500; 17 data fits one chunk; 18 over 1,024 pieces"."""
    if not MIN_MTU <= mtu <= MAX_MTU:
        raise Refused(16)
    pieces = [data[at:at + mtu - OVERHEAD] for at in range(0, len(data), mtu - OVERHEAD)]
    if len(pieces) < 2:
        raise Refused(17)
    if len(pieces) > MAX_PIECES:
        raise Refused(18)
    return pieces


class Message:
    def __init__(self, seed, length, mtu, ident=0, channel=0, order=0):
        self.fields = seed, length, mtu, ident, channel, order
        self.mtu, self.ident, self.channel, self.order = self.fields[2:]
        self.data = data_of(seed, length)
        try:
            self.pieces, self.number = pieces_of(self.data, mtu), 0
        except Refused as e:
            self.pieces, self.number = [], e.args[0]

    def frame(self, k, reliable, room):
        """Piece k as a frame of kind 3: first the split's refusals, then the writer's."""
        if self.number or k >= len(self.pieces):
            raise Refused(self.number or 19)
        if reliable >= TOP or self.channel > 31 or self.order >= TOP:
            raise Refused(15)
        body = self.pieces[k]
        out = bytes([3 << 5 | 0x10]) + (8 * len(body)).to_bytes(2, "big")
        out += reliable.to_bytes(3, "little") + self.order.to_bytes(3, "little") + bytes([self.channel])
        out += len(self.pieces).to_bytes(4, "big") + self.ident.to_bytes(2, "big") + k.to_bytes(4, "big") + body
        if len(out) > room:
            raise Refused(12)
        return out


# ---- the receiver: of frames of kind 3 that are pieces, which both profiles read alike

def low(numbers):
    return next(n for n in itertools.count() if n not in numbers)


class Receiver:
    def __init__(self, cells):
        self.cells, self.datagrams, self.reliables = cells, set(), set()
        self.open = {}      # by id: count, channel and order number, and the bodies by index
        self.held = {}      # by channel and order number: the bodies in order
        self.next = {}      # by channel

    def copy(self):
        other = Receiver(self.cells)
        other.datagrams, other.reliables = set(self.datagrams), set(self.reliables)
        other.open = {i: (alike, dict(bodies)) for i, (alike, bodies) in self.open.items()}
        other.held, other.next = dict(self.held), dict(self.next)
        return other

    def used(self):
        return sum(len(bodies) for _, bodies in self.open.values()) + sum(len(bodies) for bodies in self.held.values())

    def piece(self, message, k, reliable):
        """The four steps: the messages made ready, how many were dropped, how many bodies kept."""
        if reliable in self.reliables:
            return [], 1, 0
        if reliable > low(self.reliables) + REACH:
            raise Refused(7)
        self.reliables.add(reliable)
        count, key = len(message.pieces), (message.channel, message.order)
        alike, bodies = self.open.setdefault(message.ident, ((count, key), {}))
        if alike != (count, key) or k in bodies:
            return [], 1, 0
        bodies[k] = message.pieces[k]
        if len(bodies) < count:
            return [], 0, 1
        del self.open[message.ident]
        return *self.whole(*key, [bodies[i] for i in range(count)]), 1

    def whole(self, channel, order, bodies):
        due = self.next.get(channel, 0)
        if order < due or (channel, order) in self.held:
            return [], 1
        self.held[channel, order] = bodies
        ready = []
        while (channel, due) in self.held:
            ready.append((channel, due, b"".join(self.held.pop((channel, due)))))
            due += 1
        self.next[channel] = due
        return ready, 0

    def receive(self, number, pieces):
        """The receiver after it, the messages made ready, how many frames were dropped, and the cells that it needs; or a refusal."""
        if number in self.datagrams:
            raise Refused(4)
        if number > low(self.datagrams) + REACH:
            raise Refused(5)
        after = self.copy()
        after.datagrams.add(number)
        done = [after.piece(*piece) for piece in pieces]
        needed = self.used() + sum(kept for _, _, kept in done)
        if needed > self.cells:
            raise Refused(8)
        return after, [m for ready, _, _ in done for m in ready], sum(dropped for _, dropped, _ in done), needed


# ---- the program

def checksum(data):
    h = 1
    for b in data:
        h = (31 * h + b) % 65521
    return h


def written(messages, number, named, out):
    """The datagram's bytes, and the pieces that were written; a line for each that was not."""
    datagram, pieces = b"\x84" + number.to_bytes(3, "little"), []
    for which, k, reliable in named:
        try:
            datagram += messages[which].frame(k, reliable, MAX_DATAGRAM - len(datagram))
            pieces.append((messages[which], k, reliable))
        except Refused as e:
            out.append(f"piece {e.args[0]}")
    return datagram, pieces


def sent(receiver, messages, number, named, out):
    """The receiver after it, and the cells that it needed."""
    datagram, pieces = written(messages, number, named, out)
    told = f"{len(datagram)} {checksum(datagram)}"
    try:
        receiver, ready, dropped, needed = receiver.receive(number, pieces)
        out.append(f"d 0 {told} {len(ready)} {dropped} 0")
        out += [f"same 0 {channel} {order} 3 {len(body)} {checksum(body)}" for channel, order, body in ready]
        return receiver, needed
    except Refused as e:
        out.append(f"d {e.args[0]} {told}")
        return receiver, 0


def numbers(payload, sizes):
    """The numbers of a payload, each of so many bytes."""
    ends = list(itertools.accumulate(sizes))
    return [int.from_bytes(payload[end - size:end], "big") for end, size in zip(ends, sizes)]


MESSAGE, PIECE = (4, 4, 2, 2, 1, 4), (1, 2, 4)


def run(items):
    """What is printed."""
    receiver, messages, out, at = None, [], [], 0
    while at < len(items):
        tag, n = items[at:at + 1], int.from_bytes(items[at + 1:at + 3], "big")
        p, at = items[at + 3:at + 3 + n], at + 3 + n
        if tag == b"N":
            receiver, messages = Receiver(numbers(p, (2, 2))[0]), []
            out.append("new 0")
        elif tag == b"M":
            messages.append(Message(*numbers(p, MESSAGE)))
        elif tag == b"D":
            named = [numbers(p[i:], PIECE) for i in range(4, n, sum(PIECE))]
            receiver, _ = sent(receiver, messages, numbers(p, (4,))[0], named, out)
    return out


# ---- trips

def item(tag, values, sizes):
    payload = b"".join(v.to_bytes(n, "big") for v, n in zip(values, sizes))
    return tag + len(payload).to_bytes(2, "big") + payload


def needed_by(messages, datagrams):
    """The most cells in use."""
    receiver, most = Receiver(1 << 20), 1
    for number, named in datagrams:
        receiver, needed = sent(receiver, messages, number, named, [])
        most = max(most, needed)
    return most


def trip(profile, messages, datagrams, fewer=0):
    """Its items: the datagrams are numbers with the pieces that stand in them, each a message's place, an index and a reliable number."""
    out = item(b"N", (needed_by(messages, datagrams) - fewer, profile), (2, 2))
    out += b"".join(item(b"M", m.fields, MESSAGE) for m in messages)
    for number, named in datagrams:
        out += item(b"D", (number, *itertools.chain(*named)), (4, *PIECE * len(named)))
    return out


def all_pieces(messages):
    return [(which, k) for which, m in enumerate(messages) for k in range(len(m.pieces))]


def numbered(pieces, first=0):
    """Reliable numbers from the first on, as they would be given in the order of the pieces."""
    return [(which, k, first + i) for i, (which, k) in enumerate(pieces)]


def each_alone(pieces):
    return [(number, [piece]) for number, piece in enumerate(pieces)]


def packed(messages, pieces, most=1 << 20):
    """As many in each datagram as have room."""
    groups, room = [], 0
    for piece in pieces:
        size = len(messages[piece[0]].frame(*piece[1:], MAX_DATAGRAM))
        if not groups or room < size or len(groups[-1]) == most:
            groups, room = groups + [[]], MAX_DATAGRAM - HEAD
        groups[-1].append(piece)
        room -= size
    return list(enumerate(groups))


class Trips:
    def __init__(self, r):
        self.r, self.out = r, b""

    def seed(self):
        return self.r.randrange(1 << 32)

    def message(self, length, mtu, *rest):
        return Message(self.seed(), length, mtu, *rest)

    def add(self, profile, messages, datagrams, fewer=0):
        self.out += trip(profile, messages, datagrams, fewer)

    def shuffled(self, pieces):
        return self.r.sample(pieces, len(pieces))

    def smallest(self):
        """Two pieces, each order, in one datagram and in two; and three."""
        for profile, order in itertools.product((CONSOLE, CPP), ((0, 1), (1, 0))):
            m = [self.message(2, MIN_MTU)]
            pieces = numbered([(0, k) for k in order])
            self.add(profile, m, each_alone(pieces))
            self.add(profile, m, [(0, pieces)])
        for i, (order, alone) in enumerate(itertools.product(itertools.permutations(range(3)), (False, True))):
            m = [self.message(3 * 7 - i % 7, 67, self.r.randrange(65536), i)]
            pieces = [(0, k, k) for k in order]
            self.add(i % 2, m, each_alone(pieces) if alone else [(0, pieces)])

    def longest(self):
        """The most pieces, of one byte, shuffled and falling; and of the longest chunk, the last of one byte."""
        for profile in (CONSOLE, CPP):
            m = [self.message(MAX_PIECES, MIN_MTU, 65535 * profile, 31 * profile)]
            self.add(profile, m, packed(m, self.shuffled(numbered(all_pieces(m)))))
        m = [self.message(MAX_PIECES, MIN_MTU, 7, 3)]
        self.add(CONSOLE, m, packed(m, [(0, k, 2 * k) for k in reversed(range(MAX_PIECES))], 8))
        m = [self.message(LONGEST * (MAX_PIECES - 1) + 1, MAX_MTU, 65535, 31)]
        self.add(CONSOLE, m, each_alone(self.shuffled(numbered(all_pieces(m)))))
        m = [self.message(LONGEST * MAX_PIECES, MAX_MTU)]
        self.add(CPP, m, each_alone(numbered(all_pieces(m), MAX_PIECES)))

    def lasts(self):
        """At the longest mtu a last piece of one byte, of all but one and of all; at others."""
        longest = [(length, MAX_MTU) for length in (LONGEST + 1, 2 * LONGEST - 1, 2 * LONGEST, 2 * LONGEST + 1)]
        for length, mtu in (*longest, (5, 63), (6, 63), (7, 63), (700, 576), (1032, 576)):
            m = [self.message(length, mtu, 0, 31)]
            pieces = all_pieces(m)
            self.add(CPP, m, packed(m, numbered(pieces)))
            self.add(CONSOLE, m, packed(m, numbered(pieces)[::-1]))

    def several(self):
        """Messages among one another: on one channel, the later ones whole first; on several; of one id, one after the other."""
        for profile in (CONSOLE, CPP):
            sizes = (90, 70, 9), (400, 110, 8), (33, MIN_MTU, 7)
            m = [self.message(n, mtu, ident, 5, order) for order, (n, mtu, ident) in enumerate(sizes)]
            pieces = numbered(all_pieces(m))
            self.add(profile, m, packed(m, pieces[::-1], 4))
            self.add(profile, m, packed(m, self.shuffled(pieces), 3))
            by_index = sorted(pieces, key=lambda piece: (piece[1], piece[0]))
            self.add(profile, m, packed(m, by_index, 5))
            m = [self.message(50, 70, 65535 * i, channel, order) for i, (channel, order) in enumerate(((0, 0), (31, 0)))]
            self.add(profile, m, packed(m, self.shuffled(numbered(all_pieces(m), 900)), 2))
            m = [self.message(40, 80, 9, 2, order) for order in range(3)]
            self.add(profile, m, packed(m, numbered(all_pieces(m)), 3))
            self.add(profile, m[:2], packed(m, numbered(sorted(all_pieces(m[:2]), key=lambda p: p[0] == 0)), 3))

    def again(self):
        """Pieces that come twice; datagrams that do; pieces of an id that another message has; a message that comes once more."""
        m = [self.message(60, 72, 300, 1), self.message(44, 72, 300, 1, 1)]
        pieces = numbered(all_pieces(m[:1]))
        twice = [p for p in pieces for _ in range(2)]
        fresh = [(which, k, i) for i, (which, k, _) in enumerate(twice)]
        self.add(CONSOLE, m, each_alone(twice))
        self.add(CONSOLE, m, each_alone(fresh[:-1]))
        self.add(CPP, m, [(0, fresh[:-1])])
        self.add(CPP, m, [d for d in each_alone(pieces) for _ in range(2)])
        other = numbered(all_pieces(m)[len(pieces):], 100)
        clash = pieces[:3] + other[:2] + pieces[3:] + [(which, k, reliable + 50) for which, k, reliable in other]
        self.add(CONSOLE, m, each_alone(clash))
        late = [(which, k, reliable + 20) for which, k, reliable in pieces]
        self.add(CPP, m, each_alone(pieces + late[::-1] + other))
        self.add(CONSOLE, m, each_alone(other + [(w, k, n + 20) for w, k, n in other] + pieces))

    def reaches(self):
        """Reliable numbers and datagrams up to the last that a window takes, and one above it, which comes again once low has risen."""
        m = [self.message(100, 80, 5, 4), self.message(61, 80, 6, 4, 1)]
        pieces = all_pieces(m)
        for profile, above in itertools.product((CONSOLE, CPP), (0, 1)):
            up = numbered(pieces, REACH + 1 + above - len(pieces))
            last, lowest = up[-1], [(0, 0, 0), (0, 1, 1)]
            self.add(profile, m, each_alone(up[::-1]))
            self.add(profile, m, each_alone(up[::-1] + lowest) + [(0, [last])])
            self.add(profile, m, [(up[i][2], [up[i]]) for i in self.shuffled(range(len(up)))] + [(0, lowest), (last[2], [last])])

    def refused(self):
        """Splits and frames that are refused, among pieces that are written; a piece without room, which comes later; a cell too few."""
        m = [self.message(n, mtu, 1, channel) for n, mtu, channel in
             ((20, 70, 0), (20, MIN_MTU - 1, 0), (20, MAX_MTU + 1, 0), (0, 70, 1), (10, 70, 0), (MAX_PIECES + 1, MIN_MTU, 0), (20, 70, 32))]
        m.append(self.message(20, 70, 1, 0, TOP))
        named = [(which, k, which) for which in range(len(m)) for k in (0, 1, 2)]
        self.add(CONSOLE, m, [(0, named), (1, [(0, 1, TOP), (0, 1, 1)])])
        m = [self.message(3 * 700 - 1, 760, 2)]
        self.add(CPP, m, [(0, [(0, 0, 0), (0, 1, 1), (0, 2, 2)]), (1, [(0, 2, 1)])])
        self.add(CPP, m, [(0, [(0, 1, 0), (0, 2, 2), (0, 0, 1)]), (TOP - 1, [(0, 0, 3)]), (REACH + 1, [(0, 0, 3)])])
        m = [self.message(30, 70, 3), self.message(20, 70, 4, 0, 1)]
        pieces = numbered(all_pieces(m))
        self.add(CONSOLE, m, each_alone(pieces[3:] + pieces[:3]) + [(4, [pieces[2]])], 1)
        self.add(CONSOLE, m, packed(m, pieces[::-1]), 1)

    def rooms(self):
        """A last frame that takes all that is left of a datagram, and one that needs a byte more; there 19 and 15 come before 12."""
        rest = MAX_DATAGRAM - HEAD - 2 * PIECE_HEADER
        for profile, mtu in itertools.product((CONSOLE, CPP), (MAX_MTU, 760 + OVERHEAD)):
            m = [self.message(rest, mtu, 1, 3), self.message(rest + 1, mtu, 2, 3, 1)]
            m += [self.message(rest + 1, mtu, 2, 32, 1), self.message(rest + 1, mtu, 2, 3, TOP)]
            refusals = [(1, 2, 3), (1, 2, TOP), (1, 1, TOP - 1), (1, 1, TOP), (2, 1, 3), (3, 1, 3)]
            self.add(profile, m, [(0, [(0, 0, 0), (0, 1, 1)]), (1, [(1, 0, 2), *refusals, (1, 1, 3)]), (2, [(1, 1, 3)])])

    def random_trip(self):
        r = self.r
        places = [(r.choice((0, 0, 1, 31)), r.randrange(65536)) for _ in range(r.randrange(1, 5))]
        messages, orders = [], {}
        for channel, ident in places:
            mtu = r.choice((MIN_MTU, 62, 64, 70, 75, 100, 300, 576, 1492, MAX_MTU))
            chunk = mtu - OVERHEAD
            n = chunk * r.randrange(1, 12) + r.choice((1, chunk, r.randrange(1, chunk + 1)))
            messages.append(self.message(n, mtu, ident, channel, orders.setdefault(channel, 0)))
            orders[channel] += 1
        pieces = numbered(all_pieces(messages), r.choice((0, 0, 7, 1000, 1900)))
        pieces = self.shuffled(pieces) if r.random() < 0.8 else pieces[::-1]
        for _ in range(r.choice((0, 0, 0, 1, 4))):
            which, k, reliable = r.choice(pieces)
            pieces.insert(r.randrange(len(pieces)), (which, k, r.choice((reliable, reliable, 2000 + r.randrange(40)))))
        datagrams = packed(messages, pieces, r.choice((1, 2, 3, 8, 80)))
        order = self.shuffled(range(len(datagrams))) if r.random() < 0.5 else range(len(datagrams))
        self.add(r.choice((CONSOLE, CPP)), messages, [datagrams[i] for i in order])


def stored():
    t = Trips(random.Random(6))
    for kind in (t.smallest, t.lasts, t.several, t.again, t.reaches, t.refused):
        kind()
    for _ in range(150):
        t.random_trip()
    t.longest()
    t.rooms()
    return t.out


def main(what, path):
    if what == "input":
        open(path, "wb").write(stored())
    else:
        sys.stdout.write("".join(line + "\n" for line in run(open(path, "rb").read())))


if __name__ == "__main__":
    main(*sys.argv[1:])
