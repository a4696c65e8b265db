#!/usr/bin/env python3
"""Makes stdin and stdout of the programs replay_frames, replay_acks, replay_windows and replay_missing: their items, and the lines that
they must print.

The answers come from this file's own reading and writing of frames, acknowledgements, windows and pieces, which shares nothing with the
Rattle code. It was written from the sentences of document 01 and of requests 2 (profiles) and 6 (pieces) alone, in the readings that
docs/DECISIONS.md lists: for frames, acknowledgements and windows before their Rattle code was looked at; the missing list of raw windows by
a hand that had seen none of its Rattle code; for pieces by a hand that had read that crate, in another way.
The items are the bench lines, the limits, damaged bytes, and random ones from a fixed seed, so that a second run makes the same files.

An item is a tag (1 byte), a length (16 bits) and a payload; every number of a payload is big-endian. Each answer is one line: a word, document
01's number or 0 where nothing is refused, and the values. A writer's line ends with its whole output, whose bytes were EE before, also after
a refusal. Of bytes the first 64 are printed, in hexadecimal, and of numbers the first 16, then a checksum of them all:
h = (h * 257 + value + 1) mod 4294967291 over the values, from h = 0. A line of replay_missing, which runs two forms of one list, has how
many numbers were stored, 1 where both forms agree, and of the whole lent list, whose numbers were 2^24 before, the checksum alone.
"""
import pathlib
import random

LIMIT_24 = 1 << 24      # numbers have 24 bits
MAX_CHANNEL = 31
MAX_FRAGS = 1024
MIN_MTU, MAX_MTU = 61, 1500
OVERHEAD = 60           # what a chunk is less than the mtu
LONGEST = MAX_MTU - OVERHEAD    # the longest chunk
PIECE_HEADER = 20
REACH = 2048            # a window's places above its low
MAX_LIST = 2048
MAX_BODY = 8191
UNWRITTEN = 0xEE        # what an output holds before
DATA_SEED = 11029

# ---- document 01, "Bytes"

HAS_RELIABLE = (2, 3, 4, 7)
HAS_SEQUENCE = (1, 4)

# ---- document 02, request 2: "the console profile of document 01 or .. this one"

CONSOLE, CPP = 0, 1


def known(profile):
    if profile not in (CONSOLE, CPP):
        raise Refused(9)


def has_order(profile, kind):
    """C++ "puts an order number and channel after kind 4's sequence number"."""
    return kind in (1, 3, 7) or profile == CPP and kind == 4


def body_length(profile, bits):
    """The console drops a remainder; C++ "rounds a bit length up to whole bytes"."""
    length, remainder = divmod(bits, 8)
    return length + 1 if profile == CPP and remainder else length


class Refused(Exception):
    """A refusal, with document 01's number."""


def number24(s, at):
    return int.from_bytes(s[at:at + 3], "little")


def bytes24(n):
    return n.to_bytes(3, "little")


class Frame:
    FIELDS = ("kind", "reliable", "sequence", "order", "channel", "piece", "count", "id", "index")

    def __init__(self, **fields):
        for name in self.FIELDS:
            setattr(self, name, fields.get(name, 0))

    def values(self):
        return [getattr(self, name) for name in self.FIELDS]


def read_frame(profile, s, at):
    """The frame at a place, its body's place and length, and the place after it."""
    known(profile)
    f = Frame()
    p = at

    def take(n):
        nonlocal p
        if len(s) < p + n:
            raise Refused(1)
        p += n
        return s[p - n:p]

    flags = take(1)[0]
    f.kind = flags >> 5
    f.piece = 1 if flags & 0x10 else 0
    length = body_length(profile, int.from_bytes(take(2), "big"))
    if f.kind in HAS_RELIABLE:
        f.reliable = number24(take(3), 0)
    if f.kind in HAS_SEQUENCE:
        f.sequence = number24(take(3), 0)
    if has_order(profile, f.kind):
        f.order = number24(take(3), 0)
        f.channel = take(1)[0]
    if f.piece:
        f.count = int.from_bytes(take(4), "big")
        f.id = int.from_bytes(take(2), "big")
        f.index = int.from_bytes(take(4), "big")
    start = p
    take(length)
    return f, start, length, p


def read_frames(profile, s, at):
    """How many frames fit, one after another, and how many bytes are left."""
    known(profile)
    count = 0
    while True:
        try:
            at = read_frame(profile, s, at)[3]
        except Refused:
            return count, max(len(s) - at, 0)
        count += 1


def frame_over_limit(profile, f, body):
    if f.kind > 7 or len(body) > MAX_BODY:
        return True
    if max(f.reliable, f.sequence, f.order) >= LIMIT_24 or f.channel > MAX_CHANNEL:
        return True
    if f.reliable and f.kind not in HAS_RELIABLE or f.sequence and f.kind not in HAS_SEQUENCE:
        return True
    if (f.order or f.channel) and not has_order(profile, f.kind):
        return True
    if f.piece:
        return not 1 <= f.count <= MAX_FRAGS or f.index >= f.count
    return bool(f.count or f.id or f.index)


def frame_bytes(profile, f, body):
    out = bytes([f.kind << 5 | (0x10 if f.piece else 0)]) + (len(body) * 8).to_bytes(2, "big")
    if f.kind in HAS_RELIABLE:
        out += bytes24(f.reliable)
    if f.kind in HAS_SEQUENCE:
        out += bytes24(f.sequence)
    if has_order(profile, f.kind):
        out += bytes24(f.order) + bytes([f.channel])
    if f.piece:
        out += f.count.to_bytes(4, "big") + f.id.to_bytes(2, "big") + f.index.to_bytes(4, "big")
    return out + body


def store(out, at, data):
    if len(out) < at + len(data):
        raise Refused(12)
    out[at:at + len(data)] = data
    return at + len(data)


def write_frame(profile, out, at, f, body):
    known(profile)
    if frame_over_limit(profile, f, body):
        raise Refused(15)
    return store(out, at, frame_bytes(profile, f, body))


def write_head(out, number):
    if number >= LIMIT_24:
        raise Refused(13)
    store(out, 0, b"\x84" + bytes24(number))


# ---- acknowledgements

def read_ack_header(s):
    """Whether it is a NACK, where the records start and how many there are."""
    if len(s) < 3:
        raise Refused(1)
    if s[0] not in (0xC0, 0xA0):
        raise Refused(3)
    return s[0] == 0xA0, 3, int.from_bytes(s[1:3], "big")


def read_record(s, at):
    """A Single or a Range, and the place after it."""
    if len(s) <= at:
        raise Refused(1)
    if s[at] > 1:
        raise Refused(10)
    numbers = 1 if s[at] == 1 else 2
    after = at + 1 + 3 * numbers
    if len(s) < after:
        raise Refused(1)
    if numbers == 1:
        return ("single", number24(s, at + 1)), after
    first, last = number24(s, at + 1), number24(s, at + 4)
    if last < first:
        raise Refused(11)
    return ("range", first, last), after


def runs(numbers):
    found = []
    for n in numbers:
        if found and found[-1][1] + 1 == n:
            found[-1][1] = n
        else:
            found.append([n, n])
    return found


def list_bytes(nack, numbers):
    records = runs(numbers)
    out = (b"\xA0" if nack else b"\xC0") + len(records).to_bytes(2, "big")
    for first, last in records:
        out += b"\x01" + bytes24(first) if first == last else b"\x00" + bytes24(first) + bytes24(last)
    return out


def write_list(out, nack, numbers):
    if len(numbers) > MAX_LIST or any(n >= LIMIT_24 for n in numbers):
        raise Refused(13)
    if any(a >= b for a, b in zip(numbers, numbers[1:])):
        raise Refused(14)
    return store(out, 0, list_bytes(nack, numbers))


# ---- a piece

def piece_frame(data, mtu, ident, k, channel, order, reliable):
    """Document 01, "Piece k of a split": the frame that carries it, and its body."""
    if not MIN_MTU <= mtu <= MAX_MTU:
        raise Refused(16)
    chunk = mtu - OVERHEAD
    if len(data) <= chunk:
        raise Refused(17)
    bodies = [data[start:start + chunk] for start in range(0, len(data), chunk)]
    if len(bodies) > MAX_FRAGS:
        raise Refused(18)
    if k >= len(bodies):
        raise Refused(19)
    f = Frame(kind=3, reliable=reliable, order=order, channel=channel, piece=1, count=len(bodies), id=ident, index=k)
    return f, bodies[k]


def write_piece(out, *asked):
    """Request 6: "writes the frame of kind 3. Its numbers are those of the split, then those of the writer"; how many bytes it takes."""
    return write_frame(CONSOLE, out, 0, *piece_frame(*asked))


# ---- the window

class Window:
    """The numbers below low are accepted, low is not, and above it those of a set are."""

    def __init__(self, low=0):
        self.low = low
        self.above = set()

    def insert(self, n):
        if n >= LIMIT_24:
            raise Refused(13)
        if n < self.low or n in self.above:
            raise Refused(4)
        if n > self.low + REACH:
            raise Refused(5)
        self.above.add(n)
        while self.low in self.above:
            self.above.remove(self.low)
            self.low += 1

    def missing(self):
        return [n for n in range(self.low, max(self.above, default=self.low)) if n not in self.above]


class RawWindow:
    """Any low and any lent bits, sound or not."""

    def __init__(self, low, bits):
        self.low = low
        self.bits = bits

    def places(self):
        """"The places are low + 1 to low + 2,048"."""
        return range(self.low + 1, self.low + REACH + 1)

    def place_set(self, n):
        """Bits "of every length: a place past their end reads clear". Where a place stands, document 01 leaves open; docs/PROTOCOL.md: "bit
        n mod 8, from the lowest, of byte (n mod 2,048) / 8", so none beyond the 256th byte."""
        byte, bit = divmod(n % REACH, 8)
        return byte < len(self.bits) and self.bits[byte] >> bit & 1 == 1

    def accepted(self, n):
        """"Accepted before is: below low, or its place set"; low's own bit is the place of low + 2,048."""
        return n < self.low or n in self.places() and self.place_set(n)

    def missing(self):
        """"From low up to, not including, the highest accepted number, and never names 2^24 or more, whatever places .. are set. It is
        empty where no place is set and where low is 2^24 or more"."""
        highest = max((n for n in self.places() if self.accepted(n)), default=self.low)
        return [n for n in range(self.low, min(highest, LIMIT_24)) if not self.accepted(n)]


# ---- items, each with the lines that it must give

def pattern(length, seed):
    made = bytearray()
    for _ in range(length):
        seed = (seed * 5 + 1) % 65536
        made.append(seed // 256)
    return made


# the shapes of lent bits: SPARSE has an eighth of its places set and DENSE seven eighths, FEW_HOLES and FEW_BITS whole bytes but one in 16
CLEAR, SET, HALF, SPARSE, DENSE, FEW_HOLES, FEW_BITS, ALTERNATE, ONE_SET, ONE_CLEAR = range(10)


def draws(x):
    while True:
        x = (x * 1664525 + 1013904223) % 2 ** 32
        yield x >> 24


def shaped_byte(shape, a, b, c):
    shapes = {CLEAR: 0, SET: 255, HALF: a, SPARSE: a & b & c, DENSE: a | b | c, FEW_HOLES: 255 if a >= 16 else b,
              FEW_BITS: 0 if a >= 16 else b, ALTERNATE: 0x55, ONE_SET: 0, ONE_CLEAR: 255}
    return shapes.get(shape, 0)


def lent_bits(length, shape, place, seed):
    """Three draws for each byte, whatever the shape; a place beyond the length flips nothing."""
    draw = draws(seed)
    bits = bytearray()
    for _ in range(length):
        a, b, c = next(draw), next(draw), next(draw)
        bits.append(shaped_byte(shape, a, b, c))
    if shape in (ONE_SET, ONE_CLEAR) and place // 8 < length:
        bits[place // 8] ^= 1 << place % 8
    return bits


def checksum(values):
    h = 0
    for v in values:
        h = (h * 257 + v + 1) % 4294967291
    return h


def shown(data):
    return f" {bytes(data[:64]).hex()} {checksum(data)}"


def answer(word, call):
    """A line of the values that a call gives, or of its refusal."""
    try:
        values = call()
    except Refused as r:
        return f"{word} {r}"
    return " ".join([word, "0"] + [str(int(v)) for v in values])


def number16(n):
    return n.to_bytes(2, "big")


def number32(n):
    return n.to_bytes(4, "big")


class Items:
    """The items of one program."""

    def __init__(self, program):
        self.program = program
        self.input = bytearray()
        self.lines = []
        self.count = 0

    def add(self, tag, payload, *lines):
        self.input += bytes([tag]) + number16(len(payload)) + payload
        self.lines += lines
        self.count += 1

    def written(self, word, room, call):
        out = bytearray([UNWRITTEN] * room)
        line = answer(word, lambda: call(out))
        return line + shown(out)

    def save(self):
        assert len(self.input) < 65536
        crate = pathlib.Path(__file__).resolve().parent.parent / "crates" / self.program
        (crate / "stdin").write_bytes(self.input)
        (crate / "stdout").write_text("\n".join(self.lines) + "\n")
        print(f"{self.program}: {self.count} items, {len(self.input)} bytes, {len(self.lines)} lines")


class Frames(Items):
    READ, WRITE, HEAD, PIECE, LONG = range(1, 6)

    def read_lines(self, s, at, profile):
        body = None

        def call():
            nonlocal body
            f, start, length, after = read_frame(profile, s, at)
            body = s[start:after]
            return f.values() + [start, length, after]
        line = answer("frame", call)
        return [line + ("" if body is None else shown(body)), answer("frames", lambda: read_frames(profile, s, at))]

    def read(self, s, at=0, profile=CONSOLE):
        self.add(self.READ, number32(profile) + number16(at) + s, *self.read_lines(s, at, profile))

    def read_long(self, first, length, profile):
        """Many bytes of a pattern, the first of them as given."""
        s = first + bytes(pattern(length, DATA_SEED))[len(first):]
        self.add(self.LONG, number32(profile) + number16(length) + first, *self.read_lines(s, 0, profile))

    def write(self, f, length, seed=0, room=None, at=0, profile=CONSOLE):
        body = bytes(pattern(length, seed))
        if room is None:
            room = at + (2 + length if frame_over_limit(profile, f, body) else len(frame_bytes(profile, f, body)) + 2)
        payload = number32(profile) + number16(room) + number16(at) + bytes([f.kind])
        payload += b"".join(number32(n) for n in (f.reliable, f.sequence, f.order))
        payload += bytes([f.channel, f.piece]) + number32(f.count) + number16(f.id) + number32(f.index) + number16(length) + number16(seed)
        self.add(self.WRITE, payload, self.written("write", room, lambda out: [write_frame(profile, out, at, f, body)]))

    def head(self, room, number):
        self.add(self.HEAD, number16(room) + number32(number), self.written("head", room, lambda out: write_head(out, number) or []))

    def piece(self, length, mtu, k, ident=0, channel=0, order=0, reliable=0, room=MAX_MTU):
        data = bytes(pattern(length, DATA_SEED))
        payload = b"".join(number16(n) for n in (room, length, mtu, ident)) + number32(k)
        payload += bytes([channel]) + number32(order) + number32(reliable)
        line = self.written("piece", room, lambda out: [write_piece(out, data, mtu, ident, k, channel, order, reliable)])
        self.add(self.PIECE, payload, line)

    def message(self, length, mtu, ident, channel, order, reliable):
        """Every piece of a message, and one more: read again here, the bodies join to the data."""
        data = bytes(pattern(length, DATA_SEED))
        joined, k = b"", 0
        while len(joined) < length:
            self.piece(length, mtu, k, ident, channel, order, reliable + k)
            out = bytearray(MAX_MTU)
            end = write_piece(out, data, mtu, ident, k, channel, order, reliable + k)
            f, start, _, after = read_frame(CONSOLE, out, 0)
            assert (f.index, after) == (k, end)
            joined += out[start:after]
            k += 1
        assert joined == data and f.count == k
        self.piece(length, mtu, k, ident, channel, order, reliable + k)


class Acks(Items):
    READ, WRITE_LIST, WRITE_RUN = range(1, 4)

    def read(self, s):
        """The header, then every record until there is none or a refusal."""
        lines = []

        def call():
            nack, at, left = read_ack_header(s)
            lines.append(answer("ack", lambda: [nack, at, left]))
            while left:
                record, at = read_record(s, at)
                left -= 1
                lines.append(answer(record[0], lambda: [*record[1:], at, left]))
            lines.append("end 0")
        try:
            call()
        except Refused as r:
            lines.append(f"{'record' if lines else 'ack'} {r}")
        self.add(self.READ, s, *lines)

    def list_line(self, nack, room, numbers):
        return self.written("list", room, lambda out: [write_list(out, nack, numbers)])

    def write(self, nack, numbers, room=None):
        room = len(list_bytes(nack, [n % LIMIT_24 for n in numbers])) + 2 if room is None else room
        payload = number16(room) + bytes([nack]) + b"".join(number32(n) for n in numbers)
        self.add(self.WRITE_LIST, payload, self.list_line(nack, room, numbers))

    def write_run(self, nack, count, first, step, room):
        numbers = [first + step * i for i in range(count)]
        payload = number16(room) + bytes([nack]) + number16(count) + number32((first - step) % 2 ** 32) + number32(step)
        self.add(self.WRITE_RUN, payload, self.list_line(nack, room, numbers))


class Windows(Items):
    NEW, AT, INSERT, MISSING = range(1, 5)

    def new(self):
        self.window = Window()
        self.add(self.NEW, b"", "new 0 0")

    def at(self, low):
        self.window = Window(low)
        self.add(self.AT, number32(low), f"at 0 {low}")

    def insert(self, first, count=1):
        for n in range(first, first + count):
            line = answer("insert", lambda: self.window.insert(n) or [])
        self.add(self.INSERT, number32(first) + number16(count), f"{line} {self.window.low}")

    def missing(self):
        found = self.window.missing()
        whole = found + [LIMIT_24] * (MAX_LIST - len(found))
        self.add(self.MISSING, b"", " ".join(str(n) for n in ["missing", 0, len(found), *whole[:16], checksum(whole)]))


class Missing(Items):
    LIST = 1
    BYTES = REACH // 8

    def window(self, low, shape, place=0, seed=0, length=BYTES, room=MAX_LIST):
        """A window's missing list, as much of it as there is room for; the rest of the lent list stays."""
        found = RawWindow(low, lent_bits(length, shape, place, seed)).missing()[:room]
        whole = found + [LIMIT_24] * (room - len(found))
        payload = number32(low) + number16(length) + number16(room) + bytes([shape]) + number16(place) + number32(seed)
        self.add(self.LIST, payload, f"missing 0 {len(found)} 1 {checksum(whole)}")

    def fitting(self, low, shape, seed, over):
        """Room for the whole list and as many more or fewer."""
        count = len(RawWindow(low, lent_bits(self.BYTES, shape, 0, seed)).missing())
        self.window(low, shape, 0, seed, room=max(count + over, 0))


# ---- document 01, "Bench lines"

def bench_lines(frames, acks, windows):
    windows.new()
    windows.insert(0)
    windows.insert(0)
    windows.new()
    windows.insert(2048)
    windows.insert(2049)
    for text in ("60 00 08 00 00 00 01 00 00 00 42", "00 00 00", "00 00 0C 41"):
        frames.read(bytes.fromhex(text))
    for numbers in ([0], [0, 1], [3, 5, 6, 7]):
        acks.write(0, numbers)
    for k in (0, 1, 2):
        frames.piece(LONGEST + 1, MAX_MTU, k)
    frames.piece(LONGEST, MAX_MTU, 0)
    frames.piece(LONGEST + 1, MIN_MTU - 1, 0)
    # the datagrams of the program `trace`, whose frames begin at place 4
    frames.read(bytes.fromhex("84000000 60 0008 000000 010000 00 42"), 4)
    frames.read(bytes.fromhex("84010000 60 0008 010000 000000 00 41"), 4)


# ---- the limits

ALL_FIELDS = Frame(reliable=0x030201, sequence=0x060504, order=0x090807, channel=31)


def carried(kind, piece=False, profile=CONSOLE):
    """A frame of a kind whose carried fields are all different and not 0."""
    f = Frame(kind=kind)
    if kind in HAS_RELIABLE:
        f.reliable = ALL_FIELDS.reliable
    if kind in HAS_SEQUENCE:
        f.sequence = ALL_FIELDS.sequence
    if has_order(profile, kind):
        f.order, f.channel = ALL_FIELDS.order, ALL_FIELDS.channel
    if piece:
        f.piece, f.count, f.id, f.index = 1, 1024, 0xABCD, 1023
    return f


def changed(f, **fields):
    return Frame(**{**dict(zip(Frame.FIELDS, f.values())), **fields})


def kind_limits(frames, profile=CONSOLE):
    for kind in range(8):
        for piece in (False, True):
            f = carried(kind, piece, profile)
            whole = frame_bytes(profile, f, b"\x41\x42")
            frames.read(whole, 0, profile)
            frames.read(whole[:-1], 0, profile)
            frames.read(whole[:-3], 0, profile)
            frames.read(b"\xFF" * 3 + whole + b"\x99", 3, profile)
            frames.write(f, 2, 7, profile=profile)
            frames.write(f, 0, room=len(whole) - 2, profile=profile)
            frames.write(f, 2, 7, room=len(whole) - 1, profile=profile)
            frames.write(f, 2, 7, room=len(whole) + 5, at=5, profile=profile)
            frames.write(f, 2, 7, room=len(whole) + 4, at=5, profile=profile)
    for f in (carried(7, True, profile), carried(4, False, profile)):
        whole = frame_bytes(profile, f, b"\x41")
        for length in range(len(whole) + 1):
            frames.read(whole[:length], 0, profile)


def frame_limits(frames):
    kind_limits(frames)
    for length in range(4):
        frames.read(bytes(length))
    frames.read(b"\x00\x00\x00", 3)
    frames.read(b"\x00\x00\x00", 4)
    frames.read(b"\x0F\x00\x07")
    frames.read(b"\x0F\x00\x08")
    for room in (0, 2, 3):
        frames.write(Frame(), 0, room=room)
    frames.write(Frame(), 0, room=3, at=4)
    frames.write(Frame(), 0, room=3, at=65535)


def uncarried(frames, profile=CONSOLE):
    for kind in range(8):
        for name, value in (("reliable", 1), ("sequence", 1), ("order", 1), ("channel", 1)):
            frames.write(Frame(kind=kind, **{name: value}), 1, profile=profile)


def over_limits(frames):
    uncarried(frames)
    for kind in (8, 9, 255):
        frames.write(Frame(kind=kind), 0)
    for n in (LIMIT_24 - 1, LIMIT_24, 2 ** 32 - 1):
        frames.write(Frame(kind=4, reliable=n), 0)
        frames.write(Frame(kind=4, sequence=n), 0)
        frames.write(Frame(kind=3, order=n), 0)
    for channel in (0, 31, 32, 255):
        frames.write(Frame(kind=7, channel=channel), 0)
    for count, index in ((0, 0), (1, 0), (1, 1), (2, 2), (1024, 1023), (1024, 1024), (1025, 0), (2 ** 32 - 1, 0), (1024, 2 ** 32 - 1)):
        frames.write(Frame(piece=1, count=count, id=65535, index=index), 1)
        frames.read(b"\x10\x00\x08" + number32(count) + b"\xFF\xFF" + number32(index) + b"\x06")
    for name in ("count", "id", "index"):
        frames.write(Frame(**{name: 1}), 1)
    frames.write(Frame(), 8191, 11, 8194)
    frames.write(Frame(), 8191, 11, 8193)
    frames.write(Frame(), 8192, 11, 8200)
    frames.write(carried(7, True), 8191, 13, 8220, 6)
    frames.write(carried(7, True), 1400, 13, 1500, 4)
    # 15 comes before 12
    frames.write(Frame(kind=8), 1, room=0)
    for number in (0, 1, 255, 256, LIMIT_24 - 1, LIMIT_24, 2 ** 32 - 1):
        for room in (0, 3, 4, 6):
            frames.head(room, number)


def profiles(frames):
    """Request 2, each item under both profiles where they differ; and numbers that are no profile's."""
    both = (CONSOLE, CPP)
    for profile in both:
        frames.read(bytes.fromhex("00 00 0C 41 42"), 0, profile)
        for bits in range(18):
            frames.read(b"\x00" + number16(bits) + b"\x41\x42", 0, profile)
        # two frames, the second read from where the first ends
        frames.read(bytes.fromhex("00 00 09 41 00 00 08 43 00 00 08 44"), 0, profile)
        for bits in range(65527, 65536):
            for length in (3 + 8190, 3 + 8191, 3 + 8192):
                frames.read_long(b"\x00" + number16(bits), length, profile)
        frames.read_long(b"\x90\xFF\xFF", 23 + 8192, profile)
        # kind 4's bytes of one profile, read under either
        for writer in both:
            frames.read(frame_bytes(writer, carried(4, False, writer), b"\x41\x42\x43\x44\x45\x46"), 0, profile)
    kind_limits(frames, CPP)
    uncarried(frames, CPP)
    for n in (LIMIT_24 - 1, LIMIT_24, 2 ** 32 - 1):
        for name in ("reliable", "sequence", "order"):
            frames.write(Frame(kind=4, **{name: n}), 0, profile=CPP)
    for channel in (0, 31, 32, 255):
        frames.write(Frame(kind=4, channel=channel), 0, profile=CPP)
        frames.read(frame_bytes(CPP, Frame(kind=4, channel=channel), b"\x41"), 0, CPP)
    for length, room in ((8190, 8220), (8191, 8204), (8191, 8203), (8192, 8220)):
        frames.write(carried(4, False, CPP), length, 11, room, profile=CPP)
    # 9 comes before 15 and 12, and leaves the output
    for profile in (2, 3, 255, 256, 257, 65537, 2 ** 31, 2 ** 32 - 1):
        frames.read(bytes.fromhex("00 00 0C 41 42"), 0, profile)
        frames.read(b"", 0, profile)
        frames.write(Frame(), 2, 7, 6, profile=profile)
        frames.write(Frame(kind=8), 2, 7, 0, profile=profile)
        frames.write(Frame(kind=4, order=1), 2, 7, 20, profile=profile)


def ack_limits(acks):
    for text in ("", "C0", "C0 00", "A0 00 00", "C0 00 00 99 99", "84 00", "84 00 00", "00 00 00", "C1 00 00", "A0 00 01", "C0 FF FF",
                 "C0 00 01 01 00 00 00", "C0 00 01 01 00 00", "C0 00 01 01", "C0 00 01 02", "C0 00 01 FF", "C0 00 01 00",
                 "A0 00 01 00 05 00 00 05 00 00", "A0 00 01 00 05 00 00 04 00 00", "A0 00 01 00 05 00 00 04 00", "C0 00 01 00 FF FF FF FF FF FF",
                 "C0 00 02 01 03 00 00 00 05 00 00 07 00 00", "C0 00 02 00 05 00 00 07 00 00 01 03 00 00", "C0 00 02 01 03 00 00 02",
                 "C0 00 03 01 03 00 00 01 03 00 00 00 01 00 00 00 00 00", "C0 00 01 01 FF FF FF 00 00", "C0 01 00 01 07 00 00"):
        acks.read(bytes.fromhex(text))
    whole = list_bytes(0, [3, 5, 6, 7])
    for length in range(len(whole)):
        acks.read(whole[:length])
    for nack in (0, 1):
        acks.write(nack, [])
        acks.write(nack, [], room=2)
        acks.write(nack, [7], room=6)
        acks.write(nack, [7, 8], room=9)
        acks.write(nack, [7, 9], room=10)
        acks.write(nack, [7, 8, 9, 11], room=14)
        acks.write(nack, [LIMIT_24 - 2, LIMIT_24 - 1])
        acks.write(nack, [LIMIT_24 - 1, LIMIT_24])
        acks.write(nack, [2 ** 32 - 1])
        acks.write(nack, [5, 5])
        acks.write(nack, [5, 4])
        acks.write(nack, [5, 4, LIMIT_24])
        acks.write(nack, [5, 4], room=0)
        acks.write(nack, [LIMIT_24], room=0)
        acks.write(nack, [0, 2, 3])
        acks.write(nack, [1, 2, 4])
    for count, first, step, room in ((2048, 0, 1, 10), (2048, 0, 1, 9), (2048, 100, 2, 8195), (2048, 100, 2, 8194), (2049, 0, 1, 8200),
                                     (2049, 0, 0, 8200), (2048, 0, 0, 8195), (2048, LIMIT_24 - 2048, 1, 40), (2048, LIMIT_24 - 2047, 1, 40)):
        acks.write_run(count % 2, count, first, step, room)


def window_limits(windows):
    windows.new()
    windows.missing()
    for n in (LIMIT_24 - 1, LIMIT_24, 2 ** 32 - 1, 2049, 2048, 2048, 2047):
        windows.insert(n)
        windows.missing()
    windows.insert(0)
    for n in (2050, 2049, 1, 2051, 3, 2):
        windows.insert(n)
        windows.missing()
    # one number that moves low over all places; then the same around the end of the places' bytes
    windows.new()
    windows.insert(1, 2050)
    windows.missing()
    windows.insert(0)
    windows.missing()
    windows.insert(2050, 2047)
    windows.insert(2049)
    windows.new()
    windows.insert(1)
    for n in (0, 2050, 2051, 2, 3):
        windows.insert(n)
        windows.missing()
    for n in (8, 16, 24, 7, 9, 15, 17, 23, 25, 2052, 4, 6, 5):
        windows.insert(n)
    windows.missing()
    # the last numbers of 24 bits; a low that no run of inserts reaches
    windows.at(LIMIT_24 - 2050)
    for n in (LIMIT_24 - 1, LIMIT_24 - 2, LIMIT_24, LIMIT_24 - 2050, LIMIT_24 - 1, LIMIT_24 - 2051):
        windows.insert(n)
        windows.missing()
    windows.at(LIMIT_24 - 1)
    for n in (LIMIT_24, LIMIT_24 - 1, LIMIT_24 - 1, 0, LIMIT_24):
        windows.insert(n)
        windows.missing()
    windows.at(2 ** 32 - 1)
    for n in (0, LIMIT_24 - 1, LIMIT_24):
        windows.insert(n)
        windows.missing()


RANDOM_SHAPES = (HALF, SPARSE, DENSE, FEW_HOLES, FEW_BITS)
NEAR_0 = (0, 1, 2, 63, 64, 65, 127, 2046, 2047, 2048, 2049, 4095, 4096)
NEAR_LIMIT = tuple(LIMIT_24 - below for below in (2200, 2113, 2112, 2111, 2050, 2049, 2048, 2047, 2046, 1985, 1984, 1983, 1024, 129, 128,
                                                  127, 65, 64, 63, 9, 8, 7, 2, 1))
OVER_LIMIT = (LIMIT_24, LIMIT_24 + 1, LIMIT_24 + 2, LIMIT_24 + 3, 2 ** 31 - 1, 2 ** 31, 2 ** 32 - 2049, 2 ** 32 - 2048, 2 ** 32 - 1)


def seed32(rng):
    return rng.randrange(2 ** 32)


def missing_bench(missing):
    """The benchmark's windows: low alone missing, every second number, nothing, one far number (low + 2,048)."""
    for low in (0, 1, 64, 1000, 2047, 2048, 123456, LIMIT_24 - 2049, LIMIT_24 - 2048):
        missing.window(low, SET)
        missing.window(low, ALTERNATE)
        missing.window(low, CLEAR)
        missing.window(low, ONE_SET, low % REACH)


def missing_lows(missing, rng):
    for low in NEAR_0 + NEAR_LIMIT:
        for shape in (SET, ALTERNATE, *RANDOM_SHAPES):
            missing.window(low, shape, 0, seed32(rng))
    for low in OVER_LIMIT:
        for shape in (CLEAR, SET, ALTERNATE, HALF, ONE_CLEAR):
            missing.window(low, shape, rng.randrange(REACH), seed32(rng))
        for place in (low + 1, low + 2, low, low - 1):
            missing.window(low, ONE_SET, place % REACH)
    for shape in (CLEAR, 10, 11, 85, 255):
        missing.window(rng.randrange(LIMIT_24), shape, rng.randrange(REACH), seed32(rng))
    # every place within a word as low's own, anywhere
    for residue in range(64):
        for shape in (*RANDOM_SHAPES, HALF):
            missing.window(rng.randrange(LIMIT_24 // 64) * 64 + residue, shape, 0, seed32(rng))


def missing_places(missing, rng):
    """One place set alone, or clear alone: about low's own, about the words' borders, the first, the last; the last numbers of 24 bits."""
    for residue in range(64):
        low = rng.randrange(LIMIT_24 // 64) * 64 + residue
        for shape in (ONE_SET, ONE_CLEAR):
            border = rng.randrange(32) * 64
            for place in (low, low + 1, low - 1, border + rng.randrange(-1, 2)):
                missing.window(low, shape, place % REACH)
    for low in (0, 1, 63, 64, 2047, rng.randrange(LIMIT_24), rng.randrange(LIMIT_24)):
        own_word = low // 64 * 64
        for shape in (ONE_SET, ONE_CLEAR):
            for place in (0, REACH - 1, low + 2, low - 2, *(own_word + k for k in (-1, 0, 63, 64, 65)), rng.randrange(REACH)):
                missing.window(low, shape, place % REACH)
    for low in NEAR_LIMIT:
        for n in (LIMIT_24 - 2, LIMIT_24 - 1, LIMIT_24, LIMIT_24 + 1, low + REACH):
            missing.window(low, ONE_SET, n % REACH)
        missing.window(low, ONE_CLEAR, rng.choice((LIMIT_24 - 1, LIMIT_24, low, low + 1)) % REACH)
    # a place beyond the bits that are lent, and one beyond those that are looked at
    for length, place in ((0, 0), (1, 7), (1, 8), (32, 255), (32, 256), (255, 2039), (255, 2040), (256, 2047), (256, 2048), (256, 65535),
                          (257, 2047), (257, 2048), (257, 2055), (300, 2399), (512, 2048), (512, 4095), (512, 4096), (512, 65535)):
        for shape in (ONE_SET, ONE_CLEAR):
            missing.window(rng.choice((0, rng.randrange(LIMIT_24))), shape, place, length=length)


def missing_lengths(missing, rng):
    """Low's own place before, at and after the end of the lent bits, or anywhere."""
    for length in (0, 1, 2, 7, 8, 9, 15, 16, 17, 31, 32, 33, 127, 128, 129, 247, 248, 249, 255, 257, 264, 300, 512):
        base = rng.randrange(LIMIT_24 // REACH) * REACH
        for end in (-2, -1, 0, 1):
            missing.window(base + (length * 8 + end) % REACH, rng.choice((SET, ALTERNATE, ONE_CLEAR)), rng.randrange(REACH), 0, length)
            missing.window(base + (length * 8 + end) % REACH, rng.choice(RANDOM_SHAPES), 0, seed32(rng), length)
        for shape in (SET, HALF, FEW_HOLES):
            missing.window(rng.randrange(LIMIT_24), shape, 0, seed32(rng), length)
        missing.window(LIMIT_24 - rng.randrange(1, 2200), rng.choice(RANDOM_SHAPES), 0, seed32(rng), length)


def missing_rooms(missing, rng):
    for room in (0, 1, 2, 3, 63, 64, 65, 127, 128, 129, 1023, 1024, 1025, 2047, 2049, 2100):
        for low in (64 * rng.randrange(1000), rng.randrange(LIMIT_24), LIMIT_24 - rng.randrange(1, 2200)):
            missing.window(low, ONE_SET, low % REACH, room=room)
            missing.window(low, rng.choice((SET, ALTERNATE, ONE_CLEAR)), rng.randrange(REACH), room=room)
            for shape in rng.sample(RANDOM_SHAPES, 3):
                missing.window(low, shape, 0, seed32(rng), room=room)
    for over in (-65, -64, -63, -2, -1, 0, 1, 2):
        for shape in (ALTERNATE, *RANDOM_SHAPES):
            missing.fitting(rng.randrange(LIMIT_24), shape, seed32(rng), over)
            missing.fitting(LIMIT_24 - rng.randrange(1, 2200), shape, seed32(rng), over)


def piece_limits(frames):
    for mtu in (0, MIN_MTU - 2, MIN_MTU - 1, MIN_MTU, MAX_MTU, MAX_MTU + 1, 65535):
        for length in (0, 1, 2, LONGEST - 1, LONGEST, LONGEST + 1, 2 * LONGEST + 1):
            frames.piece(length, mtu, 1)
    last = MAX_FRAGS - 1
    for length, k in ((MAX_FRAGS, 0), (MAX_FRAGS, last), (MAX_FRAGS, MAX_FRAGS), (MAX_FRAGS, 2 ** 32 - 1), (MAX_FRAGS + 1, 0),
                      (MAX_FRAGS + 1, 2000)):
        frames.piece(length, MIN_MTU, k)
    for length, k in ((2 * LONGEST, 1), (2 * LONGEST, 2), (65535, 65535 // LONGEST), (65535, 65535 // LONGEST + 1)):
        frames.piece(length, MAX_MTU, k)
    # the shortest chunk that 65,535 bytes can be split by, and one shorter
    chunk = -(-65535 // MAX_FRAGS)
    frames.piece(65535, chunk + OVERHEAD, last)
    frames.piece(65535, chunk - 1 + OVERHEAD, 0)
    # 16 before 17, 17 before 19, 18 before 19
    frames.piece(0, MIN_MTU - 1, 9)
    frames.piece(100, MAX_MTU, 9)
    frames.piece(65535, MIN_MTU, 2 ** 32 - 1)
    for ident in (1, 255, 256, 65535):
        frames.piece(LONGEST + 1, MAX_MTU, 1, ident)
    # the last piece as long as the others
    frames.message(120, 100, 65535, 31, LIMIT_24 - 1, LIMIT_24 - 4)


def piece_writer_limits(frames):
    """The writer's numbers: each of the split's comes before 15 and 12, and 15 before 12."""
    two, most = (LONGEST + 1, MAX_MTU), (MAX_FRAGS, MIN_MTU)
    for length, mtu, k in ((LONGEST + 1, MIN_MTU - 1, 0), (LONGEST, MAX_MTU, 0), (MAX_FRAGS + 1, MIN_MTU, 0), (*two, 2), (*two, 1)):
        for room in (0, MAX_MTU):
            frames.piece(length, mtu, k, 65535, 32, LIMIT_24, LIMIT_24, room)
        frames.piece(length, mtu, k, room=0)
    values = {"channel": (31, 32, 255), "order": (LIMIT_24 - 1, LIMIT_24, 2 ** 32 - 1), "reliable": (LIMIT_24 - 1, LIMIT_24, 2 ** 32 - 1)}
    for name in values:
        for value in values[name]:
            for length, mtu, k in ((*two, 1), (*most, MAX_FRAGS - 1), (2, MIN_MTU, 2)):
                frames.piece(length, mtu, k, 65535, **{name: value})
            frames.piece(*two, 1, room=PIECE_HEADER, **{name: value})
    for length, mtu, k, body in ((*two, 0, LONGEST), (*two, 1, 1), (*most, MAX_FRAGS - 1, 1), (100, 37 + OVERHEAD, 2, 26)):
        whole = PIECE_HEADER + body
        for room in (0, 1, PIECE_HEADER - 1, PIECE_HEADER, whole - 1, whole, whole + 1):
            frames.piece(length, mtu, k, 0xABCD, 31, 0x090807, 0x030201, room)


# ---- damaged bytes, and random items

def random_frame(rng, profile):
    f = Frame(kind=rng.randrange(8))
    small = rng.random() < 0.5
    limit = 5 if small else LIMIT_24
    if f.kind in HAS_RELIABLE:
        f.reliable = rng.randrange(limit)
    if f.kind in HAS_SEQUENCE:
        f.sequence = rng.randrange(limit)
    if has_order(profile, f.kind):
        f.order, f.channel = rng.randrange(limit), rng.randrange(32)
    if rng.random() < 0.4:
        f.piece, f.count, f.id = 1, rng.randint(1, 4 if small else 1024), rng.randrange(65536)
        f.index = rng.randrange(f.count)
    return f


def random_length(rng):
    return rng.choice((0, 1, 2, 3, 5, 8, 13))


def random_numbers(rng):
    start = rng.choice((0, 1, rng.randrange(1000), rng.randrange(LIMIT_24 - 300)))
    numbers = []
    for _ in range(rng.randrange(9)):
        numbers.append(start)
        start += rng.choice((1, 1, 1, 2, 3, 20))
    return numbers


def damaged(rng, s):
    s = bytearray(s)
    if rng.random() < 0.5:
        s = s[:rng.randrange(len(s) + 1)]
    for _ in range(rng.randrange(3)):
        if s:
            s[rng.randrange(len(s))] ^= 1 << rng.randrange(8)
    return bytes(s)


def random_frames(frames, rng, profile=CONSOLE):
    for _ in range(100):
        f, length, seed, at = random_frame(rng, profile), random_length(rng), rng.randrange(65536), rng.randrange(3)
        s = frame_bytes(profile, f, pattern(length, seed))
        frames.read(damaged(rng, s), 0, profile)
        frames.write(f, length, seed, len(s) + rng.randrange(-2, 4) if rng.random() < 0.5 else None, at, profile)
        name = rng.choice(Frame.FIELDS[1:5] + Frame.FIELDS[6:])
        value = rng.choice((1, 31, 32, 255) if name == "channel" else (1, 1024, 65535))
        frames.write(changed(f, **{name: value}), length, seed, profile=profile)
    for _ in range(70):
        s = bytes([rng.randrange(0x80, 0x8E)]) + rng.randbytes(3)
        s += b"".join(frame_bytes(profile, random_frame(rng, profile), rng.randbytes(random_length(rng))) for _ in range(rng.randrange(5)))
        frames.read(s, 4, profile)
        frames.read(s[:4] + damaged(rng, s[4:]), 4, profile)
    for _ in range(20):
        frames.read(rng.randbytes(rng.randrange(40)), rng.randrange(6), profile)


def random_sender(rng):
    """An id, a channel, an order and a reliable number that a sender may have."""
    limit = rng.choice((5, LIMIT_24 - MAX_FRAGS))
    return rng.randrange(65536), rng.randrange(32), rng.randrange(limit), rng.randrange(limit)


def random_pieces(frames, rng, numbers):
    """The numbers have a generator of their own: what rng draws next makes the items of other programs."""
    for _ in range(60):
        mtu = rng.choice((rng.randrange(MIN_MTU, 200), rng.randrange(MIN_MTU, MAX_MTU + 1)))
        length = rng.choice((rng.randrange(400), rng.randrange(65536)))
        chunk = mtu - OVERHEAD
        k = rng.choice((0, length // chunk, rng.randrange(60)))
        ident, channel, order, reliable = random_sender(numbers)
        room = numbers.choice((MAX_MTU, PIECE_HEADER + chunk, numbers.randrange(PIECE_HEADER + chunk)))
        frames.piece(length, mtu, k, ident, channel, order, reliable, room)
    for mtu, most in ((MIN_MTU, 20), (62, 30), (100, 500), (576, 5000), (MAX_MTU, 20000), (MAX_MTU - 1, 14400)):
        frames.message(numbers.randrange(2 * (mtu - OVERHEAD), most), mtu, *random_sender(numbers))


def random_acks(acks, rng):
    for _ in range(72):
        numbers = random_numbers(rng)
        nack = rng.randrange(2)
        s = list_bytes(nack, numbers)
        acks.read(damaged(rng, s))
        acks.write(nack, numbers, room=len(s) + rng.randrange(-2, 3) if rng.random() < 0.5 else None)
        rng.shuffle(numbers)
        acks.write(nack, numbers)


def random_windows(windows, rng):
    for spread in (4, 40, 2100):
        windows.new()
        for turn in range(60):
            windows.insert(max(windows.window.low + rng.randrange(-3, spread), 0))
            if turn % 12 == 11:
                windows.missing()


def random_missing(missing, rng):
    for _ in range(330):
        low = rng.choice((rng.randrange(5000), rng.randrange(LIMIT_24), rng.randrange(LIMIT_24), LIMIT_24 + 3 - rng.randrange(2204)))
        length = rng.choice((missing.BYTES, missing.BYTES, missing.BYTES, rng.randrange(missing.BYTES), rng.randrange(513)))
        room = rng.choice((MAX_LIST, MAX_LIST, MAX_LIST, rng.randrange(200), rng.randrange(2101)))
        shape = rng.choice(RANDOM_SHAPES * 3 + (ONE_SET, ONE_SET, ONE_CLEAR, ONE_CLEAR, ALTERNATE, SET))
        missing.window(low, shape, rng.randrange(REACH), seed32(rng), length, room)
    for _ in range(20):
        missing.window(seed32(rng), rng.choice(RANDOM_SHAPES), 0, seed32(rng))


def main():
    frames, acks, windows = Frames("replay_frames"), Acks("replay_acks"), Windows("replay_windows")
    missing = Missing("replay_missing")
    rng = random.Random(1)
    bench_lines(frames, acks, windows)
    frame_limits(frames)
    over_limits(frames)
    piece_limits(frames)
    piece_writer_limits(frames)
    random_frames(frames, rng)
    random_pieces(frames, rng, random.Random(4))
    profiles(frames)
    random_frames(frames, random.Random(2), CPP)
    ack_limits(acks)
    random_acks(acks, rng)
    window_limits(windows)
    random_windows(windows, rng)
    missing_bench(missing)
    rng = random.Random(3)
    missing_lows(missing, rng)
    missing_places(missing, rng)
    missing_lengths(missing, rng)
    missing_rooms(missing, rng)
    random_missing(missing, rng)
    for items in (frames, acks, windows, missing):
        items.save()


if __name__ == "__main__":
    main()
