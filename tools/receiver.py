#!/usr/bin/env python3
"""A receiver of its own, written from the sentences of document 01 and of document 02's requests 1, 2, 4 and 5, and not from the crates: it
makes the stored input and the expected output of the programs trace and calls. Images are image.py's.

  receiver.py recording FILE      a recording for trace (datagrams, each after a 16-bit big-endian length)
  receiver.py list FILE SEED N    a list for calls: N random ones to a console receiver, half as many to a C++ one, among both levers that
                                  come late; then new receivers in mid list; then previews that lack pieces, and drops of them; then images
                                  saved and restored, whole and damaged (stored: seed 26, 700 calls)
  receiver.py trace FILE          what trace prints for the recording
  receiver.py calls FILE          what calls prints for the list
"""
import copy, random, sys
import image

CELL, REACH, TOP = 1500, 2048, 1 << 24
CONSOLE, CPP = 0, 1
RELIABLE, SEQUENCE = (2, 3, 4, 7), (1, 4)
ORDER = {CONSOLE: (1, 3, 7), CPP: (1, 3, 4, 7)}  # C++ "puts an order number and channel after kind 4's sequence number"


class Refused(Exception):
    pass


class Window:
    """The accepted numbers: all below low, and those in the set."""

    def __init__(self):
        self.low, self.above = 0, set()

    def has(self, n):
        return n < self.low or n in self.above

    def insert(self, n, number):
        if n - self.low > REACH:
            raise Refused(number)
        self.above.add(n)
        while self.low in self.above:
            self.above.remove(self.low)
            self.low += 1

    def missing(self):
        return [n for n in range(self.low, max(self.above, default=0)) if n not in self.above]


def body_length(bits, profile):
    """Whole bytes: the remainder is dropped, but C++ "rounds a bit length up"."""
    return bits // 8 if profile == CONSOLE else (bits + 7) // 8


def frames_of(d, profile):
    """The frames that fit, and the bytes left."""
    at, frames = 4, []
    while at + 3 <= len(d):
        p, flags = at + 3, d[at]
        kind, piece = flags >> 5, flags & 0x10 != 0
        f = dict(kind=kind, reliable=0, sequence=0, order=0, channel=0, piece=piece, count=0, id=0, index=0)
        ordered = ORDER[profile]
        fields = [("reliable", 3, RELIABLE), ("sequence", 3, SEQUENCE), ("order", 3, ordered), ("channel", 1, ordered)]
        for name, size, kinds in fields:
            if kind in kinds:
                f[name] = int.from_bytes(d[p:p + size], "little")
                p += size
        if piece:
            for name, size in (("count", 4), ("id", 2), ("index", 4)):
                f[name] = int.from_bytes(d[p:p + size], "big")
                p += size
        end = p + body_length(int.from_bytes(d[at + 1:at + 3], "big"), profile)
        if end > len(d):
            break
        f["body"] = d[p:end]
        frames.append(f)
        at = end
    return frames, len(d) - at


class State:
    def __init__(self, cells, profile=CONSOLE):
        self.cells, self.profile = cells, profile
        self.datagrams, self.reliables = Window(), Window()
        self.unsent = []
        self.open = {}
        self.held = {}
        self.next = [0] * 32
        # the highest sequence number made ready: of kind 1 by channel; of kind 4 under None, in C++ by channel too ("its channel's memory")
        self.newest = {}
        self.line = []  # ready and not yet taken: kind, channel, order number, bodies
        self.history = []  # of each accepted datagram since the last restore, the ids that a piece was kept for
        self.aged = {}  # what the last restore gave: how many datagrams since an id's last kept piece

    def used(self):
        pieces = sum(len(m["pieces"]) for m in self.open.values())
        return pieces + sum(len(m[3]) for m in self.held.values()) + sum(len(m[3]) for m in self.line)


def make_ready(s, m):
    """Puts m into the line; an ordered one is followed by the held messages of its channel. How many were made ready."""
    s.line.append(m)
    made = 1
    if m[0] in (3, 7):
        s.next[m[1]] += 1
        # "in the same way", whatever kind an image gave it
        while (m[1], s.next[m[1]]) in s.held:
            s.line.append(s.held.pop((m[1], s.next[m[1]])))
            s.next[m[1]] += 1
            made += 1
    return made


def order(s, m, sequence):
    """Step 4 for a message and its sequence number: (made ready, dropped)."""
    if m[0] in SEQUENCE:
        memory = None if m[0] == 4 and s.profile == CONSOLE else m[1]
        if memory in s.newest and sequence <= s.newest[memory]:
            return 0, 1
        s.newest[memory] = sequence
    if m[0] in (3, 7):
        if m[2] < s.next[m[1]] or (m[1], m[2]) in s.held:
            return 0, 1
        if m[2] > s.next[m[1]]:
            s.held[m[1], m[2]] = m
            return 0, 0
    return make_ready(s, m), 0


def step(s, f):
    """One frame: (made ready, dropped, bodies kept)."""
    if f["kind"] in RELIABLE:
        if s.reliables.has(f["reliable"]):
            return 0, 1, 0
        s.reliables.insert(f["reliable"], 7)
    if f["channel"] > 31 or f["piece"] and not (1 <= f["count"] <= 1024 and f["index"] < f["count"]):
        return 0, 1, 0
    if not f["piece"]:
        ready, dropped = order(s, (f["kind"], f["channel"], f["order"], [f["body"]]), f["sequence"])
        return ready, dropped, 1 - dropped
    alike = (f["count"], f["kind"], f["sequence"], f["order"], f["channel"])
    m = s.open.setdefault(f["id"], dict(alike=alike, pieces={}))
    if m["alike"] != alike or f["index"] in m["pieces"]:
        return 0, 1, 0
    m["pieces"][f["index"]] = f["body"]
    if len(m["pieces"]) < f["count"]:
        return 0, 0, 1
    del s.open[f["id"]]
    bodies = [m["pieces"][i] for i in range(f["count"])]
    ready, dropped = order(s, (f["kind"], f["channel"], f["order"], bodies), f["sequence"])
    return ready, dropped, 1


def receive(s, d):
    """The state after, and ready, dropped, left; or a refusal."""
    if len(d) < 4:
        raise Refused(1)
    if len(d) > 1500:
        raise Refused(2)
    if not 0x80 <= d[0] <= 0x8D:
        raise Refused(3)
    t = copy.deepcopy(s)
    n = int.from_bytes(d[1:4], "little")
    if t.datagrams.has(n):
        raise Refused(4)
    t.datagrams.insert(n, 5)
    if len(t.unsent) >= 1024:
        raise Refused(6)
    frames, left = frames_of(d, t.profile)
    done = [step(t, f) for f in frames]
    if s.used() + sum(x[2] for x in done) > s.cells:
        raise Refused(8)
    t.unsent = sorted(t.unsent + [n])
    t.history.append([f["id"] for f, x in zip(frames, done) if f["piece"] and x[2]])
    return t, sum(x[0] for x in done), sum(x[1] for x in done), left


def take(s, room):
    if not s.line:
        raise Refused(20)
    kind, channel, number, bodies = s.line[0]
    body = b"".join(bodies)
    if len(bodies) > 1 and room < len(body):
        raise Refused(12)
    s.line.pop(0)
    return body, kind, channel, number


def further(s, ident):
    """The datagrams accepted since the last that a piece was kept for the id in; "the age kept for an id stops at 2^32"."""
    for back, ids in enumerate(reversed(s.history)):
        if ident in ids:
            return back
    return min(s.aged[ident] + len(s.history), image.OLDEST)


def drop_unfinished(s, n):
    """How many cells a drop frees."""
    old = [ident for ident, m in s.open.items() if m["alike"][1] not in RELIABLE and further(s, ident) > n]
    return sum(len(s.open.pop(ident)["pieces"]) for ident in old)


# ---- images

def image_of(s):
    def message(m):
        return dict(kind=m[0], channel=m[1], order=m[2], bodies=m[3])

    def piece(ident, m, index):
        count, kind, sequence, order, channel = m["alike"]
        return dict(id=ident, index=index, count=count, kind=kind, sequence=sequence, order=order, channel=channel, age=further(s, ident),
                    body=m["pieces"][index])

    memory = [s.newest.get(c, -1) + 1 for c in (*range(32), None)]
    return dict(
        profile=[s.profile], windows=[(w.low, image.bits_of(w.low, w.above)) for w in (s.datagrams, s.reliables)],
        channels=list(zip(s.next + [0], memory)), unsent=sorted(s.unsent),
        pieces=[piece(ident, m, i) for ident, m in sorted(s.open.items()) for i in sorted(m["pieces"])],
        held=[message(s.held[key]) for key in sorted(s.held)], ready=[message(m) for m in s.line])


def saved(s, room):
    out = image.write(image_of(s))
    if len(out) > room:
        raise Refused(12)
    return out


def restored(i, cells):
    """The receiver that a good image restores to."""
    def message(m):
        return m["kind"], m["channel"], m["order"], list(m["bodies"])

    s = State(cells, i["profile"][0])
    for w, (low, bits) in zip((s.datagrams, s.reliables), i["windows"]):
        w.low, w.above = low, image.places((low, bits))
    s.next = [n for n, _ in i["channels"][:32]]
    s.newest = {c: m - 1 for c, (_, m) in zip((*range(32), None), i["channels"]) if m}
    s.unsent = list(i["unsent"])
    for p in i["pieces"]:
        alike = (p["count"], p["kind"], p["sequence"], p["order"], p["channel"])
        s.open.setdefault(p["id"], dict(alike=alike, pieces={}))["pieces"][p["index"]] = p["body"]
        s.aged[p["id"]] = p["age"]
    s.held = {(m["channel"], m["order"]): message(m) for m in i["held"]}
    s.line = [message(m) for m in i["ready"]]
    return s


def restore(data, cells):
    """The receiver restored into so many cells, as `calls` has them."""
    number = image.answer(data, cells) if 1 <= cells <= 256 else 9
    if number:
        raise Refused(number)
    return restored(image.read(data), cells)


def written(first, numbers, room):
    """An ACK or NACK: each run of two or more is one Range."""
    runs = []
    for n in numbers:
        if runs and runs[-1][1] + 1 == n:
            runs[-1][1] = n
        else:
            runs.append([n, n])
    out = bytes([first]) + len(runs).to_bytes(2, "big")
    for a, b in runs:
        out += b"\1" + a.to_bytes(3, "little") if a == b else b"\0" + a.to_bytes(3, "little") + b.to_bytes(3, "little")
    if len(out) > room:
        raise Refused(12)
    return out


def checksum(data):
    h = 1
    for b in data:
        h = (31 * h + b) % 65521
    return h


# ---- the programs

def trace(data):
    s, at, out = State(32), 0, []
    while at + 2 <= len(data):
        n = int.from_bytes(data[at:at + 2], "big")
        d, at = data[at + 2:at + 2 + n], at + 2 + n
        if len(d) < n:
            break
        try:
            s, ready, dropped, _ = receive(s, d)
            number = 0
        except Refused as e:
            number, ready, dropped = e.args[0], 0, 0
        name = "-" if number in (9, 1, 2, 3) else int.from_bytes(d[1:4], "little")
        out.append(f"{name} {number} {ready} {dropped}")
        while s.line:
            out.append(f"+ {len(take(s, 32 * CELL)[0])}")
        s.unsent = []
    return out


def calls(data):
    cells = int.from_bytes(data[:2], "big") if len(data) >= 2 else 0
    return run(data, cells)[0] if 1 <= cells <= 256 else ["- 9"]


def run(data, cells):
    """The lines of a list of calls, and the receiver after it."""
    s, at, out, kept = State(cells), 2, [], b""
    while at + 3 <= len(data):
        what, n = data[at], int.from_bytes(data[at + 1:at + 3], "big")
        at += 3
        length = int.from_bytes(data[at:at + 4], "big")
        at += 4 if what == 8 else 0
        more = {0: n, 5: 2, 8: length}.get(what, 0)
        d = data[at:at + more]
        if what > 8 or at > len(data) or len(d) < more or what == 4 and n > 1 or what == 8 and length > 1048576:
            break
        at += more
        letter = "rtumnxsii"[what]
        try:
            if what == 0:
                s, ready, dropped, left = receive(s, d)
                out.append(f"r 0 {ready} {dropped} {left}")
            elif what == 1:
                body, kind, channel, number = take(s, n)
                out.append(f"t 0 {len(body)} {checksum(body)} {kind} {channel} {number}")
            elif what == 4:
                s = State(s.cells, n)
                out.append("n 0")
            elif what == 5:
                out.append(f"x 0 {drop_unfinished(s, n * 65536 + int.from_bytes(d, 'big'))}")
            elif what == 6:
                kept = saved(s, min(64 * n, 1048576))
                out.append(f"s 0 {len(kept)} {checksum(kept)}")
            elif what in (7, 8):
                s = restore(kept if what == 7 else d, n)
                out.append("i 0")
            else:
                w = written(0xC0, s.unsent, n) if what == 2 else written(0xA0, s.datagrams.missing(), n)
                s.unsent = [] if what == 2 else s.unsent
                out.append(f"{letter} 0 {len(w)} {checksum(w)}")
        except Refused as e:
            out.append(f"{letter} {e.args[0]}")
    return out, s


# ---- input

def frame(kind, body, reliable=0, sequence=0, order=0, channel=0, piece=None, flags=0, bits=None, profile=CONSOLE):
    b = bytes([kind << 5 | (0x10 if piece else 0) | flags]) + (len(body) * 8 if bits is None else bits).to_bytes(2, "big")
    if kind in RELIABLE:
        b += reliable.to_bytes(3, "little")
    if kind in SEQUENCE:
        b += sequence.to_bytes(3, "little")
    if kind in ORDER[profile]:
        b += order.to_bytes(3, "little") + bytes([channel])
    if piece:
        count, ident, index = piece
        b += count.to_bytes(4, "big") + ident.to_bytes(2, "big") + index.to_bytes(4, "big")
    return b + body


def datagram(number, *frames, first=0x84):
    return bytes([first]) + number.to_bytes(3, "little") + b"".join(frames)


def put(d):
    return len(d).to_bytes(2, "big") + d


def levers(number, reliable, room):
    """Lever positions that come late: datagrams from this number on, reliable numbers from that one on, to a receiver that has so many
    cells free (which is few enough for one datagram) and takes all ready after each."""
    def at(n, channel, body, order=0):
        return frame(1, body, sequence=n, order=order, channel=channel)

    def halves(n, channel, ident):
        return [frame(1, b"ab"[i:i + 1] * n, sequence=n, channel=channel, piece=(2, ident, i)) for i in range(2)]

    def stop(n, body, piece=None):
        nonlocal reliable
        reliable += 1
        return frame(4, body, reliable=reliable - 1, sequence=n, piece=piece)

    hums = [frame(0, b"hum") for _ in range(room)]
    on7, on8, on12 = halves(5, 7, 11), halves(5, 8, 12), halves(5, 12, 13)
    groups = [
        # 5, 4, 5 again, 6; the order number has no say
        [at(5, 4, b"5")], [at(4, 4, b"44", order=9)], [at(5, 4, b"555", order=10)], [at(6, 4, b"6666")],
        # the first is always made ready, also number 0; on channel 32 step 2 drops it
        [at(0, 5, b"0"), at(0, 5, b"00"), at(1, 5, b"111"), at(0, 5, b"0000")], [at(9, 32, b"far")],
        # the same in two pieces each: joined, and late in step 4
        halves(5, 6, 20), halves(4, 6, 21), halves(5, 6, 22)[:1], halves(5, 6, 22)[1:], halves(6, 6, 23),
        # a whole one overtakes the pieces: newer, then equal
        on7[:1], [at(6, 7, b"newer")], on7[1:], on8[:1], [at(5, 8, b"equal")], on8[1:],
        # each channel has its own memory, and kind 4 another
        [at(8, 9, b"8"), at(7, 10, b"77"), at(7, 9, b"777"), at(8, 10, b"8888")],
        [stop(900, b"900"), at(3, 9, b"3"), at(9, 9, b"9"), stop(899, b"899"), stop(900, b"again"), at(901, 10, b"901"), stop(901, b"901")],
        [stop(905, b"half", (2, 24, 0))], [stop(906, b"906")], [stop(905, b"other", (2, 24, 1))], [stop(907, b"one piece", (1, 25, 0))],
        # a late whole frame needs no cell; the pieces of a late message do, until the datagram's end
        [at(5, 12, b"5")] + hums[1:] + [at(5, 12, b"late"), at(4, 12, b"later")], [at(5, 12, b"5")] + hums,
        on12[:1] + [at(7, 12, b"7")], on12[1:] + hums[:-1], on12[1:] + hums[:-2], hums,
        # a refused datagram is not remembered
        [at(20, 12, b"20")] + hums, [at(19, 12, b"19"), at(20, 12, b"20")],
        # numbers of one, two and three bytes
        [at(n, 13, b"up") for n in (255, 256, 65535, 65536, 65535, 256)],
        # up to the last number, after which all are late
        [at(TOP - 2, 11, b"-2")], [at(TOP - 1, 11, b"-1")], [at(TOP - 1, 11, b"again"), at(TOP - 2, 11, b"older"), at(0, 11, b"0")],
        [stop(TOP - 1, b"-1"), stop(TOP - 2, b"-2"), stop(TOP - 1, b"again"), at(2, 0, b"2"), stop(0, b"0")],
    ]
    return [datagram(number + i, *fs) for i, fs in enumerate(groups)]


def recording():
    """Document 01's own input for trace; then a shift's worth of lever commands: in order, out of order, twice, in pieces, damaged; then
    lever positions that come late."""
    first = [datagram(0, frame(3, b"B", reliable=0, order=1)), datagram(1, frame(3, b"A", reliable=1, order=0))]
    o = [frame(3, b"lift %d" % i, reliable=2 + i, order=i, channel=1) for i in range(8)]
    long = bytes(range(256)) * 11
    p = [frame(3, long[i * 1000:][:1000], reliable=20 + i, order=8, channel=1, piece=(3, 7, i)) for i in range(3)]
    late = frame(7, b"brake", reliable=30, order=1, channel=2)
    ds = first + [first[0], datagram(2, o[0]), datagram(4, o[2], o[3]), datagram(3, o[1]), datagram(3, o[1]), datagram(5, o[3], o[4]),
                  datagram(6, p[2]), datagram(7, p[0]), datagram(8, o[6], o[7]), datagram(9, o[5]), datagram(10, p[1]),
                  datagram(11, late), datagram(12, frame(7, b"hold", reliable=31, order=0, channel=2)),
                  datagram(13, frame(0, b"hum"), frame(1, b"tick", sequence=4, order=9, channel=3), frame(4, b"tock", reliable=32, sequence=5)),
                  datagram(14, frame(3, b"far channel", reliable=33, order=0, channel=32)),
                  datagram(15, frame(2, b"piece 2 of 2", reliable=34, piece=(2, 9, 2))),
                  datagram(16, frame(2, b"cut", reliable=35)[:-1]), b"", b"\x84\0\0", datagram(17, first=0xC0), bytes(1501),
                  datagram(3000), datagram(17, frame(2, b"beyond", reliable=9000)), datagram(18), datagram(19, b"\0\0\0")]
    many = [frame(0, b"%d" % i) for i in range(33)]
    ds += [datagram(20, *many), datagram(21, *many[:32])] + levers(22, 40, 32)
    return b"".join(put(d) for d in ds)


def cpp(kind, body, **fields):
    return frame(kind, body, profile=CPP, **fields)


def shared(number, reliable, room):
    """Lever positions of a C++ host, to a receiver as `levers` has it: kinds 1 and 4 of a channel go by one memory, kind 4 carries an order
    number that nothing waits for, and lengths are not all multiples of 8."""
    def at(n, channel, body, order=0):
        return cpp(1, body, sequence=n, order=order, channel=channel)

    def stop(n, channel, body, order=0, piece=None, bits=None, kind=4):
        nonlocal reliable
        reliable += 1
        return cpp(kind, body, reliable=reliable - 1, sequence=n, order=order, channel=channel, piece=piece, bits=bits)

    def lift(order, channel, body):
        return stop(0, channel, body, order, kind=3)

    hums = [cpp(0, b"hum") for _ in range(room)]
    far = stop(9, 32, b"far")
    whole = stop(3, 2, b"whole", order=0x030201, bits=37)
    groups = [
        # one memory for a channel's two kinds, each way round; another channel has another
        [at(5, 4, b"5")], [stop(5, 4, b"55")], [stop(4, 4, b"4")], [stop(6, 4, b"6")], [at(6, 4, b"66"), at(5, 4, b"5")], [at(7, 4, b"7")],
        [stop(0, 5, b"0"), at(0, 5, b"00"), stop(0, 5, b"000"), stop(1, 5, b"1"), at(1, 5, b"11"), at(2, 5, b"2")],
        [stop(8, 9, b"8"), stop(7, 10, b"7"), at(7, 9, b"77"), at(8, 10, b"88"), stop(8, 10, b"888"), stop(9, 9, b"9")],
        # the order number has no say, and leaves the channel's ordered messages alone
        [stop(1, 6, b"1", order=9), stop(2, 6, b"2", order=3), stop(3, 6, b"3", order=3), stop(4, 6, b"4", order=TOP - 1)],
        [lift(1, 6, b"second"), stop(5, 6, b"5", order=0), stop(6, 6, b"6", order=1)], [lift(0, 6, b"first"), lift(1, 6, b"again")],
        # the last channel; beyond it step 2 drops, after step 1 has accepted the number
        [stop(1, 31, b"last")], [far, stop(9, 33, b"farther"), stop(9, 255, b"farthest")], [far, stop(2, 31, b"2")],
        [stop(9, 64, b"half", 0, (2, 19, 0))],
        # pieces agree in order number and channel too
        [stop(5, 7, b"a", 4, (3, 20, 0))], [stop(5, 7, b"order", 5, (3, 20, 1)), stop(5, 8, b"channel", 4, (3, 20, 1))],
        [stop(6, 7, b"sequence", 4, (3, 20, 1)), stop(5, 7, b"count", 4, (2, 20, 1)), stop(5, 7, b"kind", 4, (3, 20, 1), kind=3)],
        [cpp(1, b"kind 1", sequence=5, order=4, channel=7, piece=(3, 20, 1)), stop(5, 7, b"index", 4, (3, 20, 0))],
        [stop(5, 7, b"cc", 4, (3, 20, 2)), stop(5, 7, b"bbb", 4, (3, 20, 1), bits=17)],
        [stop(5, 7, b"same id", 9, (1, 20, 0)), stop(6, 7, b"6", 9, (1, 20, 0))],
        # kind 4 is overtaken by kind 1 and kind 1 by kind 4; the cells of what is joined late are free afterwards
        [stop(5, 11, b"a", 1, (2, 21, 0))], [at(5, 11, b"equal")], [stop(5, 11, b"b", 1, (2, 21, 1))],
        [cpp(1, b"a", sequence=9, channel=12, piece=(2, 22, 0))], [stop(10, 12, b"newer")],
        [cpp(1, b"b", sequence=9, channel=12, piece=(2, 22, 1))],
        [stop(5, 13, b"5")] + hums[1:] + [stop(5, 13, b"late"), at(4, 13, b"later")], [stop(6, 13, b"6")] + hums, [at(6, 13, b"6")],
        # bits: the document's own; from none to two bytes, a frame after each; more than there are
        [bytes.fromhex("00000C4142")], [cpp(0, b"ab"[:(n + 7) // 8], bits=n) + stop(n, 14, b"", order=n) for n in range(17)],
        [stop(20 + n, 14, bytes(2), bits=n) for n in range(9, 17)], [cpp(0, b"up", bits=17)], [cpp(0, bytes(9), bits=65535)],
        [cpp(0, bytes(1400), bits=8 * 1400 - 7), cpp(0, b"", bits=1)],
        [stop(40, 14, b"abc", 0, (2, 23, 1), 18), stop(40, 14, b"d", 0, (2, 23, 0), 1)],
        # a frame cut at each place, and whole; kind 4 as a console writes it, whose body is taken for order number and channel
        *([whole[:n]] for n in range(1, len(whole) + 1)), [stop(1, 0x0F, b"!", order=0x090807)],
        [frame(4, b"\7\x08\x09\x0F!", reliable=reliable + 9, sequence=2, bits=8)],
        # up to the last number
        [stop(TOP - 2, 17, b"-2")], [at(TOP - 1, 17, b"-1")],
        [stop(TOP - 1, 17, b"again"), stop(0, 17, b"0"), stop(0, 16, b"0", order=TOP - 1)],
    ]
    return [datagram(number + i, *fs) for i, fs in enumerate(groups)]


TAKE, UNSENT, MISSING = b"\1\xff\xff", b"\2\xff\xff", b"\3\xff\xff"


def new(profile):
    return b"\4" + profile.to_bytes(2, "big")


def with_takes(s, datagrams):
    """The calls for these datagrams, each with takes until none is ready; s is the receiver before them."""
    out = b""
    for d in datagrams:
        try:
            s = receive(s, d)[0]
        except Refused:
            pass
        out += b"\0" + put(d)
        while s.line:
            take(s, 65535)
            out += TAKE
        out += TAKE
    return out


def late_levers(s, number, reliable):
    """Takes until none is ready, and the calls for the levers of the receiver's profile."""
    out = TAKE * (len(s.line) + 1)
    s.line = []
    late = levers if s.profile == CONSOLE else shared
    return out + with_takes(s, late(number, reliable, s.cells - s.used()))


def drop(n):
    return b"\5" + n.to_bytes(4, "big")


def previews(profile, cells):
    """Calls to a receiver just made (meant for 24 to 240 cells): messages that lack pieces grow old, and drops come just too early or just
    in time."""
    number, reliable = 0, 0

    def piece(kind, ident, index, count=3, order=0):
        nonlocal reliable
        reliable += 1
        return frame(kind, b"%d" % index, reliable - 1, 1, order, kind, (count, ident, index), profile=profile)

    def send(*frames):
        nonlocal number
        number += 1
        return b"\0" + put(datagram(number - 1, *frames))

    def refused(*frames, at=None, **first):
        return b"\0" + put(datagram(number if at is None else at, *frames, **first))

    def empty(n):
        return b"".join(send() for _ in range(n))

    def hums(n):
        return [frame(0, b"hum")] * n

    # nothing is open; then a piece of each kind, of which four carry no reliable number
    out = drop(0) + drop(TOP * 256 - 1)
    out += send(*(piece(kind, kind, 0) for kind in range(8))) + drop(0) + empty(1) + drop(1)
    # refused datagrams do not count: 4, 3, 1, 2, 5, 7, 8
    out += refused(at=0) + refused(first=0x7F) + b"\0" + put(b"\x84\0\0") + b"\0" + put(bytes(1501)) + refused(at=number + REACH + 2)
    out += refused(frame(2, b"far", reliable=9000)) + refused(*hums(cells)) + drop(1) + drop(0) + drop(0)
    # those with one stay, and are finished; the others begin again, and of their new pieces none is the old one
    out += empty(3) + drop(0) + send(*(piece(kind, kind, i) for kind in (2, 3, 4, 7) for i in (1, 2))) + TAKE * 5
    out += send(piece(0, 0, 1), piece(0, 0, 2)) + TAKE + send(piece(0, 0, 0)) + TAKE * 2
    # the last kept piece counts, and all pieces of its id go
    out += send(piece(5, 20, 0)) + empty(2) + send(piece(5, 20, 1)) + drop(0) + empty(2) + drop(3) + drop(2) + drop(1)
    # pieces that are dropped renew nothing: an index again, another count, kind or order number, an index over its limit
    out += send(piece(6, 21, 0)) + send(piece(6, 21, 0)) + send(piece(6, 21, 1, 4)) + send(piece(0, 21, 1)) + send(piece(6, 21, 3))
    out += drop(4) + drop(3) + send(piece(1, 21, 0)) + send(piece(1, 21, 1, order=1)) + drop(1) + drop(0)
    # nor do pieces of another id, nor those of a refused datagram
    out += send(piece(0, 22, 0)) + send(piece(0, 23, 0), piece(0, 23, 1)) + drop(0) + empty(1) + drop(1) + drop(0)
    out += send(piece(0, 24, 0)) + refused(piece(0, 24, 1), *hums(cells)) + empty(1) + drop(1) + drop(0)
    # an id is finished and begins again in one datagram; it is dropped and begins again
    out += send(piece(1, 25, 0, 2)) + empty(1) + send(piece(1, 25, 1, 2), piece(1, 25, 0, 2)) + drop(0) + empty(1) + drop(0) + TAKE * 2
    out += send(piece(5, 25, 1, 2)) + empty(1) + drop(0) + send(piece(6, 25, 0, 2)) + drop(0) + empty(1) + drop(1) + drop(0)
    # held and ready messages are not unfinished
    late = frame(3, b"late", reliable, order=1, channel=30, profile=profile)
    reliable += 1
    out += send(late, piece(0, 26, 0, 2), piece(0, 26, 1, 2), *hums(2)) + empty(2) + drop(0)
    out += send(frame(3, b"due", reliable, order=0, channel=30, profile=profile)) + TAKE * 6
    reliable += 1
    # datagrams count as they are accepted, whatever their numbers
    number += 5
    out += send(piece(0, 27, 0))
    number -= 4
    out += empty(2) + drop(2) + drop(1)
    number += 2
    # the number's halves and bytes; an age above 255
    out += send(piece(6, 28, 0), piece(3, 29, 0)) + empty(260) + drop(4 << 8) + drop(260 << 16) + drop(1 << 31) + drop(TOP * 256 - 1)
    out += drop(260) + drop(259) + UNSENT + MISSING
    # all cells in use: no room until some are given back
    out += send(piece(0, 30, 0), piece(5, 31, 2), piece(5, 31, 1)) + send(*hums(cells - 4))
    out += refused(*hums(1)) + drop(1) + refused(*hums(1)) + drop(0) + send(*hums(3)) + refused(*hums(1))
    # a new receiver has accepted none
    return out + new(profile) + drop(0) + b"\0" + put(datagram(0, piece(0, 30, 0))) + drop(0) + b"\0" + put(datagram(1)) + drop(1) + drop(0)


def save(n):
    return b"\6" + n.to_bytes(2, "big")


def resume(n):
    return b"\7" + n.to_bytes(2, "big")


def given(n, data):
    return b"\10" + n.to_bytes(2, "big") + len(data).to_bytes(4, "big") + data


def units(s):
    """The n of a save that is just enough."""
    return -(-len(image.write(image_of(s))) // 64)


def saves(profile):
    """Calls to a receiver just made: it is saved, goes on, and is resumed as it was; into as few cells as it uses, too few, more."""
    def after(calls):
        return run(bytes(2) + new(profile) + calls, 250)[1]

    def hums(number, n):
        return b"\0" + put(datagram(number, *[frame(0, b"hum%d" % i) for i in range(n)]))

    # nothing is kept; then a new receiver's image, whose output is one unit too short, then just enough
    out = resume(0) + resume(257) + resume(1) + save(units(after(b"")) - 1) + resume(1) + save(units(after(b""))) + resume(1) + resume(250)
    # something of everything; the save changes nothing; too little room for it, or none, leaves the image kept
    out += in_use(profile, 0)
    used, enough = after(out).used(), units(after(out))
    out += save(enough) + save(enough - 1) + save(0) + other_half(9) + TAKE + drop(0) + MISSING + UNSENT
    # refused: none of it has an effect
    out += resume(0) + resume(used - 1) + resume(257) + resume(65535) + save(65535)[:1] + enough.to_bytes(2, "big") + MISSING
    # as it was, in just enough cells, with no room for one more; then in one more
    out = new(profile) + out + in_use(profile, 20)
    s = after(out)
    used, enough = s.used(), units(s)
    out += save(enough) + resume(used) + hums(30, 1) + resume(used + 1) + hums(30, 1) + TAKE * 4
    # and again; what came since is not known, what was taken is there; it grows older from there on
    out += resume(used + 5) + hums(30, 2) + TAKE * 9 + other_half(31) + TAKE * 3 + UNSENT + MISSING
    out += resume(200) + b"".join(b"\0" + put(datagram(40 + i)) for i in range(3)) + save(65535) + drop(2) + drop(3) + resume(200) + drop(0)
    # a receiver of the other profile goes on as the one that was saved
    return out + new(CPP - profile) + resume(30) + other_half(50) + TAKE * 9 + UNSENT + MISSING + new(CPP - profile) + TAKE + save(18)


def damages(profile, seed):
    """Images given to restore, whole and some of the broken, to a receiver that holds something; what restores is gone on with for some
    calls."""
    r = random.Random(seed)
    s = run(bytes(2) + new(profile) + in_use(profile, 0) + in_use(profile, 4) + b"\0" + put(datagram(9, frame(0, b"more"))), 250)[1]
    s.open[9] = dict(alike=(3, 0, 5, 6, 7), pieces={0: b"first", 2: b"last"})
    s.aged = {1: 3, 9: image.OLDEST - 1}
    s.history = []
    # held messages of all kinds are released alike
    s.held[1, 2], s.held[1, 4], s.held[31, 1] = (0, 1, 2, [b"a", b"b"]), (4, 1, 4, [b"c"]), (7, 31, 1, [b"d"])
    s.next[1] = 1
    after = b"\0" + put(datagram(60, frame(3, b"due", 70, order=1, channel=1, profile=profile))) + drop((1 << 32) - 1) + TAKE * 3
    good, out = image_of(s), in_use(profile, 0)
    for i, data in enumerate(image.Damage(good).all()[profile::8]):
        cells = image.used(good) + r.choice((0, 0, 1, 5, 50))
        out += given(cells, data) + (after + MISSING + save(65535) if i % 4 == 0 else TAKE)
    used = image.used(good)
    out += b"".join(given(n, image.write(good)) for n in (0, 1, used - 1, used, used + 1, 256, 257, 65535))
    return out + after + UNSENT + resume(200)


class Console:
    """Random frames of a few senders to a console receiver."""
    calls = (60, 25, 8, 7, 0, 0, 0)

    def __init__(self, r):
        self.r, self.reliable, self.ident = r, 0, 0
        self.orders, self.newest = [0] * 34, [0] * 35

    def frame(self):
        r = self.r
        kind = r.choice((0, 1, 2, 3, 3, 3, 4, 5, 6, 7, 7))
        channel = r.choice((0, 1, 1, 31, 32, 33)) if r.random() < 0.2 else r.choice((0, 1))
        o = max(0, self.orders[channel] + r.choice((-1, 0, 0, 0, 1, 2)))
        self.orders[channel] = max(self.orders[channel], o + 1) if r.random() < 0.8 else self.orders[channel]
        rel = self.reliable_number()
        body = r.randbytes(r.choice((0, 1, 2, 9, 40, 150)))
        piece = None
        if r.random() < 0.3:
            n = r.choice((1, 2, 2, 3, 4, 0, 1024, 1025))
            self.ident = self.ident if r.random() < 0.7 else (self.ident + 1) % 5
            piece = (n, self.ident, r.randrange(0, 4))
            kind = 2 if r.random() < 0.6 else kind
            o = o if r.random() < 0.3 else 3
        sequence = self.sequence(kind, channel if kind == 1 else 34)
        return frame(kind, body, rel, sequence, o, channel, piece, r.choice((0, 0, 0, 5)),
                     len(body) * 8 + r.randrange(8) if r.random() < 0.1 else None)

    def reliable_number(self):
        r = self.r
        self.reliable += r.choice((1, 1, 1, 1, 2, 3))
        rel = self.reliable if r.random() < 0.9 else max(0, self.reliable - r.randrange(1, 9))
        return rel if r.random() < 0.99 else rel + 2500

    def sequence(self, kind, memory):
        n = max(0, self.newest[memory] + self.r.choice((-1, 0, 1)))
        self.newest[memory] = max(self.newest[memory], n) if kind in SEQUENCE else self.newest[memory]
        return n


class Cpp(Console):
    """The same to a C++ receiver: kind 4 above all, and pieces that mostly agree."""
    split = None

    def frame(self):
        r = self.r
        kind = r.choice((0, 1, 1, 2, 3, 3, 4, 4, 4, 4, 7))
        channel = r.choice((0, 1, 31, 32, 33)) if r.random() < 0.2 else r.choice((0, 1))
        o = max(0, self.orders[channel] + r.choice((-1, 0, 0, 0, 1, 2)))
        self.orders[channel] += kind in (3, 7)
        sequence, piece = self.sequence(kind, channel), None
        if r.random() < 0.4:
            if not self.split or r.random() < 0.25:
                self.split = [r.choice((1, 4, 4, 4, 3, 2)), sequence + 1, o, channel, r.choice((2, 2, 3)), r.randrange(5)]
            kind, sequence, o, channel, count, ident = self.split
            changed = r.choice("soc") if r.random() < 0.2 else ""
            sequence, o, channel = sequence + (changed == "s"), o + (changed == "o"), channel ^ (changed == "c")
            piece = (count, ident, r.randrange(count))
        body = r.randbytes(r.choice((0, 1, 2, 9, 40)))
        bits = None
        if r.random() < 0.5:
            # rounded up to the body; or, seldom, to one byte more
            bits = max(0, len(body) * 8 - r.randrange(8)) if r.random() < 0.9 else len(body) * 8 + r.randrange(1, 8)
        return cpp(kind, body, reliable=self.reliable_number(), sequence=sequence, order=o, channel=channel, piece=piece, bits=bits)


class Previews(Console):
    """Pieces above all, most of kinds without reliable numbers, which are the same in both profiles; many are lost."""
    calls = (60, 10, 4, 4, 22, 0, 0)

    def __init__(self, r):
        super().__init__(r)
        self.splits = {}

    def frame(self):
        r, ident = self.r, self.r.randrange(6)
        if ident not in self.splits or r.random() < 0.15:
            self.splits[ident] = [r.choice((0, 0, 1, 5, 6, 6, 2, 3)), r.choice((2, 2, 3, 4)), self.sequence(1, 0)]
        kind, count, sequence = self.splits[ident]
        piece = (count, ident, r.randrange(count)) if r.random() < 0.85 else None
        return frame(kind, r.randbytes(r.choice((0, 1, 9))), self.reliable_number(), sequence, 0, 0, piece)


class Resumed(Cpp):
    """Frames to a C++ receiver that is often saved and resumed."""
    calls = (60, 12, 4, 4, 4, 9, 7)


def random_calls(r, before, sender, count, spent=None):
    """Calls of all kinds after those before, to a receiver just made: a few senders' worth of frames, reordered, doubled, lost, damaged.
    After two thirds of them, where numbers are spent on it, lever positions that come late, for which so many datagram and reliable numbers
    are left out."""
    out, kept, number = before, [], 0
    for i in range(count):
        if spent and i == 2 * count // 3:
            out += late_levers(run(out, int.from_bytes(out[:2], "big"))[1], number + 1, sender.reliable + 1)
            number, sender.reliable = number + spent[0], sender.reliable + spent[1]
        what = r.choices((0, 1, 2, 3, 5, 6, 7), sender.calls)[0]
        if what > 5:
            out += save(r.choice((0, 17, 18, 40, 65535))) if what == 6 else resume(r.choice((1, 8, 16, 32, 32, 64, 256)))
            continue
        if what == 5:
            out += drop(r.choice((0, 0, 1, 1, 2, 3, 5, 1 << 16, TOP, TOP * 256 - 1)))
            continue
        if what:
            room = r.choice((0, 2, 3, 7, 10, 20, 100, 1500, 20000, 65535))
            out += bytes([what]) + room.to_bytes(2, "big")
            continue
        if kept and r.random() < 0.25:
            d = r.choice(kept)
        else:
            fs = [sender.frame() for _ in range(r.choice((0, 1, 1, 1, 2, 3, 6)))]
            number += r.choice((1, 1, 1, 1, 2, 3))
            n = number if r.random() < 0.9 else max(0, number - r.randrange(9))
            n = n if r.random() < 0.99 else n + 2100
            d = datagram(n % TOP, *fs, first=r.choice((0x84, 0x84, 0x84, 0x80, 0x8D)) if r.random() < 0.97 else r.randrange(256))
            d = d[:r.randrange(len(d))] if r.random() < 0.05 else d
            d = d + r.randbytes(r.randrange(1, 5)) if r.random() < 0.05 else d
            kept = (kept + [d])[-12:]
        out += b"\0" + put(d)
    return out


def in_use(profile, number):
    """Datagrams from this number on that leave something open, held, ready, unsent and missing."""
    order = [frame(3, b"held", order=2, profile=profile), frame(3, b"ready", reliable=1, profile=profile)]
    half = frame(4, b"half", reliable=2, sequence=1, order=1, channel=1, piece=(2, 1, 0), profile=profile)
    lever = frame(1, b"lever", sequence=7, channel=1, profile=profile)
    return b"\0" + put(datagram(number, *order)) + b"\0" + put(datagram(number + 3, half, lever))


def other_half(number):
    """The piece that `in_use` lacks, as C++ writes it, and levers below the one that it had."""
    half = cpp(4, b"other", reliable=3, sequence=1, order=1, channel=1, piece=(2, 1, 1))
    return b"\0" + put(datagram(number, half, cpp(1, b"6", sequence=6, channel=1), cpp(4, b"5", reliable=4, sequence=5, channel=1)))


def random_list(seed, count):
    r = random.Random(seed)
    cells = r.choice((1, 2, 5, 32, 32, 100, 256))
    out = random_calls(r, cells.to_bytes(2, "big"), Console(r), count, (40, 20))
    out = random_calls(r, out + new(CPP), Cpp(r), count // 2, (80, 120))
    # a C++ host's levers to a console receiver, and a console's to a C++ one
    out += new(CONSOLE) + with_takes(State(cells, CONSOLE), shared(0, 0, cells)) + UNSENT + MISSING
    out += new(CPP) + with_takes(State(cells, CPP), levers(0, 0, cells)) + UNSENT + MISSING
    # a new receiver holds nothing of the one before it, of the same profile or the other; its numbers begin again
    for before, after in ((CPP, CPP), (CPP, CONSOLE), (CONSOLE, CPP)):
        out += new(before) + in_use(before, 0) + new(after) + TAKE + UNSENT + MISSING + other_half(3) + TAKE * 3 + UNSENT + MISSING
        out += in_use(after, 0) + in_use(after, 4) + TAKE * 5 + UNSENT + MISSING
    for profile in (CONSOLE, CPP):
        out += new(profile) + previews(profile, cells)
        out = random_calls(r, out + new(profile), Previews(r), count // 4)
    for profile in (CONSOLE, CPP):
        out += new(profile) + saves(profile) + new(profile) + damages(profile, seed)
    out = random_calls(r, out + new(CPP), Resumed(r), count // 2)
    # no profile: the list ends there
    return out + new(CPP + 1) + other_half(9) + TAKE + UNSENT + MISSING


def main(what, path, *rest):
    if what == "recording":
        open(path, "wb").write(recording())
    elif what == "list":
        open(path, "wb").write(random_list(int(rest[0]), int(rest[1])))
    else:
        out = (trace if what == "trace" else calls)(open(path, "rb").read())
        sys.stdout.write("".join(line + "\n" for line in out))


if __name__ == "__main__":
    main(*sys.argv[1:])
