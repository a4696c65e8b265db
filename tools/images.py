#!/usr/bin/env python3
"""The stored images of the program replay_images, and what it prints for them: made from document 02's request 5 by image.py and
receiver.py, and not by the program.

  images.py input FILE     the items (a tag, a 16-bit big-endian length, a payload; crates/replay_images/src says what they hold)
  images.py output FILE    what the program prints for items

For each profile: a receiver that two lists of calls lead to, over other cells, whose image is stored; and a full image, which restores and
is saved again. Both are cut at each place, changed at each place, and damaged as image.py's `Damage` says.
"""
import sys
from image import BIG, CELL, OLDEST, TOP, Damage, answer, bits_of, read, used, write
from receiver import CONSOLE, CPP, Refused, State, checksum, datagram, drop_unfinished, frame, image_of, receive, restored, take

CELLS, ITEM = 1040, 65535


def item(tag, payload=b""):
    return tag + len(payload).to_bytes(2, "big") + payload


def lent(cells, store=None):
    """The cells and the store's bytes, which restores are lent."""
    return cells.to_bytes(2, "big") + (CELL * cells if store is None else store).to_bytes(4, "big")


# ---- images

def full(profile):
    """Windows whose low lies within a byte, memories with kind 4's own, unsent numbers below low and accepted, pieces with ages up to the last,
    held and ready messages of one and of several bodies."""
    channels = [(0, 0)] * 33
    for c, entry in {0: (0, 1), 1: (2, 0), 4: (5, 300), 7: (70000, 70001), 29: (TOP - 3, TOP), 30: (TOP - 1, TOP - 1), 31: (TOP, 7)}.items():
        channels[c] = entry
    channels[32] = (0, 65537)
    like = dict(sequence=9, order=70001, channel=7)
    old = dict(id=256, count=1024, kind=6, age=OLDEST, **like)
    last = dict(id=65535, index=1, count=2, kind=3, age=OLDEST - 1, sequence=0, order=0, channel=31)
    return dict(
        profile=[profile], channels=channels,
        windows=[(5003, bits_of(5003, [5004, 5006, 5011, 5012, 6000, 7050, 7051])), (70010, bits_of(70010, range(70012, 70100, 3)))],
        unsent=[0, 4999, 5002, 5004, 5006, 6000, 7051],
        pieces=[dict(id=3, index=i, count=3, kind=4, sequence=TOP - 1, order=1, channel=4, age=0, body=b"piece %d" % i) for i in (0, 2)]
        + [dict(old, index=i, body=bytes(range(i % 7))) for i in (0, 1, 1023)] + [dict(last, body=b"")],
        held=[dict(channel=0, order=1, kind=3, bodies=[b"early"]), dict(channel=0, order=3, kind=7, bodies=[b"a", b"", b"ccc"]),
              dict(channel=29, order=TOP - 1, kind=0, bodies=[b"of any kind"])],
        ready=[dict(channel=7, order=69999, kind=3, bodies=[b"first"]), dict(channel=0, order=0, kind=2, bodies=[bytes(40), b"\xff"]),
               dict(channel=31, order=TOP - 1, kind=1, bodies=[b""])])


def lists(profile):
    """Two lists of calls that lead to equal receivers over other cells: what is handed out in the second before all others come, in the first
    is handed out last."""
    def piece(kind, ident, index, reliable, count=3, order=0):
        return frame(kind, b"%d" % (ident + index), reliable, 5, order, 3, (count, ident, index), profile=profile)

    first = datagram(0, *[frame(0, b"hum %d" % i, profile=profile) for i in range(4)])
    rest = [datagram(1, piece(4, 7, 2, 0), piece(0, 300, 0, 0)), datagram(2, frame(3, b"second", 1, order=1, profile=profile), piece(4, 7, 0, 2)),
            datagram(4, piece(7, 5, 0, 3, 2, 2), piece(7, 5, 1, 4, 2, 2)), datagram(5, frame(3, b"zeroth", 5, order=0, channel=9, profile=profile)),
            datagram(2050, frame(1, b"lever", sequence=8, channel=2, profile=profile), frame(2, b"", 2048, profile=profile))]
    takes = [item(b"T")] * 4
    received = [item(b"D", d) for d in rest]
    return [[item(b"D", first), *received, *takes], [item(b"D", first), *takes, *received]]


# ---- items

def changes(data, damaged, cells):
    """Each damaged image as one place of the good one, how many bytes go there, and those that come."""
    out, payload = [], lent(cells)
    for d in damaged:
        at = next((i for i, (a, b) in enumerate(zip(data, d)) if a != b), min(len(data), len(d)))
        end = next((i for i, (a, b) in enumerate(zip(data[at:][::-1], d[at:][::-1])) if a != b), min(len(data), len(d)) - at)
        new = d[at:len(d) - end]
        one = at.to_bytes(4, "big") + (len(data) - end - at).to_bytes(2, "big") + len(new).to_bytes(2, "big") + new
        if len(payload) + len(one) > ITEM:
            out, payload = out + [item(b"B", payload)], lent(cells)
        payload += one
    return out + [item(b"B", payload)]


def sweep(cells, *values):
    return item(b"W", lent(cells) + b"".join(n.to_bytes(8, "big") for n in values))


def of_image(i):
    """It restores into enough cells and is saved again; and its damages, into one cell more, over the other receiver that holds something."""
    data, n = write(i), used(i)
    others = (n,), (n + 3,), (0,), (n, CELL * n - 1), (n, CELL * n + 1), (257,), (1025,), (n + 1,)
    out = [item(b"R", lent(n - 1) + data), *(item(b"R", lent(*l)) for l in others)]
    return out + [item(b"C", lent(n + 1)), sweep(n + 1, BIG, TOP, 1, 0, OLDEST + 1, 32)] + changes(data, Damage(i).all(), n + 1)


def of_many(profile, name, count):
    """A message of so many bodies restores up to 1,024, where the cells are enough."""
    m = dict(channel=3, order=9, kind=7, bodies=[b"."] * count)
    data = write(dict(image_of(State(1, profile)), **{name: [m]}))
    return [item(b"R", lent(count) + data), item(b"R", lent(count - 1)), item(b"R", lent(count + 1))]


def stored():
    out = []
    for profile in (CONSOLE, CPP):
        new = item(b"N", b"\0\x14" + profile.to_bytes(2, "big"))
        first, second = lists(profile)
        s = run(b"".join([new, *first]))[1]
        data = write(image_of(s))
        out += [new, item(b"S", write(image_of(State(20, profile)))), *first, item(b"S", data), new, *second, item(b"S", data)]
        # older, and sent
        aged = [item(b"D", datagram(6)), item(b"U"), item(b"D", datagram(8)), item(b"D", datagram(3)), item(b"X", (6).to_bytes(4, "big"))]
        s = run(b"".join([new, *first, *aged]))[1]
        out += [*aged, item(b"S", write(image_of(s))), *of_image(image_of(s))]
        out += of_image(full(profile))
        name = "ready" if profile == CONSOLE else "held"
        out += of_many(profile, name, 1024) + of_many(profile, name, 1025)
        # the restored receiver goes on
        due = [frame(3, b"due", 70011, order=0, profile=profile), frame(3, b"next", 70013, order=2, profile=profile)]
        out += [item(b"R", lent(30) + write(full(profile))), item(b"D", datagram(5003, *due)), item(b"T"), item(b"X", b"\xff" * 4)]
        s = run(b"".join(out))[1]
        out.append(item(b"S", write(image_of(s))))
    return b"".join(out)


# ---- the program

class Tally:
    def __init__(self):
        self.answers = []

    def line(self, word):
        counts = " ".join(str(self.answers.count(n)) for n in (0, 9, 21, 22))
        return f"{word} {counts} {checksum(self.answers)} 0"


def outcome(data, cells, store):
    records = min(cells, CELLS)
    return 9 if records < 1 or min(store, CELL * CELLS) != CELL * records else answer(data, records)


def trials(word, images, p):
    cells, store = int.from_bytes(p[:2], "big"), int.from_bytes(p[2:6], "big")
    tally = Tally()
    tally.answers = [outcome(i, cells, store) for i in images]
    return tally.line(word)


def damaged(data, p):
    at = 6
    while at < len(p):
        place, gone, new = (int.from_bytes(p[a:b], "big") for a, b in ((at, at + 4), (at + 4, at + 6), (at + 6, at + 8)))
        at += 8 + new
        yield data[:place] + p[at - new:at] + data[place + gone:]


def swept(data, p):
    for at in range(6, len(p), 8):
        for place in range(len(data)):
            yield data[:place] + p[at:at + 8] + data[place + 8:]


def run(data):
    """What is printed, and the receiver afterwards."""
    s, kept, out, at = None, b"", [], 0
    while at < len(data):
        tag, n = data[at:at + 1], int.from_bytes(data[at + 1:at + 3], "big")
        p, at = data[at + 3:at + 3 + n], at + 3 + n
        try:
            if tag == b"N":
                s = State(int.from_bytes(p[:2], "big"), int.from_bytes(p[2:], "big"))
                out.append("new 0")
            elif tag == b"D":
                s, ready, dropped, left = receive(s, p)
                out.append(f"receive 0 {ready} {dropped} {left}")
            elif tag == b"T":
                out.append(f"take 0 {len(take(s, 1 << 20)[0])}")
            elif tag == b"U":
                s.unsent = []
                out.append("unsent 0")
            elif tag == b"X":
                out.append(f"drop 0 {drop_unfinished(s, int.from_bytes(p, 'big'))}")
            elif tag == b"S":
                kept = write(image_of(s))
                assert kept == p
                out.append(f"save 0 {len(p)} 0")
            elif tag == b"R":
                kept, cells, store = p[6:] or kept, int.from_bytes(p[:2], "big"), int.from_bytes(p[2:6], "big")
                number = outcome(kept, cells, store)
                s = s if number else restored(read(kept), cells)
                out.append(f"restore {number} 0")
            elif tag == b"C":
                out.append(trials("cuts", (kept[:n] for n in range(len(kept))), p))
            elif tag == b"B":
                out.append(trials("changes", damaged(kept, p), p))
            elif tag == b"W":
                out.append(trials("sweep", swept(kept, p), p))
        except Refused as e:
            out.append(f"refused {e.args[0]}")
    return out, s


def main(what, path):
    if what == "input":
        open(path, "wb").write(stored())
    else:
        sys.stdout.write("".join(line + "\n" for line in run(open(path, "rb").read())[0]))


if __name__ == "__main__":
    main(*sys.argv[1:])
