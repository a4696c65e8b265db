"""Images as document 02's request 5 lays them out: written, read and judged, from its sentences. receiver.py and images.py use it.

An image is a dict of lists: profile (numbers), windows (low, 256 bytes), channels (next, memory), unsent (numbers), pieces (dicts of the
nine fields), held and ready (dicts of channel, order, kind, bodies).
"""
import copy

TOP, OLDEST, BIG, CELL, UNSENT, MOST = 1 << 24, 1 << 32, (1 << 64) - 1, 1500, 1024, 1024
# "id, index, count, kind, sequence number, order number, channel, accepted datagrams since the id's last kept piece, body"
PIECE = ("id", "index", "count", "kind", "sequence", "order", "channel", "age")
MESSAGE = ("channel", "order", "kind")
SECTIONS = ("profile", "windows", "channels", "unsent", "pieces", "held", "ready")


class Cut(Exception):
    pass


def number(n):
    return n.to_bytes(8, "big")


def body(b):
    return number(len(b)) + b


def entry(section, e):
    """An entry's bytes."""
    if section in ("profile", "unsent"):
        return number(e)
    if section == "windows":
        return number(e[0]) + e[1]
    if section == "channels":
        return number(e[0]) + number(e[1])
    if section == "pieces":
        return b"".join(number(e[f]) for f in PIECE) + body(e["body"])
    return b"".join(number(e[f]) for f in MESSAGE) + number(len(e["bodies"])) + b"".join(map(body, e["bodies"]))


def write(image):
    return b"".join(len(image[s]).to_bytes(4, "big") + b"".join(entry(s, e) for e in image[s]) for s in SECTIONS)


class Reading:
    def __init__(self, data):
        self.data, self.at = data, 0

    def bytes(self, n):
        if n > len(self.data) - self.at:
            raise Cut
        self.at += n
        return self.data[self.at - n:self.at]

    def number(self):
        return int.from_bytes(self.bytes(8), "big")

    def body(self):
        return self.bytes(self.number())

    def entry(self, section):
        if section in ("profile", "unsent"):
            return self.number()
        if section == "windows":
            return self.number(), self.bytes(256)
        if section == "channels":
            return self.number(), self.number()
        if section == "pieces":
            e = {f: self.number() for f in PIECE}
            return dict(e, body=self.body())
        e = {f: self.number() for f in MESSAGE}
        return dict(e, bodies=self.list(self.number(), self.body))

    def list(self, n, one):
        out = []
        while len(out) < n:
            out.append(one())
        return out


def read(data):
    """The image; None where it is cut or has bytes after its last section."""
    r = Reading(data)
    try:
        image = {s: r.list(int.from_bytes(r.bytes(4), "big"), lambda: r.entry(s)) for s in SECTIONS}
    except Cut:
        return None
    return image if r.at == len(data) else None


# ---- 22

def places(window):
    """The numbers whose places are set."""
    low, bits = window
    bits = int.from_bytes(bits, "little")
    return {low + 1 + k for k in range(2048) if bits >> k & 1} if bits else set()


def bits_of(low, numbers):
    """The 256 bytes: "the place above low in the first's lowest bit"."""
    return sum(1 << n - low - 1 for n in numbers).to_bytes(256, "little")


def ascending(keys):
    return all(a < b for a, b in zip(keys, keys[1:]))


def used(image):
    """The cells that it needs: one for each body."""
    return len(image["pieces"]) + sum(len(m["bodies"]) for m in image["held"] + image["ready"])


def window_good(w):
    return w[0] <= TOP and all(n < TOP for n in places(w))


def message_good(m):
    fields = m["channel"] <= 31 and m["order"] < TOP and m["kind"] <= 7
    return fields and 1 <= len(m["bodies"]) <= MOST and all(len(b) <= CELL for b in m["bodies"])


def piece_good(p):
    fields = p["id"] < 65536 and p["kind"] <= 7 and p["channel"] <= 31 and p["sequence"] < TOP and p["order"] < TOP
    return fields and 1 <= p["count"] <= MOST and p["index"] < p["count"] and p["age"] <= OLDEST and len(p["body"]) <= CELL


def ids_good(pieces):
    """Those of an id agree, also in age, and lack an index."""
    for ident in {p["id"] for p in pieces}:
        of_id = [p for p in pieces if p["id"] == ident]
        if len({tuple(p[f] for f in PIECE if f not in ("id", "index")) for p in of_id}) > 1 or len(of_id) >= of_id[0]["count"]:
            return False
    return True


def restores(image, cells):
    """Is it what a sound receiver's save writes, and does it fit?"""
    if (len(image["profile"]), len(image["windows"]), len(image["channels"])) != (1, 2, 33) or image["profile"][0] > 1:
        return False
    channels = image["channels"]
    if not all(window_good(w) for w in image["windows"]) or any(n > TOP or m > TOP for n, m in channels) or channels[32][0]:
        return False
    unsent, pieces, held, (low, _) = image["unsent"], image["pieces"], image["held"], image["windows"][0]
    above = places(image["windows"][0]) if unsent and unsent[-1] >= low else set()
    if len(unsent) > UNSENT or not ascending(unsent) or not all(n < low or n in above for n in unsent):
        return False
    if not all(map(piece_good, pieces)) or not ascending([(p["id"], p["index"]) for p in pieces]) or not ids_good(pieces):
        return False
    if not all(map(message_good, held + image["ready"])) or not ascending([(m["channel"], m["order"]) for m in held]):
        return False
    return all(m["order"] > channels[m["channel"]][0] for m in held) and used(image) <= cells


def answer(data, cells):
    """21, 22 or 0, where the lengths are good."""
    image = read(data)
    return 21 if image is None else 0 if restores(image, cells) else 22


# ---- damages

class Damage:
    """Images that differ from a good one in one place."""

    def __init__(self, good):
        self.good, self.data = good, write(good)
        self.ends = [0]
        for s in SECTIONS:
            self.ends.append(self.ends[-1] + 4 + len(b"".join(entry(s, e) for e in good[s])))

    def with_value(self, *path):
        """Its last is the value at the path of the others, which may be a list's end."""
        i = copy.deepcopy(self.good)
        at, (*keys, last, value) = i, path
        for key in keys:
            at = at[key]
        if isinstance(at, list):
            at[last:last + 1] = [value]
        else:
            at[last] = value
        return write(i)

    def with_window(self, w, low, numbers):
        return self.with_value("windows", w, (low, bits_of(low, numbers)))

    def exchanged(self, section, a, b):
        i = copy.deepcopy(self.good)
        i[section][a], i[section][b] = i[section][b], i[section][a]
        return write(i)

    def doubled(self, section, at):
        i = copy.deepcopy(self.good)
        i[section].insert(at, i[section][at])
        return write(i)

    def with_bytes(self, at, new):
        return self.data[:at] + new + self.data[at + len(new):]

    def forms(self):
        """Cut or longer; counts and lengths up to the last that there are."""
        out = [self.data[:-1], self.data + b"\0", self.data[:1], b"", bytes(28)]
        for s, at in zip(SECTIONS, self.ends):
            count = len(self.good[s])
            out += [self.with_bytes(at, n.to_bytes(4, "big")) for n in (count + 1, max(count - 1, 0), 1 << 31, (1 << 32) - 1)]
        # the ready section ends with a message of one body: its count of bodies, and its length
        length = len(self.data) - 8 - len(self.good["ready"][-1]["bodies"][0])
        counts = [self.with_bytes(length - 8, number(n)) for n in (0, 2, 1 << 32, 1 << 61, BIG)]
        return out + counts + [self.with_bytes(length, number(n)) for n in (0, 1 << 32, 1 << 61, 1 << 63, BIG - 7, BIG)]

    def values(self):
        """Values at their limits and over them."""
        out = [self.with_value("profile", 0, n) for n in (1 - self.good["profile"][0], 2, 256, 1 << 32, BIG)]
        for w in (0, 1):
            out += [self.with_window(w, low, set()) for low in (TOP - 1, TOP, TOP + 1, 1 << 32, BIG)]
            out += [self.with_window(w, TOP - 2, {n}) for n in (TOP - 1, TOP, TOP + 2046)] + [self.with_window(w, TOP, {TOP + 1})]
        pairs = (TOP, TOP), (TOP + 1, 0), (0, TOP + 1), (1 << 32, 0), (0, 1 << 32), (BIG, BIG)
        out += [self.with_value("channels", c, pair) for c in (2, 31) for pair in pairs]
        out += [self.with_value("channels", 32, pair) for pair in ((0, TOP), (0, TOP + 1), (1, 0), (BIG, 0), (0, BIG), (0, 0))]
        ends = 0, 1, 7, 8, 31, 32, 1024, 1025, 65535, 65536, TOP - 1, TOP, OLDEST, OLDEST + 1, BIG
        out += [self.with_value("pieces", 0, f, n) for f in PIECE for n in ends]
        out += [self.with_value("pieces", 0, "body", bytes(n)) for n in (0, CELL, CELL + 1)]
        for s in ("held", "ready"):
            out += [self.with_value(s, 0, f, n) for f in MESSAGE for n in (0, 1, 3, 4, 7, 8, 31, 32, TOP - 1, TOP, 1 << 32, BIG)]
            bodies = [], [b""], [bytes(CELL)], [bytes(CELL + 1)], self.good[s][0]["bodies"] * 2
            out += [self.with_value(s, 0, "bodies", list(b)) for b in bodies]
        return out

    def entries(self):
        """Entries exchanged, doubled, left out, one too many."""
        good = self.good
        out = [self.with_value("profile", p) for p in ([], [0, 0])] + [self.with_value("windows", good["windows"] * n) for n in (0, 2)]
        out += [self.with_value("channels", good["channels"][:32]), self.with_value("channels", 33, (0, 0))]
        out += [self.exchanged("windows", 0, 1), self.exchanged("channels", 0, 32), self.exchanged("channels", 1, 31)]
        for s in ("unsent", "pieces", "held", "ready"):
            out += [self.exchanged(s, 0, 1), self.doubled(s, 0), self.with_value(s, good[s][1:])]
        # unsent numbers: below low, low, accepted, not accepted, not rising
        low, last = good["windows"][0][0], max(places(good["windows"][0]))
        lists = [], [low - 1], [low], [last], [last + 1], [low - 1, last], [last, low - 1], [low - 1] * 2, [TOP - 1], [TOP], [BIG]
        return out + [self.with_value("unsent", list(u)) for u in lists]

    def all(self):
        return self.forms() + self.values() + self.entries()
