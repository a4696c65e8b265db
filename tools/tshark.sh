#!/bin/sh
# usage: tools/tshark.sh [FOLDER]
#
# An outside reader beside the C++ profile (document 02, request 2): Wireshark's RakNet dissector, written for the original C++ library.
# Writes datagrams into a capture (FOLDER/frames.pcap, target/tshark if none is named) by the C++ profile's rules, several frames in each so
# that a wrong header or body length would shift all that follow, and compares with what `tshark` says of every frame: where it begins, how
# long it is, its kind, length in bits, reliable, sequence and order number, channel, and the fields of a piece.
#
# Shown so, for whole frames and pieces of kinds 0 to 4: kind 4 carries order number and channel after its sequence number (13 bytes of
# header), and a length in bits is rounded up to whole bytes. As a counter-check, a frame of kind 4 as a console writes it, without both
# fields, must be read otherwise. What tshark makes of kinds 5 to 7 is printed and not judged: request 2 leaves them as document 01 has
# them, and tshark 4.0.17 knows no numbers of kind 7.
#
# Not part of the gate. Needs tshark (Debian: apt-get install tshark) and python3.
set -eu
cd "$(dirname "$0")/.."
command -v tshark > /dev/null || { echo "tshark is not at hand (Debian: apt-get install tshark)" >&2; exit 2; }
folder=${1:-target/tshark}
mkdir -p "$folder"
tshark --version 2> /dev/null | head -n 1
exec python3 - "$folder" << 'END'
import struct, subprocess, sys
import xml.etree.ElementTree as xml

PORT = 19132
RELIABLE, SEQUENCE = (2, 3, 4, 7), (1, 4)
ORDER = {"console": (1, 3, 7), "C++": (1, 3, 4, 7)}


class Frame:
    """A frame as it is written, and the fields that its profile carries, under the dissector's names."""

    def __init__(self, kind, body, bits=None, reliable=0, sequence=0, order=0, channel=0, piece=None, profile="C++"):
        bits = 8 * len(body) if bits is None else bits
        self.fields = {"message.reliability": kind, "message.has_split_packet": int(piece is not None), "payload.length": bits}
        out = bytes([kind << 5 | (0x10 if piece else 0)]) + bits.to_bytes(2, "big")
        carried = [("reliable.number", 3, reliable, kind in RELIABLE), ("sequencing.index", 3, sequence, kind in SEQUENCE),
                   ("ordering.index", 3, order, kind in ORDER[profile]), ("ordering.channel", 1, channel, kind in ORDER[profile])]
        for name, size, value, there in carried:
            if there:
                self.fields[name] = value
                out += value.to_bytes(size, "little")
        for name, size, value in zip(("split.count", "split.id", "split.index"), (4, 2, 4), piece or ()):
            self.fields[name] = value
            out += value.to_bytes(size, "big")
        self.bytes = out + body


def text(n, size):
    # a first byte that is a user's message, so that no inner dissector looks for a system message
    return bytes([0x86]) * min(n, 1) + bytes((7 * i + size) % 256 for i in range(1, n))


def judged():
    """Lists of frames, a datagram each: C++, kinds 0 to 4."""
    for kind in range(5):
        numbers = dict(reliable=0x010203, sequence=0x040506, order=0x070809, channel=10 + kind)
        # from one bit to three bytes, each followed by a frame of another kind
        yield [f for bits in range(1, 25)
               for f in (Frame(kind, text((bits + 7) // 8, bits), bits, **numbers), Frame((kind + 1) % 5, text(2, kind)))]
        # pieces, of lengths that are no multiples of 8
        yield [Frame(kind, text(3, i), 17 + i, piece=(5, 0x1000 + kind, i), **numbers) for i in range(3)]
    # kind 4 alone: all of its fields differ from frame to frame
    yield [Frame(4, text(1 + n % 4, n), 8 * (1 + n % 4) - n % 8, reliable=n, sequence=1000 + n, order=(1 << 24) - 1 - n, channel=n % 32)
           for n in range(40)]
    # the worked example: 00 00 0C 41 42 has the body 41 42
    yield [Frame(0, b"\x41\x42", 12), Frame(4, text(2, 1), 12, reliable=1, sequence=2, order=3, channel=4), Frame(0, b"\x41\x42", 12)]


def unjudged():
    """Kinds 5 to 7, one datagram each."""
    for kind in (5, 6, 7):
        yield [Frame(kind, text(3, 1), 20, reliable=1, order=3, channel=4), Frame(0, text(2, 2))]


def console():
    """Kind 4 as a console writes it, among others."""
    return [Frame(4, text(9, 1), reliable=1, sequence=2, profile="console"), Frame(0, text(2, 2)), Frame(2, text(2, 2), reliable=5)]


def packet(payload):
    udp = struct.pack(">HHHH", PORT + 1, PORT, 8 + len(payload), 0) + payload
    ip = struct.pack(">BBHHHBBH4s4s", 0x45, 0, 20 + len(udp), 0, 0, 64, 17, 0, b"\x0a\0\0\1", b"\x0a\0\0\2") + udp
    return struct.pack("<IIII", 0, 0, len(ip), len(ip)) + ip


def seen(path):
    """For each datagram the frames that tshark found: place, size and fields."""
    command = ["tshark", "-r", path, "-d", f"udp.port=={PORT},raknet", "-T", "pdml"]
    told = xml.fromstring(subprocess.run(command, check=True, capture_output=True).stdout)
    for p in told.iter("packet"):
        found = []
        for message in p.iter("field"):
            if message.get("name") != "raknet.message":
                continue
            fields = {}
            for f in message.iter("field"):
                name = f.get("name").removeprefix("raknet.")
                if name in NAMES and name not in fields:
                    fields[name] = number(f)
            found.append((int(message.get("pos")), int(message.get("size")), fields))
        yield found


NAMES = ("message.reliability", "message.has_split_packet", "payload.length", "reliable.number", "sequencing.index", "ordering.index",
         "ordering.channel", "split.count", "split.id", "split.index")


def number(field):
    shown = field.get("show")
    return {"True": 1, "False": 0}[shown] if shown in ("True", "False") else int(shown, 0)


def wanted(frames):
    place, out = 20 + 8 + 4, []
    for f in frames:
        out.append((place, len(f.bytes), f.fields))
        place += len(f.bytes)
    return out


def main(folder):
    path = f"{folder}/frames.pcap"
    judge = list(judged())
    all_lists = judge + list(unjudged()) + [console()]
    with open(path, "wb") as out:
        out.write(struct.pack("<IHHiIII", 0xA1B2C3D4, 2, 4, 0, 0, 65535, 101))
        for i, frames in enumerate(all_lists):
            out.write(packet(b"\x84" + i.to_bytes(3, "little") + b"".join(f.bytes for f in frames)))
    found = list(seen(path))
    assert len(found) == len(all_lists)
    wrong = [(i, w, s) for i, (fs, got) in enumerate(zip(judge, found))
             for w, s in zip(wanted(fs) + [None] * len(got), got + [None] * len(fs)) if w != s]
    for i, w, s in wrong[:5]:
        print(f"DIFFERENT in datagram {i}\n  written: {w}\n  tshark:  {s}")
    count = sum(len(fs) for fs in judge)
    four = [f for fs in judge for f in fs if f.fields["message.reliability"] == 4]
    odd = [f for fs in judge for f in fs if f.fields["payload.length"] % 8]
    print(f"{len(judge)} datagrams, {count} frames, {len(four)} of kind 4, {len(odd)} with lengths that are no multiples of 8: "
          + (f"{len(wrong)} frames differ" if wrong else "tshark reads every field as it was written"))
    for fs, got in zip(all_lists[len(judge):-1], found[len(judge):-1]):
        kind = fs[0].fields["message.reliability"]
        print(f"kind {kind}: " + ("as here" if wanted(fs) == got else f"otherwise: {got[0][1]} bytes for {len(fs[0].bytes)}, {got[0][2]}"))
    same = wanted(console()) == found[-1]
    print("kind 4 as a console writes it: " + ("READ AS A CONSOLE'S" if same else f"otherwise, as it should be: {found[-1][0][2]}"))
    return 1 if wrong or same else 0


sys.exit(main(sys.argv[1]))
END
