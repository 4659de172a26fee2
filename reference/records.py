"""The sample of `describe`, written from the formats: bytes to stdin, the lines that they must give to stdout."""
import struct
import sys

T = 4294967295


def header(origin, slide, n, kind, rule, gap, text):
    out = b"HD" + struct.pack(">IIBBB", origin, slide, n, kind, rule)
    if rule == 2:
        out += struct.pack(">I", gap)
    return out + bytes([len(text)]) + text


def event(time, lift, kind, level, load):
    return b"EV" + struct.pack(">IHBHI", time, lift, kind, level, load)


def tick(time):
    return b"TK" + struct.pack(">I", time)


def result(kind, window, lift, first, second):
    return b"RS" + struct.pack(">BIHII", kind, window, lift, first, second)


def fault(number, place):
    return b"FT" + struct.pack(">BI", number, place)


SAMPLE = [
    (header(0, 100, 1, 1, 2, T, b"BATT+"), "HD origin=0 slide=100 n=1 kind=count rule=near gap=4294967295 pattern=BATT+"),
    (header(1000, 604800, 8, 4, 1, 0, b" SEQ(DROP, (MISS)+ )+"), "HD origin=1000 slide=604800 n=8 kind=most rule=falling pattern=SEQ(DROP,MISS+)+"),
    (header(0, 0, 0, 2, 1, 0, b"BATT++"), "HD origin=0 slide=0 n=0 kind=least rule=falling pattern refused 4 at 5"),
    (event(10, 7, 4, 50, 1), "EV time=10 lift=7 type=BATT level=5.0 load=1"),
    (event(T, 65535, 9, 65535, T), "EV time=4294967295 lift=65535 type=VISIT level=6553.5 load=4294967295"),
    (event(20, 7, 12, 7, 0), "EV time=20 lift=7 type=12 level=0.7 load=0"),
    (tick(100), "TK time=100"),
    (result(1, 0, 7, 3, 0), "RS kind=count window=0 lift=7 trends=3"),
    (result(2, 1, 7, 12, 0), "RS kind=least window=1 lift=7 weight=12"),
    (result(2, 1, 8, T, 0), "RS kind=least window=1 lift=8 none"),
    (result(3, 2, 7, 7, 2), "RS kind=leastways window=2 lift=7 weight=7 ways=2"),
    (result(3, 2, 8, T, 0), "RS kind=leastways window=2 lift=8 none"),
    (result(4, 3, 7, T, 1), "RS kind=most window=3 lift=7 weight=4294967295"),
    (result(4, 3, 8, 0, 0), "RS kind=most window=3 lift=8 none"),
    (result(9, 3, 8, 5, 6), "RS kind=9 window=3 lift=8 first=5 second=6"),
    (fault(25, 123), "FT refused 25 at 123"),
]

if __name__ == "__main__":
    folder = sys.argv[1]
    # Enough records that they do not fit one chunk, so that one is cut in two.
    many = SAMPLE + [(event(i, i % 50, i % 10, i, i), None) for i in range(400)]
    names = ["TEST", "MISS", "DROP", "BACK", "BATT", "MAINS", "CALL", "TALK", "DONE", "VISIT"]
    with open(folder + "/stdin", "wb") as f:
        f.write(b"".join(r for r, _ in many))
    with open(folder + "/stdout", "w") as f:
        for _, line in SAMPLE:
            f.write(line + "\n")
        for i in range(400):
            f.write("EV time=%d lift=%d type=%s level=%d.%d load=%d\n" % (i, i % 50, names[i % 10], i // 10, i % 10, i))
