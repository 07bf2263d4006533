#!/usr/bin/env python3
"""The inputs that the benchmark makes for itself: raw streams of sessions, and a journal under its rulebook.

    benchmarks/inputs.py FOLDER

writes them into a new folder. It is a program of its own since a process inherits its parent's peak memory.
"""
import pathlib
import sys

RULES = "tick 1\nmonth H6 10000\nmonth M6 9800\nmonth U6 9500\n"
STAMP = b"20260105-14:30:00"


def frame(kind, number, fields):
    """A message of the client C1, its CheckSum right."""
    body = b"35=%s\x0134=%d\x0149=C1\x0152=%s\x0156=HOST\x01%s" % (kind, number, STAMP, fields)
    text = b"8=FIX.4.2\x019=%d\x01%s" % (len(body), body)
    return b"%s10=%03d\x01" % (text, sum(text) % 256)


def orders(count):
    """A Logon and so many day orders of the front month, to sell where the number is even, else to buy."""
    fields = b"11=%d\x0121=1\x0155=H6\x0154=%d\x0160=" + STAMP + b"\x0138=%d\x0140=2\x0144=1000\x01"
    made = [frame(b"A", 1, b"98=0\x01108=30\x01")]
    made += (frame(b"D", n + 2, fields % (n, 2 - n % 2, 1 + n % 90)) for n in range(count))
    return b"".join(made)


def openings(count):
    """Openings that become no frame."""
    return b"8=FIX.4.2\x019=4000\x01" * count


def opening(length):
    """An opening of 29 bytes whose body goes on for so many bytes, at most 9,999. Its bytes sum to 0 modulo 256."""
    text = bytearray(b"8=FIX.4.2\x019=%04d\x0135=0\x0158=ddd\x01" % length)
    last = (ord("d") - sum(text)) % 256
    if last == 1:
        text[26:28] = [ord("e"), 0]
    else:
        text[27] = last
    return bytes(text)


def long_bodies(blocks):
    """So many blocks of 140 openings that end together: each with its right CheckSum, and with a body whose last field
    alone is none. Over them a framer is slowest."""
    block = b"".join(opening(behind * 29 + 14) for behind in reversed(range(140)))
    return (block + b"\xff\x0110=000\x01") * blocks


def journal(resting, trading):
    """The text of a session's Logon, of orders that rest far from the market, and of orders of which every third is for a
    spread and trades with the two before it."""
    tails = ["4836 2 5 10000", "4d36 1 5 9800", "48362d4d36 1 5 200"]
    tails = ["4836 2 5 20000"] * resting + [tails[n % 3] for n in range(trading)]
    lines = [f"0 new {str(n).encode().hex()} {tail} day\n" for n, tail in enumerate(tails)]
    return "JOURNAL 2\n0 logon 4331 484f5354 30\n" + "".join(lines) + f"END {len(lines) + 1}\n"


def write_all(folder):
    """Writes them into a folder, as files of these names."""
    folder = pathlib.Path(folder)
    folder.mkdir(parents=True)
    (folder / "s00").write_bytes(orders(480_000))
    (folder / "openings").write_bytes(openings(3_800_000))
    (folder / "long_bodies").write_bytes(long_bodies(2_000))
    (folder / "rules").write_text(RULES, encoding="ascii")
    (folder / "journal").write_text(journal(1_000, 9_000), encoding="ascii")


if __name__ == "__main__":
    write_all(sys.argv[1])
