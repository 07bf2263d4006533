#!/usr/bin/python3 -BEs
"""Sends one session's bytes to the stream of its group, in pieces of any length, and then the session's end.

    feeder.py PORT GROUP SESSION FILE [--die-at MOMENT]

It keeps nothing of its own: how far the session is, it reads from the stream, also after each piece that it wrote.
"""
import argparse
import pathlib
import random
import time

from group_day import GroupDay, end, piece, stream_of
from log import Fields, Log, Moments, connect

LONGEST_PIECE = 300
LONGEST_PAUSE = 0.01


def next_entry(session: int, stream: bytes, sent: int, draw: random.Random) -> Fields:
    if sent == len(stream):
        return end(session)
    return piece(session, stream[sent : sent + draw.randint(1, LONGEST_PIECE)])


def feed(log: Log, session: int, stream: bytes) -> None:
    draw = random.Random()
    day = GroupDay()
    while session not in day.ended:
        for entry in log.read_on():
            day.take(entry)
        if session not in day.ended:
            log.append(next_entry(session, stream, len(day.sent[session]), draw))
            time.sleep(draw.uniform(0, LONGEST_PAUSE))


def main() -> None:
    words = argparse.ArgumentParser(description=__doc__.split("\n", maxsplit=1)[0])
    words.add_argument("port", type=int)
    words.add_argument("group", type=int)
    words.add_argument("session", type=int)
    words.add_argument("file", type=pathlib.Path)
    words.add_argument("--die-at", type=int)
    given = words.parse_args()
    log = Log(connect(given.port), stream_of(given.group), Moments(given.die_at))
    feed(log, given.session, given.file.read_bytes())


if __name__ == "__main__":
    main()
