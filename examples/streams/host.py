#!/usr/bin/python3 -BEs
"""Works the day of one product group: reads its stream from the first entry to the last end, replays it, writes the results.

    host.py PORT GROUP BINARY [--die-at MOMENT]

It keeps nothing of its own. Of results that stand already each is compared, and only those that are missing are written.
"""
import argparse

from group_day import GroupDay, results_of, stream_of
from log import Fields, Log, Moments, connect


def read_day(log: Log) -> GroupDay:
    day = GroupDay()
    while not day.is_over():
        for entry in log.read_on(wait=True):
            day.take(entry)
    return day


def publish(log: Log, wanted: list[Fields]) -> None:
    """Writes the entries that are missing of a result stream, one at a time."""
    while True:
        first = log.read
        if log.read_on() != wanted[first : log.read]:
            raise SystemExit(f"{log.name}: behind entry {first} stands another result")
        if log.read == len(wanted):
            return
        log.append(wanted[log.read])


def main() -> None:
    words = argparse.ArgumentParser(description=__doc__.split("\n", maxsplit=1)[0])
    words.add_argument("port", type=int)
    words.add_argument("group", type=int)
    words.add_argument("binary")
    words.add_argument("--die-at", type=int)
    given = words.parse_args()
    server, moments = connect(given.port), Moments(given.die_at)
    day = read_day(Log(server, stream_of(given.group)))
    results = results_of(given.group, list(day.sent), day.replay(given.binary))
    for name, wanted in results.items():
        publish(Log(server, name, moments), wanted)


if __name__ == "__main__":
    main()
