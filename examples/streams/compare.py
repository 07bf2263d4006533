"""Compares what stands in the streams of a group with what was sent, and with what `replay` gives."""
from dataclasses import dataclass

import redis

from group_day import GroupDay, lines_of, results_of, stream_of, text_of
from log import Log
from random_day import Group


@dataclass(frozen=True)
class Worked:
    """A group's day as it stands in its stream, the text of its result streams, and the text that `replay` gives."""

    entries: int
    day: GroupDay
    text: bytes
    replayed: bytes

    def told(self) -> str:
        """The day in short."""
        lines = lines_of(self.replayed)
        fills, messages = (sum(line.startswith(kind) for line in lines) for kind in (b"F ", b"O "))
        journal = next(int(line.split()[1]) for line in lines if line.startswith(b"END "))
        sessions = ", ".join(map(str, self.day.sent))
        return f"sessions {sessions}; {self.entries} entries of the stream; journal of {journal}, {fills} fills, {messages} messages"

    def faults(self, group: Group) -> list[str]:
        """What is not as it was made, or not as `replay` gives it."""
        found = []
        if self.day.rules != group.rules or list(self.day.sent) != list(group.streams):
            found.append("another rulebook, or other sessions")
        found += [f"session {session}: other bytes" for session, sent in group.streams.items() if self.day.sent.get(session) != sent]
        if self.text != self.replayed:
            found.append("another text than that of replay")
        return found


def read_group(server: redis.Redis, number: int, binary: str) -> Worked:
    log, day = Log(server, stream_of(number)), GroupDay()
    for entry in log.read_on():
        day.take(entry)
    sessions = list(day.sent)
    results = {name: Log(server, name).read_on() for name in results_of(number, sessions, b"")}
    return Worked(log.read, day, text_of(number, sessions, results), day.replay(binary))
