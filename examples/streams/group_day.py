"""What the stream of a product group says: its rulebook, its sessions, their bytes and their ends; and its results."""
import pathlib
import subprocess
import tempfile
from dataclasses import dataclass, field

from log import Fields

NO_DAY_LINE = (b"\n", b"|")


def stream_of(group: int) -> str:
    return f"group:{group}"


def text_stream_of(group: int) -> str:
    """Where the journal, the fills and the months go."""
    return f"group:{group}:text"


def session_stream_of(group: int, session: int) -> str:
    """Where a session's outgoing messages go."""
    return f"group:{group}:session:{session}"


def opening(rules: bytes, sessions: list[int]) -> Fields:
    """The first entry of a group's stream."""
    return {b"rules": rules, b"sessions": " ".join(map(str, sessions)).encode()}


def piece(session: int, data: bytes) -> Fields:
    """An entry with a session's next bytes, which a day line has to be able to hold."""
    if any(byte in data for byte in NO_DAY_LINE):
        raise ValueError(f"session {session}: a day line holds neither a line end nor '|'")
    return {b"session": b"%d" % session, b"bytes": data}


def end(session: int) -> Fields:
    """An entry that ends a session."""
    return {b"session": b"%d" % session, b"end": b""}


@dataclass
class GroupDay:
    """What the entries that were taken say."""

    rules: bytes = b""
    sent: dict[int, bytearray] = field(default_factory=dict)
    ended: set[int] = field(default_factory=set)
    lines: list[bytes] = field(default_factory=list)

    def take(self, entry: Fields) -> None:
        """Takes the next entry of the group's stream."""
        if b"rules" in entry:
            self.rules = entry[b"rules"]
            self.sent = {int(session): bytearray() for session in entry[b"sessions"].split()}
            return
        session = int(entry[b"session"])
        if b"end" in entry:
            self.ended.add(session)
        else:
            self.sent[session] += entry[b"bytes"]
            self.lines.append(b"%d:%s\n" % (session, entry[b"bytes"].replace(b"\x01", b"|")))

    def is_over(self) -> bool:
        return bool(self.sent) and self.ended == set(self.sent)

    def replay(self, binary: str) -> bytes:
        """The text of the day whose lines are the entries in their order."""
        with tempfile.NamedTemporaryFile(prefix="rules-") as rules:
            pathlib.Path(rules.name).write_bytes(self.rules)
            done = subprocess.run([binary, "replay", rules.name], input=b"".join(self.lines), capture_output=True, check=False)
        if done.returncode:
            raise SystemExit(f"replay: status {done.returncode}, {done.stderr.decode(errors='replace').strip()}")
        return done.stdout


def lines_of(text: bytes) -> list[bytes]:
    """The lines of a day's text, without their ends; what a client sent may hold other bytes that end lines elsewhere."""
    return text.split(b"\n")[:-1]


def results_of(group: int, sessions: list[int], text: bytes) -> dict[str, list[Fields]]:
    """The entries of each result stream: a message each for the sessions, a line each for the rest of the day's text."""
    results: dict[str, list[Fields]] = {session_stream_of(group, session): [] for session in sessions}
    results[text_stream_of(group)] = []
    for line in lines_of(text):
        if line.startswith(b"O "):
            session, _, message = line[2:].partition(b":")
            results[session_stream_of(group, int(session))].append({b"bytes": message.replace(b"|", b"\x01")})
        else:
            results[text_stream_of(group)].append({b"line": line})
    return results


def text_of(group: int, sessions: list[int], results: dict[str, list[Fields]]) -> bytes:
    """The day's text that the result streams come to: the messages stand before the months."""
    rest = [entry[b"line"] for entry in results[text_stream_of(group)]]
    months = [line for line in rest if line.startswith(b"M ")]
    messages = [
        b"O %d:%s" % (session, entry[b"bytes"].replace(b"\x01", b"|"))
        for session in sorted(sessions)
        for entry in results[session_stream_of(group, session)]
    ]
    return b"".join(line + b"\n" for line in rest[: len(rest) - len(months)] + messages + months)
