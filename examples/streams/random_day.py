"""A day made from a seed: product groups, each with a rulebook of its own, and what their sessions send."""
import random
from dataclasses import dataclass, field

STAMP = "20260105-14:30:00"
MONTHS = [letter + year for year in "67" for letter in "FGHJKMNQUVXZ"]
TRADED_MONTHS = 4
Field = tuple[int, object]


@dataclass(frozen=True)
class Group:
    """A product group: its rulebook, and the bytes of each of its sessions."""

    number: int
    rules: bytes
    streams: dict[int, bytes]


def frame(kind: str, number: int, client: str, fields: list[Field], wrong: int = 0) -> bytes:
    """A FIX message; a `wrong` other than 0 makes its checksum another one."""
    tags = [(35, kind), (34, number), (49, client), (52, STAMP), (56, "HOST"), *fields]
    body = "".join(f"{tag}={value}\x01" for tag, value in tags)
    text = f"8=FIX.4.2\x019={len(body)}\x01{body}".encode()
    return text + b"10=%03d\x01" % ((sum(text) + wrong) % 256)


def price_text(hundredths: int) -> str:
    return f"{'-' if hundredths < 0 else ''}{abs(hundredths) // 100}.{abs(hundredths) % 100:02}"


@dataclass
class Client:
    """What sends a session's messages: orders about the reference price of each symbol, and what else comes to pass."""

    draw: random.Random
    name: str
    references: dict[str, int]
    number: int = 0
    orders: list[dict[int, object]] = field(default_factory=list)

    def stream(self, messages: int) -> bytes:
        """A Logon, so many messages, and mostly a Logout."""
        kinds = [self.order, self.cancel, self.replace, self.test, self.bad]
        parts = [self.sent("A", [(98, 0), (108, 30)]), self.order()]
        parts += [make() for make in self.draw.choices(kinds, [60, 12, 16, 3, 9], k=messages)]
        return b"".join(parts if self.draw.random() < 0.2 else [*parts, self.sent("5", [])])

    def sent(self, kind: str, fields: list[Field]) -> bytes:
        self.number += 1
        return frame(kind, self.number, self.name, fields)

    def ticket(self) -> dict[int, object]:
        symbol = self.draw.choice(list(self.references))
        price = self.references[symbol] + self.draw.randint(-15, 15)
        return {11: f"{self.name}-{self.number}", 21: 1, 55: symbol, 54: self.draw.choice("12"), 60: STAMP,
                38: self.draw.randint(1, 20), 40: 2, 44: price_text(price), 59: self.draw.choice("0003")}

    def order(self) -> bytes:
        self.orders.append(self.ticket())
        return self.sent("D", list(self.orders[-1].items()))

    def cancel(self) -> bytes:
        original = self.draw.choice(self.orders[-12:])
        fields = {41: original[11], **self.ticket(), 55: original[55], 54: original[54]}
        return self.sent("F", [(tag, fields[tag]) for tag in (41, 11, 55, 54, 60)])

    def replace(self) -> bytes:
        original = self.draw.choice(self.orders[-6:])
        ticket = {**self.ticket(), 55: original[55], 54: original[54], 44: original[44], 59: "0"}
        self.orders.append(ticket)
        return self.sent("G", [(41, original[11]), *ticket.items()])

    def test(self) -> bytes:
        return self.sent("1", [(112, f"test\r{self.number}")])

    def bad(self) -> bytes:
        """Bytes that are no message, a wrong checksum, a message sent again, one without its symbol, or one of no kind."""
        ticket = list(self.ticket().items())
        return self.draw.choice([
            lambda: bytes(self.draw.choices(b"8=FIX.4.2\x019=10\xff", k=self.draw.randint(1, 30))),
            lambda: frame("D", self.number + 1, self.name, ticket, wrong=1),
            lambda: frame("0", self.number, self.name, [(43, "Y")]),
            lambda: self.sent("D", [pair for pair in ticket if pair[0] != 55]),
            lambda: self.sent("X", []),
        ])()


def rulebook(draw: random.Random) -> tuple[bytes, dict[str, int]]:
    """A rulebook of 3 to 24 months with some pairs off, and the reference prices of what is traded."""
    names = MONTHS[: draw.choice([3, 4, 6, 12, 24])]
    prices = [10_000 - 120 * place + draw.randint(-20, 20) for place in range(len(names))]
    lines = ["tick 1", *(f"month {name} {price}" for name, price in zip(names, prices))]
    traded = list(zip(names, prices))[:TRADED_MONTHS]
    references = dict(traded)
    for place, (far, far_price) in enumerate(traded):
        for near, near_price in traded[:place]:
            references[f"{near}-{far}"] = near_price - far_price
            if draw.random() < 0.2:
                lines.append(f"pair {near} {far} off")
    return "".join(f"{line}\n" for line in lines).encode(), references


def make_day(seed: int, groups: int, sessions: int, messages: int) -> list[Group]:
    """So many groups; session s is one of the group whose number is s modulo their count."""
    draw = random.Random(seed)
    made = []
    for number in range(groups):
        rules, references = rulebook(draw)
        streams = {session: Client(draw, f"C{session}", references).stream(messages) for session in range(number, sessions, groups)}
        made.append(Group(number, rules, streams))
    return made
