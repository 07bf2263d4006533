#!/usr/bin/env python3
"""Writes the pictures of this folder, one SVG file each: docs/pictures/draw.py"""
import os
from html import escape

HERE = os.path.dirname(os.path.abspath(__file__))
INK, GREY, FILL, STRONG = "#1d2733", "#5b6b7b", "#eef2f6", "#d7e5f5"


class Picture:
    def __init__(self, width, height, title):
        self.size = (width, height)
        self.parts = [f"<title>{escape(title)}</title>"]

    def text(self, x, y, words, size=14, anchor="middle", colour=INK, family="sans-serif"):
        self.parts.append(
            f'<text x="{x}" y="{y}" font-family="{family}" font-size="{size}" '
            f'text-anchor="{anchor}" fill="{colour}">{escape(words)}</text>'
        )

    def lines(self, x, y, words, **how):
        for n, line in enumerate(words):
            self.text(x, y + n * (how.get("size", 14) + 4), line, **how)

    def box(self, x, y, width, height, words=(), fill=FILL, **how):
        self.parts.append(
            f'<rect x="{x}" y="{y}" width="{width}" height="{height}" rx="4" fill="{fill}" stroke="{INK}"/>'
        )
        size = how.get("size", 14)
        first = y + height / 2 - (len(words) - 1) * (size + 4) / 2 + size / 3
        self.lines(x + width / 2, first, words, **how)

    def arrow(self, *points, colour=INK):
        path = " ".join(f"{x},{y}" for x, y in points)
        self.parts.append(
            f'<polyline points="{path}" fill="none" stroke="{colour}" stroke-width="1.5" marker-end="url(#tip)"/>'
        )

    def line(self, *points, colour=INK):
        path = " ".join(f"{x},{y}" for x, y in points)
        self.parts.append(f'<polyline points="{path}" fill="none" stroke="{colour}"/>')

    def write(self, name):
        width, height = self.size
        tip = (
            '<defs><marker id="tip" viewBox="0 0 10 10" refX="9" refY="5" markerWidth="7" markerHeight="7" '
            f'orient="auto-start-reverse"><path d="M0,0 L10,5 L0,10 z" fill="{INK}"/></marker></defs>'
        )
        ground = f'<rect width="{width}" height="{height}" fill="white"/>'
        body = "\n".join([tip, ground, *self.parts])
        with open(f"{HERE}/{name}.svg", "w", encoding="utf-8") as out:
            out.write(
                f'<svg xmlns="http://www.w3.org/2000/svg" viewBox="0 0 {width} {height}" '
                f'width="{width}" height="{height}">\n{body}\n</svg>\n'
            )


def implied_triangle():
    it = Picture(860, 416, "Which two resting orders meet a third instrument")
    it.box(350, 20, 160, 56, ["H6-M6", "the calendar spread"], STRONG)
    it.box(60, 250, 160, 56, ["H6", "the near month"], STRONG)
    it.box(640, 250, 160, 56, ["M6", "the far month"], STRONG)
    it.line((350, 70), (170, 250))
    it.line((510, 70), (690, 250))
    it.line((220, 278), (640, 278))
    it.lines(235, 140, ["buy H6-M6 at s, sell H6 at a", "meet a buyer of M6 at a - s"], size=13, anchor="end")
    it.lines(625, 140, ["sell H6-M6 at s, sell M6 at b", "meet a buyer of H6 at s + b"], size=13, anchor="start")
    it.lines(430, 300, ["sell H6 at a, buy M6 at b", "meet a buyer of H6-M6 at a - b"], size=13)
    it.lines(
        430,
        355,
        [
            "Each side of the triangle is a pair of resting orders; it meets an order of the corner opposite to it.",
            "A seller of that corner is met by the pair with both sides turned.",
            "Where the rulebook switched the pair H6 M6 off, no side of the triangle meets its corner;",
            "orders of one corner still trade with one another.",
        ],
        size=13,
        colour=GREY,
    )
    it.write("implied-triangle")


def session_states():
    it = Picture(960, 330, "The states of a session")
    it.box(30, 120, 150, 60, ["before its Logon"], STRONG)
    it.box(370, 120, 150, 60, ["running"], STRONG)
    it.box(780, 120, 150, 60, ["closed"], STRONG)
    it.arrow((180, 150), (370, 150))
    it.text(275, 140, "a lawful Logon, number 1", size=13)
    it.arrow((520, 150), (780, 150))
    it.lines(
        650,
        168,
        ["Logout (1)", "number below the due one (2)", "other CompIDs (4)", "the end of its bytes (5)"],
        size=13,
    )
    it.arrow((105, 180), (105, 290), (855, 290), (855, 180))
    it.text(480, 283, "any other message whose number can be read (3); the end of its bytes (5)", size=13)
    it.arrow((400, 120), (400, 80), (490, 80), (490, 120))
    it.lines(
        445,
        20,
        [
            "the due number: accepted, or rejected",
            "above it: discarded, and asked for once",
            "below it, PossDupFlag Y: dropped",
        ],
        size=13,
    )
    it.text(855, 105, "every message is passed over", size=13)
    it.write("session-states")


def frame():
    it = Picture(905, 220, "A frame and what its two numbers count")
    fields = ["8=FIX.4.2|", "9=57|", "35=A|", "34=1|", "49=C1|", "52=20260105-14:30:00|", "56=HOST|", "98=0|", "108=30|", "10=220|"]
    x, ends = 20, []
    for n, field in enumerate(fields):
        width = 9.2 * len(field) + 12
        it.box(x, 90, width, 40, [field], STRONG if 2 <= n <= 8 else FILL, family="monospace")
        ends.append((x, x + width))
        x += width + 2
    it.line((ends[2][0], 145), (ends[2][0], 155), (ends[8][1], 155), (ends[8][1], 145))
    it.text((ends[2][0] + ends[8][1]) / 2, 175, "BodyLength (9): these 57 bytes, the last SOH counted")
    it.line((ends[0][0], 75), (ends[0][0], 65), (ends[8][1], 65), (ends[8][1], 75))
    it.text((ends[0][0] + ends[8][1]) / 2, 55, "CheckSum (10): the sum of these bytes modulo 256, three digits")
    it.text(452, 205, "A Logon. | stands for byte 1, SOH.", size=13, colour=GREY)
    it.write("frame")


def threads():
    it = Picture(1020, 500, "The threads of a day, and the rings between them")
    for n, name in enumerate(["0", "1", "15"]):
        y = 60 + 90 * n
        it.box(20, y, 130, 44, [f"bytes of session {name}"], size=13)
        it.box(200, y, 130, 44, ["Gateway"], STRONG)
        it.box(390, y + 6, 110, 32, ["ring"])
        it.arrow((150, y + 22), (200, y + 22))
        it.arrow((330, y + 22), (390, y + 22))
        it.arrow((500, y + 22), (570, 172))
    it.text(265, 222, "...", size=20)
    it.box(570, 140, 120, 64, ["Sequencer"], STRONG)
    it.box(760, 140, 190, 64, ["the journal:", "entries in one order"])
    it.arrow((690, 172), (760, 172))
    it.arrow((855, 204), (855, 236))
    it.box(800, 236, 110, 32, ["ring"])
    it.arrow((855, 268), (855, 300))
    it.box(760, 300, 190, 50, ["Market, Desk"], STRONG)
    for n, name in enumerate(["0", "1", "15"]):
        y = 330 + 52 * n
        it.box(510, y + 6, 110, 32, ["ring"])
        it.box(330, y + 3, 130, 38, ["Writer"], STRONG)
        it.box(150, y + 3, 130, 38, [f"sent to session {name}"], size=13)
        it.arrow((760, 325), (690, 325), (690, y + 22), (620, y + 22))
        it.arrow((510, y + 22), (460, y + 22))
        it.arrow((330, y + 22), (280, y + 22))
    it.lines(175, 30, ["a thread for each session"], size=13, colour=GREY)
    it.lines(760, 120, ["the thread that called run_day"], size=13, colour=GREY)
    it.lines(855, 374, ["the matching thread"], size=13, colour=GREY)
    it.lines(395, 312, ["a thread for each session's writer"], size=13, colour=GREY)
    it.lines(
        855,
        420,
        ["Who finds its ring full, or empty,", "waits and looks again.", "The text is written after the joins."],
        size=13,
        colour=GREY,
    )
    it.write("threads")


def journal():
    it = Picture(940, 250, "A journal, its places, and the reports under them")
    entries = ["logon", "new a: sell 5 H6 at 100.00", "new b: buy 5 H6 at 100.00", "close"]
    reports = [[], ["2-1  a is new"], ["3-1  b is new", "3-2  b is filled", "3-3  a is filled"], []]
    x = 110
    for n, (entry, below) in enumerate(zip(entries, reports)):
        width = 110 if n in (0, 3) else 250
        it.text(x + width / 2, 40, str(n + 1))
        it.box(x, 55, width, 44, [entry], STRONG, size=13)
        it.lines(x + width / 2, 135, below, size=13, family="monospace")
        x += width + 12
    it.text(95, 40, "place", anchor="end", colour=GREY)
    it.text(95, 82, "entry", anchor="end", colour=GREY)
    it.text(95, 135, "ExecID", anchor="end", colour=GREY)
    it.text(
        470,
        225,
        "An order's OrderID is the place of its entry; an ExecID is the place of the entry and the report's number there.",
        size=13,
        colour=GREY,
    )
    it.write("journal")


for draw in (implied_triangle, session_states, frame, threads, journal):
    draw()
